"""What single reasons say, word by word: if nothing else in the trace shows it, about agents that keep their events, about earlier
actions, and about minimum times.
"""

import checks
from checks import run_program, read
from stories import RISES, reasons_of, taken_apart, turns_of, what_is_said

AGENTS = b"agent 61 4 4 512 2 keep 2\nagent 62 4 4 512 2 keep 2\n"

# Agents that keep their events over a restart.
KEEPING = b"agent 61 4 4 512 8 keep+events\nagent 62 4 4 512 8 ignore+events\n"

# An agent whose queries have at most 120 bytes, and its responses at most 64.
LIMITED = b"agent 61 4 4 512 2 keep 2 120 64\n"


def any_bytes(count):
    """Names and payloads of any bytes stay between their quotes."""
    name, payload = bytes(range(48)), b'"\n9 because \x1b[2J\\' + bytes(range(0x7F, 0xA0))
    schedule = b"agent 0a2220626563617573652031 4 4 512 2 keep\nfire 0 %s %s 0\ndeliver 0 0 0\n" % (
        name.hex().encode(), payload.hex().encode()
    )
    story = taken_apart(count, "any bytes", schedule)
    if story:
        count.check("any bytes are seen", what_is_said(count, "any bytes", story)[0] == 1)
    long = b"fire 0 %s - 0\ndeliver 1 0 0\ndeliver 1 0 0\n" % (b"41" * 300)
    wanted = b'"b" was handed event 1 "%s.." (300 bytes) "" at action 2' % (b"A" * 32)
    count.check("a long name", reasons_of(AGENTS + long, 3) == [wanted])


def said_rows(count):
    """The reasons that nothing else in the trace shows."""
    fires = b"fire 0 61 %s 0\n" * 9 % tuple(b"%02x" % n for n in range(9))
    for name, schedule, number, wanted in (
        (
            "too old",
            AGENTS + fires + b"deliver 1 8 0\ndeliver 1 0 0\n",
            11,
            b'event 1 "a" "\\x00": time 1 is more than 4 times below the event clock 10',
        ),
        ("no agent", AGENTS + b"fire 7 61 - 0\n", 1, b"no agent has the number 7: agents count from 0"),
        (
            "no packet",
            AGENTS + b"deliver 0 3 0\n",
            1,
            b"there is no packet 3: packets are counted from 0, and 0 were sent",
        ),
        (
            "too large",
            AGENTS + b"fire 0 61 %s 0\n" % (b"41" * 600),
            1,
            b"name and payload have 601 bytes together, and the packet 631; at most 512 may be fired",
        ),
        (
            "a query too large",
            LIMITED + b"query 0 0 7 61 %s 1000 0\n" % (b"41" * 30),
            1,
            b"the query's packet, whose name and payload have 31 bytes together, is longer than 120 bytes",
        ),
        (
            "a response too large",
            LIMITED + b"query 0 0 7 61 - 1000 0\nrespond 0 0 5 %s\n" % (b"41" * 30),
            2,
            b"the answer's packet, whose payload has 30 bytes, is longer than 64 bytes",
        ),
        (
            "a query above the usual limit",
            AGENTS + b"query 0 0 7 61 %s 1000 0\n" % (b"41" * 1000),
            1,
            b"the query's packet, whose name and payload have 1001 bytes together, is longer than 1024 bytes",
        ),
    ):
        got = reasons_of(schedule, number)
        count.check(name, got == [wanted], got)


def kept(count):
    """Reasons of an agent that keeps its events: about the lines of a tail, about a join's line that failed, and about its file."""
    tail = b"event-clock: 02\n#event 2 6465706c6f79 7632\nquery-clock: 01\n#query 1 7\n".hex().encode()
    fires = b"fire 0 6465706c6f79 7631 0\nfire 0 6465706c6f79 7632 0\n"
    schedule = KEEPING + fires + b"deliver 1 0 0\nrestart 1 %s\ndeliver 1 1 0\ndeliver 1 0 0\nstate 0\nmerge 1 3 sync\n" % tail
    schedule += b"break 1 append 1\nmerge 1 3 join\nrestart 1 -\ncompact 1\nquery 0 0 7 61 - 1000 0\ndeliver 1 4 0\n"
    turns = turns_of(run_program(["explain"], schedule)[1])
    handed = b'"b" was handed event 1 "deploy" "v1" at action 3'
    opened = b'"b" was opened on a text with the line of event 2 "deploy" "v2"'
    failed = b'the disk of "b" failed at %s, as action %d had planned of number %d from then on; it is stopped until it is opened again'
    for number, *wanted in (
        (
            4,
            b"its snapshot keeps clock 0, and its buffers are restored, events held: 2, event clock 3, query clock 2: it takes events from 1 and queries from 1 on",
        ),
        (5, opened),
        (6, handed),
        (8, b'slot 1 carries event 1 "deploy" "v1": seen: ' + handed, b'slot 2 carries event 2 "deploy" "v2": seen: ' + opened),
        (10, b"nothing of the state was heard of: at the line of the minimum time 3 " + failed % (b"an append", 9, 1)),
        (12, b"its snapshot has the last line of each kind, the minimum times, and the lines of what its buffers hold"),
        (14, b'query 1 with ID 7: "b" was opened on a text with its line'),
    ):
        got = turns[number][1] if turns else None
        count.check(f"kept events: action {number}", got == wanted, got)
    # a join whose own line is durable, and whose event's line isn't
    state = (
        run_program(["replay"], KEEPING + fires + b"state 0\n")[1].split()[-1].replace(b"4576656e744c54696d6503", b"4576656e744c54696d6501")
    )
    got = reasons_of(KEEPING + b"inject %s\nbreak 1 flush 2\nmerge 1 0 join\n" % state, 3)
    wanted = b'slot 1 carries event 1 "deploy" "v1": new, but ' + failed % (b"a flush", 2, 2)
    count.check("kept events: a line after the join's", got == [wanted], got)


def of_earlier_actions(count):
    """Reasons about earlier actions: since which action a minimum time holds, which one fired a query and which one ended it, and
    what entered in the merge itself."""
    schedule = b"agent 61 4 4 512 2 keep 2\nagent 62 2 4 512 2 ignore 2\nquery 0 0 7 61 - 1000 1\ndeliver 1 0 0\n"
    schedule += b"deliver 0 1 0\ndeliver 0 1 0\nfire 0 61 - 0\nfire 0 62 - 0\nstate 0\nmerge 1 6 join\ndeliver 1 4 0\nrestart 1 -\n"
    schedule += b"query 0 0 8 61 - 1000 0\nquery 0 0 9 61 - 1000 0\ndeliver 1 8 0\ndeliver 1 0 0\nclose 0 2000\ndeliver 0 1 0\n"
    schedule += b"query 0 0 9 63 - 1000 1\nrestart 0 -\ndeliver 0 11 0\n" + b"fire 0 61 - 0\n" * 6 + b"deliver 1 17 0\ndeliver 1 12 0\n"
    turns = turns_of(run_program(["explain"], schedule)[1])
    for number, *wanted in (
        (4, b'query 1 has an ack of "a"'),
        (
            8,
            RISES % 3,
            *(
                b'slot %d carries event %d "%s" "": below the minimum time 3, unchanged since action 8' % row
                for row in ((1, 1, b"a"), (2, 2, b"b"))
            ),
        ),
        (9, b'event 1 "a" "": below the minimum time 3, unchanged since action 8'),
        (14, b"query 1 with ID 7: below the minimum time 2, unchanged since action 10"),
        (16, b'"a" asked query 1 at action 1 and closed it at action 15'),
        (19, b'"a" asked query 4 at action 17 and lost it by the restart at action 18'),
        (27, b'event 3 "a" "": time 3 is more than 2 times below the event clock 9'),
    ):
        got = turns[number][1] if turns else None
        count.check(f"earlier actions: action {number}", got == wanted, got)
    # (a state that has an event twice, at an agent that keeps its events: this merge handed it out)
    front, event = (
        b"0286a54c54696d6501ac5374617475734c54696d657380ab4c6566744d656d6265727390aa4576656e744c54696d6502a64576656e747394c0",
        b"82a44e616d65a161a75061796c6f6164a0",
    )
    twice = front + b"82a54c54696d6501a64576656e747392" + event * 2 + b"c0c0aa51756572794c54696d6501"
    got = reasons_of(KEEPING + b"inject %s\nmerge 0 0 sync\n" % twice, 2)
    carries = b'slot 1 carries event 1 "a" "": '
    wanted = [carries + b"new, and handed out", carries + b'seen: "a" was handed event 1 "a" "" at action 2']
    count.check("an event twice in a merge", got == wanted, got)


def minimum_times(count):
    """A join that raises the minimum time of events says so first, also for a state without events, and no other merge does. If
    the disk fails after that, the reasons say so; if no event of the state was reached, they don't."""
    none = b"the state carries no event"
    clocks = b"".join(b"inject 0281aa4576656e744c54696d65%02x\n" % clock for clock in (9, 7, 9, 12, 0))
    schedule = b"agent 61 4 4 512 8 ignore 2\nagent 62 4 4 512 8 keep 2\n" + clocks
    schedule += b"merge 0 0 sync\nmerge 0 0 join\nmerge 0 1 join\nmerge 0 2 join\nmerge 1 3 join\nmerge 0 3 join\nmerge 0 4 join\n"
    schedule += b"restart 0 -\nmerge 0 2 join\nrestart 0 %s\nmerge 0 2 join\n" % b"event-clock: 9\n".hex().encode()
    turns = turns_of(run_program(["explain"], schedule)[1])
    for number, *rises in ((6,), (7, 9), (8,), (9,), (10,), (11, 12), (12,), (14, 9), (16,)):
        got = turns[number][1] if turns else None
        count.check(f"a minimum time: action {number}", got == [*(RISES % minimum for minimum in rises), none], got)
    # a state with the clock 2 and events of the times 1 and 2: at the second the disk fails
    fires = b"fire 0 6465706c6f79 7631 0\nfire 0 6465706c6f79 7632 0\n"
    state = (
        run_program(["replay"], KEEPING + fires + b"state 0\n")[1].split()[-1].replace(b"4576656e744c54696d6503", b"4576656e744c54696d6502")
    )
    below = b'slot 1 carries event 1 "deploy" "v1": below the minimum time 2, unchanged since action 3'
    failed = b'slot 2 carries event 2 "deploy" "v2": new, but the disk of "b" failed at %s, as action 2 had planned of number %d from then on; it is stopped until it is opened again'
    unheard = b'nothing of the state was heard of: at the line of the minimum time 2 the disk of "b" failed at an append, as action 2 had planned of number 1 from then on; it is stopped until it is opened again'
    for setting, call, failing, *wanted in (
        (b"ignore", b"append", 1, RISES % 2, below, failed % (b"an append", 1)),
        (b"ignore+events", b"flush", 2, RISES % 2, below, failed % (b"a flush", 2)),
        (b"ignore+events", b"append", 1, unheard),
        (
            b"keep",
            b"append",
            1,
            b'slot 1 carries event 1 "deploy" "v1": ' + failed[len(b'slot 2 carries event 2 "deploy" "v2": ') :] % (b"an append", 1),
        ),
    ):
        agents = b"agent 61 4 4 512 8 keep\nagent 62 4 4 512 8 %s\n" % setting
        got = reasons_of(agents + b"inject %s\nbreak 1 %s %d\nmerge 1 0 join\n" % (state, call, failing), 3)
        count.check(f"a minimum time, and a disk that fails: {setting}, {call} {failing}", got == wanted, got)
    # schedules with joins, and what they say
    names = [name for name in checks.names_in(checks.ROWS) if b" join\n" in read(checks.ROWS, name + ".schedule")]
    stories = [taken_apart(count, name, read(checks.ROWS, name + ".schedule")) for name in names]
    raised = sum(what_is_said(count, name, story)[2] for name, story in zip(names, stories) if story)
    count.check("some joins of rows raise it", len(names) >= 5 and raised >= 5, (names, raised))
