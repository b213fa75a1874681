"""The rules of docs/SPEC.md, "What an agent does", checked on the program: a schedule for each row. The definitions that the page
names exist.

A case is a list of calls of agent 0, one on each line, with the answer that it has to return to each, as in tests/one_agent.py. Each
row is also checked on an agent that keeps its events (MODE with `+events`): by the same case if the page's column for these
agents is empty, else by one of `rules/keeping.py`.
"""

import glob
import os
import re
import sys
import tempfile

sys.dont_write_bytecode = True
sys.path.insert(0, os.path.dirname(os.path.dirname(os.path.abspath(__file__))))
import checks

sys.path.insert(0, os.path.join(checks.TOP, "tests", "program", "rules"))
import keeping
from one_agent import AGENT, ASK, BREAK, FIRE, MAX_UINT64, answer, answers, deliver, event, merge, query, rows_of, state

IGNORING = "agent 61 4 4 512 8 ignore"


def got(time, name="78"):
    """The answer to an event that is new."""
    return f"new, sent, event 0 {time} {name} - 0"


FIRED, BROKEN = "fired {0}, sent, event 0 {0} 78 - 0", "broken"
FAILED, STOPPED = "refused SinkFault", "refused Stopped"
RESTART = "restart -"
TAIL_OF_4 = "restart " + b"clock: 4\n".hex()


def fired(time):
    return FIRED.format(time)


def asked(time, id=1):
    """The answer to `ASK` if no ack is requested."""
    return f"queried {time}, sent, handed 0 0 {time} {id} 71 -"


ASK_FOR_ACKS = "query 100 1 71 - 50 1"
ASKED_FOR_ACKS = "queried 1, sent, sent, handed 0 0 1 1 71 -"
OVERSIZE = event(50, b"x", bytes(9216))
BIN_EVENT = b"\x03\x82\xc4\x05LTime\x05\xc4\x04Name\xc4\x01x"
DEEP = b"\x03\x81\xa1u" + b"\x91" * 7

# For each rule, by its name on the page: calls and their answers, or a pair of such a list and another agent.
CASES = {
    "a clock observes": [(deliver(event(7)), got(7)), (FIRE, fired(8)), (deliver(event(5)), got(5)), (FIRE, fired(9))],
    "an ignored time counts": [
        (deliver(OVERSIZE), "ignored Oversize"),
        (FIRE, fired(51)),
        (deliver(query(9)), "query, sent, handed 0 0 9 1 71 -"),
        (deliver(query(9)), "ignored Seen"),
        (ASK, "queried 10, sent, handed 0 1 10 1 71 -"),
    ],
    "an error moves nothing": [(deliver(event(50) + b"\x00"), f"refused Wire Trailing {len(event(50))}"), (FIRE, fired(1))],
    "the window": [
        (deliver(event(10)), got(10)),
        (deliver(event(7)), got(7)),
        (deliver(event(6)), "ignored TooOld"),
        (deliver(query(10)), "query, sent, handed 0 0 10 1 71 -"),
        (deliver(query(7)), "query, sent, handed 0 1 7 1 71 -"),
        (deliver(query(6)), "ignored TooOld"),
    ],
    "the first reason": (
        [
            ("restart " + b"event-clock: 5\n".hex(), "restarted 1 6 1"),
            (deliver(event(20)), got(20)),
            (deliver(event(5, payload=bytes(9216))), "ignored Oversize"),
            (deliver(event(5)), "ignored BelowMinimum"),
            (deliver(event(6)), "ignored TooOld"),
            (deliver(event(20)), "ignored Seen"),
            (deliver(event(20, b"y")), "ignored TimeFull"),
        ],
        AGENT + " 1",
    ),
    "the same event": [
        (deliver(event(5)), got(5)),
        (deliver(event(5, coalesce=True)), "ignored Seen"),
        (deliver(event(5, payload=b"p")), "new, sent, event 0 5 78 70 0"),
        (deliver(event(6)), got(6)),
    ],
    "the same query": [
        (deliver(query(5, 9)), "query, sent, handed 0 0 5 9 71 -"),
        (deliver(query(5, 9, b"another")), "ignored Seen"),
        (deliver(query(5, 8)), "query, sent, handed 0 1 5 8 71 -"),
    ],
    "a full time": (
        [
            (deliver(event(5)), got(5)),
            (deliver(event(5, b"y")), got(5, "79")),
            (deliver(event(5, b"z")), "ignored TimeFull"),
            (deliver(event(6, b"z")), got(6, "7a")),
        ],
        AGENT + " 2",
    ),
    "what the agent fired": [(FIRE, fired(1)), (deliver(event(1)), "ignored Seen"), (ASK, asked(1)), (deliver(query(1)), "ignored Seen")],
    "the time of an answer": [
        (deliver(answer(50, 1, b"b"), 100), "ignored NotOpen"),
        (deliver(answer(MAX_UINT64, 1, b"b", 1), 100), "ignored NotOpen"),
        (FIRE, fired(1)),
        (ASK, asked(1)),
    ],
    "clocks of a life": [("restart " + b"clock: 3\nevent-clock: 5\nquery-clock: 7\n".hex(), "restarted 4 6 8"), (FIRE, fired(6))],
    "least times of a life": [
        ("restart " + b"event-clock: 5\nquery-clock: 7\n".hex(), "restarted 1 6 8"),
        (deliver(event(5)), "ignored BelowMinimum"),
        (deliver(event(6)), got(6)),
        (deliver(query(7)), "ignored BelowMinimum"),
        (deliver(query(8)), "query, sent, handed 0 0 8 1 71 -"),
    ],
    "lines that are skipped": [
        (
            "restart "
            + b"event-clock: 9\r\nevent-clock:  9\nevent-clock: +9\nevent-clock: %d\nclock: 2\n".replace(
                b"%d", str(MAX_UINT64).encode()
            ).hex(),
            "restarted 3 1 1",
        )
    ],
    "what a restart forgets": [
        (ASK, asked(1)),
        (RESTART, "restarted 1 1 2"),
        ("respond 0 100 -", "refused NoQuery"),
        (deliver(answer(1, 1, b"b"), 100), "ignored NotOpen"),
        ("close 1000", "closed 0"),
    ],
    "when a line is written": [
        (deliver(event(7)), got(7)),
        ("break append 2", BROKEN),
        (deliver(event(6)), got(6)),
        (deliver(event(7, b"y")), got(7, "79")),
        (deliver(event(8)), got(8)),
        (deliver(event(9)), FAILED),
    ],
    "what `save` writes": [
        (BREAK, BROKEN),
        ("save", "saved"),
        (merge(state(member=7)), "merged"),
        ("break append 2", BROKEN),
        ("save", "saved"),
        ("save", "saved"),
        (RESTART, "restarted 7 1 1"),
    ],
    "what `compact` writes": None,
    # (a clock line is only accepted after a whole line, so each tail shows that nothing of the failed line is in the file)
    "a line that fails": (
        [("break flush 1", BROKEN), (deliver(event(7)), FAILED), (RESTART, "restarted 1 1 1"), (deliver(event(7)), got(7))],
        AGENT,
        [(BREAK, BROKEN), (deliver(event(7)), FAILED), (RESTART, "restarted 1 1 1"), (deliver(event(7)), got(7))],
        AGENT,
        [
            (deliver(event(5)), got(5)),
            ("break flush 1", BROKEN),
            (deliver(event(7)), FAILED),
            (TAIL_OF_4, "restarted 5 6 1"),
            (deliver(event(7)), got(7)),
        ],
        AGENT,
        [
            (deliver(event(5)), got(5)),
            (BREAK, BROKEN),
            (deliver(event(7)), FAILED),
            (TAIL_OF_4, "restarted 5 6 1"),
            (deliver(event(7)), got(7)),
        ],
        AGENT,
    ),
    "a query whose line fails": [(BREAK, BROKEN), (ASK, FAILED), ("close 1000", "closed 0"), ("respond 0 100 -", "refused NoQuery")],
    "a second plan": [
        (FIRE, fired(1)),
        ("break replace-new 1", BROKEN),
        ("break replace-old 2", BROKEN),
        ("break append 1", BROKEN),
        ("break append 3", BROKEN),
        ("compact", "compacted"),
        (FIRE, fired(2)),
        (FIRE, fired(3)),
        ("compact", FAILED),
        (RESTART, "restarted 1 4 1"),
    ],
    "a stopped agent": [
        (ASK, asked(1)),
        ("break append 1", BROKEN),
        (FIRE, FAILED),
        (FIRE, STOPPED),
        (ASK, STOPPED),
        (deliver(event(9)), STOPPED),
        (deliver(b"\x06"), STOPPED),
        (deliver(b""), STOPPED),
        (deliver(answer(1, 1, b"b"), 100), STOPPED),
        (merge(state()), STOPPED),
        ("state", STOPPED),
        ("save", STOPPED),
        ("compact", STOPPED),
        ("respond 0 100 -", "replied, sent"),
        ("close 1000", "closed 1"),
        ("break flush 1", BROKEN),
        (RESTART, "restarted 1 1 2"),
    ],
    "a firing's time": [(FIRE, fired(1)), (deliver(event(1)), "ignored Seen"), (FIRE, fired(2))],
    "a state's clocks": [
        (merge(state(12, 12, 12)), "merged"),
        (FIRE, fired(12)),
        (ASK, asked(12)),
        ("save", "saved"),
        (RESTART, "restarted 12 13 13"),
        (merge(state(2, 2, 2)), "merged"),
        (FIRE, fired(13)),
    ],
    "a join that ignores": (
        [
            (merge(state(12, 12, 12), "join"), "merged"),
            (deliver(event(11)), "ignored BelowMinimum"),
            (deliver(event(12)), got(12)),
            (deliver(query(11)), "query, sent, handed 0 0 11 1 71 -"),
            (merge(state(2, 2, 2), "join"), "merged"),
            (deliver(event(11)), "ignored BelowMinimum"),
        ],
        IGNORING,
    ),
    "a merge that doesn't join": (
        [(merge(state(12, 12, 12)), "merged"), (deliver(event(11)), got(11))],
        IGNORING,
        [(merge(state(12, 12, 12), "join"), "merged"), (deliver(event(11)), got(11))],
        AGENT,
    ),
    "the events of a state": (
        [
            (
                merge(state(1, 9, 1, [(8, (b"b",)), (6, (b"d", b"c")), (8, (b"b", b"a"))])),
                "merged, event 0 8 62 - 0, event 0 6 64 - 0, event 0 6 63 - 0, event 0 8 61 - 0",
            ),
            (deliver(event(6, b"d", b"", True)), "ignored Seen"),
            (FIRE, fired(9)),
            (merge(state(1, 20, 1, [(15, (b"a",)), (16, (b"b",))])), "merged, event 0 16 62 - 0"),
        ],
        AGENT,
        [(merge(state(1, 12, 1, [(11, (b"a",)), (12, (b"b",))]), "join"), "merged, event 0 12 62 - 0")],
        IGNORING,
    ),
    "an empty slot": [(merge(bytes.fromhex("0281a64576656e74739182a54c54696d6532a64576656e747390")), "merged"), (FIRE, fired(1))],
    "the lines of a merge": [
        ("break flush 3", BROKEN),
        (
            merge(state(1, 1, 1, [(5, (b"a", b"b")), (4, (b"c",)), (6, (b"d",))])),
            "merged, event 0 5 61 - 0, event 0 5 62 - 0, event 0 4 63 - 0, event 0 6 64 - 0",
        ),
        (deliver(event(7)), FAILED),
    ],
    "a merge that fails": (
        [
            ("break append 2", BROKEN),
            (merge(state(9, 9, 9, [(9, (b"a",)), (10, (b"b",)), (9, (b"c",))]), "join"), "refused SinkFault, event 0 9 61 - 0"),
            (RESTART, "restarted 1 10 1"),
            (deliver(event(10, b"b")), got(10, "62")),
        ],
        IGNORING,
    ),
    "a slot's place": None,
    "a slot older than the window": None,
    "a deadline": [
        (deliver(query(1, 1, timeout=-5), 100), "query, sent, handed 0 0 1 1 71 -"),
        (deliver(query(2, 2, timeout=0), 100), "query, sent, handed 0 1 2 2 71 -"),
        (deliver(query(3, 3, timeout=5), MAX_UINT64), "query, sent, handed 0 2 3 3 71 -"),
        ("respond 0 101 -", "refused PastDeadline"),
        ("respond 0 100 -", "replied, sent"),
        ("respond 1 101 -", "refused PastDeadline"),
        ("respond 1 100 -", "replied, sent"),
        (f"respond 2 {MAX_UINT64} -", "replied, sent"),
    ],
    "at the deadline": [
        (ASK_FOR_ACKS, ASKED_FOR_ACKS),
        ("close 150", "closed 0"),
        (deliver(answer(1, 1, b"b", 1), 150), "ack"),
        (deliver(answer(1, 1, b"b"), 151), "ignored Closed"),
        ("respond 0 151 -", "refused PastDeadline"),
        ("respond 0 150 -", "replied, sent"),
        ("close 151", "closed 1"),
    ],
    "a query that filters hold back": [
        (deliver(query(5, filters=[b"\x00\x91\xa1b"], flags=1)), "query, sent"),
        (deliver(query(5, filters=[b"\x00\x91\xa1b"], flags=1)), "ignored Seen"),
        (RESTART, "restarted 1 1 6"),
    ],
    "why an answer is ignored": [
        (ASK, asked(1)),
        (deliver(answer(2, 1, b"b"), 100), "ignored NotOpen"),
        (deliver(answer(1, 2, b"b", 1), 151), "ignored OtherId"),
        (deliver(answer(1, 1, b"b", 1), 151), "ignored Closed"),
        (deliver(answer(1, 1, b"b", 1), 150), "ignored AckNotAsked"),
        ("close 151", "closed 1"),
        (deliver(answer(1, 1, b"b"), 151), "ignored NotOpen"),
    ],
    "the ack of one's own query": [
        (ASK_FOR_ACKS, ASKED_FOR_ACKS),
        (deliver(answer(1, 1, b"a", 1), 100), "ack"),
        (deliver(answer(1, 1, b"a", 1), 100), "ignored AckTwice"),
    ],
    "how many names": (
        [
            (ASK_FOR_ACKS, ASKED_FOR_ACKS),
            (deliver(answer(1, 1, b"b", 1), 100), "ack"),
            (deliver(answer(1, 1, b"c"), 100), "response"),
            (deliver(answer(1, 1, b"c", 1), 100), "refused RespondersFull"),
            (deliver(answer(1, 1, b"b"), 100), "refused RespondersFull"),
        ],
        "agent 61 4 4 512 1 keep",
    ),
    "a name that appears twice": (
        [
            (ASK_FOR_ACKS, ASKED_FOR_ACKS),
            (deliver(answer(1, 1, b"b", 1), 100), "ack"),
            (deliver(answer(1, 1, b"b", 1), 100), "ignored AckTwice"),
            (deliver(answer(1, 1, b"b"), 100), "response"),
            (deliver(answer(1, 1, b"b"), 100), "ignored ResponseTwice"),
        ],
        "agent 61 4 4 512 1 keep",
    ),
    "the size of a query": (
        [
            ("query 100 1 71 00000000 50 0", "refused TooLarge"),
            ("query 100 1 71 000000 50 0", "queried 1, sent, handed 0 0 1 1 71 000000"),
            ("query 100 2 71 000000 50 0", "queried 2, sent, handed 0 1 2 2 71 000000"),
            ("query 100 256 71 000000 50 0", "refused TooLarge"),
        ],
        "agent 61 4 4 512 8 keep 1024 95 0",
    ),
    "the size of a response": (
        [
            (deliver(query(1, flags=1)), "query, sent, sent, handed 0 0 1 1 71 -"),
            (deliver(query(2, id=(1 << 32) - 1, flags=1)), "query, sent, sent, handed 0 1 2 4294967295 71 -"),
            ("respond 0 5 000000", "refused TooLarge"),
            ("respond 0 5 0000", "replied, sent"),
            ("respond 1 5 -", "refused TooLarge"),
        ],
        "agent 61 4 4 512 8 keep 1024 0 38",
    ),
    "one answer a query": [
        (ASK, asked(1)),
        ("respond 0 100 " + "00" * 1024, "refused TooLarge"),
        ("respond 0 100 -", "replied, sent"),
        ("respond 0 100 -", "refused NoQuery"),
    ],
    "text and bytes": [(deliver(BIN_EVENT), got(5))],
    "an unknown key": [(deliver(b"\x03\x84\xa1u\x01\xa5LTime\x05\xa1u\x90\xa4Name\xa1x"), got(5))],
    "too short or too deep": [
        (deliver(DEEP), f"refused Wire Truncated {len(DEEP)}"),
        (deliver(DEEP + b"\xdc\x00"), f"refused Wire Truncated {len(DEEP)}"),
        (deliver(DEEP + b"\x90"), f"refused Wire TooDeep {len(DEEP)}"),
    ],
    "nil in place of a key": [
        (deliver(b"\x03\x81\xc0\x01"), "refused Wire BadKey 2"),
        (deliver(b"\x02\x81\xacStatusLTimes\x81\xc0\x01"), "refused Wire BadKey 16"),
    ],
    "after a foreign type": [(deliver(bytes([kind]) + b"\xc1\xff"), f"foreign {kind}") for kind in (0, 1, 6, 7, 8, 9)],
}


def rules():
    """The rules of the page, by name: what the row says about agents that keep their events, and the definitions."""
    part = checks.text_of("docs", "SPEC.md").partition("\n## What an agent does\n")[2].partition("\n## ")[0]
    rows = [cells for cells in rows_of(part) if cells[0] != "Rule"]
    return {cells[0]: (cells[2], re.findall(r"`([^`]+)`", cells[4])) for cells in rows}


def is_defined(name):
    """Whether some crate's specs have this definition in the file of this name."""
    file, _, defined = name.partition(".")
    paths = glob.glob(os.path.join(checks.TOP, "crates", "*", "specs", file + ".antt"))
    return any(re.search(rf"^(?:abbrev|unfoldable) pub {defined} :", checks.text_of(path), re.M) for path in paths)


def on_the_page(count):
    page = rules()
    count.check("each rule has its case, and each case its rule", page.keys() == CASES.keys(), page.keys() ^ CASES.keys())
    otherwise = {rule for rule, (kept, _) in page.items() if kept}
    count.check("each rule that differs with `+events` has its case", otherwise == keeping.CASES.keys(), otherwise ^ keeping.CASES.keys())
    for rule, (_, names) in page.items():
        for name in names:
            count.check(f"{rule}: {name}", is_defined(name), "no such definition")
        count.check(f"{rule}: a definition", bool(names), "none is named")


def keeps(agent):
    """The same settings, for an agent that keeps its events."""
    return re.sub(r"(?<= )(keep|ignore)(?![+])", r"\1+events", agent)


def asked(count, rule, case, default):
    parts = case if isinstance(case, tuple) else (case or [], default)
    for asked_of, agent in zip(parts[::2], parts[1::2]):
        got_back = answers([call for call, _ in asked_of], agent)
        for (call, wanted), said in zip(asked_of, got_back):
            count.check(f"{rule}: {call} of {agent}", said == wanted, f"expected {wanted}, got {said}")


def cases(count):
    for rule, case in CASES.items():
        asked(count, rule, case, AGENT)


def cases_of_keeping(count):
    for rule, case in CASES.items():
        if rule in keeping.CASES:
            asked(count, rule, keeping.CASES[rule], keeps(AGENT))
        elif case:
            parts = case if isinstance(case, tuple) else (case, AGENT)
            asked(count, rule, tuple(keeps(part) if isinstance(part, str) else part for part in parts), None)


def slots_after(*times, names=(b"x",), agent=AGENT):
    """The places and times of the slots that aren't empty, in the state of an agent that fires nothing and gets events of
    these names at each of these times."""
    packets = [event(time, name) for time in times for name in names]
    calls = "".join(f"inject {packet.hex()}\ndeliver 0 {2 * at} 0\n" for at, packet in enumerate(packets))
    out = checks.run_program(["replay"], f"{agent}\n{calls}state 0\n".encode())[1].decode()
    packet = out.splitlines()[-1].split(" ")[-1]
    lines = checks.run_program(["decode", packet])[1].decode().splitlines()
    return [tuple(line.split(" ")[1:]) for line in lines if line.startswith("slot ") and not line.endswith("nil")], lines


def slots(count):
    for agent in (AGENT, keeps(AGENT)):
        held, lines = slots_after(5, 6, agent=agent)
        count.check("a slot's place", held == [("1", "5"), ("2", "6")], lines)
        count.check("a slot's place: all are sent", sum(line.startswith("slot ") for line in lines) == 4, lines)
        lines = slots_after(5, names=(b"b", b"c", b"a"), agent=agent)[1]
        count.check(
            "a slot's place: its events",
            [line for line in lines if line.startswith("event ")] == ["event 62 -", "event 63 -", "event 61 -"],
            lines,
        )
        held, lines = slots_after(5, 16, agent=agent)
        count.check("a slot older than the window", held == [("0", "16"), ("1", "5")], lines)
        held, lines = slots_after(5, 17, agent=agent)
        count.check("a slot older than the window: a later time", held == [("1", "17")], lines)


def kept_after(*calls, agent=AGENT, opened="opened 1 1 1"):
    """The text that the disk holds after these calls, by the `look` that `conform` requires. Each call has its answer, and has a
    `look` after it."""
    answered = "".join(f"{answer}\n\nunsupported\n\n" for _, answer in calls)
    lines = "".join(f"{call}\n" for call, _ in calls)
    with tempfile.NamedTemporaryFile("w", suffix=".schedule") as schedule:
        schedule.write(f"{agent}\n{lines}")
        schedule.flush()
        said = checks.run_program(["conform", schedule.name], f"{opened}\n\nunsupported\n\n{answered}looked\n\n".encode())[2].decode()
    found = re.search(r"^ +kept (\S+)$", said, re.M)
    return bytes.fromhex(found[1].replace("-", "")).decode() if found else said


def texts(count):
    some = b"query-clock: 7\nx\nclock: 0\nevent-clock: 2\nevent-clock: 005\n".hex()
    kept = kept_after((f"restart 0 {some}", "restarted 1 6 8"), ("compact 0", "compacted"))
    count.check("what `compact` writes", kept == "event-clock: 5\nquery-clock: 7\n", kept)
    all_three = b"query-clock: 7\nevent-clock: 5\nclock: 3\n".hex()
    kept = kept_after((f"restart 0 {all_three}", "restarted 4 6 8"), ("compact 0", "compacted"))
    count.check("what `compact` writes: all three", kept == "clock: 3\nevent-clock: 5\nquery-clock: 7\n", kept)


def texts_of_keeping(count):
    lived = "".join(
        f"{line}\n" for line in ("clock: 2", "event-clock: 06", "#event 6 79 ", "#event 5 78 ", "query-clock: 03", "#query 3 1")
    )
    calls = (f"restart 0 {lived.encode().hex()}", "restarted 3 7 4"), ("compact 0", "compacted")
    kept = kept_after(*calls, agent=keeps(AGENT))
    count.check("what `compact` writes with `+events`", kept == keeping.COMPACTED, repr(kept))


if __name__ == "__main__":
    sys.exit(checks.over_program(on_the_page, cases, cases_of_keeping, slots, texts, texts_of_keeping))
