"""What is different for an agent that keeps its events, rule by rule: the cases of the column "With `+events`"."""

from one_agent import BREAK, FIRE, deliver, event, merge, query, state


def restart(*lines):
    return "restart " + "".join(f"{line}\n" for line in lines).encode().hex()


FIRED, BROKEN, FAILED = "fired {0}, sent, event 0 {0} 78 - 0", "broken", "refused SinkFault"


def got(time, name="78"):
    return f"new, sent, event 0 {time} {name} - 0"


def asked(time, number=0, id=1):
    return f"query, sent, handed 0 {number} {time} {id} 71 -"


KEEPING_AGENT = "agent 61 4 4 512 8 keep+events"
IGNORING_AND_KEEPING = "agent 61 4 4 512 8 ignore+events"

# The text of an agent that keeps its events: an event of time 5 and one of time 6, and a query of time 5.
LIVED = ("event-clock: 05", "#event 5 78 ", "event-clock: 06", "#event 6 79 ", "query-clock: 05", "#query 5 1")

CASES = {
    "a full time": (
        [
            (restart("event-clock: 05", "#event 5 78 ", "#event 5 79 "), "restarted 1 6 1"),
            (deliver(event(5, b"z")), "ignored TimeFull"),
            (deliver(event(6)), got(6)),
        ],
        KEEPING_AGENT + " 2",
    ),
    "clocks of a life": [
        (restart("clock: 3", *LIVED), "restarted 4 7 6"),
        (restart("#least event-clock: 9", "#least query-clock: 3"), "restarted 4 9 6"),
        (FIRE, FIRED.format(9)),
    ],
    "least times of a life": (
        [
            (restart("event-clock: 05", "#event 5 78 ", "query-clock: 05"), "restarted 1 6 6"),
            (deliver(event(5)), "ignored Seen"),
            (deliver(event(1)), "ignored BelowMinimum"),
            (deliver(event(2)), got(2)),
            (deliver(query(1)), "ignored BelowMinimum"),
            (deliver(query(2)), asked(2)),
        ],
        KEEPING_AGENT,
        # what an agent without the setting wrote, or Serf, counts as handed out
        [
            (restart("event-clock: 05", "event-clock: 3", "#least query-clock: 4", "query-clock: 06"), "restarted 1 6 7"),
            (deliver(event(3)), "ignored BelowMinimum"),
            (deliver(event(4)), got(4)),
            (deliver(query(3)), "ignored BelowMinimum"),
            (deliver(query(4)), asked(4)),
        ],
        KEEPING_AGENT,
        # if one event of a full time is left out, the minimum time is raised at once, also for the lines further down
        [
            (restart("event-clock: 06", "#event 5 78 ", "#event 5 79 ", "#event 4 78 ", "#event 6 78 "), "restarted 1 7 1"),
            (deliver(event(5)), "ignored BelowMinimum"),
            (deliver(event(4)), "ignored BelowMinimum"),
            (deliver(event(6)), "ignored Seen"),
        ],
        KEEPING_AGENT + " 1",
        # a line above the last clock line counts at a later opening, once the clock line has passed it
        [
            (restart("event-clock: 03", "#event 5 78 "), "restarted 1 4 1"),
            (deliver(event(7)), got(7)),
            ("restart -", "restarted 1 8 1"),
            (deliver(event(5)), "ignored Seen"),
        ],
        KEEPING_AGENT,
        [(restart("event-clock: 03", "#event 5 78 "), "restarted 1 4 1"), (deliver(event(5)), got(5))],
        KEEPING_AGENT,
    ),
    "what a restart forgets": [
        (restart(*LIVED), "restarted 1 7 6"),
        (deliver(event(5)), "ignored Seen"),
        (deliver(query(5)), "ignored Seen"),
        (deliver(query(6)), asked(6)),
        ("restart -", "restarted 1 7 7"),
        (deliver(query(6)), "ignored Seen"),
        ("respond 0 100 -", "refused NoQuery"),
        ("close 1000", "closed 0"),
    ],
    "when a line is written": [
        (deliver(event(7)), got(7)),
        ("break append 3", BROKEN),
        (deliver(event(6)), got(6)),
        (deliver(query(5)), asked(5)),
        (deliver(event(7, b"y")), FAILED),
    ],
    "a join that ignores": (
        [
            (merge(state(12, 12, 12), "join"), "merged"),
            (deliver(event(11)), "ignored BelowMinimum"),
            (deliver(event(12)), got(12)),
            (deliver(query(11)), asked(11)),
            ("restart -", "restarted 1 13 12"),
            (deliver(event(11)), "ignored BelowMinimum"),
        ],
        IGNORING_AND_KEEPING,
        # its line is written, though it raises nothing
        [(deliver(event(20)), got(20)), (BREAK, BROKEN), (merge(state(2, 2, 2), "join"), FAILED)],
        IGNORING_AND_KEEPING,
    ),
    "the lines of a merge": [
        ("break flush 5", BROKEN),
        (
            merge(state(1, 1, 1, [(5, (b"a", b"b")), (4, (b"c",)), (6, (b"d",))])),
            "merged, event 0 5 61 - 0, event 0 5 62 - 0, event 0 4 63 - 0, event 0 6 64 - 0",
        ),
        (deliver(event(3)), FAILED),
    ],
    "a merge that fails": (
        [
            ("break append 1", BROKEN),
            (merge(state(9, 9, 9, [(9, (b"a",))]), "join"), FAILED),
            ("restart -", "restarted 1 1 1"),
            (deliver(event(1)), got(1)),
        ],
        IGNORING_AND_KEEPING,
        [
            ("break append 3", BROKEN),
            (merge(state(9, 9, 9, [(9, (b"a",)), (10, (b"b",)), (9, (b"c",))]), "join"), "refused SinkFault, event 0 9 61 - 0"),
            ("restart -", "restarted 1 10 1"),
            (deliver(event(8)), "ignored BelowMinimum"),
            (deliver(event(10, b"b")), got(10, "62")),
        ],
        IGNORING_AND_KEEPING,
    ),
    "what `compact` writes": None,
}

# What a compaction leaves for events of times 5 and 6 and a query of time 3, in windows of four times.
COMPACTED = """#least event-clock: 3
#event 5 78 
#event 6 79 
#least query-clock: 1
#query 3 1
clock: 2
event-clock: 06
query-clock: 03
"""
