"""`judge --kept`: logs of handlers with a snapshot, and what `judge` says of what the snapshot leaves open."""

import os
import tempfile

import checks

# Snapshots with a log; what is printed about them, and the status.
EVENTS, QUERIES = b"event b 5 d v\n", b"query a 5 7\n"
HAS_ALL = b"b keeps its %s: nothing can be handed out again\n"
LACKS_EVENT = b"b keeps its events up to event-clock %d, and line 1 was handed out at 5: it can be handed out again\n"
KEPT_TEXTS = (
    (
        "an event clock below",
        EVENTS,
        "b",
        b"event-clock: 4\n",
        b"b keeps event-clock 4, and line 1 was handed out at 5: it can be handed out again\n",
        1,
    ),
    ("an event clock at it", EVENTS, "b", b"event-clock: 5\n", b"b keeps event-clock 5: nothing was handed out above it\n", 0),
    (
        "a query clock below",
        QUERIES,
        "a",
        b"query-clock: 3\n",
        b"a keeps query-clock 3, and line 1 was handed out at 5: it can be handed out again\n",
        1,
    ),
    ("a query clock at it", QUERIES, "a", b"query-clock: 5\n", b"a keeps query-clock 5: nothing was handed out above it\n", 0),
    (
        "both",
        EVENTS + b"query b 6 7\n",
        "b",
        b"query-clock: 3\nevent-clock: 7\n",
        b"b keeps event-clock 7: nothing was handed out above it\nb keeps query-clock 3, and line 2 was handed out at 6: it can be handed out again\n",
        1,
    ),
    ("a fresh snapshot", EVENTS, "b", b"", b"b keeps event-clock 0, and line 1 was handed out at 5: it can be handed out again\n", 1),
    (
        "members alone",
        EVENTS,
        "b",
        b"alive: b 10.0.0.2:7946\n",
        b"b keeps event-clock 0, and line 1 was handed out at 5: it can be handed out again\n",
        1,
    ),
    (
        "a leave",
        EVENTS,
        "b",
        b"event-clock: 7\nleave\nclock: 2\n",
        b"b with -rejoin keeps event-clock 7: nothing was handed out above it\n"
        b"b without -rejoin keeps event-clock 0, and line 1 was handed out at 5: it can be handed out again\n",
        1,
    ),
    (
        "an event after two leaves",
        EVENTS,
        "b",
        b"event-clock: 7\nleave\nevent-clock: 3\nleave\nevent-clock: 6\nleave",
        b"b with -rejoin keeps event-clock 6: nothing was handed out above it\nb without -rejoin keeps event-clock 6: nothing was handed out above it\n",
        0,
    ),
    # Stock Serf restores the last line of each kind, not the largest.
    (
        "a life that began anew after a leave",
        EVENTS,
        "b",
        b"event-clock: 6\nleave\nevent-clock: 1\n",
        b"b with -rejoin keeps event-clock 1, and line 1 was handed out at 5: it can be handed out again\n"
        b"b without -rejoin keeps event-clock 1, and line 1 was handed out at 5: it can be handed out again\n",
        1,
    ),
    (
        "a smaller line last",
        EVENTS,
        "b",
        b"event-clock: 7\nevent-clock: 0\n",
        b"b keeps event-clock 0, and line 1 was handed out at 5: it can be handed out again\n",
        1,
    ),
    (
        "a last line that is no number",
        EVENTS,
        "b",
        b"event-clock: 7\nevent-clock: x\nevent-clock: 18446744073709551616\nevent-clock: 3",
        b"b keeps event-clock 7: nothing was handed out above it\n",
        0,
    ),
    # Serf's lowest time wraps to 0.
    (
        "a clock of 2^64 - 1",
        EVENTS,
        "b",
        b"event-clock: 18446744073709551615\n",
        b"b keeps event-clock 18446744073709551615, and line 1 was handed out at 5: it can be handed out again\n",
        1,
    ),
    (
        "no line that is `leave` alone",
        EVENTS,
        "b",
        b"event-clock: 7\nleaves\n leave\nleave \n",
        b"b keeps event-clock 7: nothing was handed out above it\n",
        0,
    ),
    # An agent of this project continues from all lines. If it keeps its events, those lines decide, and not the clock.
    ("a minimum time above it", EVENTS, "b", b"#least event-clock: 8\n", HAS_ALL % b"events up to event-clock 0", 0),
    (
        "a minimum time at it",
        EVENTS,
        "b",
        b"#least event-clock: 5\n",
        b"b keeps its events up to event-clock 0, and line 1 was handed out at 5: it can be handed out again\n",
        1,
    ),
    ("the event's line", EVENTS, "b", b"#event 5 64 76\nevent-clock: 05\n", HAS_ALL % b"events up to event-clock 5", 0),
    ("a line of another payload", EVENTS, "b", b"#event 5 64 77\nevent-clock: 05\n", LACKS_EVENT % 5, 1),
    ("a line of another name", EVENTS, "b", b"#event 5 65 76\nevent-clock: 05\n", LACKS_EVENT % 5, 1),
    ("a line of another time", EVENTS, "b", b"#event 6 64 76\nevent-clock: 06\n", LACKS_EVENT % 6, 1),
    ("a line that the disk lost", EVENTS, "b", b"event-clock: 07\n#event 7 61 62\n", LACKS_EVENT % 7, 1),
    ("a torn line", EVENTS, "b", b"#event 4 61 62\n#event 5 64 7", LACKS_EVENT % 0, 1),
    ("a line and a leave", EVENTS, "b", b"#event 5 64 76\nevent-clock: 05\nleave\n", HAS_ALL % b"events up to event-clock 5", 0),
    (
        "a clock line of a life that kept none",
        EVENTS,
        "b",
        b"event-clock: 7\nleave\n#least event-clock: 8\n",
        HAS_ALL % b"events up to event-clock 7",
        0,
    ),
    ("a time that left the window", EVENTS, "b", b"#event 600 64 76\nevent-clock: 0600\n", HAS_ALL % b"events up to event-clock 600", 0),
    (
        "the first time of the window",
        b"event b 89 d v\n",
        "b",
        b"#event 600 64 76\nevent-clock: 0600\n",
        b"b keeps its events up to event-clock 600, and line 1 was handed out at 89: it can be handed out again\n",
        1,
    ),
    ("words of a handler", b"event b 5 d%20e -\n", "b", b"#event 5 642065 \nevent-clock: 05\n", HAS_ALL % b"events up to event-clock 5", 0),
    ("the text -", b"event b 5 d %2D\n", "b", b"#event 5 64 2d\nevent-clock: 05\n", HAS_ALL % b"events up to event-clock 5", 0),
    ("words of a trace", b"1 event b 5 6465 - 0\n", "b", b"#event 5 6465 \nevent-clock: 05\n", HAS_ALL % b"events up to event-clock 5", 0),
    (
        "a query's line",
        QUERIES,
        "a",
        b"#query 5 9\nquery-clock: 05\n",
        b"a keeps its queries up to query-clock 5: nothing can be handed out again\n",
        0,
    ),
    (
        "another query's line",
        QUERIES,
        "a",
        b"#query 4 7\nquery-clock: 05\n",
        b"a keeps its queries up to query-clock 5, and line 1 was handed out at 5: it can be handed out again\n",
        1,
    ),
    ("no time of an agent's", b"event b 18446744073709551615 d v\n", "b", b"#event 5 64 76\n", HAS_ALL % b"events up to event-clock 0", 0),
)


def kept(count):
    with tempfile.TemporaryDirectory() as folder:
        path = os.path.join(folder, "snapshot")
        for name, log, node, text, said, status in KEPT_TEXTS:
            with open(path, "wb") as file:
                file.write(text)
            got = checks.run_program(["judge", "--kept", f"{node}={path}"], log)
            count.check(f"kept: {name}", (got[0], got[2]) == (status, b"") and got[1].endswith(b"no fired lines\n" + said), got)
        with open(path, "wb") as file:
            file.write(b"event-clock: 7\nleave\n")
        got = checks.run_program(["judge", "--own", "--kept", f"b={path}"], EVENTS)
        count.check(
            "kept: a leave of our agent that keeps no events",
            got[0] == 0 and got[1].endswith(b"no fired lines\nb keeps event-clock 7: nothing was handed out above it\n"), got,
        )
        with open(path, "wb") as file:
            file.write(b"event-clock: 7\n#event 7 61 62\nevent-clock: 4\nleave\n")
        got = checks.run_program(["judge", "--serf", "--kept", f"b={path}"], EVENTS)
        said = (
            b"b with -rejoin keeps event-clock 4, and line 1 was handed out at 5: it can be handed out again\n"
            b"b without -rejoin keeps event-clock 0, and line 1 was handed out at 5: it can be handed out again\n"
        )
        count.check("kept: stock Serf on a file of our agent", got[0] == 1 and got[1].endswith(b"no fired lines\n" + said), got)
        with open(path, "wb") as file:
            file.write(b"event b 5 d v\n")
        none = os.fsencode(path) + b": no line of a snapshot\n"
        count.exactly("a log for a snapshot", ["judge", "--kept", f"b={path}"], 1, b"", none, EVENTS)
    said = b"error: --kept B=/dev/null: the log has no event and no query of node 'B'\n"
    count.exactly("a node that isn't there", ["judge", "--kept", "B=/dev/null"], 2, b"", said, EVENTS)
    count.exactly("a snapshot that isn't there", ["judge", "--kept", "b=/nowhere"], 3, b"", b"/nowhere: no such file\n", EVENTS)
