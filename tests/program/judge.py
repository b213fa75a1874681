"""`judge`: logs of handlers and traces, what is in them twice, from nowhere or too late, what a snapshot leaves open, which handlers never
ended, and errors in their lines.

The snapshots with their logs are in `judge/kept_texts.py`. rows.py checks that no worked row and no example repeats anything.
"""

import os
import random
import re
import sys
import tempfile

sys.dont_write_bytecode = True
sys.path.insert(0, os.path.dirname(os.path.dirname(os.path.abspath(__file__))))
import checks

sys.path.insert(0, os.path.join(checks.TOP, "tests", "program", "judge"))
from kept_texts import kept

INCIDENT = os.path.join(checks.EXAMPLES, "incident")
LOG, KEPT = os.path.join(INCIDENT, "handlers.log"), os.path.join(INCIDENT, "beta.snapshot")

ONCE, QUERY_ONCE = b"Once: holds\n", b"QueryOnce: holds\n"
NO_EVENTS, NO_QUERIES = b"Once: not asked: no event lines\n", b"QueryOnce: not asked: no query lines\n"
NO_FIRINGS = b"Fired: not asked: no fired lines\nLater: not asked: no fired lines\n"


def read(events, queries, nodes):
    """The line with how much was read."""
    return b"read: %d events, %d queries, %d nodes\n" % (events, queries, nodes)


def holds(events, nodes):
    """The verdicts on a log that has only events, and no repeat."""
    return read(events, 0, nodes) + ONCE + NO_QUERIES + NO_FIRINGS


def incident(count):
    tally = b"beta was handed an event again on 1 line: time 3, line 7\n2 other nodes were handed each event once\n"
    said = read(7, 0, 3) + b'Once: line 7 repeats line 6: beta 3 "deploy" "v2"\n' + tally + NO_QUERIES + NO_FIRINGS
    again = b"beta keeps event-clock 2, and line 6 was handed out at 3: it can be handed out again\n"
    count.exactly("the incident", ["judge", LOG, "--kept", "beta=" + KEPT], 1, said + again, b"")
    count.exactly("its log alone", ["judge", LOG], 1, said, b"")
    count.exactly("its log on standard input", ["judge"], 1, said, b"", checks.read(LOG))


def repeats(count):
    log = b"# two nodes\n\nevent a 1 x y\nevent b 1 x y\nrestarted a\nevent a 2 x y\nevent a 1 x z\n"
    count.exactly("no repeat", ["judge", "-"], 0, holds(4, 2), b"", log)
    tally = b"a was handed a query again on 2 lines: times 7 to 7, lines 3 to 4\n1 other node was handed each query once\n"
    said = read(0, 4, 2) + NO_EVENTS + b"QueryOnce: line 3 repeats line 1: a 7 9\n" + tally + NO_FIRINGS
    count.exactly("a query twice", ["judge"], 1, said, b"", b"query a 7 9\nquery b 7 9\nquery a 7 9\nquery a 7 9\n")
    # A query without an ID differs from any with one, and from one of another time or node.
    log = b"query a 7 -\nquery b 7 -\nquery a 7 0\nquery a 8 -\n"
    count.exactly("queries without an ID", ["judge"], 0, read(0, 4, 2) + NO_EVENTS + QUERY_ONCE + NO_FIRINGS, b"", log)
    tally = b"a was handed a query again on 1 line: time 8, line 5\n1 other node was handed each query once\n"
    said = read(0, 5, 2) + NO_EVENTS + b"QueryOnce: line 5 repeats line 4: a 8 -\n" + tally + NO_FIRINGS
    count.exactly("one of them twice", ["judge"], 1, said, b"", log + b"query a 8 -")
    tally = b"a was handed an event again on 1 line: time 1, line 2\n"
    said = read(2, 0, 1) + b'Once: line 2 repeats line 1: a 1 "\\xff\\x22" "\\x5c"\n' + tally + NO_QUERIES + NO_FIRINGS
    count.exactly("any bytes", ["judge"], 1, said, b"", b'event a 1 \xff" \\\n' * 2)


def lines_again(log, word):
    """What `judge` prints after the first repeat, by this script's own count."""
    had, rows, nodes = set(), {}, []
    for number, line in enumerate(log.splitlines(), 1):
        what, node, time = line.split(b" ")[:3]
        if what != word:
            continue
        if node not in nodes:
            nodes.append(node)
        if line in had:
            rows.setdefault(node, []).append((int(time), number))
        had.add(line)
    said = b""
    thing = {b"event": b"an event", b"query": b"a query"}[word]
    for node, places in rows.items():
        times = [time for time, _ in places]
        if len(places) == 1:
            said += b"%s was handed %s again on 1 line: time %d, line %d\n" % (node, thing, times[0], places[0][1])
        else:
            found = (node, thing, len(places), min(times), max(times), places[0][1], places[-1][1])
            said += b"%s was handed %s again on %d lines: times %d to %d, lines %d to %d\n" % found
    others = len(nodes) - len(rows)
    if others:
        verb = b"node was" if others == 1 else b"nodes were"
        said += b"%d other %s handed each %s once\n" % (others, verb, word)
    return said


def every_repeat(count):
    """Each node with repeats has its line, in the order of their first repeats."""
    burst = b"".join(b"event gamma %d burst n%d\n" % (time, time) for time in range(10, 21))
    one = burst.replace(b"gamma", b"alpha") + burst + b"event beta 10 burst n10\n" + burst
    turned = b"".join(reversed(burst.splitlines(keepends=True)))
    for name, log in (
        ("eleven of one node", one),
        ("again in another order", burst + turned),
        ("three times", burst * 3),
        ("two nodes, the later first", burst + burst.replace(b"gamma", b"beta") * 2 + burst),
        ("the same at another node", burst + burst.replace(b"gamma", b"beta") + b"event beta 15 burst n15\n"),
    ):
        got = checks.run_program(["judge"], log)
        count.check(
            f"each repeat: {name}", got[0] == 1 and got[1].split(b"\n", 2)[2].startswith(lines_again(log, b"event") + NO_QUERIES), got
        )
    log = b"query a 5 1\nquery b 4 1\nquery b 4 1\nquery a 3 1\nquery a 5 1\nquery a 3 1\nquery c 5 1\n"
    got = checks.run_program(["judge"], log)
    count.check("each repeat: queries", got[0] == 1 and got[1].split(b"\n", 3)[3] == lines_again(log, b"query") + NO_FIRINGS, got)


def missed(count):
    """Which nodes never got an event."""
    path = os.path.join(checks.EXAMPLES, "partition", "handlers.log")
    said = b'Missed: 2 "deploy" "v2" never came to delta\nMissed: 1 of 4 events were missed by a node\n'
    count.exactly("an event missed", ["judge", path, "--missed"], 0, holds(15, 4) + said, b"")
    log = b"event a 1 x y\nevent b 1 x y\n"
    count.exactly("nothing missed", ["judge", "--missed"], 0, holds(2, 2) + b"Missed: each of 2 nodes had each of 1 events\n", b"", log)
    none = read(0, 1, 1) + NO_EVENTS + QUERY_ONCE + NO_FIRINGS + b"Missed: not asked: no event lines\n"
    count.exactly("no event to miss", ["judge", "--missed"], 0, none, b"", b"query a 7 9\n")
    # A node that fired and got nothing is no receiver. With the same name, each payload and each time makes another event.
    log = b"fired z 1 x y\nevent a 1 x y\nevent b 1 x z\nevent a 2 x y\nevent c 1 x y\nevent a 1 x y\n"
    said = b'Missed: 1 "x" "y" never came to b\nMissed: 1 "x" "z" never came to a, c\nMissed: 2 "x" "y" never came to b, c\n'
    got = checks.run_program(["judge", "--missed"], log)
    count.check("each event by itself", got[1].endswith(said + b"Missed: 3 of 3 events were missed by a node\n"), got)
    for nodes in (17, 18):
        log = b"event n0 1 x y\n" + b"".join(b"event n%d 2 x y\n" % node for node in range(nodes))
        names = b", ".join(b"n%d" % node for node in range(1, 17))
        said = b'Missed: 1 "x" "y" never came to ' + names + (b" and others" if nodes == 18 else b"") + b"\nMissed: 1 of 2 events"
        got = checks.run_program(["judge", "--missed"], log)
        count.check(f"{nodes - 1} nodes that missed it", got[0] == 0 and said in got[1], got)


def leave(count):
    """An incident with a kill and a leave: each node's repeats, and that delta's second life ran each event just once."""
    log = checks.read("examples", "leave", "handlers.log")
    got = checks.run_program(["judge"], log)
    count.check(
        "a leave: each repeat", got[0] == 1 and got[1].split(b"\n", 2)[2] == lines_again(log, b"event") + NO_QUERIES + NO_FIRINGS, got
    )
    lines = log.splitlines(keepends=True)
    events = {line.split(b" ", 2)[2] for line in lines}
    again = b"".join(lines[-len(events) :])
    count.exactly("a leave: the second life alone", ["judge"], 0, holds(len(events), 1), b"", again)


def long_logs(count):
    """20,000 lines, each with another node and event, are judged in a time that grows with the lines, not with their pairs."""
    log = b"".join(b"event n%d %d x y\n" % (line, line) for line in range(10000)) * 2
    before = checks.processor_seconds()
    got = checks.run_program(["judge", "--missed"], log)
    took = checks.processor_seconds() - before
    lines = got[1].splitlines()
    last = b"Missed: 10000 of 10000 events were missed by a node"
    count.check(
        "a long log: each repeat and each event missed", got[0] == 1 and len(lines) == 20006 and lines[-1] == last,
        (got[0], len(lines), lines[-1:]),
    )
    count.check("a long log: in 60 processor seconds, on a program compiled without its proofs too", took < 60, took)


def not_asked(count):
    """A promise for which the log has no lines doesn't hold: it isn't checked."""
    said = read(0, 0, 0) + NO_EVENTS + NO_QUERIES + NO_FIRINGS
    count.exactly("an empty log", ["judge"], 1, b"", b"standard input: no line of a log\n")
    count.exactly("an empty log of two", ["judge", os.devnull, os.devnull], 1, b"", b"/dev/null: no line of a log\n")
    count.exactly("a comment alone", ["judge"], 0, said, b"", b"# nothing\n")
    count.exactly("restarts alone", ["judge"], 0, said, b"", b"restarted a\n")
    said = read(0, 1, 1) + NO_EVENTS + QUERY_ONCE + NO_FIRINGS
    count.exactly("queries alone", ["judge"], 0, said, b"", b"query a 7 9\n")
    fired = b"Fired: not asked: no event lines\nLater: not asked: no event lines\n"
    count.exactly("firings alone", ["judge"], 0, read(0, 0, 1) + NO_EVENTS + NO_QUERIES + fired, b"", b"fired a 1 x y\n")


# What is right or wrong with firings; the verdicts of Fired and of Later, and the log.
FIRINGS = (
    ("all fired", b"holds", b"holds", b"fired a 1 x y\nevent a 1 x y\nevent b 1 x y\n"),
    (
        "another payload than was fired",
        b'line 2 hands out what no line above it fired: b 1 "x" "z"',
        b"holds",
        b"fired a 1 x y\nevent b 1 x z\n",
    ),
    (
        "fired after it",
        b'line 2 hands out what no line above it fired: b 2 "x" "y"',
        b"holds",
        b"fired a 1 x y\nevent b 2 x y\nfired a 2 x y\n",
    ),
    (
        "fired at the time that was handed",
        b"holds",
        b'line 3 fires at 1, and line 2 was handed out at 1: b 1 "x" "z"',
        b"fired a 1 x y\nevent b 1 x y\nfired b 1 x z\n",
    ),
    (
        "fired before the latest, and not the last",
        b"holds",
        b'line 5 fires at 4, and line 3 was handed out at 5: b 4 "x" "z"',
        b"fired a 5 x y\nfired a 2 x y\nevent b 5 x y\nevent b 2 x y\nfired b 4 x z\n",
    ),
    (
        "handed on a line below",
        b"holds",
        b"holds",
        b"fired a 5 x y\nfired b 4 x z\nevent b 5 x y\nevent a 5 x y\n",
    ),
)


def handlers_of(log):
    """What `judge` prints of handlers, by this script's own account: for each event at a node, the lines on which its handlers that
    have not ended began, of which an end removes the last."""
    waiting, failed, began = {}, b"", 0
    for number, line in enumerate(log.splitlines(), 1):
        word, *event = line.split(b" ")
        if word == b"begun":
            began += 1
            waiting.setdefault(tuple(event), []).append(number)
        elif word == b"ended":
            waiting.setdefault(tuple(event[:4]), [])[-1:] = []
            if event[4] != b"0":
                failed += b'Handlers: line %d ended with status %s: %s %s "%s" "%s"\n' % (number, event[4], *event[:4])
    left = sorted((number, event) for event, numbers in waiting.items() for number in numbers)
    said = b"".join(b'Handlers: line %d began and never ended: %s %s "%s" "%s"\n' % (number, *event) for number, event in left)
    return said + failed + b"Handlers: %d began, %d never ended, %d failed\n" % (began, len(left), failed.count(b"\n"))


def handlers(count):
    """Handlers that began and never ended, handlers that ran twice, and handlers that failed."""
    log = b"begun a 1 x y\nended a 1 x y 0\nbegun b 1 x y\nbegun a 2 x y\nended a 2 x y 3\n"
    said = b'Handlers: line 3 began and never ended: b 1 "x" "y"\nHandlers: line 5 ended with status 3: a 2 "x" "y"\n'
    said += b"Handlers: 3 began, 1 never ended, 1 failed\n"
    count.check("what this script expects", handlers_of(log) == said, handlers_of(log))
    count.exactly("a handler that was cut off, and one that failed", ["judge"], 0, holds(3, 2) + said, b"", log)
    missing = b'Missed: 2 "x" "y" never came to b\nMissed: 1 of 2 events were missed by a node\n'
    count.exactly("the same after what was missed", ["judge", "--missed"], 0, holds(3, 2) + missing + said, b"", log)
    # What begins was handed out: an event that begins twice is a repeat, with or without a line `event`.
    for first in (b"begun", b"event"):
        log = first + b" a 1 x y\nbegun a 1 x y\nended a 1 x y 0\n"
        again = b'Once: line 2 repeats line 1: a 1 "x" "y"\na was handed an event again on 1 line: time 1, line 2\n'
        text = read(2, 0, 1) + again + NO_QUERIES + NO_FIRINGS + handlers_of(log)
        count.exactly(f"twice, first {first.decode()}", ["judge"], 1, text, b"", log)
    count.exactly(
        "an end alone", ["judge"], 0, read(0, 0, 0) + NO_EVENTS + NO_QUERIES + NO_FIRINGS + handlers_of(b"ended a 1 x y 0"), b"",
        b"ended a 1 x y 0",
    )
    for name, line, cause in (
        ("no payload", b"begun a 1 x\n", b"WordCount"),
        ("a status at the beginning", b"begun a 1 x y 0\n", b"WordCount"),
        ("no status", b"ended a 1 x y\n", b"WordCount"),
        ("two statuses", b"ended a 1 x y 0 0\n", b"WordCount"),
        ("a time that is none", b"begun a t x y\n", b"BadWord 3"),
        ("a time that is none at the end", b"ended a -1 x y 0\n", b"BadWord 3"),
    ):
        bad = b"bad: line 1 " + cause + b"\n"
        count.exactly(f"handlers: {name}", ["judge"], 1, read(0, 0, 0) + bad + NO_EVENTS + NO_QUERIES + NO_FIRINGS, b"", line)
    for seed in range(20):
        log = random_runs(random.Random(seed))
        got = checks.run_program(["judge"], log)
        count.check(f"handlers of seed {seed}", got[1].endswith(NO_FIRINGS + handlers_of(log)), (log, got))
    two_logs_of_runs(count)


def random_runs(draw):
    """A log of handlers that begin and end in any order, some of them twice."""
    lines = []
    for _ in range(draw.randint(1, 60)):
        event = b"%s %d x %s" % (draw.choice([b"a", b"b"]), draw.randint(1, 3), draw.choice([b"y", b"z"]))
        kind = draw.random()
        if kind < 0.45:
            lines.append(b"begun " + event)
        elif kind < 0.9:
            lines.append(b"ended " + event + draw.choice([b" 0", b" 0", b" 1", b" 137", b" signal-9"]))
        else:
            lines.append(draw.choice([b"# begun a 1 x y", b"restarted a", b"query a 1 7"]))
    return b"\n".join([*lines, b"begun a 4 x y"]) + b"\n"


def two_logs_of_runs(count):
    """A handler may end in the next log of its node."""
    with tempfile.TemporaryDirectory() as folder:
        paths = [os.path.join(folder, name) for name in ("one", "two")]
        for path, text in zip(paths, (b"begun a 1 x y\nbegun a 2 x y\n", b"2026-11-26 10:00:00 ended a 1 x y 0\n")):
            with open(path, "wb") as file:
                file.write(text)
        got = checks.run_program(["judge", *paths])
        said = f'Handlers: {paths[0]}:2 began and never ended: a 2 "x" "y"\nHandlers: 2 began, 1 never ended, 0 failed\n'
        count.check("handlers in two logs", got[0] == 0 and got[1].endswith(said.encode()), got)


def firings(count):
    for name, fired, later, log in FIRINGS:
        status = 0 if (fired, later) == (b"holds", b"holds") else 1
        events = [line for line in log.splitlines() if line.startswith(b"event")]
        nodes = {line.split()[1] for line in log.splitlines()}
        said = read(len(events), 0, len(nodes)) + ONCE + NO_QUERIES + b"Fired: " + fired + b"\nLater: " + later + b"\n"
        count.exactly(name, ["judge"], status, said, b"", log)


def bad_lines(count):
    for name, log, said in (
        ("a word that is none", b"handed a\n", b"UnknownWord"),
        ("a word less", b"event a 1 x\n", b"WordCount"),
        ("a word more", b"query a 1 2 3\n", b"WordCount"),
        ("a time that is none", b"fired a x 1 2\n", b"BadWord 3"),
        ("an ID that is none", b"query a 1 -2\n", b"BadWord 4"),
        ("two dashes for an ID", b"query a 1 --\n", b"BadWord 4"),
        ("a dash for a time", b"query a - 1\n", b"BadWord 3"),
        ("a time of a trace", b"1 event 0 t 61 62 0\n", b"BadWord 4"),
        ("no text", b"\x00\xff\n", b"UnknownWord"),
    ):
        bad = b"bad: line 1 " + said + b"\n"
        count.exactly(name, ["judge"], 1, read(0, 0, 0) + bad + NO_EVENTS + NO_QUERIES + NO_FIRINGS, b"", log)
    # The other lines are judged, each by its own number.
    log = b"event a 1 x y\nevent a 1\nevent a 1 x y\n\nevent"
    tally = b"a was handed an event again on 1 line: time 1, line 3\n"
    said = b"bad: line 2 WordCount\nbad: line 5 WordCount\n" + b'Once: line 3 repeats line 1: a 1 "x" "y"\n' + tally
    count.exactly("a torn line among others", ["judge"], 1, read(2, 0, 1) + said + NO_QUERIES + NO_FIRINGS, b"", log)
    for lines, more in ((16, b""), (17, b"bad: and 1 more\n"), (40, b"bad: and 24 more\n")):
        bad = b"".join(b"bad: line %d UnknownWord\n" % (line + 1) for line in range(16)) + more
        said = read(1, 0, 1) + bad + ONCE + NO_QUERIES + NO_FIRINGS
        count.exactly(f"{lines} bad lines", ["judge"], 1, said, b"", b"x\n" * lines + b"event a 1 x y\n")
    log = b"event a 1 x y\nx\n" + b"#" * 16777217 + b"\nevent a 1 x y\n"
    count.exactly("a line too long", ["judge"], 1, b"", b"bad line 3 TooLong\n", log)


def ends_of_lines(count):
    """A carriage return at a line's end, and a byte order mark at the log's front, are read as if they weren't there."""
    mark, log = b"\xef\xbb\xbf", b"event a 1 x y\nfired a 2 x y\n\n# a\nevent b 1 x y\nevent a 1 x y"
    said = checks.run_program(["judge"], log)
    for name, given in (
        ("carriage returns", log.replace(b"\n", b"\r\n") + b"\r\n"),
        ("one carriage return", log.replace(b"y\nfired", b"y\r\nfired")),
        ("a mark", mark + log),
        ("both", mark + log.replace(b"\n", b"\r\n")),
    ):
        got = checks.run_program(["judge"], given)
        count.check(f"a log with {name}", said[0] == 1 and got == said, got)
    count.exactly("a mark and a comment", ["judge"], 0, holds(1, 1), b"", mark + b"# a\r\nevent a 1 x y\r\n\r\n")
    # One carriage return is ignored, and one mark, at the front of the first line.
    count.exactly("two carriage returns", ["judge"], 0, holds(2, 1), b"", b"event a 1 x y\r\nevent a 1 x y\r\r\n")
    for log in (mark + mark + b"event a 1 x y\n", b"\n" + mark + b"event a 1 x y\n", mark[:2] + b"event a 1 x y\n"):
        got = checks.run_program(["judge"], log)
        count.check(f"no mark: {log}", got[0] == 1 and b"\nbad: line" in got[1], got)


def dates(count):
    """A date and a time of day in front of a line are printed with the line, and are no words of it; a line of a trace stays one."""
    log = b"event a 1 x y\nquery b 2 3\nfired a 2 x y\nrestarted b\n7 event 0 9 61 62 0\n8 handed 0 1 4 5 61 62\nevent a 1 x y\nx\n"
    said = checks.run_program(["judge"], log)
    for date, told in (
        (b"2026-11-26T10:00:00Z",) * 2, (b"2026-11-26 10:00:00,125",) * 2, (b"  2026-11-26  10:00 ", b"2026-11-26 10:00"),
        (b"0000- 99:",) * 2,
    ):
        got = checks.run_program(["judge"], b"".join(date + b" " + line + b"\n" for line in log.splitlines()))
        wanted = said[1]
        for line in (b"line 7", b"line 1", b"line 3", b"line 8"):
            wanted = re.sub(rb"\b%s\b" % line, line + b" (%s)" % told, wanted)
        count.check(
            f"a log with {date}",
            got == (said[0], wanted, said[2]) and b"Once: line 7 (%s) repeats line 1 (%s): a 1" % (told, told) in got[1], (said, got),
        )
    # If there are several lines, the first and the last have theirs, and a line without a date has none.
    log = b"event a 1 x y\n2026-11-26 event a 1 x y\nevent a 1 x y\n2026-11-27 event a 1 x y\n"
    got = checks.run_program(["judge"], log)
    count.check(
        "dates of some lines",
        b"Once: line 2 (2026-11-26) repeats line 1: a" in got[1] and b", lines 2 (2026-11-26) to 4 (2026-11-27)\n" in got[1], got,
    )
    for line in (b"202-1 event a 1 x y", b"2026 event a 1 x y z", b"x2026-11-26 event a 1 x y", b"10:00:00 event a 1 x y"):
        got = checks.run_program(["judge"], line + b"\n")
        count.check(
            f"no date: {line}", got[1].startswith(read(0, 0, 0)) == (b"z" not in line) and (b"bad: line 1" in got[1]) == (b"z" not in line),
            got,
        )
    for line, why in (
        (b"2026-11-26 2026-11-26 event a 1 x y", b"(2026-11-26) UnknownWord"),
        (b"2026-11-26 10:0 11:0 event a 1 x y", b"(2026-11-26 10:0) UnknownWord"), (b"2026-11-26 event a t x y", b"(2026-11-26) BadWord 3"),
    ):
        got = checks.run_program(["judge"], line + b"\n")
        count.check(f"one date: {line}", got[0] == 1 and b"\nbad: line 1 " + why + b"\n" in got[1], got)


def several_logs(count):
    """Several logs are judged as one, and a line is named by its log and its own number."""
    with tempfile.TemporaryDirectory() as folder:

        def log(name, text):
            path = os.path.join(folder, name)
            with open(path, "wb") as file:
                file.write(text)
            return path, os.fsencode(path)

        (a, at_a), (b, at_b) = log("a", b"# a\nevent a 1 x y\nquery a 1 1\n"), log(
            "b", b"\xef\xbb\xbfevent a 1 x y\r\nb\nquery a 1 1\nevent a 1 x y"
        )
        said = (
            read(3, 2, 1)
            + b"bad: %s:2 UnknownWord\n" % at_b
            + b'Once: %s:1 repeats %s:2: a 1 "x" "y"\n' % (at_b, at_a)
            + b"a was handed an event again on 2 lines: times 1 to 1, %s:1 to %s:4\n" % (at_b, at_b)
            + b"QueryOnce: %s:3 repeats %s:3: a 1 1\n" % (at_b, at_a)
            + b"a was handed a query again on 1 line: time 1, %s:3\n" % at_b
        )
        count.exactly("two logs", ["judge", a, b], 1, said + NO_FIRINGS, b"")
        kept, _ = log("kept", b"event-clock: 0\nquery-clock: 1\n")
        said += NO_FIRINGS + b"a keeps event-clock 0, and %s:2 was handed out at 1: it can be handed out again\n" % at_a
        said += b"a keeps query-clock 1: nothing was handed out above it\n"
        count.exactly("a snapshot between two logs", ["judge", a, "--kept", "a=" + kept, b], 1, said, b"")
        got = checks.run_program(["judge", b, "-"], checks.read(a))
        count.check(
            "standard input after a log",
            got[0] == 1 and b'Once: %s:4 repeats %s:1: ' % (at_b, at_b) in got[1] and b"QueryOnce: -:3 repeats %s:3" % at_b in got[1], got,
        )
        # A firing in another log counts in either order; one in the same log has to be above.
        (f, at_f), (e, at_e) = log("f", b"fired a 5 x y\nevent b 7 x y\n"), log("e", b"event b 5 x y\nfired b 6 x y\n")
        said = read(2, 0, 2) + ONCE + NO_QUERIES
        fired = b'Fired: %s:2 hands out what no line above it fired: b 7 "x" "y"\n' % at_f
        later = b'Later: %s:2 fires at 6, and %s:2 was handed out at 7: b 6 "x" "y"\n' % (at_e, at_f)
        count.exactly("firings in front", ["judge", f, e], 1, said + fired + later, b"")
        count.exactly("firings behind", ["judge", e, f], 1, said + fired + b"Later: holds\n", b"")
        (first, _), (second, _) = log("first", b"event b 1 x y\n"), log("second", b"fired a 1 x y\nevent a 1 x y\n")
        said = read(2, 0, 2) + ONCE + NO_QUERIES + b"Fired: holds\nLater: holds\n"
        for order in ((first, second), (second, first)):
            count.exactly(f"a firing in another log: {order}", ["judge", *order], 0, said, b"")
        # A firing below, in the log itself or in one log for all, doesn't count.
        (below, at_below), (other, _) = log("below", b"event b 1 x y\nfired c 1 x y\n"), log("other", b"event a 1 x y\n")
        said = (
            read(2, 0, 3) + ONCE + NO_QUERIES + b'Fired: %s:1 hands out what no line above it fired: b 1 "x" "y"\nLater: holds\n' % at_below
        )
        for order in ((below, other), (other, below)):
            count.exactly(f"a firing below in the same log: {order}", ["judge", *order], 1, said, b"")
        got = checks.run_program(["judge", below, second])
        count.check("a firing below, and one in another log", got[0] == 0 and b"\nFired: holds\n" in got[1], got)
        long, _ = log("long", b"\n" + b"#" * 16777217)
        count.exactly("a line too long in the second", ["judge", a, long], 1, b"", os.fsencode(long) + b": bad line 2 TooLong\n")
        count.exactly("a second that isn't there", ["judge", a, "/nowhere"], 3, b"", b"/nowhere: no such file\n")
        # If a log is cut between any two lines, the verdicts are those on the whole, except for how lines are named.
        lines = checks.read(LOG).splitlines(keepends=True)
        whole = checks.run_program(["judge", LOG])
        for cut in range(1, len(lines)):
            (one, at_one), (two, at_two) = log("one", b"".join(lines[:cut]).removesuffix(b"\n")), log("two", b"".join(lines[cut:]))
            got = checks.run_program(["judge", one, two])
            told = whole[1]
            for number in (6, 7):
                place = b"%s:%d" % ((at_one, number) if number <= cut else (at_two, number - cut))
                told = told.replace(b"line %d" % number, place)
            count.check(f"the incident cut after line {cut}", (got[0], got[1]) == (whole[0], told), got)


def traces(count):
    path = os.path.join(checks.EXAMPLES, "deploy_gossiped_twice.trace")
    count.exactly("a trace", ["judge", path], 0, holds(2, 2), b"")
    got = checks.run_program(["judge"], checks.read(path) * 2)
    count.check("a trace after itself", got[0] == 1 and b"\nOnce: line " in got[1], got)


def control_characters(count):
    """Whatever a log contains, the verdicts are printable ASCII, so that a log can't control the reader's terminal."""
    node, shown = b"\x1b[31ma\xc3\xbc", b"?[31ma??"
    log = b"fired %s 1 x y\n" % node + b"event %s 1 \x1bx y\n" % node * 2 + b"event b 2 x y\n"
    with tempfile.TemporaryDirectory() as folder:
        paths = [os.path.join(folder, name) for name in ("a\x1bb", "c")]
        for path, text in zip(paths, (log, b"event b 3 x y\n"), strict=True):
            with open(path, "wb") as file:
                file.write(text)
        snapshot = os.path.join(folder, "snapshot")
        with open(snapshot, "wb") as file:
            file.write(b"event-clock: 0\n")
        got = checks.run_program(["judge", *paths, "--missed", "--kept", os.fsdecode(node) + "=" + snapshot])
    at = os.fsencode(paths[0]).replace(b"\x1b", b"?")
    wanted = (
        b"\nOnce: %s:3 repeats %s:2: %s 1 \"" % (at, at, shown),
        b"\n%s was handed an event again on 1 line: time 1, %s:3\n" % (shown, at),
        b"\nFired: %s:2 hands out what no line above it fired: %s 1 " % (at, shown),
        b" never came to %s\n" % shown,
        b"\n%s keeps event-clock 0, and %s:2 was handed out at 1: " % (shown, at),
    )
    for said in wanted:
        count.check(f"control characters: {said}", said in got[1], got)
    count.check(
        "control characters: all is printable", got[0] == 1 and all(byte == 10 or 32 <= byte < 127 for byte in got[1] + got[2]), got
    )


if __name__ == "__main__":
    sys.exit(
        checks.over_program(
            incident, repeats, every_repeat, missed, leave, long_logs, not_asked, kept, handlers, firings, bad_lines, ends_of_lines, dates,
            several_logs, traces, control_characters,
        )
    )
