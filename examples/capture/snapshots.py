"""What a start makes of a snapshot: Serf's own, or one of an agent of this project."""

import re

CLOCK = re.compile(rb"(clock|event-clock|query-clock): (\d+)")
MAX_CLOCK = (1 << 64) - 2

# How the lines of a snapshot begin, and how those that agents of this project alone write.
LINES = (b"clock: ", b"event-clock: ", b"query-clock: ", b"alive: ", b"not-alive: ", b"coordinate: ")
OWN_LINES = (b"#event ", b"#query ", b"#least ")


class SnapshotError(Exception):
    """The file is no snapshot."""


def is_line(line):
    return line == b"leave" or line.startswith((*LINES, b"#"))


def start_on(text, rejoins):
    """The lines that say with which clocks an agent starts on a snapshot, and whether it keeps its events.

    Of each kind Serf takes the last clock line. Without -rejoin the lines up to the last `leave` count for nothing. An agent of
    this project takes the largest, and passes over `leave`: so does the agent that opens the text in the replay, and it gets all.
    """
    *lines, torn = text.split(b"\n")
    if any(line.startswith(OWN_LINES) for line in lines):
        return text, True
    if not any(map(is_line, lines)) and (lines or not any(line.startswith(torn) for line in LINES)):
        raise SnapshotError("it has no line of a snapshot")
    if b"leave" in lines and not rejoins:
        lines = lines[len(lines) - lines[::-1].index(b"leave") :]
    last = {}
    for clock in filter(None, map(CLOCK.fullmatch, lines)):
        if int(clock[2]) <= MAX_CLOCK:
            last[clock[1]] = int(clock[2])
    return b"".join(b"%s: %d\n" % clock for clock in last.items()), False
