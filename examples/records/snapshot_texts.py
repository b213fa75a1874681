"""Which lines of a snapshot's text say something of clocks, minimums, events and queries, and whether a text begins with another one
but for lines that say nothing of these. These are the definitions of crates/serf_snapshot/specs/OtherLines.antt once more, in Python.

docs/SPEC.md has the lines ("Snapshots"), and docs/HOST.md says which other lines a host may add ("A host's own lines").
"""

import re

# The kinds of clocks, by the prefixes of their lines (Clocks.antt, `prefix_of`).
CLOCKS = (b"clock: ", b"event-clock: ", b"query-clock: ")

# Above all times (Clock.antt, `max_clock`).
MAX_CLOCK = 2**64 - 1


def following(prefix, line):
    """The bytes after a prefix, or None (`following`)."""
    return line[len(prefix) :] if line.startswith(prefix) else None


def number(digits):
    """The number that decimal digits write, or None."""
    return int(digits) if digits is not None and re.fullmatch(rb"[0-9]+", digits) else None


def time_of(digits):
    """A time, or 0 (`time_text_value`)."""
    value = number(digits)
    return value if value is not None and value < MAX_CLOCK else 0


def minimum_of(prefix, line):
    """The minimum that a line sets for the clock with this prefix, or 0 (EventLines.antt, `min_of_line`)."""
    minimum, digits = number(following(b"#least " + prefix, line)), following(prefix, line)
    value = number(digits)
    unkept = value + 1 if value is not None and value < MAX_CLOCK and not digits.startswith(b"0") else 0
    return max(minimum or 0, unkept)


def is_event(line):
    """Whether a line is the line of an event (`event_of_line`): three parts between single spaces, a time and two in hex."""
    parts = (following(b"#event ", line) or b"").split(b" ")
    return len(parts) == 3 and time_of(parts[0]) > 0 and all(re.fullmatch(rb"(?:[0-9A-Fa-f]{2})*", part) for part in parts[1:])


def events_in(text):
    """The events whose lines are in a text: for each, its time, and its name and its payload in hex, or `-`, as a record has them."""
    for line in text.split(b"\n"):
        if is_event(line):
            time, *texts = following(b"#event ", line).split(b" ")
            yield (str(int(time)), *((word.decode("ascii").lower() or "-") for word in texts))


def is_query(line):
    """Whether a line is the line of a query (`query_of_line`): two parts, a time and an ID below 2^32."""
    parts = (following(b"#query ", line) or b"").split(b" ")
    return len(parts) == 2 and time_of(parts[0]) > 0 and number(parts[1]) is not None and int(parts[1]) < 2**32


def is_other(line):
    """Whether a line says nothing of clocks, minimums, events and queries (OtherLines.antt, `is_other_line`)."""
    says_time = any(time_of(following(prefix, line)) > 0 or minimum_of(prefix, line) > 0 for prefix in CLOCKS)
    return not says_time and not is_event(line) and not is_query(line)


def own_lines(text):
    """The lines of a text that aren't other lines, and the bytes after its last newline (`own_lines`, `torn_part`)."""
    *lines, torn = text.split(b"\n")
    return [line for line in lines if not is_other(line)], torn


def begins_with(text, confirmed):
    """Why a text doesn't begin with these bytes up to other lines, or None (`BeginsWith` in crates/serf_agent_c/specs/Hosts.antt: the
    text is a front and a tail, and the front and the bytes differ only in other lines)."""
    own, torn = own_lines(confirmed)
    found, at = 0, 0
    while found < len(own) or not text.startswith(torn, at):
        # (the front ends at the end of a line, or after the torn bytes)
        end = text.find(b"\n", at)
        line = text[at:end] if end >= 0 else None
        if line is None or not is_other(line) and (found == len(own) or line != own[found]):
            wanted = own[found] if found < len(own) else torn
            return f"line {found + 1} of {len(own)} should be {wanted[:100]!r}, and there is {text[at:][:100]!r}"
        found += not is_other(line)
        at = end + 1
    return None
