"""The lines that an agent that keeps its events writes in addition to its clock lines (docs/SPEC.md, "What a keeping agent writes").

There are lines of events, of queries, and of minimum times. Each begins with `#`, so that other agents ignore it.
"""

import re

from .snapshot import MAX_VALUE, KINDS, lines_of, number_in, value_of
from .switches import wrong

MAX_ID = (1 << 32) - 1

DIGITS = re.compile(rb"[0-9]+\Z")
PAIRS = re.compile(rb"([0-9a-fA-F]{2})*\Z")

# The kinds of clocks that have these lines.
EVENTS, QUERIES = KINDS[1:]


# Lines as they are written


def event_line(time, name, payload):
    texts = [name.hex(), payload.hex()]
    if wrong("kept_texts_turned"):
        texts.reverse()
    return f"#event {time} {texts[0]} {texts[1]}\n".encode()


def query_line(time, query_id):
    return f"#query {time} {query_id}\n".encode()


def min_line(kind, minimum):
    return f"#least {kind}: {minimum}\n".encode()


# Lines as they are read


def number_of(digits, largest):
    """The number that the digits write, if it is at most `largest`, or None."""
    if not DIGITS.match(digits) or number_in(digits) > largest:
        return None
    return number_in(digits)


def words_after(front, line):
    """The words after a line's first one, between single spaces. If the line begins otherwise, there are none."""
    if not line.startswith(front + b" "):
        return []
    return re.split(rb" +" if wrong("loose_kept_lines") else rb" ", line[len(front) + 1 :])


def event_of(line):
    """The event of a line, as time, name and payload, or None."""
    words = words_after(b"#event", line)
    if len(words) != 3 or not all(PAIRS.match(word) for word in words[1:]):
        return None
    time = number_of(words[0], MAX_VALUE)
    return (time, *(bytes.fromhex(word.decode("ascii")) for word in words[1:])) if time else None


def query_of(line):
    """The query of a line, as time and ID, or None."""
    words = words_after(b"#query", line)
    if len(words) != 2:
        return None
    time, query_id = number_of(words[0], MAX_VALUE), number_of(words[1], MAX_ID)
    return (time, query_id) if time and query_id is not None else None


def events_in(text):
    found = [event_of(line) for line in lines_of(text)]
    events = [event for event in found if event]
    return events[1:] if wrong("first_kept_event_forgotten") else events


def queries_in(text):
    if wrong("kept_queries_forgotten"):
        return []
    return [query for query in map(query_of, lines_of(text)) if query]


def min_of_line(line, kind):
    """The minimum that a line has for a kind, or 0."""
    front = f"#least {kind}: ".encode()
    if line.startswith(front) and DIGITS.match(line[len(front) :]) and not wrong("min_lines_passed_over"):
        return min(number_in(line[len(front) :]), MAX_VALUE + 1)
    value = value_of(line, kind)
    if value is None or wrong("clock_line_without_a_zero_passed_over"):
        return 0
    has_zero = line[len(kind) + 2 :].startswith(b"0") and not wrong("clock_line_with_a_zero_counts")
    return 0 if has_zero else value + 1


def min_in(text, kind):
    """The minimum time of a kind in a text: the largest of its lines, and at least 1."""
    found = [min_of_line(line, kind) for line in lines_of(text)]
    if wrong("last_min_line_wins"):
        found = [minimum for minimum in found if minimum][-1:]
    return max([1, *found])
