"""The lines about handlers, and the events that a text leaves open (docs/SPEC.md, "Lines about handlers").

An event is a tuple of its time, its name and its payload.
"""

from .kept import event_of, number_of
from .snapshot import MAX_VALUE, lines_of
from .switches import wrong

# The first words of these lines.
EVENT, OPEN, BEGUN, DONE = b"#event", b"#open", b"#begun", b"#done"

# The maximum length of an event's texts together that a restart restores. It says nothing of handlers.
TEXTS_RESTORED = 9216


# Lines as they are written


def event_text(word, event):
    time, name, payload = event
    return word + f" {time} {name.hex()} {payload.hex()}\n".encode("ascii")


def open_line(event):
    return event_text(OPEN, event)


def begun_line(event):
    return event_text(BEGUN, event)


def done_line(event):
    return event_text(DONE, event)


def done_up_to_line(time):
    return DONE + f" {time}\n".encode("ascii")


# Lines as they are read


def event_after(word, line):
    """The event after a line's first word, or None. It is written like that of an `#event` line."""
    if not line.startswith(word + b" "):
        return None
    found = event_of(EVENT + line[len(word) :])
    if found is None and wrong("more_words_in_handler_lines"):
        found = event_of(EVENT + b" " + b" ".join(line.split(b" ")[1:4]))
    return found


def time_done(line):
    """The time up to which all events above a line are done, or None."""
    if not line.startswith(DONE + b" "):
        return None
    time = number_of(line[len(DONE) + 1 :], MAX_VALUE)
    return None if time == 0 and wrong("done_up_to_zero_passed_over") else time


def handler_lines_of(text):
    """The lines of a text, from the one that follows its first line `#done TIME`; None if it has no such line."""
    lines = lines_of(text)
    if text and not text.endswith(b"\n") and wrong("torn_handler_line_is_read"):
        lines = text.split(b"\n")
    for place, line in enumerate(lines):
        if time_done(line) is not None:
            return lines if wrong("lines_above_the_first_done_count") else lines[place + 1 :]
    return None


# Open events


class OpenEvents:
    """The open events, in the order in which they were opened, and for each of them whether its handler has begun."""

    def __init__(self):
        self.begun, self.early = {}, set()

    def hand_out(self, event):
        if sum(map(len, event[1:])) > TEXTS_RESTORED and wrong("large_events_are_not_open"):
            return
        if event not in self.begun or wrong("opened_twice_waits_again"):
            self.begun[event] = event in self.early and wrong("begun_line_counts_later")

    def begin(self, event):
        self.early.add(event)
        if event in self.begun and wrong("what_began_is_listed_last"):
            del self.begun[event]
            self.begun[event] = True
        if event in self.begun or wrong("begun_line_opens"):
            self.begun[event] = True

    def end(self, event):
        if wrong("done_ends_all_of_its_name"):
            self.begun = {other: has_begun for other, has_begun in self.begun.items() if other[:2] != event[:2]}
        self.begun.pop(event, None)

    def end_up_to(self, time):
        if wrong("done_up_to_ends_all"):
            time = MAX_VALUE
        if wrong("done_up_to_leaves_its_time"):
            time -= 1
        if wrong("done_up_to_leaves_what_began"):
            self.begun = {event: has_begun for event, has_begun in self.begun.items() if event[0] > time or has_begun}
            return
        self.begun = {event: has_begun for event, has_begun in self.begun.items() if event[0] > time}

    def read(self, line):
        if event_after(EVENT, line):
            self.hand_out(event_after(EVENT, line))
        elif event_after(OPEN, line):
            if not wrong("open_lines_passed_over"):
                self.hand_out(event_after(OPEN, line))
        elif event_after(BEGUN, line):
            self.begin(event_after(BEGUN, line))
        elif event_after(DONE, line):
            self.end(event_after(DONE, line))
        elif time_done(line) is not None:
            self.end_up_to(time_done(line))


def open_events(text):
    """The open events of a text, each with whether its handler has begun; None if the text says nothing of handlers."""
    lines = handler_lines_of(text)
    if lines is None:
        return None
    found = OpenEvents()
    for line in lines:
        found.read(line)
    return list(found.begun.items())


def compacted(time, events):
    """The lines that follow the agent's own when a text is compacted, for open events as `open_events` returns them. No event that
    was handed out has a time above `time`."""
    lines = [done_up_to_line(time)]
    for event, has_begun in events:
        lines.append(open_line(event))
        if has_begun and not wrong("compaction_forgets_what_began"):
            lines.append(begun_line(event))
    return b"".join(lines)
