"""What has to hold at each cut: for a store, for an agent over it, and for the order of sync and hand-out."""

import re
from collections import namedtuple

import kept
from kept import clocks_in
from scripts import messages

# Whatever says something to an agent, or to Serf, in a line: a `#` is in none of these, unless it is the first byte.
SAYS = re.compile(rb"(event-clock: |query-clock: |clock: |#event |#query |#least )[^#]*")

# A file at the time when a call was answered: its text, and how many renames there were by then.
Promise = namedtuple("Promise", "text renames")


def promise_of(disk):
    """What the disk has while a call is answered by Ok."""
    return Promise(text_now(disk), disk.renames)


def text_now(disk):
    """The text of the store's file, without filler."""
    return disk.text_of(disk.file().data) if disk.file() else b""


class Seen:
    """What was checked in a walk: how many cuts, and what was wrong."""

    def __init__(self):
        self.cuts, self.faults = 0, []

    def wrong(self, what):
        self.faults.append(what)


def keeps(promise, file, text):
    """Whether a text that a cut leaves has everything that was promised, or is the whole text that replaces it."""
    if promise is None or text.startswith(promise.text):
        return True
    return file is not None and file.renamed > promise.renames and text.startswith(file.renamed_with)


def check_cuts(seen, disk, promise, lengths):
    """Checks each file and text that a cut leaves now: what was promised has to be in it."""
    for file, text in disk.cuts(lengths):
        seen.cuts += 1
        if not keeps(promise, file, text):
            seen.wrong(f"a cut leaves {text!r}, and {promise.text!r} was answered")
        torn_line = next((line for line in text.split(b"\n")[:-1] if line not in disk.lines and SAYS.fullmatch(line)), None)
        if torn_line is not None:
            seen.wrong(f"a cut leaves the line {torn_line!r}, which was never written whole: {text!r}")
        yield text


# A store driven by lines.


class WrittenLines:
    """The lines that a store got in a script, and so what its file has to be once a line is answered."""

    def __init__(self, old, answered):
        self.text, self.answered = old, answered

    def is_wrong(self, number, live):
        """Whether the answer of this number is Ok, and the file isn't what the lines made it."""
        line, answer = self.answered[number]
        call, _, word = line.partition(" ")
        wanted = self.text
        if call in ("append", "replace"):
            wanted = (self.text if call == "append" else b"") + bytes.fromhex(word)
        self.text = live
        return answer == "ok" and live != wanted


def of_store(walk, old, answered, lengths):
    """Level a: nothing that a store answered is lost. answered: each line with its answer; the first is the opening."""
    seen, told, number = Seen(), WrittenLines(old, answered), 0
    disk, promise = walk.disk, None
    for said in walk:
        if said is not None:
            promised = promise_of(disk)
            line, answer = answered[number]
            if told.is_wrong(number, promised.text):
                seen.wrong(f"{line} was answered, and the file has {promised.text!r}")
            if answer == "ok":
                promise = promised
            number += 1
        for _ in check_cuts(seen, disk, promise, lengths):
            pass
    if number != len(answered):
        seen.wrong(f"{number} answers are in the trace, and {len(answered)} were read")
    return seen


# An agent over it.


class Deliveries:
    """What was handed out so far: events and queries, and the largest time of each; and the minimum time that joins set."""

    def __init__(self):
        self.all, self.events, self.queries, self.minimum = frozenset(), 0, 0, 0

    def note(self, line):
        words = line.split()
        if words[0] == "e":
            self.events = max(self.events, int(words[1]))
        elif words[0] == "h":
            self.queries = max(self.queries, int(words[1]))
        if words[0] in ("e", "h"):
            self.all |= {line}


def is_sent_on(line):
    """Whether a packet that is handed over is an event or a query, which the network sends back."""
    return isinstance(messages.decode(bytes.fromhex(line[2:])), (messages.UserEvent, messages.Query))


def min_of(line):
    """Which clock has to be in the file, and how high, before this is handed out or over."""
    kind, word = line.split()[:2]
    if kind == "p":
        message = messages.decode(bytes.fromhex(word))
        kind, time = ("e" if isinstance(message, messages.UserEvent) else "h"), message.LTime
    else:
        time = int(word)
    return (b"event-clock" if kind == "e" else b"query-clock"), time


def of_order(seen, disk, line, lengths, keeps_events):
    """Level c: at a hand-out each cut leaves the line that it needs, and everything else that was written. If events are kept,
    an event and a query have separate lines too."""
    clock, minimum = min_of(line)
    live = text_now(disk)
    for _, left in disk.cuts(lengths):
        text = disk.text_of(left)
        seen.cuts += 1
        if clocks_in(text)[clock] < minimum:
            seen.wrong(f"{line[:40]} was handed out, and a cut leaves {text!r}")
        elif keeps_events and line[0] in "eh" and not kept.has_own_line(line, text):
            seen.wrong(f"{line[:40]} was handed out, and a cut leaves no line of it: {text!r}")
        elif text != live and not disk.sync_failed:
            # (after a failed line, a merge hands out what it flushed before)
            seen.wrong(f"{line[:40]} was handed out while a cut leaves {text!r}, and not {live!r}")


def of_agent(walk, lengths, keeps_events=False, min_after=()):
    """Levels b and c, without the openings: what was checked in each, and at each cut the text that is left and what
    was handed out before it, once each. min_after: for each answer the minimum time that joins have set by then."""
    whole, order, handed = Seen(), Seen(), Deliveries()
    disk, promise, left, minimums = walk.disk, None, {}, iter(min_after)
    for said in walk:
        line = "" if said is None else said.decode().rstrip("\n")
        if line[:2] in ("e ", "h ", "p "):
            of_order(order, disk, line, lengths, keeps_events)
            handed.note(line)
        elif line == "ok":
            promise = promise_of(disk)
        if line in ("ok", "Failed"):
            handed.minimum = next(minimums, handed.minimum)
        for text in check_cuts(whole, disk, promise, lengths):
            left[text, handed.all] = (handed.events, handed.queries, handed.minimum)
    return whole, order, left


def of_opening(seen, text, before, largest, after):
    """What the agent that is opened on a text does wrong, if `before` was handed out. after: what it hands out when
    everything is offered to it again, and the times at which it first fires an event and a query."""
    events, queries, _ = largest
    again, fired, asked = after
    if before & again:
        seen.wrong(f"it was left {text!r}, and hands out {sorted(before & again)[:3]} again")
    if fired <= events or asked <= queries:
        seen.wrong(f"it was left {text!r}, and fires at {fired} and queries at {asked}; {(events, queries)} were handed out")
