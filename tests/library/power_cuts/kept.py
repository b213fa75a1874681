"""Power cuts of agents that keep their events: what the next life hands out, and what it misses.

A hand-out is a line that a host prints: `e TIME NAME` for an event, `h TIME ID` for a query.
"""

import re

import scripts
from scripts import messages

CLOCK = re.compile(rb"^(event-clock|query-clock|clock): (\d+)$")
MIN_LINE = re.compile(rb"#least event-clock: ([0-9]+)")
EVENT = re.compile(rb"#event ([0-9]+) ([0-9a-f]*) ([0-9a-f]*)")
QUERY = re.compile(rb"#query ([0-9]+) ([0-9]+)")


def handed_by(packet):
    """What a packet, a line of a script, can have an agent hand out."""
    message = messages.decode(bytes.fromhex(packet.split()[1]))
    if isinstance(message, messages.UserEvent):
        return {f"e {message.LTime} {message.Name.hex()}"}
    if isinstance(message, messages.Query):
        return {f"h {message.LTime} {message.ID}"}
    slots = [slot for slot in message.Events if slot is not None]
    return {f"e {slot.LTime} {event.Name.hex()}" for slot in slots for event in slot.Events}


def wanted_of(run):
    """Everything in the packets of a run that no life may miss: all except what was handed out before its file began."""
    clocks = scripts.clocks_of(run.text or b"")
    offered = set().union(*(handed_by(packet) for packet in run.packets()))
    return frozenset(line for line in offered if int(line.split()[1]) > clocks[line[0]])


def noted_in(text):
    """The events and queries that have whole lines in a text."""
    found = set()
    for line in text.split(b"\n")[:-1]:
        event, query = EVENT.fullmatch(line), QUERY.fullmatch(line)
        if event:
            found.add(f"e {int(event[1])} {event[2].decode()}")
        elif query:
            found.add(f"h {int(query[1])} {int(query[2])}")
    return found


def clocks_in(text):
    """The largest time of each kind of line that is whole in a text."""
    found = {b"event-clock": 0, b"query-clock": 0, b"clock": 0}
    for line in text.split(b"\n")[:-1]:
        whole = CLOCK.match(line)
        if whole:
            found[whole[1]] = max(found[whole[1]], int(whole[2]))
    return found


def counted_in(text):
    """The events and queries whose lines count at an opening: the last clock line of their kind has passed them. If a torn write lost
    the clock line and not the event's own, the event was handed out in no life, and the next one accepts it."""
    clocks = clocks_in(text)
    last = {"e": clocks[b"event-clock"], "h": clocks[b"query-clock"]}
    return {line for line in noted_in(text) if int(line.split()[1]) <= last[line[0]]}


def min_in(text):
    """The minimum time of events that a text's `#least` lines have; 0 if there is none."""
    found = [MIN_LINE.fullmatch(line) for line in text.split(b"\n")[:-1]]
    return max((int(line[1]) for line in found if line), default=0)


def is_taken(line, minimum):
    """Whether a hand-out is allowed if no event below this time is accepted."""
    return line[0] != "e" or int(line.split()[1]) >= minimum


def has_own_line(said, text):
    """Whether the hand-out that a host printed has its line in a text."""
    return said in noted_in(text)


class Missed:
    """What lives after cuts didn't hand out, though no life before did: what was in flight, its line whole and no handler run; and
    everything else."""

    def __init__(self):
        self.openings = self.in_flight = self.openings_with_flight = self.others = 0

    def note(self, text, before, wanted, again):
        """Adds an opening on a text after which everything was offered again. Returns what it missed, except what was in flight, and
        what a join had refused."""
        minimum = min_in(text)
        missed = {line for line in wanted - before - again if is_taken(line, minimum)}
        flight = noted_in(text) & missed
        self.openings += 1
        self.in_flight += len(flight)
        self.openings_with_flight += bool(flight)
        self.others += len(missed - flight)
        return missed - flight

    def add(self, other):
        for name, value in vars(other).items():
            setattr(self, name, getattr(self, name) + value)

    def said(self):
        return (
            f"{self.openings:,} openings: {self.in_flight:,} missed in flight, in {self.openings_with_flight:,} of them; "
            f"{self.others:,} others missed"
        )


def of_opening(seen, text, before, wanted, again, missed, minimum):
    """What an agent that keeps its events does wrong on a text that a cut left. least: the minimum time that joins had set."""
    if min_in(text) < minimum:
        seen.wrong(f"it was left {text!r}, and a join set the minimum time {minimum}")
    old = [line for line in again if not is_taken(line, minimum)]
    if old:
        seen.wrong(f"it was left {text!r}, and hands out {sorted(old)[:3]}; a join set the minimum time {minimum}")
    others = missed.note(text, before, wanted, again)
    if others:
        seen.wrong(f"it was left {text!r}, and misses {sorted(others)[:3]}")
    counted = counted_in(text)
    if counted & again:
        seen.wrong(f"it was left {text!r}, and hands out {sorted(counted & again)[:3]}, whose lines it has")
