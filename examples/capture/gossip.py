"""Serf's part of a packet or a whole state: which user events it carries, and which clocks."""

import collections

import memberlist

# The types of Serf's messages that an agent of `serf-replay` reads: user events, queries, and the responses to queries.
EVENT, QUERY, RESPONSE = 3, 4, 5
READ = (EVENT, QUERY, RESPONSE)

# Those that a node's gossip passes on, so a node that sends one has it.
PASSED_ON = (EVENT, QUERY)

PUSH_PULL = 2

# A user event: its Lamport time, name and payload.
Event = collections.namedtuple("Event", "time name payload")

# The user events of a whole state, its clocks of events and of queries, and how many times its buffer of events has.
State = collections.namedtuple("State", "events clock query_clock slots")


def integer_or_zero(value):
    return value if isinstance(value, int) else 0


def bytes_or_empty(value):
    return value if isinstance(value, bytes) else b""


def list_or_empty(value):
    return value if isinstance(value, list) else []


def event_of(message):
    """The user event of a message, or None."""
    if message[:1] != bytes([EVENT]):
        return None
    fields = memberlist.map_at(message, 1)[0]
    return Event(integer_or_zero(fields.get(b"LTime")), bytes_or_empty(fields.get(b"Name")), bytes_or_empty(fields.get(b"Payload")))


def state_of(content):
    """What a whole state says of events, or None if these bytes are no push/pull."""
    if content[:1] != bytes([PUSH_PULL]):
        return None
    fields, events = memberlist.map_at(content, 1)[0], set()
    slots = [slot for slot in list_or_empty(fields.get(b"Events")) if slot is None or isinstance(slot, dict)]
    for slot in filter(None, slots):
        for event in list_or_empty(slot.get(b"Events")):
            if isinstance(event, dict):
                events.add(
                    Event(integer_or_zero(slot.get(b"LTime")), bytes_or_empty(event.get(b"Name")), bytes_or_empty(event.get(b"Payload")))
                )
    return State(frozenset(events), integer_or_zero(fields.get(b"EventLTime")), integer_or_zero(fields.get(b"QueryLTime")), len(slots))
