"""The results of an agent's calls: events and queries to handle, packets to send, and the outcomes of received packets."""

from dataclasses import dataclass
from typing import Optional, Tuple, Union

from .library import Reason


@dataclass(frozen=True)
class Event:
    """An event that is handed out. Run its handler."""

    time: int
    name: bytes
    payload: bytes
    coalesce: bool


@dataclass(frozen=True)
class PendingQuery:
    """A query that is handed out.

    Run its handler, and answer by ``Agent.respond`` with its number until ``deadline``.
    """

    number: int
    time: int
    id: int
    name: bytes
    payload: bytes
    source: bytes
    addr: bytes
    port: int
    relay_factor: int
    deadline: int


@dataclass(frozen=True)
class Answer:
    """An ack or a response that was counted: its query's Lamport time and ID, the node that sent it, and a response's payload."""

    time: int
    id: int
    sender: bytes
    payload: bytes


@dataclass(frozen=True)
class ReceivedEvent:
    """A new event, for its handler."""

    event: Event
    rebroadcast: bool


@dataclass(frozen=True)
class ReceivedQuery:
    """A new query. ``query`` is for its handler, and is None if a filter excludes this node.

    ``ack`` is this node's own ack, to send to the query's address and port. It is None if the query requests no acks or
    isn't handed out here.
    """

    query: Optional[PendingQuery]
    ack: Optional[bytes]
    rebroadcast: bool


@dataclass(frozen=True)
class ReceivedAck:
    """An ack of this node's own query. The ack was counted. Its payload is empty."""

    answer: Answer
    rebroadcast: bool


@dataclass(frozen=True)
class ReceivedResponse:
    """A response to this node's own query. The response was counted."""

    answer: Answer
    rebroadcast: bool


@dataclass(frozen=True)
class ReceivedPushPull:
    """A push/pull, which ``receive`` doesn't merge: pass the packet to ``Agent.merge``."""

    rebroadcast: bool


@dataclass(frozen=True)
class Ignored:
    """The packet was ignored, for this reason."""

    reason: Reason
    rebroadcast: bool


@dataclass(frozen=True)
class Foreign:
    """A message of a type that the agent doesn't read. An example is an intent, which the function ``intent`` reads."""

    message_type: int
    rebroadcast: bool


# The result of a received packet. In each class, `rebroadcast` is True if the packet has to be sent unchanged to other
# nodes.
Received = Union[ReceivedEvent, ReceivedQuery, ReceivedAck, ReceivedResponse, ReceivedPushPull, Ignored, Foreign]


@dataclass(frozen=True)
class Fired:
    """An event that was fired and is handed out on this node, and the packet to send."""

    event: Event
    packet: bytes


@dataclass(frozen=True)
class FiredQuery:
    """A query that was fired: its time, the packet to send and, if handed out here, the query and this node's ack."""

    packet: bytes
    query: Optional[PendingQuery]
    ack: Optional[bytes]
    time: int


@dataclass(frozen=True)
class Closed:
    """A query of this agent that was closed: the names of the nodes that acked it, and the responses, in order of arrival."""

    time: int
    id: int
    deadline: int
    acks: Tuple[bytes, ...]
    responses: Tuple[Answer, ...]


@dataclass(frozen=True)
class Clocks:
    """The agent's clocks, and the minimum times of events and queries that it accepts."""

    member: int
    event: int
    query: int
    event_minimum: int
    query_minimum: int
