"""The proved Serf agent, called through ctypes.

An ``Agent`` keeps its snapshot in a file. docs/HOST.md says what to call when.
"""

from .agent import Agent, Forked
from .burst import Burst, CallOutcome
from .errors import AgentError
from .packet_error import PacketError, packet_error
from .filters import node_filter, query_filters, TAG_FILTER, tag_filter
from .handlers import begun_line, done_line, done_up_to_line, open_events, open_line, OpenEvent
from .intents import intent, intent_error, Join, Leave
from .library import Code, DEFAULT_QUERY_TIMEOUT, DEFAULT_SNAPSHOT_LIMIT, PacketErrorKind, Library, NotLoaded, Reason
from .members import Members, state_members
from .results import (
    Answer, Clocks, Closed, Event, Fired, FiredQuery, Foreign, Ignored, PendingQuery, Received, ReceivedAck, ReceivedEvent,
    ReceivedPushPull, ReceivedQuery, ReceivedResponse,
)
from .settings import Settings
from .store import Broken, Full, Locked, MissingFolder, NotAFile, ReadOnly, Store, StoreError

__version__ = "0.2.0"

__all__ = [
    "Agent",
    "AgentError",
    "Answer",
    "Broken",
    "Burst",
    "CallOutcome",
    "Clocks",
    "Closed",
    "Code",
    "DEFAULT_QUERY_TIMEOUT",
    "DEFAULT_SNAPSHOT_LIMIT",
    "Event",
    "Fired",
    "FiredQuery",
    "Foreign",
    "Forked",
    "Full",
    "Ignored",
    "Join",
    "Leave",
    "Library",
    "Locked",
    "Members",
    "MissingFolder",
    "NotAFile",
    "NotLoaded",
    "OpenEvent",
    "PacketError",
    "PacketErrorKind",
    "PendingQuery",
    "ReadOnly",
    "Reason",
    "Received",
    "ReceivedAck",
    "ReceivedEvent",
    "ReceivedPushPull",
    "ReceivedQuery",
    "ReceivedResponse",
    "Settings",
    "Store",
    "StoreError",
    "TAG_FILTER",
    "begun_line",
    "done_line",
    "done_up_to_line",
    "intent",
    "intent_error",
    "node_filter",
    "open_events",
    "open_line",
    "packet_error",
    "query_filters",
    "state_members",
    "tag_filter",
]
