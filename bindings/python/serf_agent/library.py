"""The shared library: its functions, structs and codes, as in include/serf_agent.h."""

import ctypes
import enum
import os
import platform
from ctypes import POINTER, Structure, c_bool, c_int64, c_size_t, c_uint8, c_uint16, c_uint32, c_uint64, c_void_p
from typing import Any, Callable, Dict, List, Optional

HERE = os.path.dirname(os.path.abspath(__file__))
WHEEL_LIBRARY = os.path.join(HERE, "libserf_agent.so")
CLONE_LIBRARY = os.path.join(HERE, "..", "..", "c", "out", "libserf_agent.so")

# The processors of a library, by the bytes at 18 of its file.
PROCESSORS = {b"\x3e\x00": "x86_64", b"\xb7\x00": "aarch64"}


class Code(enum.IntEnum):
    """The code that a call of the library returns."""

    OK = 0
    EMPTY = 1
    IN_USE = 2
    PENDING = 3
    NOTHING = 4
    OUT_OF_MEMORY = 5
    BAD_CONFIG = 6
    SINK_ERROR = 7
    STOPPED = 8
    TOO_LARGE = 9
    EXHAUSTED = 10
    NO_MESSAGE = 11
    RESPONDERS_FULL = 12
    NOT_PUSH_PULL = 13
    TOO_LONG = 14
    NO_TIME = 15
    PAST_DEADLINE = 16
    NOT_PENDING = 17

    @property
    def text(self) -> str:
        """Returns the code as a sentence without a full stop."""
        return CODE_TEXTS[self]


class Kind(enum.IntEnum):
    """The kind of a call's result."""

    NOTHING = 0
    EVENT = 1
    QUERY = 2
    ACK = 3
    RESPONSE = 4
    IGNORED = 5
    FOREIGN = 6
    PUSH_PULL = 7
    EVENT_FIRED = 8
    QUERY_FIRED = 9
    MERGED = 10
    STATE = 11
    REPLY = 12
    CLOSED = 13


class Reason(enum.IntEnum):
    """Why a packet was ignored."""

    NO_REASON = 0
    OVERSIZE = 1
    BELOW_MINIMUM = 2
    TOO_OLD = 3
    SEEN = 4
    TIME_FULL = 5
    NOT_OPEN = 6
    OTHER_ID = 7
    CLOSED = 8
    ACK_NOT_REQUESTED = 9
    ACK_TWICE = 10
    RESPONSE_TWICE = 11

    @property
    def text(self) -> str:
        """Returns the reason as a sentence without a full stop."""
        return REASON_TEXTS[self]


CODE_TEXTS = {
    Code.OK: "ok",
    Code.EMPTY: "the agent is closed",
    Code.IN_USE: "the handle already has an agent",
    Code.PENDING: "bytes for the file are pending",
    Code.NOTHING: "there is no such item",
    Code.OUT_OF_MEMORY: "out of memory",
    Code.BAD_CONFIG: "the settings are out of bounds",
    Code.SINK_ERROR: "the sink failed",
    Code.STOPPED: "the agent is stopped",
    Code.TOO_LARGE: "the event, query or response is too large",
    Code.EXHAUSTED: "the clock is exhausted",
    Code.NO_MESSAGE: "the packet is not a Serf message",
    Code.RESPONDERS_FULL: "the query has as many answers as it accepts",
    Code.NOT_PUSH_PULL: "the packet is not a push/pull",
    Code.TOO_LONG: "a text or a list is too long",
    Code.NO_TIME: "the query has no timeout",
    Code.PAST_DEADLINE: "the deadline of the query has passed",
    Code.NOT_PENDING: "no query with this number is waiting for an answer",
}

REASON_TEXTS = {
    Reason.NO_REASON: "it was not ignored",
    Reason.OVERSIZE: "the event's name and payload together have more than 9,216 bytes",
    Reason.BELOW_MINIMUM: "its time is below the agent's minimum",
    Reason.TOO_OLD: "its time is too far below the clock",
    Reason.SEEN: "the same event or query was accepted before",
    Reason.TIME_FULL: "the limit of events or queries with the same time is reached",
    Reason.NOT_OPEN: "it answers a query that is not open here",
    Reason.OTHER_ID: "it answers another query with the same time",
    Reason.CLOSED: "it arrived after the query's deadline",
    Reason.ACK_NOT_REQUESTED: "the query requests no acks",
    Reason.ACK_TWICE: "the node has already acked the query",
    Reason.RESPONSE_TWICE: "the node has already responded to the query",
}


class PacketErrorKind(enum.IntEnum):
    """Why a packet is not a message."""

    EMPTY = 1
    UNKNOWN_TYPE = 2
    TRUNCATED = 3
    UNSUPPORTED = 4
    TOO_DEEP = 5
    TRAILING = 6
    NOT_A_MAP = 7
    BAD_KEY = 8
    TWICE = 9
    WRONG_KIND = 10
    OUT_OF_RANGE = 11
    MAX_TIME = 12


# The size in bytes above which Serf compacts its snapshot.
DEFAULT_SNAPSHOT_LIMIT = 131072

# How long a query accepts answers if the caller sets no timeout, in nanoseconds. It is Serf's timeout in a cluster of 10 to 99
# nodes: 16 of its gossip intervals of 0.2 seconds for each digit of the number of nodes.
DEFAULT_QUERY_TIMEOUT = 6_400_000_000


class Place(Structure):
    _fields_ = [("at", c_void_p)]


class Handle(Structure):
    _fields_ = [("open", c_bool), ("place", Place)]


# The settings that are numbers, and those that are flags, in the header's order.
COUNTS = ("event_buffer", "query_buffer", "event_limit", "query_limit", "response_limit", "responders", "per_time")
FLAGS = ("ignore_old", "keep_events")


class CSettings(Structure):
    _fields_ = [*((name, c_uint64) for name in COUNTS), *((name, c_bool) for name in FLAGS)]


class CResult(Structure):
    _fields_ = [
        ("kind", c_uint32),
        ("reason", c_uint32),
        ("handed", c_uint64),
        ("events", c_size_t),
        ("foreign", c_uint8),
        ("rebroadcast", c_bool),
    ]


class CBytes(Structure):
    _fields_ = [("len", c_size_t), ("replaces", c_bool)]


class CEvent(Structure):
    _fields_ = [("time", c_uint64), ("name_len", c_size_t), ("payload_len", c_size_t), ("coalesce", c_bool)]


class CParams(Structure):
    _fields_ = [("timeout", c_int64), ("port", c_uint16), ("relay_factor", c_uint8)] + [
        (name, c_bool) for name in ("want_ack", "no_broadcast", "tags_pass")
    ]


class CPendingQuery(Structure):
    _fields_ = (
        [("time", c_uint64), ("deadline", c_uint64)]
        + [(name, c_size_t) for name in ("name_len", "payload_len", "source_len", "addr_len")]
        + [("id", c_uint32), ("port", c_uint16), ("relay_factor", c_uint8)]
    )


class CAnswer(Structure):
    _fields_ = [("time", c_uint64), ("from_len", c_size_t), ("payload_len", c_size_t), ("id", c_uint32), ("is_ack", c_bool)]


class CPacketError(Structure):
    _fields_ = [("offset", c_size_t), ("kind", c_uint32), ("byte", c_uint8)]


class CIntent(Structure):
    _fields_ = [("time", c_uint64), ("node_len", c_size_t), ("leave", c_bool), ("prune", c_bool)]


class CMembers(Structure):
    _fields_ = [("member_clock", c_uint64), ("members", c_size_t), ("names_len", c_size_t)]


class CMember(Structure):
    _fields_ = [("status_time", c_uint64), ("name_len", c_size_t), ("left", c_bool)]


class COpenEvents(Structure):
    _fields_ = [("events", c_size_t), ("texts_len", c_size_t), ("tracked", c_bool)]


class COpenEvent(Structure):
    _fields_ = [("time", c_uint64), ("name_len", c_size_t), ("payload_len", c_size_t), ("begun", c_bool)]


class CFilters(Structure):
    _fields_ = [("filters", c_size_t), ("filters_len", c_size_t)]


class CClosed(Structure):
    _fields_ = [("time", c_uint64), ("deadline", c_uint64), ("acks", c_size_t), ("responses", c_size_t), ("id", c_uint32)]


class CResponse(Structure):
    _fields_ = [("from_len", c_size_t), ("payload_len", c_size_t)]


class CClocks(Structure):
    _fields_ = [(name, c_uint64) for name in ("member", "event", "query", "event_minimum", "query_minimum")]


# The structs, by their names in the header.
STRUCTS = {
    "serf_agent": Handle,
    "serf_agent_settings": CSettings,
    "serf_agent_result": CResult,
    "serf_agent_bytes": CBytes,
    "serf_agent_event": CEvent,
    "serf_agent_params": CParams,
    "serf_agent_pending_query": CPendingQuery,
    "serf_agent_answer": CAnswer,
    "serf_agent_packet_error": CPacketError,
    "serf_agent_intent": CIntent,
    "serf_agent_members": CMembers,
    "serf_agent_member": CMember,
    "serf_agent_open_events": COpenEvents,
    "serf_agent_open_event": COpenEvent,
    "serf_agent_filters": CFilters,
    "serf_agent_closed": CClosed,
    "serf_agent_response": CResponse,
    "serf_agent_clocks": CClocks,
}

HANDLE = POINTER(Handle)
# A buffer that a call borrows: bytes to read, or room for bytes.
DATA = c_void_p
TEXT = [DATA, c_size_t]

# The types of each function's arguments. The function's name has no "serf_agent_" here. Each function returns a code.
FUNCTIONS: Dict[str, List[Any]] = {
    "open": [HANDLE, *TEXT, POINTER(CSettings), *TEXT],
    "close": [HANDLE],
    "pending": [HANDLE, POINTER(CBytes), *TEXT],
    "flushed": [HANDLE],
    "fire": [HANDLE, *TEXT, *TEXT, c_bool],
    "receive": [HANDLE, c_uint64, *TEXT, c_bool],
    "merge": [HANDLE, *TEXT, c_bool],
    "local_state": [HANDLE],
    "add_status": [HANDLE, *TEXT, c_uint64],
    "add_left": [HANDLE, *TEXT],
    "query": [HANDLE, c_uint64, c_uint32, *TEXT, *TEXT, *TEXT, POINTER(CParams)],
    "add_filter": [HANDLE, *TEXT],
    "respond": [HANDLE, c_uint64, c_uint64, *TEXT],
    "forget_query": [HANDLE, c_uint64],
    "close_due": [HANDLE, c_uint64, POINTER(c_size_t)],
    "observe_member": [HANDLE, c_uint64],
    "save_member_clock": [HANDLE],
    "compact": [HANDLE],
    "burst_receive": [HANDLE, c_uint64, *TEXT, c_bool],
    "burst_fire": [HANDLE, *TEXT, *TEXT, c_bool],
    "burst_query": [HANDLE, c_uint64, c_uint32, *TEXT, *TEXT, *TEXT, POINTER(CParams)],
    "next": [HANDLE, POINTER(c_uint32)],
    "outcomes": [HANDLE, POINTER(c_size_t)],
    "result": [HANDLE, POINTER(CResult)],
    "event": [HANDLE, c_size_t, POINTER(CEvent), *TEXT, *TEXT],
    "answer": [*TEXT, POINTER(CAnswer), *TEXT, *TEXT],
    "packet_error": [*TEXT, POINTER(CPacketError)],
    "intent": [*TEXT, POINTER(CIntent), *TEXT],
    "intent_error": [*TEXT, POINTER(CPacketError)],
    "join_packet": [c_uint64, *TEXT, POINTER(c_size_t), *TEXT],
    "leave_packet": [c_uint64, *TEXT, c_bool, POINTER(c_size_t), *TEXT],
    "state_members": [*TEXT, POINTER(CMembers), POINTER(CMember), c_size_t, *TEXT],
    "open_events": [*TEXT, POINTER(COpenEvents), POINTER(COpenEvent), c_size_t, *TEXT],
    "open_line": [c_uint64, *TEXT, *TEXT, POINTER(c_size_t), *TEXT],
    "begun_line": [c_uint64, *TEXT, *TEXT, POINTER(c_size_t), *TEXT],
    "done_line": [c_uint64, *TEXT, *TEXT, POINTER(c_size_t), *TEXT],
    "done_up_to_line": [c_uint64, POINTER(c_size_t), *TEXT],
    "query_filters": [*TEXT, POINTER(CFilters), POINTER(c_size_t), c_size_t, *TEXT],
    "query_time": [HANDLE, POINTER(c_uint64)],
    "packet": [HANDLE, POINTER(c_size_t), *TEXT],
    "ack": [HANDLE, POINTER(c_size_t), *TEXT],
    "pending_query": [HANDLE, c_uint64, POINTER(CPendingQuery), *TEXT, *TEXT, *TEXT, *TEXT],
    "clocks": [HANDLE, POINTER(CClocks)],
    "next_deadline": [HANDLE, POINTER(c_uint64)],
    "open_queries": [HANDLE, POINTER(c_size_t)],
    "closed": [HANDLE, c_size_t, POINTER(CClosed)],
    "closed_ack": [HANDLE, c_size_t, c_size_t, POINTER(c_size_t), *TEXT],
    "closed_response": [HANDLE, c_size_t, c_size_t, POINTER(CResponse), *TEXT, *TEXT],
    "should_compact": [HANDLE, c_uint64, POINTER(c_bool)],
}


class NotLoaded(OSError):
    """The shared library doesn't exist, or this system can't load it."""


def library_path() -> str:
    """Returns the library's path: that in ``SERF_AGENT_LIBRARY``, the wheel's, or that in a clone's bindings/c/out."""
    path_in_environment = os.environ.get("SERF_AGENT_LIBRARY")
    if path_in_environment:
        return path_in_environment
    for path in (WHEEL_LIBRARY, CLONE_LIBRARY):
        if os.path.exists(path):
            return path
    raise NotLoaded("serf_agent: there is no libserf_agent.so in the package: install the wheel, or set SERF_AGENT_LIBRARY to the library")


def remedy(path: str, error: str) -> str:
    """Returns what to do if a library can't be loaded, or an empty text."""
    try:
        with open(path, "rb") as file:
            own = PROCESSORS.get(file.read(20)[18:])
    except OSError:
        return ""
    machine = platform.machine()
    if own is not None and own != machine:
        return f"; it is for {own}, and this processor is {machine}: install the wheel that ends with _{machine}.whl"
    if "GLIBC_" in error:
        return "; the C library of this system is older than the one that it was linked with: install the source package, serf_agent-VERSION.tar.gz, which links it here"
    if path == WHEEL_LIBRARY:
        return (
            "; if this system has another C library than glibc, install the source package, serf_agent-VERSION.tar.gz, which links it here"
        )
    return ""


def load_library(path: str) -> ctypes.CDLL:
    """Loads the shared library at a path."""
    system, machine = platform.system(), platform.machine()
    if system != "Linux" or machine not in ("x86_64", "aarch64"):
        raise NotLoaded(
            f"serf_agent: the library is for Linux on x86-64 or aarch64, and this system is {system} on {machine}: install it in a machine or a container of that kind"
        )
    try:
        return ctypes.CDLL(path)
    except OSError as error:
        raise NotLoaded(f"serf_agent: the library can't be loaded: {error}{remedy(path, str(error))}") from error


class Library:
    """The shared library's functions, with their types.

    Other threads run during a call. A failed load raises ``NotLoaded``.
    """

    def __init__(self, path: Optional[str] = None) -> None:
        shared = load_library(path or library_path())
        for name, types in FUNCTIONS.items():
            function = getattr(shared, "serf_agent_" + name)
            function.argtypes, function.restype = types, c_uint32
            setattr(self, name, function)

    def __getattr__(self, name: str) -> Callable[..., int]:
        raise AttributeError(f"the library has no function {name}")
