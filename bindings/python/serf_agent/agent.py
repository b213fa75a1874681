"""An agent that keeps its snapshot in a file."""

import collections
import contextlib
import ctypes
import os
import threading
import weakref
from typing import Deque, Iterable, Iterator, List, Optional, Tuple

from .burst import Burst, Call, c_params
from .checks import Buffer, as_bytes, checked_bool, checked_integer, text_arguments
from .errors import AgentError
from .library import (
    CAnswer, CBytes, CClocks, CClosed, CEvent, CResult, CPendingQuery, Code, COUNTS, CParams, CResponse, CSettings,
    DEFAULT_QUERY_TIMEOUT, DEFAULT_SNAPSHOT_LIMIT, FLAGS, Handle, Kind, Library, Reason,
)
from .results import (
    Answer, Clocks, Closed, Event, Fired, FiredQuery, Foreign, Ignored, PendingQuery, Received, ReceivedAck, ReceivedEvent,
    ReceivedPushPull, ReceivedQuery, ReceivedResponse,
)
from .settings import Settings, out_of_bounds
from .store import Path, Store


class Forked(RuntimeError):
    """The agent belongs to the process that forked this one, and only that process may use it."""


def c_settings(settings: Settings) -> CSettings:
    """Converts an agent's settings to C's struct."""
    counts = [checked_integer(name, getattr(settings, name)) for name in COUNTS]
    return CSettings(*counts, *(checked_bool(name, getattr(settings, name)) for name in FLAGS))


def close_agent_and_file(library: Library, handle: Handle, store: Store) -> None:
    """Closes an agent and its file."""
    library.close(handle)
    store.close()


class Agent:
    """A proved agent with its snapshot. As a context manager, it closes the agent and the file. So does its finalizer.

    Each method flushes what its call wrote to the disk before it returns, so nothing reaches a handler before its line is
    durable. If the file fails (a ``StoreError``), the agent is closed: open it again on the same file. Calls may come from any
    thread, and run one at a time. A forked child can't use the agent: there, each call except ``close`` raises ``Forked``.

    Moments (``now``) are nanoseconds of one clock that never goes back. If a thread passes a moment that is before its previous
    one, the call raises ``ValueError``. A number that is out of range raises ``OverflowError``, and an argument of the
    wrong type raises ``TypeError``. If the library refuses a call, it raises ``AgentError`` with the code. After any of
    these errors nothing has changed, with one exception, which ``merge`` describes.
    """

    def __init__(self, name: Buffer, path: Path, settings: Settings = Settings(), library: Optional[Library] = None) -> None:
        name_arguments, settings_argument = text_arguments(name=name), c_settings(settings)
        self._library = library or Library()
        self._lock = threading.RLock()
        self._owner_pid = os.getpid()
        self._last_moment = threading.local()
        self._handle = Handle()
        # Whether a call that failed may have left filters or members behind. The library would add them to the next
        # call.
        self._stale_filters = self._stale_members = False
        # The host's lines, which follow the library's text when a compaction replaces the file.
        self._host_lines = b""
        # The calls of bursts whose outcomes have not been read yet.
        self._unread: Deque[Tuple[Burst, Call]] = collections.deque()
        self._store = Store(path)
        self._close_all = weakref.finalize(self, close_agent_and_file, self._library, self._handle, self._store)
        try:
            self._call_and_flush("open", *name_arguments, settings_argument, *text_arguments(text=self._store.read()))
        except BaseException as error:
            self.close()
            if isinstance(error, AgentError) and error.code is Code.BAD_CONFIG:
                raise AgentError(error.code, said=out_of_bounds(name_arguments[0], settings)) from None
            raise

    def __enter__(self) -> "Agent":
        return self

    def __exit__(self, *_: object) -> None:
        self.close()

    def close(self) -> None:
        """Closes the agent and its file.

        After that, calls raise ``AgentError`` with ``EMPTY``. Closing it again does nothing.
        """
        if os.getpid() != self._owner_pid:
            # Don't wait for the lock, since a thread that exists only in the parent process may have held it.
            self._close_all()
            return
        with self._lock:
            self._unread.clear()
            self._close_all()

    # The methods that each call uses.

    @contextlib.contextmanager
    def _locked(self) -> Iterator[None]:
        """Allows one call at a time, and only in the process that opened the agent."""
        if os.getpid() != self._owner_pid:
            raise Forked("the agent belongs to the process that forked this one")
        with self._lock:
            yield

    def _checked_moment(self, now: int) -> int:
        """Checks a moment, which must not be before this thread's previous one."""
        moment, last_moment = checked_integer("now", now), getattr(self._last_moment, "now", 0)
        if moment < last_moment:
            raise ValueError(f"now is {moment}, which is before {last_moment}: the clock went back")
        self._last_moment.now = moment
        return moment

    def _call(self, name: str, *arguments: object) -> None:
        """Makes a call of the library. A refusal raises ``AgentError``."""
        code = getattr(self._library, name)(self._handle, *arguments)
        if code != Code.OK:
            raise AgentError(code)

    def _call_and_flush(self, name: str, *arguments: object) -> None:
        """Makes a call, and flushes the bytes that it left for the file, even if the call was refused."""
        try:
            self._call(name, *arguments)
        finally:
            self._flush_pending()

    def _call_to_forget(self, name: str, *arguments: object) -> None:
        """Discards the filters or members that were added for a failed call.

        The call that it makes changes nothing else.
        """
        try:
            self._call(name, *arguments)
        except AgentError as error:
            if error.code is Code.OUT_OF_MEMORY:
                raise

    def _forget_filters(self) -> None:
        """Discards the filters that a failed query left.

        It does this by a query without a timeout, which the library refuses.
        """
        if self._stale_filters:
            self._call_to_forget("query", 0, 0, *text_arguments(name=b"", payload=b"", addr=b""), CParams())
            self._stale_filters = False

    def _flush_pending(self) -> None:
        """Flushes the bytes that a call left for the file. If this fails, the agent is closed."""
        pending = CBytes()
        if self._library.pending(self._handle, pending, None, 0) != Code.OK or not (pending.len or pending.replaces):
            return
        try:
            data = ctypes.create_string_buffer(pending.len)
            self._call("pending", pending, data, pending.len)
            (self._store.replace if pending.replaces else self._store.append)(data.raw + (self._host_lines if pending.replaces else b""))
        except BaseException:
            self.close()
            raise
        self._call("flushed")

    # The methods that read a call's result.

    def _call_result(self) -> CResult:
        """Returns the result of the last call."""
        result = CResult()
        self._call("result", result)
        return result

    def _event_at(self, index: int) -> Event:
        """Returns an event of the last call's result. A merge has several, and they are numbered from 0."""
        c_event = CEvent()
        self._call("event", index, c_event, None, 0, None, 0)
        name, payload = (ctypes.create_string_buffer(length) for length in (c_event.name_len, c_event.payload_len))
        self._call("event", index, c_event, name, len(name), payload, len(payload))
        return Event(c_event.time, name.raw, payload.raw, c_event.coalesce)

    def _merged_events(self) -> List[Event]:
        """Returns the events that a merge accepted, in order.

        There are none if the library still has an earlier call's result.
        """
        result = self._call_result()
        return [self._event_at(index) for index in range(result.events)] if result.kind == Kind.MERGED else []

    def _read_answer(self, packet: Buffer) -> Answer:
        """Reads the packet of an ack or a response."""
        c_answer = CAnswer()
        self._library.answer(*text_arguments(packet=packet), c_answer, None, 0, None, 0)
        sender, payload = (ctypes.create_string_buffer(length) for length in (c_answer.from_len, c_answer.payload_len))
        self._library.answer(*text_arguments(packet=packet), c_answer, sender, len(sender), payload, len(payload))
        return Answer(c_answer.time, c_answer.id, sender.raw, payload.raw)

    def _get_packet(self, name: str = "packet") -> Optional[bytes]:
        """Returns a packet to send: the one that the call made, or this node's own ack.

        Returns None if there is none.
        """
        length = ctypes.c_size_t()
        code = getattr(self._library, name)(self._handle, length, None, 0)
        if code == Code.NOTHING:
            return None
        if code != Code.OK:
            raise AgentError(code)
        packet = ctypes.create_string_buffer(length.value)
        self._call(name, length, packet, len(packet))
        return packet.raw

    def _made_packet(self) -> bytes:
        """Returns the packet that the call made."""
        packet = self._get_packet()
        if packet is None:
            raise AgentError(Code.NOTHING)
        return packet

    def _pending_query(self, number: int) -> PendingQuery:
        """Returns a query that was handed out and is not answered yet."""
        c_query = CPendingQuery()
        self._call("pending_query", number, c_query, *[None, 0] * 4)
        lengths = (c_query.name_len, c_query.payload_len, c_query.source_len, c_query.addr_len)
        buffers = [ctypes.create_string_buffer(length) for length in lengths]
        self._call("pending_query", number, c_query, *(word for text in buffers for word in (text, len(text))))
        name, payload, source, addr = (text.raw for text in buffers)
        route = c_query.port, c_query.relay_factor
        return PendingQuery(number, c_query.time, c_query.id, name, payload, source, addr, *route, c_query.deadline)

    def _closed_ack(self, index: int, number: int) -> bytes:
        """Returns the name of the node that sent an ack of a closed query."""
        length = ctypes.c_size_t()
        self._call("closed_ack", index, number, length, None, 0)
        name = ctypes.create_string_buffer(length.value)
        self._call("closed_ack", index, number, length, name, len(name))
        return name.raw

    def _closed_response(self, index: int, number: int) -> Tuple[bytes, bytes]:
        """Returns the sender and the payload of a response to a closed query."""
        c_response = CResponse()
        self._call("closed_response", index, number, c_response, None, 0, None, 0)
        sender, payload = (ctypes.create_string_buffer(length) for length in (c_response.from_len, c_response.payload_len))
        self._call("closed_response", index, number, c_response, sender, len(sender), payload, len(payload))
        return sender.raw, payload.raw

    def _closed_query(self, index: int) -> Closed:
        """Returns a query that the call closed, with its answers."""
        c_closed = CClosed()
        self._call("closed", index, c_closed)
        acks = tuple(self._closed_ack(index, number) for number in range(c_closed.acks))
        responses = tuple(Answer(c_closed.time, c_closed.id, *self._closed_response(index, number)) for number in range(c_closed.responses))
        return Closed(c_closed.time, c_closed.id, c_closed.deadline, acks, responses)

    def _received_result(self, packet: Buffer) -> Received:
        """Returns the result of a packet that the call received."""
        result = self._call_result()
        kind, rebroadcast = Kind(result.kind), bool(result.rebroadcast)
        if kind is Kind.EVENT:
            return ReceivedEvent(self._event_at(0), rebroadcast)
        if kind is Kind.QUERY:
            query = self._pending_query(result.handed) if result.handed else None
            return ReceivedQuery(query, self._get_packet("ack"), rebroadcast)
        if kind is Kind.ACK:
            return ReceivedAck(self._read_answer(packet), rebroadcast)
        if kind is Kind.RESPONSE:
            return ReceivedResponse(self._read_answer(packet), rebroadcast)
        if kind is Kind.IGNORED:
            return Ignored(Reason(result.reason), rebroadcast)
        if kind is Kind.FOREIGN:
            return Foreign(result.foreign, rebroadcast)
        if kind is Kind.PUSH_PULL:
            return ReceivedPushPull(rebroadcast)
        raise AgentError(Code.NOTHING)

    def _fired_event_result(self) -> Fired:
        """Returns the result of firing an event."""
        return Fired(self._event_at(0), self._made_packet())

    def _fired_query_result(self) -> FiredQuery:
        """Returns the result of firing a query."""
        handed = self._call_result().handed
        time = ctypes.c_uint64()
        self._call("query_time", time)
        return FiredQuery(self._made_packet(), self._pending_query(handed) if handed else None, self._get_packet("ack"), time.value)

    # The calls.

    def receive(self, now: int, packet: Buffer, tags_pass: bool = False) -> Received:
        """Handles a packet from the network.

        ``tags_pass`` says whether this node's tags pass every tag filter of the packet's query (``query_filters``
        returns them). If they do, and the other filters let this node pass, the query is handed out. Pass True only if
        every tag filter could be read and passes. A host without tags passes False.

        The result is an object of one of the classes in ``Received``::

            received = agent.receive(now, packet)
            if isinstance(received, ReceivedEvent):
                handle(received.event)
        """
        with self._locked():
            checked_tags_pass = checked_bool("tags_pass", tags_pass)
            self._call_and_flush("receive", self._checked_moment(now), *text_arguments(packet=packet), checked_tags_pass)
            return self._received_result(packet)

    def fire(self, name: Buffer, payload: Buffer = b"", coalesce: bool = False) -> Fired:
        """Fires an event."""
        with self._locked():
            self._call_and_flush("fire", *text_arguments(name=name, payload=payload), checked_bool("coalesce", coalesce))
            return self._fired_event_result()

    def merge(self, packet: Buffer, join: bool = False) -> List[Event]:
        """Merges another agent's whole state, and returns the events to hand out, in order.

        ``join`` is True if the agents join.

        If memory runs out (``AgentError`` with ``OUT_OF_MEMORY``), the error's ``events`` has the events that the merge
        had already accepted. Handle them as well, since no later merge hands them out again.
        """
        with self._locked():
            try:
                self._call_and_flush("merge", *text_arguments(packet=packet), checked_bool("join", join))
            except AgentError as error:
                if error.code is Code.OUT_OF_MEMORY:
                    error.events = tuple(self._merged_events())
                raise
            return self._merged_events()

    def local_state(self, statuses: Iterable[Tuple[Buffer, int]] = (), left: Iterable[Buffer] = ()) -> bytes:
        """Returns the packet with this agent's whole state.

        It contains each member's (name, status time) in ``statuses``, and the names of the members that left.
        """
        with self._locked():
            status_arguments = [[*text_arguments(name=name), checked_integer("the status time", time)] for name, time in statuses]
            left_arguments = [text_arguments(name=name) for name in left]
            if self._stale_members:
                self._call_to_forget("local_state")
            self._stale_members = bool(status_arguments or left_arguments)
            for arguments in status_arguments:
                self._call("add_status", *arguments)
            for arguments in left_arguments:
                self._call("add_left", *arguments)
            self._call_and_flush("local_state")
            self._stale_members = False
            return self._made_packet()

    def query(
        self,
        now: int,
        id: int,
        name: Buffer,
        payload: Buffer = b"",
        timeout: int = DEFAULT_QUERY_TIMEOUT,
        *,
        filters: Iterable[Buffer] = (),
        addr: Buffer = b"",
        port: int = 0,
        relay_factor: int = 0,
        want_ack: bool = False,
        no_broadcast: bool = False,
        tags_pass: bool = False,
    ) -> FiredQuery:
        """Fires a query, and accepts answers for ``timeout`` nanoseconds. Choose ``id``, a number of 32 bits, at random.

        ``tags_pass`` is True if this node's tags pass every tag filter in ``filters``, so that the query may be handed
        out here.
        """
        with self._locked():
            query_texts = text_arguments(name=name, payload=payload, addr=addr)
            filter_arguments = [text_arguments(filter=filter_bytes) for filter_bytes in filters]
            params = c_params(timeout, port, relay_factor, want_ack, no_broadcast, tags_pass)
            moment, id = self._checked_moment(now), checked_integer("id", id, 32)
            self._forget_filters()
            self._stale_filters = bool(filter_arguments)
            for filter_argument in filter_arguments:
                self._call("add_filter", *filter_argument)
            self._call_and_flush("query", moment, id, *query_texts, params)
            self._stale_filters = False
            return self._fired_query_result()

    def burst(self) -> Burst:
        """Begins a burst.

        The agent makes the burst's calls at the end of the block, with a single flush for all of their lines.

        ::

            with agent.burst() as burst:
                for packet in packets:
                    burst.receive(now, packet)
            for outcome in burst.outcomes: ...
        """
        return Burst(self)

    def unread_outcomes(self) -> int:
        """Returns how many outcomes of bursts are unread, because memory ran out while they were read."""
        with self._locked():
            count = ctypes.c_size_t()
            self._call("outcomes", count)
            return count.value

    def respond(self, now: int, number: int, payload: Buffer = b"") -> bytes:
        """Answers a query that was handed out. Returns the packet to send to the query's address and port."""
        with self._locked():
            payload_arguments, query_number = text_arguments(payload=payload), checked_integer("number", number)
            self._call_and_flush("respond", self._checked_moment(now), query_number, *payload_arguments)
            return self._made_packet()

    def forget(self, number: int) -> None:
        """Forgets a query that won't be answered. Otherwise ``close_due`` forgets it after its deadline."""
        with self._locked():
            self._call_and_flush("forget_query", checked_integer("number", number))

    def close_due(self, now: int) -> List[Closed]:
        """Closes this agent's queries whose deadline is before ``now``, and returns them in the order in which they were fired.

        Queries that were handed out here are forgotten if their deadline is before ``now``.
        """
        with self._locked():
            closed = ctypes.c_size_t()
            self._call_and_flush("close_due", self._checked_moment(now), closed)
            return [self._closed_query(index) for index in range(closed.value)]

    def observe_member(self, time: int) -> None:
        """Observes the time of a member's intent or status. After that the member clock is later than this time."""
        with self._locked():
            self._call_and_flush("observe_member", checked_integer("time", time))

    def next_member_time(self) -> int:
        """Returns the time for an intent of this node.

        The clock is then on the disk, so no later life uses this time again.
        """
        with self._locked():
            time = self.clocks().member
            self.observe_member(time)
            self.save_member_clock()
            return time

    def save_member_clock(self) -> None:
        """Appends the member clock to the file, so that the next life resumes from it."""
        with self._locked():
            self._call_and_flush("save_member_clock")

    def compact(self, lines: Buffer = b"") -> None:
        """Replaces the file's text by a line for each clock.

        If events are kept, lines for the buffers' events and queries follow.

        The host's own lines follow those of the library, in the same replacement of the file. Each of them has to end
        with a newline. The library skips these lines when it reads the file.
        """
        with self._locked():
            self._host_lines = as_bytes("lines", lines)
            try:
                self._call_and_flush("compact")
            finally:
                self._host_lines = b""

    def clocks(self) -> Clocks:
        """Returns the agent's clocks, and the minimum times that it accepts."""
        with self._locked():
            c_clocks = CClocks()
            self._call("clocks", c_clocks)
            return Clocks(*(getattr(c_clocks, field) for field, _ in CClocks._fields_))

    def next_deadline(self) -> Optional[int]:
        """Returns the earliest deadline of this agent's open queries, or None if none is open."""
        with self._locked():
            c_deadline = ctypes.c_uint64()
            code = self._library.next_deadline(self._handle, c_deadline)
            if code == Code.NOTHING:
                return None
            if code != Code.OK:
                raise AgentError(code)
            return c_deadline.value

    def open_queries(self) -> int:
        """Returns how many of this agent's own queries still accept answers."""
        with self._locked():
            count = ctypes.c_size_t()
            self._call("open_queries", count)
            return count.value

    def should_compact(self, limit: int = DEFAULT_SNAPSHOT_LIMIT) -> bool:
        """Returns whether the file has more than ``limit`` bytes, and ``compact`` would remove at least half of them."""
        with self._locked():
            should = ctypes.c_bool()
            self._call("should_compact", checked_integer("limit", limit), should)
            return should.value
