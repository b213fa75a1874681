"""Bursts: many calls, with one flush of the agent's file."""

import ctypes
from dataclasses import dataclass
from types import TracebackType
from typing import Any, Callable, Iterable, List, Optional, Tuple, Type, Union

# agent.py imports this module. So the names of agent.py exist only later, when a function runs.
from . import agent as agents
from .checks import Buffer, checked_bool, checked_integer, text_arguments
from .errors import AgentError
from .library import Code, CParams, DEFAULT_QUERY_TIMEOUT
from .results import Fired, FiredQuery, Received


def c_params(timeout: int, port: int, relay_factor: int, want_ack: bool, no_broadcast: bool, tags_pass: bool) -> CParams:
    """Converts the parameters of a query to C's struct."""
    return CParams(
        checked_integer("timeout", timeout, signed=True),
        checked_integer("port", port, 16),
        checked_integer("relay_factor", relay_factor, 8),
        checked_bool("want_ack", want_ack),
        checked_bool("no_broadcast", no_broadcast),
        checked_bool("tags_pass", tags_pass),
    )


@dataclass(frozen=True)
class Call:
    """A call of a burst.

    It has its name in the library, its arguments, the filters to add first, and the method that reads its result.
    """

    name: str
    arguments: Tuple[Any, ...]
    read: "Callable[[agents.Agent], Union[Received, Fired, FiredQuery]]"
    filters: Tuple[Tuple[Any, ...], ...] = ()


# The outcome of a call of a burst.
CallOutcome = Union[Received, Fired, FiredQuery, AgentError]


class Burst:
    """Calls that an agent makes one after another at the end of a ``with`` block, with a single flush for all of their lines.

    ``outcomes`` has the outcome of each call, in the order of the calls. An outcome is a ``Received``, a ``Fired`` or a
    ``FiredQuery``. If a call was refused, for example because its packet is no message, its outcome is the
    ``AgentError``. ``outcomes`` is empty until all lines are on the disk. If the block raises an exception, no call is
    made.

    If memory runs out, the block's end makes no further call, and raises ``AgentError`` with ``OUT_OF_MEMORY``. The outcomes
    that are in ``outcomes`` then are valid. If there are fewer of them than calls that were made, ``read`` reads the
    others. If the file fails (a ``StoreError``), the agent is closed, and there are no outcomes.
    """

    def __init__(self, agent: "agents.Agent") -> None:
        self.outcomes: List[CallOutcome] = []
        self._agent = agent
        self._calls: List[Call] = []

    def __enter__(self) -> "Burst":
        return self

    def __exit__(self, kind: Optional[Type[BaseException]], _error: Optional[BaseException], _traceback: Optional[TracebackType]) -> None:
        calls, self._calls = self._calls, []
        if kind is None:
            self._run_calls(calls)

    def __len__(self) -> int:
        """Returns the number of calls that wait for the block's end."""
        return len(self._calls)

    def receive(self, now: int, packet: Buffer, tags_pass: bool = False) -> None:
        """Adds a received packet. It has the arguments of ``Agent.receive``."""
        checked_tags_pass = checked_bool("tags_pass", tags_pass)
        moment, (data, length) = self._agent._checked_moment(now), text_arguments(packet=packet)
        self._calls.append(Call("burst_receive", (moment, data, length, checked_tags_pass), lambda agent: agent._received_result(data)))

    def fire(self, name: Buffer, payload: Buffer = b"", coalesce: bool = False) -> None:
        """Adds an event to fire."""
        arguments = (*text_arguments(name=name, payload=payload), checked_bool("coalesce", coalesce))
        self._calls.append(Call("burst_fire", arguments, lambda agent: agent._fired_event_result()))

    def query(
        self,
        now: int,
        id: int,
        name: Buffer,
        payload: Buffer = b"",
        timeout: int = DEFAULT_QUERY_TIMEOUT,
        *,
        filters: Iterable[Buffer] = (),
        addr: Buffer = b"",
        port: int = 0,
        relay_factor: int = 0,
        want_ack: bool = False,
        no_broadcast: bool = False,
        tags_pass: bool = False,
    ) -> None:
        """Adds a query to fire. It has the arguments of ``Agent.query``."""
        query_texts = text_arguments(name=name, payload=payload, addr=addr)
        filter_arguments = tuple(tuple(text_arguments(filter=filter_bytes)) for filter_bytes in filters)
        params = c_params(timeout, port, relay_factor, want_ack, no_broadcast, tags_pass)
        moment, id = self._agent._checked_moment(now), checked_integer("id", id, 32)
        arguments = (moment, id, *query_texts, params)
        self._calls.append(Call("burst_query", arguments, lambda agent: agent._fired_query_result(), filter_arguments))

    def read(self) -> None:
        """Reads the outcomes that could not be read at the block's end because memory ran out."""
        agent, code = self._agent, ctypes.c_uint32()
        with agent._locked():
            while agent._unread:
                agent._call("next", code)
                burst, call = agent._unread.popleft()
                burst.outcomes.append(AgentError(code.value) if code.value else call.read(agent))

    def _run_calls(self, calls: List[Call]) -> None:
        """Makes the calls, flushes their lines to the file together, and reads their outcomes."""
        agent = self._agent
        with agent._locked():
            agent._forget_filters()
            try:
                for call in calls:
                    self._make_call(call)
            finally:
                agent._flush_pending()
                self.read()

    def _make_call(self, call: Call) -> None:
        """Makes a call of a burst, after its filters were added. Its outcome is then unread."""
        agent = self._agent
        agent._stale_filters = bool(call.filters)
        for filter_argument in call.filters:
            agent._call("add_filter", *filter_argument)
        code = getattr(agent._library, call.name)(agent._handle, *call.arguments)
        if code in (Code.OUT_OF_MEMORY, Code.EMPTY):
            raise AgentError(code)
        agent._stale_filters = False
        agent._unread.append((self, call))
