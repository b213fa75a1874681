"""Join and leave intents."""

import ctypes
from dataclasses import dataclass
from typing import Any, Callable, Optional, Union

from .checks import Buffer, checked_bool, checked_integer, text_arguments
from .errors import AgentError
from .packet_error import PacketError, read_error
from .library import CIntent, Code, Library


def read_bytes(getter: Callable[..., int], *arguments: Any) -> bytes:
    """Returns the packet or the line that a function of the library makes without an agent."""
    length, data = ctypes.c_size_t(), ctypes.create_string_buffer(0)
    # The first call returns the length, the second the bytes.
    for _ in range(2):
        data = ctypes.create_string_buffer(length.value)
        code = getter(*arguments, length, data, len(data))
        if code != Code.OK:
            raise AgentError(code)
    return data.raw


@dataclass(frozen=True)
class Join:
    """A join intent: the name of the node that joins, and a time of its member clock."""

    time: int
    node: bytes

    def packet(self, library: Optional[Library] = None) -> bytes:
        """Returns the packet to send. If the time is 2^64 - 1, which is no time: ``AgentError`` with ``EXHAUSTED``."""
        return read_bytes((library or Library()).join_packet, checked_integer("time", self.time), *text_arguments(node=self.node))


@dataclass(frozen=True)
class Leave:
    """A leave intent. ``prune`` is True if the members are to forget the node at once."""

    time: int
    node: bytes
    prune: bool = False

    def packet(self, library: Optional[Library] = None) -> bytes:
        """Returns the packet to send. If the time is 2^64 - 1, which is no time: ``AgentError`` with ``EXHAUSTED``."""
        arguments = checked_integer("time", self.time), *text_arguments(node=self.node), checked_bool("prune", self.prune)
        return read_bytes((library or Library()).leave_packet, *arguments)


def intent(packet: Buffer, library: Optional[Library] = None) -> Union[Join, Leave, None]:
    """Returns a packet's intent, or None if the packet is another message. No agent is needed.

    The content of other messages is not checked. If the packet is no message, or a faulty intent, the function raises
    ``AgentError`` with ``NO_MESSAGE``. ``intent_error`` returns the reason.
    """
    library = library or Library()
    c_intent, node = CIntent(), ctypes.create_string_buffer(0)
    for _ in range(2):
        node = ctypes.create_string_buffer(c_intent.node_len)
        code = library.intent(*text_arguments(packet=packet), c_intent, node, len(node))
        if code == Code.NOTHING:
            return None
        if code != Code.OK:
            raise AgentError(code)
    return Leave(c_intent.time, node.raw, c_intent.prune) if c_intent.leave else Join(c_intent.time, node.raw)


def intent_error(packet: Buffer, library: Optional[Library] = None) -> Optional[PacketError]:
    """Returns why ``intent`` refuses a packet with ``NO_MESSAGE``, or None if it doesn't. No agent is needed."""
    return read_error((library or Library()).intent_error, packet)
