"""Why a packet is not a message."""

from dataclasses import dataclass
from typing import Callable, Optional, Union

from .library import Code, CPacketError, PacketErrorKind, Library

WORDS = {
    PacketErrorKind.EMPTY: "the packet is empty",
    PacketErrorKind.UNKNOWN_TYPE: "no message has the type {byte}",
    PacketErrorKind.TRUNCATED: "the packet ends inside the value at {offset}",
    PacketErrorKind.UNSUPPORTED: "the byte {byte:#x} at {offset} doesn't begin a supported value",
    PacketErrorKind.TOO_DEEP: "the array or map at {offset} is inside eight others",
    PacketErrorKind.TRAILING: "the value ends before {offset}, and more bytes follow",
    PacketErrorKind.NOT_A_MAP: "the value is not a map",
    PacketErrorKind.BAD_KEY: "the key at {offset} is not raw",
    PacketErrorKind.TWICE: "the key at {offset} appears for the second time",
    PacketErrorKind.WRONG_KIND: "the value at {offset} has the wrong type",
    PacketErrorKind.OUT_OF_RANGE: "the integer at {offset} is out of range",
    PacketErrorKind.MAX_TIME: "the number at {offset} is not a valid time",
}


@dataclass(frozen=True)
class PacketError:
    """The first error in a packet that is not a message. ``offset`` is in bytes from the packet's first byte, which is its type.

    ``offset`` is 0 if the error has no offset. If the kind is ``UNKNOWN_TYPE`` or ``UNSUPPORTED``,
    ``byte`` is the byte in question, otherwise it is 0.
    """

    kind: PacketErrorKind
    offset: int
    byte: int

    def __str__(self) -> str:
        return WORDS[self.kind].format(offset=self.offset, byte=self.byte)


def read_error(getter: Callable[..., int], packet: Union[bytes, bytearray, memoryview]) -> Optional[PacketError]:
    """Returns the error that a function of the library finds in a packet, or None."""
    c_error = CPacketError()
    code = getter(bytes(packet), len(packet), c_error)
    return PacketError(PacketErrorKind(c_error.kind), c_error.offset, c_error.byte) if code == Code.OK else None


def packet_error(packet: Union[bytes, bytearray, memoryview], library: Optional[Library] = None) -> Optional[PacketError]:
    """Returns why a packet is no message, or None if it is one. No agent is needed."""
    return read_error((library or Library()).packet_error, packet)
