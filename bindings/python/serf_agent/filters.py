"""The filters of a query, which select the nodes that handle it."""

import ctypes
import struct
from typing import Optional, Tuple

from .checks import as_bytes, Buffer, text_arguments
from .errors import AgentError
from .library import CFilters, Code, Library

# The first byte of a tag filter. The agent doesn't know its node's tags (see ``Agent.receive``).
TAG_FILTER = 1

# The first byte of a filter by node names.
NODE_FILTER = 0


def msgpack_head(count: int, short_limit: int, short_type: int, type_16: int, type_32: int) -> bytes:
    """Returns the head of a text or list of ``count`` bytes or items, in the shortest of MessagePack's three forms."""
    if count < short_limit:
        return bytes([short_type | count])
    return struct.pack(">BH", type_16, count) if count < 1 << 16 else struct.pack(">BI", type_32, count)


def raw(name: str, value: Buffer) -> bytes:
    """Returns a text in MessagePack's old form (raw 5, 16 or 32), which Serf writes."""
    text = as_bytes(name, value)
    return msgpack_head(len(text), 32, 0xA0, 0xDA, 0xDB) + text


def node_filter(*names: Buffer) -> bytes:
    """Returns a filter for ``Agent.query`` that the nodes with these names pass."""
    return bytes([NODE_FILTER]) + msgpack_head(len(names), 16, 0x90, 0xDC, 0xDD) + b"".join(raw("name", name) for name in names)


def tag_filter(tag: Buffer, expression: Buffer) -> bytes:
    """Returns a filter for ``Agent.query`` that a node passes if the expression matches a part of its tag.

    Serf reads the expression with Go's package ``regexp``.
    """
    fields = raw("key", b"Expr") + raw("expression", expression) + raw("key", b"Tag") + raw("tag", tag)
    return bytes([TAG_FILTER, 0x82]) + fields


def query_filters(packet: Buffer, library: Optional[Library] = None) -> Optional[Tuple[bytes, ...]]:
    """Returns the filters of a query's packet, in order, or None if the packet is no query. No agent is needed."""
    library = library or Library()
    sizes, lengths, filters = CFilters(), (ctypes.c_size_t * 0)(), ctypes.create_string_buffer(0)
    # The first call returns the sizes, the second the filters.
    for _ in range(2):
        lengths, filters = (ctypes.c_size_t * sizes.filters)(), ctypes.create_string_buffer(sizes.filters_len)
        code = library.query_filters(*text_arguments(packet=packet), sizes, lengths, len(lengths), filters, len(filters))
        if code == Code.NOTHING:
            return None
        if code != Code.OK:
            raise AgentError(code)
    found_filters, offset = [], 0
    for length in lengths:
        found_filters.append(filters.raw[offset : offset + length])
        offset += length
    return tuple(found_filters)
