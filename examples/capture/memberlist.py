"""memberlist's frames: what a packet or a connection has of Serf's, and which node has which address."""

import ipaddress
import zlib

STATE, COMPOUND, USER, COMPRESSED, ENCRYPTED, CHECKSUM, LABEL = 6, 7, 8, 9, 10, 12, 244

# The type of message that names a node with its address, and the state in which a whole state lists a node that runs.
ALIVE = 4
RUNS = 0

# How deep frames may be nested, and how many bytes one may unpack to.
MAX_DEPTH = 8
MAX_BYTES = 1 << 26


class FrameError(Exception):
    """Bytes that are no frame."""


def slice_at(data, at, length):
    """Bytes of a packet. It is an error if the packet has fewer."""
    if length < 0 or at + length > len(data):
        raise FrameError("it ends too early")
    return data[at : at + length]


def number_at(data, at, width):
    """An unsigned integer of this many bytes, the highest first."""
    return int.from_bytes(slice_at(data, at, width), "big")


# Of MessagePack, the first byte of a value with a length, and how many bytes the length has.
RAW = {0xC4: 1, 0xC5: 2, 0xC6: 4, 0xD9: 1, 0xDA: 2, 0xDB: 4}
LISTS = {0xDC: 2, 0xDD: 4}
MAPS = {0xDE: 2, 0xDF: 4}
NUMBERS = {0xCC: 1, 0xCD: 2, 0xCE: 4, 0xCF: 8, 0xD0: 1, 0xD1: 2, 0xD2: 4, 0xD3: 8}
WHOLE = {0xC0: None, 0xC2: False, 0xC3: True}


def value_at(data, at, depth=0):
    """A MessagePack value, and the offset of its end."""
    if depth > MAX_DEPTH:
        raise FrameError("a value is too deep")
    first = number_at(data, at, 1)
    at += 1
    if first < 0x80 or first >= 0xE0:
        return first if first < 0x80 else first - 0x100, at
    if first in WHOLE:
        return WHOLE[first], at
    if first in NUMBERS:
        width = NUMBERS[first]
        return int.from_bytes(slice_at(data, at, width), "big", signed=first >= 0xD0), at + width
    if 0xA0 <= first < 0xC0 or first in RAW:
        width = RAW.get(first, 0)
        length = number_at(data, at, width) if width else first & 0x1F
        return slice_at(data, at + width, length), at + width + length
    if 0x90 <= first < 0xA0 or first in LISTS:
        width = LISTS.get(first, 0)
        count = number_at(data, at, width) if width else first & 0x0F
        return items_at(data, at + width, count, depth)
    if first < 0x90 or first in MAPS:
        width = MAPS.get(first, 0)
        count = number_at(data, at, width) if width else first & 0x0F
        items, at = items_at(data, at + width, 2 * count, depth)
        keys = [key if isinstance(key, bytes) else b"" for key in items[::2]]
        return dict(zip(keys, items[1::2])), at
    raise FrameError("a value of MessagePack has a type that is not read here")


def items_at(data, at, count, depth):
    """This many values, one after another, and the offset of their end."""
    items = []
    for _ in range(count):
        item, at = value_at(data, at, depth + 1)
        items.append(item)
    return items, at


def map_at(data, at):
    """A MessagePack map, and the offset of its end."""
    value, at = value_at(data, at)
    if not isinstance(value, dict):
        raise FrameError("a map is missing")
    return value, at


def decompress_lzw(data):
    """The bytes that LZW packed, the lowest bit first, in codes of 9 to 12 bits."""
    clear, end, max_codes = 256, 257, 1 << 12
    output, table, last = bytearray(), [bytes([b]) for b in range(256)] + [b"", b""], None
    width, bit_count, bit_buffer = 9, 0, 0
    for byte in data:
        bit_buffer |= byte << bit_count
        bit_count += 8
        if bit_count < width:
            continue
        code = bit_buffer & ((1 << width) - 1)
        bit_buffer >>= width
        bit_count -= width
        if code == end:
            return bytes(output)
        if code == clear:
            table, last, width = table[:258], None, 9
            continue
        if code < len(table):
            text = table[code]
        elif code == len(table) and last is not None:
            text = last + last[:1]
        else:
            raise FrameError("a code of LZW has no meaning yet")
        output += text
        if len(output) > MAX_BYTES:
            raise FrameError("it unpacks to too much")
        if last is not None and len(table) < max_codes:
            table.append(last + text[:1])
        last = text
        if len(table) + 1 > 1 << width and width < 12:
            width += 1
    raise FrameError("LZW has no end")


def decrypt(data, key, extra):
    """The text that AES-GCM encrypted: it has a version, a nonce of 12 bytes, the text and its tag."""
    if key is None:
        raise FrameError("it is encrypted, and no --key is given")
    try:
        from cryptography.exceptions import InvalidTag
        from cryptography.hazmat.primitives.ciphers.aead import AESGCM
    except ImportError:
        raise FrameError("it is encrypted, and Python has no package `cryptography`") from None
    try:
        text = AESGCM(key).decrypt(slice_at(data, 1, 12), data[13:], extra)
    except (InvalidTag, ValueError):
        raise FrameError("the key doesn't decrypt it") from None
    if data[0] == 0 and text:
        return text[: -text[-1]]
    return text


def split_label(data):
    """A packet without the label of its cluster, and this label."""
    if data[:1] == bytes([LABEL]):
        length = number_at(data, 1, 1)
        return data[2 + length :], slice_at(data, 2, length)
    return data, b""


def messages_of(payload, key, depth=0):
    """memberlist's messages in a UDP packet, without their frames."""
    if depth == 0:
        payload, label = split_label(payload)
        if key is not None:
            payload = decrypt(payload, key, label)
    if depth > MAX_DEPTH:
        raise FrameError("frames are too deep")
    kind = number_at(payload, 0, 1)
    if kind == CHECKSUM:
        if zlib.crc32(payload[5:]) != number_at(payload, 1, 4):
            raise FrameError("the checksum differs")
        yield from messages_of(payload[5:], key, depth + 1)
    elif kind == COMPRESSED:
        packed, _ = map_at(payload, 1)
        yield from messages_of(decompress_lzw(packed.get(b"Buf") or b""), key, depth + 1)
    elif kind == COMPOUND:
        count, at = number_at(payload, 1, 1), 2
        lengths = [number_at(payload, at + 2 * n, 2) for n in range(count)]
        at += 2 * count
        for length in lengths:
            yield from messages_of(slice_at(payload, at, length), key, depth + 1)
            at += length
    else:
        yield payload


def stream_of(payload, key):
    """What one side of a connection sent, without its frames."""
    payload, label = split_label(payload)
    if payload[:1] == bytes([ENCRYPTED]):
        length = number_at(payload, 1, 4)
        payload = decrypt(slice_at(payload, 5, length), key, payload[:5] + label)
    if payload[:1] == bytes([COMPRESSED]):
        packed, _ = map_at(payload, 1)
        payload = decompress_lzw(packed.get(b"Buf") or b"")
    return payload


def nodes_of_state(payload):
    """The header of a whole state, its nodes, and the offset of Serf's part."""
    header, at = map_at(payload, 1)
    nodes = []
    for _ in range(header.get(b"Nodes") or 0):
        node, at = map_at(payload, at)
        nodes.append(node)
    return header, nodes, at


def state_of(payload, key):
    """What one side of a connection sent to Serf: its kind, whether it is of a join, and the bytes; None if it is anything else."""
    payload = stream_of(payload, key)
    if payload[:1] == bytes([STATE]):
        header, _, at = nodes_of_state(payload)
        return STATE, header.get(b"Join") is True, slice_at(payload, at, header.get(b"UserStateLen") or 0)
    if payload[:1] == bytes([USER]):
        header, at = map_at(payload, 1)
        return USER, False, slice_at(payload, at, header.get(b"UserMsgLen") or 0)
    return None


def listed_nodes(payload, key):
    """The names in a whole state, each with whether that node runs; none if it is no state."""
    payload = stream_of(payload, key)
    nodes = nodes_of_state(payload)[1] if payload[:1] == bytes([STATE]) else []
    return {name: node.get(b"State", RUNS) == RUNS for node in nodes for name in address_of(node).values()}


def address_of(node):
    """The name of a node by its address, if a map has both."""
    name, host, port = node.get(b"Node") or node.get(b"Name"), node.get(b"Addr"), node.get(b"Port")
    if not isinstance(name, bytes) or not isinstance(host, bytes) or len(host) not in (4, 16) or not isinstance(port, int):
        return {}
    host = ipaddress.ip_address(host)
    host = getattr(host, "ipv4_mapped", None) or host
    return {(str(host), port): name.decode("utf-8", "replace")}


def nodes_in(payload, key):
    """The names of addresses, by a packet or one side of a connection."""
    found = {}
    is_state = False
    try:
        stream = stream_of(payload, key)
        is_state = stream[:1] == bytes([STATE])
        for node in nodes_of_state(stream)[1] if is_state else []:
            found.update(address_of(node))
    except FrameError:
        if is_state:
            return found
    if not is_state:
        for message in messages_of(payload, key):
            if message[:1] == bytes([ALIVE]):
                found.update(address_of(map_at(message, 1)[0]))
    return found
