"""Fields of Serf's packets, as far as records need them: a message is a type byte and a MessagePack map."""

EVENT, STATE, QUERY = 3, 2, 4

# The value nil.
NIL = b"\xc0"

# The lengths of MessagePack values of a fixed length, by their first byte, with this byte.
FIXED = {0xC0: 1, 0xC2: 1, 0xC3: 1, 0xCA: 5, 0xCB: 9, 0xCC: 2, 0xCD: 3, 0xCE: 5, 0xCF: 9, 0xD0: 2, 0xD1: 3, 0xD2: 5, 0xD3: 9}
FIXED.update({0xD4: 3, 0xD5: 4, 0xD6: 6, 0xD7: 10, 0xD8: 18})

# By their first byte: how many bytes the length has, and how many bytes are between it and the contents.
SIZED = {0xC4: (1, 0), 0xC5: (2, 0), 0xC6: (4, 0), 0xC7: (1, 1), 0xC8: (2, 1), 0xC9: (4, 1), 0xD9: (1, 0), 0xDA: (2, 0), 0xDB: (4, 0)}

# By their first byte: how many bytes the count has, and how many values an item has.
COUNTED = {0xDC: (2, 1), 0xDD: (4, 1), 0xDE: (2, 2), 0xDF: (4, 2)}


def items_of(data, at):
    """The place of the first item of an array or a map, and the number of values in it; or None if there is no array or map here."""
    first_byte = data[at]
    if 0x80 <= first_byte < 0xA0:
        return at + 1, (first_byte & 0x0F) * (2 if first_byte < 0x90 else 1)
    if first_byte in COUNTED:
        size, values = COUNTED[first_byte]
        return at + 1 + size, int.from_bytes(data[at + 1 : at + 1 + size], "big") * values
    return None


def end_of(data, at):
    """Where the value that begins here ends. Values inside others are counted rather than entered, so no packet is too deep."""
    values = 1
    while values:
        first_byte, values, items = data[at], values - 1, items_of(data, at)
        if items:
            at, values = items[0], values + items[1]
        elif first_byte < 0x80 or first_byte >= 0xE0:
            at += 1
        elif first_byte < 0xC0:
            at += 1 + (first_byte & 0x1F)
        elif first_byte in FIXED:
            at += FIXED[first_byte]
        else:
            size, gap = SIZED[first_byte]
            at += 1 + size + gap + int.from_bytes(data[at + 1 : at + 1 + size], "big")
    if at > len(data):
        raise IndexError(at)
    return at


def text_of(value):
    """The bytes of a text, which may be spelled in any way."""
    first_byte = value[0]
    return value[1:] if 0xA0 <= first_byte < 0xC0 else value[1 + SIZED[first_byte][0] :]


def places_of(packet):
    """The fields of a message, in order: each name, and the places at which its value begins and ends. It raises ValueError if the bytes
    are no such message."""
    try:
        at, values = items_of(packet, 1)
        found = []
        for _ in range(values // 2):
            begin = end_of(packet, at)
            end = end_of(packet, begin)
            found.append((text_of(packet[at:begin]), begin, end))
            at = end
    except (IndexError, KeyError, TypeError) as error:
        raise ValueError("not a message") from error
    if at != len(packet):
        raise ValueError("not a message")
    return found


def fields_of(packet):
    """The fields of a message, in order: each name, and the bytes of its value."""
    return [(name, packet[begin:end]) for name, begin, end in places_of(packet)]


def message(kind, fields):
    """The packet of a message with at most 15 fields, whose names have at most 31 bytes."""
    body = b"".join(bytes([0xA0 | len(name)]) + name + value for name, value in fields)
    return bytes([kind, 0x80 | len(fields)]) + body


def with_values(packet, values):
    """The message with these values in place of the ones that it has."""
    return message(packet[0], [(name, values.get(name, value)) for name, value in fields_of(packet)])


def without_members(state):
    """A state without what it says of members, which is the host's part."""
    return with_values(state, {b"StatusLTimes": b"\x80", b"LeftMembers": b"\x90"})


def without_address(query):
    """A query without the address to which answers go and the number of relays, which are the host's part."""
    return with_values(query, {b"Addr": b"\xa0", b"Port": b"\x00", b"RelayFactor": b"\x00"})


def is_tag_filter(query_filter):
    """Whether a filter of a query is a tag filter."""
    return query_filter[:1] == b"\x01"


def filters_of(query):
    """The filters of a query, in order. It raises ValueError if the bytes are no such message."""
    value = dict(fields_of(query)).get(b"Filters", NIL)
    if value == NIL:
        return []
    try:
        at, count = items_of(value, 0)
        found = []
        for _ in range(count):
            end = end_of(value, at)
            found.append(text_of(value[at:end]))
            at = end
    except (KeyError, TypeError) as error:
        raise ValueError("not a list of filters") from error
    return found


def without_tag_filters(query):
    """A query without its tag filters. All its other bytes are the same. It raises ValueError if the bytes are no query with filters."""
    kept = [one for one in filters_of(query) if not is_tag_filter(one)]
    places = [(begin, end) for name, begin, end in places_of(query) if name == b"Filters"]
    if not places:
        raise ValueError("there are no filters")
    begin, end = places[0]
    header = bytes([0x90 | len(kept)]) if len(kept) < 16 else b"\xdc" + len(kept).to_bytes(2, "big")
    return query[:begin] + header + b"".join(raw_text(one) for one in kept) + query[end:]


def raw_text(data):
    """The shortest spelling of a text."""
    length = len(data)
    if length < 32:
        return bytes([0xA0 | length]) + data
    if length < 1 << 16:
        return b"\xda" + length.to_bytes(2, "big") + data
    return b"\xdb" + length.to_bytes(4, "big") + data
