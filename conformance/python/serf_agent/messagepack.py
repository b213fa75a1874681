"""MessagePack, as Serf's packets use it: a reader that reports the first error, and a writer of the shortest spellings."""

from .switches import wrong

# How deep arrays and maps may be nested.
DEEPEST = 8

# The same if a switch makes it wrong.
OTHER_DEPTHS = {"any_depth": 1 << 64, "seven_levels": 7, "nine_levels": 9}

SIGNED = {0xD0: 1, 0xD1: 2, 0xD2: 4, 0xD3: 8}
UNSIGNED = {0xCC: 1, 0xCD: 2, 0xCE: 4, 0xCF: 8}
RAW = {0xC4: 1, 0xC5: 2, 0xC6: 4, 0xD9: 1, 0xDA: 2, 0xDB: 4}
BIN = (0xC4, 0xC5, 0xC6)
ARRAYS = {0xDC: 2, 0xDD: 4}
MAPS = {0xDE: 2, 0xDF: 4}

# Values that no message has, and how many bytes follow each if a switch makes the reader ignore it.
FRACTIONS = {0xCA: 4, 0xCB: 8}
EXTENSIONS = {0xD4: 2, 0xD5: 3, 0xD6: 5, 0xD7: 9, 0xD8: 17}


class WireError(Exception):
    """Why a packet is no message, in the words of a trace."""


class Value:
    """A value and the place of its first byte. `kind` is nil, bool, int, raw, array or map."""

    __slots__ = ("kind", "place", "of", "is_bin")

    def __init__(self, kind, place, of, is_bin=False):
        self.kind, self.place, self.of, self.is_bin = kind, place, of, is_bin


class Reader:
    """Reads one value from left to right, and stops at the first error."""

    def __init__(self, data, place):
        self.data, self.place = data, place

    def number(self, first, width, signed=False):
        if self.place + width > len(self.data):
            raise self.truncated(first)
        found = int.from_bytes(self.data[self.place : self.place + width], "big", signed=signed)
        self.place += width
        return found

    def truncated(self, first):
        return WireError(f"Truncated {len(self.data) if wrong('truncated_at_the_end') else first}")

    def unsupported(self, first, byte):
        return WireError(f"Unsupported {byte} {self.place if wrong('unsupported_after_its_byte') else first}")

    def raw(self, first, length, is_bin=False):
        if self.place + length > len(self.data):
            raise self.truncated(first)
        found = self.data[self.place : self.place + length]
        self.place += length
        return Value("raw", first, found, is_bin)

    def deeper(self, first, depth):
        deepest = next((count for name, count in OTHER_DEPTHS.items() if wrong(name)), DEEPEST)
        if depth >= deepest:
            raise WireError(f"TooDeep {first}")
        return depth + 1

    def array(self, first, count, depth):
        """Reads `count` items. The first one that is missing ends the reading, whatever the count is."""
        depth = self.deeper(first, depth)
        return Value("array", first, [self.value(depth) for _ in range(count)])

    def map(self, first, count, depth):
        depth = self.deeper(first, depth)
        return Value("map", first, [(self.value(depth), self.value(depth)) for _ in range(count)])

    def value(self, depth=0):
        first = self.place
        if first >= len(self.data):
            raise WireError(f"Truncated {first}")
        byte = self.data[first]
        self.place += 1
        if byte < 0x80:
            return Value("int", first, byte)
        if byte < 0x90:
            return self.map(first, byte - 0x80, depth)
        if byte < 0xA0:
            return self.array(first, byte - 0x90, depth)
        if byte < 0xC0:
            return self.raw(first, byte - 0xA0)
        if byte >= 0xE0:
            return Value("int", first, byte - 0x100)
        return self.headed(first, byte, depth)

    def headed(self, first, byte, depth):
        """A value whose first byte determines the width of the number after it."""
        if byte == 0xC0:
            return Value("nil", first, None)
        if byte in (0xC2, 0xC3):
            return Value("bool", first, byte == 0xC3)
        if is_left_out(byte):
            raise self.unsupported(first, byte)
        if byte in UNSIGNED:
            return self.shortest(first, byte, self.number(first, UNSIGNED[byte]))
        if byte in SIGNED:
            return self.shortest(first, byte, self.number(first, SIGNED[byte], signed=not wrong("no_sign")))
        if byte in RAW:
            length = self.number(first, RAW[byte])
            if length < 32 and wrong("wide_lengths_refused"):
                raise self.unsupported(first, byte)
            return self.raw(first, length, byte in BIN)
        if byte in ARRAYS:
            return self.array(first, self.number(first, ARRAYS[byte]), depth)
        if byte in MAPS:
            return self.map(first, self.number(first, MAPS[byte]), depth)
        return self.strange(first, byte)

    def shortest(self, first, byte, found):
        """A number, in any form."""
        if wrong("wide_numbers_refused") and pack_int(found)[0] != byte:
            raise self.unsupported(first, byte)
        return Value("int", first, found)

    def strange(self, first, byte):
        """A value that no message has."""
        widths = {**(FRACTIONS if wrong("fractions_passed_over") else {}), **(EXTENSIONS if wrong("extensions_passed_over") else {})}
        if byte not in widths:
            raise self.unsupported(first, byte)
        self.number(first, widths[byte])
        return Value("strange", first, None)


def is_left_out(byte):
    """Whether a switch makes the reader refuse this form."""
    forms = {"no_bin": BIN, "no_short_texts": (0xD9,), "no_signed_forms": SIGNED, "no_wide_lists": (0xDD, 0xDF)}
    return any(byte in those and wrong(name) for name, those in forms.items())


def whole(data, place):
    """The single value from a place to the end."""
    reader = Reader(data, place)
    found = reader.value()
    if reader.place < len(data) and not wrong("trailing_bytes_accepted"):
        raise WireError(f"Trailing {len(data) - 1 if wrong('trailing_at_the_last_byte') else reader.place}")
    return found


def pack_int(n):
    """An integer in its shortest spelling."""
    if 0 <= n < 0x80:
        return bytes([n])
    if -32 <= n < 0:
        return bytes([n + 0x100])
    for head, width in (UNSIGNED if n >= 0 else SIGNED).items():
        if n.bit_length() <= 8 * width if n >= 0 else -(1 << (8 * width - 1)) <= n:
            return bytes([head]) + n.to_bytes(width, "big", signed=n < 0)
    raise OverflowError(n)


def pack_head(count, small, max_small, two, four):
    """The head of a raw, an array or a map."""
    if count <= max_small:
        return bytes([small + count])
    if count < 1 << 16:
        return bytes([two]) + count.to_bytes(2, "big")
    return bytes([four]) + count.to_bytes(4, "big")


def pack_raw(text):
    return pack_head(len(text), 0xA0, 31, 0xDA, 0xDB) + text


def pack_array(items):
    return pack_head(len(items), 0x90, 15, 0xDC, 0xDD) + b"".join(items)


def pack_map(pairs):
    return pack_head(len(pairs), 0x80, 15, 0xDE, 0xDF) + b"".join(pack_raw(key) + value for key, value in pairs)


def pack_bool(flag):
    return b"\xc3" if flag else b"\xc2"


NIL = b"\xc0"
