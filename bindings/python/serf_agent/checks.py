"""Checks a caller's arguments before ctypes gets them, because ctypes silently cuts a number to the width of its field."""

import operator
from typing import Any, List, Union

# The types that are accepted as bytes.
Buffer = Union[bytes, bytearray, memoryview]


def checked_integer(name: str, value: Any, bits: int = 64, signed: bool = False) -> int:
    """Returns an integer of at most this many bits.

    A number that doesn't fit raises ``OverflowError``, and another type ``TypeError``.
    """
    number = operator.index(value)
    minimum, maximum = (-(1 << bits - 1), (1 << bits - 1) - 1) if signed else (0, (1 << bits) - 1)
    if not minimum <= number <= maximum:
        raise OverflowError(f"{name} is {number}, and must be between {minimum} and {maximum}")
    return number


def checked_bool(name: str, value: object) -> bool:
    """Returns a ``bool``. Anything else raises ``TypeError``."""
    if not isinstance(value, bool):
        raise TypeError(f"{name} must be a bool, and has the type {type(value).__name__}")
    return value


def as_bytes(name: str, value: Any) -> bytes:
    """Returns the bytes of a bytes-like object. Anything else raises ``TypeError``."""
    try:
        # bytes(value) alone would accept 5 as five zero bytes, and [5] as one byte.
        return bytes(memoryview(value))
    except TypeError:
        raise TypeError(f"{name} must be bytes, and has the type {type(value).__name__}") from None


def text_arguments(**named: object) -> List[Any]:
    """Returns the library's arguments for texts: each one's bytes and length. Other types raise ``TypeError``."""
    return [argument for name, value in named.items() for data in [as_bytes(name, value)] for argument in (data, len(data))]
