"""What became of the handlers of events: the lines that a host adds to a snapshot's text, and the events that a text leaves open.

No agent is needed for these functions. docs/HOST.md says when a host writes the lines.
"""

import ctypes
from dataclasses import dataclass
from typing import List, Optional

from .checks import Buffer, checked_integer, text_arguments
from .errors import AgentError
from .intents import read_bytes
from .library import Code, COpenEvent, COpenEvents, Library


@dataclass(frozen=True)
class OpenEvent:
    """An event that was handed out and isn't done. If ``begun`` is False, the event still waits for its handler."""

    time: int
    name: bytes
    payload: bytes
    begun: bool


def open_events(text: Buffer, library: Optional[Library] = None) -> Optional[List[OpenEvent]]:
    """Returns the events that a text leaves open, in the order in which they were handed out.

    The result is None if the text doesn't say what became of handlers, because it has no line of ``done_up_to_line``. If memory
    runs out, the function raises ``AgentError`` with ``OUT_OF_MEMORY``.
    """
    library = library or Library()
    arguments = text_arguments(text=text)
    summary, c_events, texts = COpenEvents(), (COpenEvent * 0)(), ctypes.create_string_buffer(0)
    # The first call returns the sizes, the second the events.
    for _ in range(2):
        c_events, texts = (COpenEvent * summary.events)(), ctypes.create_string_buffer(summary.texts_len)
        code = library.open_events(*arguments, summary, c_events, len(c_events), texts, len(texts))
        if code != Code.OK:
            raise AgentError(code)
    if not summary.tracked:
        return None
    open_list, rest = [], memoryview(texts.raw)
    for c_event in c_events:
        name, payload = rest[: c_event.name_len], rest[c_event.name_len : c_event.name_len + c_event.payload_len]
        rest = rest[c_event.name_len + c_event.payload_len :]
        open_list.append(OpenEvent(c_event.time, bytes(name), bytes(payload), c_event.begun))
    return open_list


def open_line(time: int, name: Buffer, payload: Buffer, library: Optional[Library] = None) -> bytes:
    """Returns the line that opens an event in a text that replaces the file's.

    If the time is 2^64 - 1, which is no valid time, this function and the other three raise ``AgentError`` with
    ``EXHAUSTED``.
    """
    return read_bytes((library or Library()).open_line, checked_integer("time", time), *text_arguments(name=name, payload=payload))


def begun_line(time: int, name: Buffer, payload: Buffer, library: Optional[Library] = None) -> bytes:
    """Returns the line that records that an event's handler has begun. Flush it before the handler starts."""
    return read_bytes((library or Library()).begun_line, checked_integer("time", time), *text_arguments(name=name, payload=payload))


def done_line(time: int, name: Buffer, payload: Buffer, library: Optional[Library] = None) -> bytes:
    """Returns the line that records that an event is done. It can be flushed together with the next bytes."""
    return read_bytes((library or Library()).done_line, checked_integer("time", time), *text_arguments(name=name, payload=payload))


def done_up_to_line(time: int, library: Optional[Library] = None) -> bytes:
    """Returns the line that marks the events of all lines above it as done, up to this time.

    After the first line of this form in a file, no event is open.
    """
    return read_bytes((library or Library()).done_up_to_line, checked_integer("time", time))
