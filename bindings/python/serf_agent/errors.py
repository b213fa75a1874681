"""The error of a call that the library refused."""

from typing import Iterable

from .library import Code
from .results import Event


class AgentError(Exception):
    """The library refused a call with this code.

    The call changed nothing, but a merge without memory keeps what it accepted.

    ``events`` has the events that a merge accepted before its error. Run their handlers, since no later merge hands
    them out again. If a packet is refused with ``Code.NO_MESSAGE``, ``packet_error`` returns the reason. With
    ``Code.BAD_CONFIG`` the message names the setting.
    """

    def __init__(self, code: int, events: Iterable[Event] = (), said: str = "") -> None:
        self.code = Code(code)
        super().__init__(f"{said or self.code.text} ({self.code.name})")
        self.events = tuple(events)
