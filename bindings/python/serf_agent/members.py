"""The members in another agent's whole state."""

import ctypes
from dataclasses import dataclass
from typing import Optional, Tuple

from .checks import Buffer, text_arguments
from .errors import AgentError
from .library import CMember, CMembers, Code, Library


@dataclass(frozen=True)
class Members:
    """What a push/pull reports about members.

    It has the sender's member clock, the members' names with their status times, and the names of those that left.
    """

    member_clock: int
    statuses: Tuple[Tuple[bytes, int], ...]
    left: Tuple[bytes, ...]


def state_members(packet: Buffer, library: Optional[Library] = None) -> Optional[Members]:
    """Returns what a push/pull's packet reports about members, or None if the packet is not a push/pull.

    No agent is needed.

    ``Agent.merge`` handles the events of the same packet.
    """
    library = library or Library()
    summary, c_members, names = CMembers(), (CMember * 0)(), ctypes.create_string_buffer(0)
    # The first call returns the sizes, the second the members.
    for _ in range(2):
        c_members, names = (CMember * summary.members)(), ctypes.create_string_buffer(summary.names_len)
        code = library.state_members(*text_arguments(packet=packet), summary, c_members, len(c_members), names, len(names))
        if code == Code.NOTHING:
            return None
        if code != Code.OK:
            raise AgentError(code)
    statuses, left, offset = [], [], 0
    for c_member in c_members:
        name = names.raw[offset : offset + c_member.name_len]
        offset += c_member.name_len
        if c_member.left:
            left.append(name)
        else:
            statuses.append((name, c_member.status_time))
    return Members(summary.member_clock, tuple(statuses), tuple(left))
