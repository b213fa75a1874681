"""An agent's settings."""

from dataclasses import dataclass

# The minimum and the maximum of each setting, as in the header.
BOUNDS = {
    **dict.fromkeys(("event_buffer", "query_buffer", "responders", "per_time"), (1, 65_536)),
    **dict.fromkeys(("event_limit", "query_limit", "response_limit"), (0, 9_216)),
}
NAME_BOUNDS = (1, 128)


@dataclass(frozen=True)
class Settings:
    """An agent's settings. The default values are Serf's.

    ``event_buffer`` is the number of Lamport times of events that the buffer holds, and ``query_buffer`` the number of
    Lamport times of queries: 1 to 65,536.

    ``event_limit``, ``query_limit`` and ``response_limit`` are the maximum sizes in bytes of a fired event, of a fired query's
    packet, and of a response's packet: at most 9,216. For the last two, 0 stands for 1,024.

    ``responders`` is the maximum number of names that are counted among a query's acks, and among its responses.
    ``per_time`` is the maximum number of events, and of queries, that are accepted with the same Lamport time. Both are
    1 to 65,536.

    With ``ignore_old`` a join ignores the events from before it. With ``keep_events`` the file keeps events and queries, so that
    a restart resumes with those that the buffers held.
    """

    event_buffer: int = 512
    query_buffer: int = 512
    event_limit: int = 512
    query_limit: int = 1024
    response_limit: int = 1024
    responders: int = 1024
    per_time: int = 1024
    ignore_old: bool = False
    keep_events: bool = False


def out_of_bounds(name: bytes, settings: Settings) -> str:
    """Describes the node's name or the first setting that is out of its bounds. Returns an empty text if none is."""
    if not NAME_BOUNDS[0] <= len(name) <= NAME_BOUNDS[1]:
        return f"the name has {len(name)} bytes, and must have {NAME_BOUNDS[0]} to {NAME_BOUNDS[1]}"
    for field, (minimum, maximum) in BOUNDS.items():
        if not minimum <= getattr(settings, field) <= maximum:
            return f"{field} is {getattr(settings, field)}, and must be between {minimum} and {maximum}"
    return ""
