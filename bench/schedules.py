"""schedules.py KIND SIZE: writes a schedule for the bench to standard output.

SIZE is the number of actions for `run`, `one_time`, `newer_times` and `oversize`, and the number of bytes for the others.
"""

import sys


def number(value):
    """A number in its shortest spelling."""
    if value < 128:
        return bytes([value])
    for head, size in ((0xCC, 1), (0xCD, 2), (0xCE, 4)):
        if value < 256**size:
            return bytes([head]) + value.to_bytes(size, "big")
    return b"\xcf" + value.to_bytes(8, "big")


def text(value):
    """A text in its shortest spelling, of at most 65,535 bytes."""
    if len(value) < 32:
        return bytes([0xA0 + len(value)]) + value
    return b"\xda" + len(value).to_bytes(2, "big") + value


def event(time, payload):
    """The packet of a user event."""
    fields = ((b"LTime", number(time)), (b"Name", text(b"deploy")), (b"Payload", text(payload)), (b"CC", b"\xc2"))
    return b"\x03\x84" + b"".join(text(key) + value for key, value in fields)


def agent(name):
    return f"agent {name} 512 512 512 8 keep\n"


def filled(first, lines, size):
    """The first lines, and then as many of the others as fit into `size` bytes."""
    length = sum(map(len, first))
    yield from first
    for line in lines:
        length += len(line)
        if length > size:
            return
        yield line


def forever():
    n = 0
    while True:
        yield n
        n += 1


def injections(size):
    """Events that a stranger sends and nobody receives."""
    lines = (f"inject {event(n % 60000, b'payload').hex()}\n" for n in forever())
    return filled([], lines, size)


def deliveries(size):
    """A hundred agents receive the hundred events of one of them, again and again."""
    first = [agent(f"{n:02x}") for n in range(100)]
    first += [f"fire 0 6465706c6f79 {n:02x} 0\n" for n in range(100)]
    lines = (f"deliver {n % 100} {(n + n // 100) % 100} {n}\n" for n in forever())
    return filled(first, lines, size)


def agents(size):
    """Agents with small buffers."""
    lines = (f"agent {n:064x} 1 1 512 8 keep 1024\n" for n in forever())
    return filled([], lines, size)


# The shortest line of each word, and the lines that have to be before it.
SHORTEST = {
    "saves": ("", "save 0\n"),
    "fires": ("", "fire 0 61 - 0\n"),
    "states": ("", "state 0\n"),
    "merges": ("state 0\n", "merge 0 0 sync\n"),
    "repeats": ("fire 0 61 - 0\n", "deliver 0 0 0\n"),
    "empty_injections": ("", "inject -\n"),
    "queries": ("", "query 0 0 0 - - 1 0\n"),
    "acked_queries": ("", "query 0 0 0 - - 1 1\n"),
    "refused_queries": ("", "query 0 0 0 - - 0 0\n"),
    "responses": ("query 0 0 0 - - 1 0\n", "respond 0 0 0 -\n"),
    "restarts": ("", "restart 0 -\n"),
    "breaks": ("", "break 0 append 1\n"),
    "closes": ("", "close 0 0\n"),
    "compactions": ("", "compact 0\n"),
}


def shortest(kind):
    """Returns a function that makes schedules of a word's shortest line."""
    first, line = SHORTEST[kind]
    return lambda size: filled(["agent 61 1 1 512 8 keep\n", first], (line for _ in forever()), size)


def run(actions):
    """An agent fires events, and another receives each of them."""
    yield agent("61")
    yield agent("62")
    for n in range(actions // 2):
        yield "fire 0 6465706c6f79 7631 0\n"
        yield f"deliver 1 {2 * n} {n}\n"


def hostile(packets, actions):
    """A stranger sends packets, and an agent receives each of them at once."""
    yield agent("61")
    for n in range(actions // 2):
        yield f"inject {packets(n).hex()}\n"
        yield f"deliver 0 {n} {n}\n"


def one_time(actions):
    """Events of one time that are all different."""
    return hostile(lambda n: event(7, b"%d" % n), actions)


def newer_times(actions):
    """Events with increasing times."""
    return hostile(lambda n: event(n + 1, b"v1"), actions)


def oversize(actions):
    """Five hundred events with more bytes than any agent accepts, again and again."""
    yield agent("61")
    for n in range(500):
        yield f"inject {event(n + 1, bytes(9217)).hex()}\n"
    for n in range(actions - 500):
        yield f"deliver 0 {n % 500} {n}\n"


KINDS = {kind.__name__: kind for kind in (injections, deliveries, agents, run, one_time, newer_times, oversize)}
KINDS |= {kind: shortest(kind) for kind in SHORTEST}

if __name__ == "__main__":
    sys.stdout.writelines(KINDS[sys.argv[1]](int(sys.argv[2])))
