"""One agent that is driven through `replay`: for the scripts that check the rules.

Each call of agent 0 is a line without the agent's number. The packet of a call is injected before all calls. All lines of an
answer are compared, but a packet is only compared as `sent`, without its bytes.
"""

import os
import sys

import checks

sys.path.insert(0, os.path.join(checks.TOP, "conformance", "python"))
from serf_agent import messages

AGENT = "agent 61 4 4 512 8 keep"
MAX_UINT64 = (1 << 64) - 1

# Calls that more than one script makes.
FIRE, BREAK = "fire 78 - 0", "break append 1"
ASK = "query 100 1 71 - 50 0"


def event(time, name=b"x", payload=b"", coalesce=False):
    return messages.encode_event(messages.UserEvent(time, name, payload, coalesce))


def query(time, id=1, name=b"q", filters=(), flags=0, timeout=1000):
    return messages.encode_query(messages.Query(time, id, b"", 0, b"b", list(filters), flags, 0, timeout, name, b""))


def answer(time, id, source, flags=0, payload=b""):
    return messages.encode_response(messages.Response(time, id, source, flags, payload))


def state(member=0, events=0, queries=0, slots=()):
    """The packet of a push/pull. A slot is its time and its events' names."""
    held = [messages.Slot(time, [messages.Texts(name, b"") for name in names]) for time, names in slots]
    return messages.encode_state(messages.PushPull(member, [], [], events, held, queries))


def deliver(packet, now=0):
    return ("deliver", packet, now)


def merge(packet, mode="sync"):
    return ("merge", packet, mode)


def answers(calls, agent=AGENT):
    """What agent 0 answers to each call, with the lines joined by commas."""
    packets = [call[1] for call in calls if isinstance(call, tuple)]
    lines = [agent, *(f"inject {packet.hex() or '-'}" for packet in packets)]
    taken = 0
    for call in calls:
        if isinstance(call, tuple):
            lines.append(f"{call[0]} 0 {taken} {call[2]}")
            taken += 1
        else:
            word, _, rest = call.partition(" ")
            lines.append(f"{word} 0 {rest}".strip())
    status, out, said = checks.run_program(["replay"], "\n".join(lines).encode())
    found = {}
    for line in out.decode().splitlines():
        number, shown = line.split(" ", 1)
        found.setdefault(int(number), []).append("sent" if shown.startswith("sent ") else shown)
    return [", ".join(found.get(len(packets) + at + 1, [said.decode()])) for at in range(len(calls))]


def rows_of(page):
    """The cells of each row of a page's tables, the heads among them."""
    for line in page.splitlines():
        cells = [cell.strip() for cell in line.strip("|").split("|")]
        if line.startswith("|") and not set(line) <= set("|-"):
            yield cells
