"""Worked rows of agents that keep their events, run on the agent in Python: those of tests/rows whose names begin with `keeps_`.

The file dialogues.calls also has dialogues of the pipe: after a line [NAME], each call, its reply, and a full stop.
"""

import os
import re

import checks
from serf_agent.pipe import Pipe

DIALOGUES = checks.text_of(os.path.dirname(os.path.abspath(__file__)), "dialogues.calls")
NAME = re.compile(r"^\[(\w+)\]\n", re.M)

# The position of a packet's number in an action's words.
GIVEN = {"deliver": 2, "merge": 2}


class Cluster:
    """Agents on the pipe, the packets that they sent, and the trace."""

    def __init__(self, agents):
        self.packets, self.number, self.trace = [], 0, []
        self.pipes = [opened(words) for words in agents]

    def act(self, words):
        self.number += 1
        if words[0] == "inject":
            self.tell(None, ["injected", f"sent {words[1]}"])
            return
        given = words[2:]
        if words[0] in GIVEN:
            given[0] = self.packets[int(given[0])]
        reply = self.pipes[int(words[1])].reply(" ".join([words[0], *given]).encode("ascii"))
        self.tell(int(words[1]), [line for line in reply if not line.startswith("counted ")])

    def tell(self, agent, lines):
        """Adds an action's lines to the trace, with a number for each packet and the agent for each hand-out."""
        for line in lines:
            first, _, rest = line.partition(" ")
            if first == "sent":
                line = f"sent {len(self.packets)} {rest}"
                self.packets.append(rest)
            elif first in ("event", "handed"):
                line = f"{first} {agent} {rest}"
            self.trace.append(f"{self.number} {line}")


def opened(words):
    """An agent on the pipe, from the words of its line."""
    pipe = Pipe()
    pipe.reply(" ".join(["open", *words[:6], *(words[6:] or ["1024"]), "-"]).encode("ascii"))
    return pipe


def trace_of(schedule):
    """The lines of a schedule's trace."""
    lines = [line.split() for line in schedule.splitlines() if line.strip() and not line.startswith("#")]
    cluster = Cluster([words[1:] for words in lines if words[0] == "agent"])
    for words in lines:
        if words[0] != "agent":
            cluster.act(words)
    return cluster.trace


def is_kept(fact, trace):
    if fact.startswith("="):
        number, count = fact[1:].split()
        return sum(line.split(" ")[0] == number for line in trace) == int(count)
    return fact in trace


def dialogue(text):
    """The calls of a dialogue, each with its reply."""
    found, lines = [], []
    for line in text.splitlines():
        if line == ".":
            found.append((lines[0], lines[1:]))
            lines = []
        elif line and not line.startswith("#"):
            lines.append(line)
    return found


def unlike(text):
    """The first difference in a dialogue, or None."""
    pipe = Pipe()
    for call, wanted in dialogue(text):
        got = pipe.reply(call.encode("ascii"))
        if got != wanted:
            return f"{call}: expected {wanted}, got {got}"
    return None


def dialogues():
    """The text of each dialogue, by its name."""
    _, *parts = NAME.split(DIALOGUES)
    return dict(zip(parts[::2], parts[1::2]))


def fault_of(name):
    """What is different in a row, or None."""
    calls = dialogues().get(name)
    if calls is not None:
        return unlike(calls) if dialogue(calls) else "there are no calls"
    schedule, kind, wanted = checks.row_of(name)
    trace = trace_of(schedule)
    if kind == "trace":
        return None if trace == wanted.splitlines() else f"the trace differs: {trace}"
    if kind != "lines" or not wanted:
        return "there are no facts"
    missing = [fact for fact in wanted.splitlines() if not is_kept(fact, trace)]
    return f"{missing} in {trace}" if missing else None


def names():
    return sorted([*(name for name in checks.names_in(checks.ROWS) if name.startswith("keeps_")), *dialogues()])
