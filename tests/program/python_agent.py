"""The Python agent of conformance/python, compared with the traces of the built program.

Each schedule of examples/ and of tests/rows that is accepted is replayed, and random ones of each kind. Then each agent's
calls go through the pipe's lines in turn, each packet by its bytes, and each reply has to be what the trace shows for
that action: the answer, the packets, the events and the query that was handed out. After that each switch is tried on
the same schedules. The script prints the names of the switches that no schedule shows, and how many are
shown. For a sample of the switches, `conform --random 1-200 --shrink` reduces the calls, and the median of their number is
printed.

Of the random schedules, only those of the kind `kept` have agents that keep their events. So the rows of these agents (`keeps_` in
tests/rows), and dialogues of the pipe in tests/program/python_agent/dialogues.calls, have to show each switch of this setting.

    tests/program/python_agent.py [--seeds FIRST-LAST] [SCHEDULE..]

--seeds sets the seeds of the random schedules of each kind (1-4 if left out). With files, the script tries only these, and no
switch.
"""

import argparse
import functools
import os
import re
import statistics
import sys

sys.dont_write_bytecode = True
sys.path.insert(0, os.path.dirname(os.path.dirname(os.path.abspath(__file__))))
import checks
import piped_agents

sys.path.insert(0, os.path.dirname(piped_agents.PYTHON_AGENT))
sys.path.insert(0, os.path.join(checks.TOP, "tests", "program", "python_agent"))
import kept_rows
from serf_agent import switches
from serf_agent.pipe import Pipe

# The position of a packet's number in an action's words.
GIVES = {"deliver": 2, "merge": 2}

# At least so many of 100 switches have to be shown.
SHOWN = 95

# One of so many switches is in the sample, and the median of the calls that are left may be at most this.
SAMPLE = 12
CALLS = 6


def random_schedule(kind, seed):
    status, schedule, said = checks.run_program(["random", str(seed), "--kind", kind])
    if status:
        raise RuntimeError(f"random {seed} --kind {kind}: {said}")
    return schedule


def lines_of(schedule):
    """The words of the agents' lines and of the actions' lines."""
    lines = [
        line.split(" ") for line in schedule.decode("ascii", "surrogateescape").split("\n") if not line.startswith("#")
    ]
    lines = [[word for word in line if word] for line in lines]
    lines = [line for line in lines if line]
    return [line[1:] for line in lines if line[0] == "agent"], [line for line in lines if line[0] != "agent"]


@functools.cache
def trace_of(schedule):
    """What the trace shows for each action, and the packets that were sent, by their numbers; None if the schedule is refused."""
    status, trace, _ = checks.run_program(["replay"], schedule)
    if status:
        return None
    shown, packets = {}, []
    for line in trace.decode("ascii").splitlines():
        number, _, text = line.partition(" ")
        words = text.split(" ")
        if words[0] == "sent":
            packets.append(words[2])
            text = f"sent {words[2]}"
        elif words[0] in ("event", "handed"):
            text = " ".join([words[0], *words[2:]])
        shown.setdefault(int(number), []).append(text)
    return shown, packets


def call_of(action, packets):
    """The call of an action, or None if its packet doesn't exist."""
    name, words = action[0], action[1:]
    if name == "inject":
        return None
    words = words[1:]
    if name in GIVES:
        number = int(words[0])
        if number >= len(packets):
            return None
        words = [packets[number], *words[1:]]
    return " ".join([name, *words])


def differs(schedule):
    """At which action the agent's answer differs from the trace, or None; and how many calls were compared."""
    agents, actions = lines_of(schedule)
    traced = trace_of(schedule)
    if traced is None:
        return None, 0
    shown, packets = traced
    compared = 0
    for number, agent in enumerate(agents):
        pipe = Pipe()
        pipe.reply(" ".join(["open", *agent[:6], *(agent[6:] or ["1024"]), "-"]).encode("ascii"))
        for place, action in enumerate(actions, 1):
            if action[0] == "inject" or int(action[1]) != number:
                continue
            # (a packet that is sent later doesn't exist yet)
            if shown[place] == ["refused NoMessage"]:
                continue
            call = call_of(action, packets)
            got = [line for line in pipe.reply(call.encode("ascii")) if not line.startswith("counted ")]
            compared += 1
            if got != shown[place]:
                return f"action {place}, agent {number}: {call[:200]}: expected {shown[place]}, got {got}"[
                    :1500
                ], compared
    return None, compared


def is_shown(name, given):
    """Whether some schedule shows that a body is wrong."""
    switches.chosen.clear()
    switches.choose(name)
    shown = any(differs(schedule)[0] for _, schedule in given)
    switches.chosen.clear()
    return shown


def unshown(given):
    """What is wrong with the switches that these schedules show, or None."""
    elsewhere = (*switches.ONLY_BY_LOOK, *switches.ONLY_BY_KEEPING, *switches.ONLY_BY_HANDLER_LINES)
    names = [name for name in switches.SWITCHES if name not in elsewhere]
    quiet = [name for name in names if not is_shown(name, given)]
    count = len(names) - len(quiet)
    print(f"{count} of {len(names)} switches are shown; not {', '.join(quiet) or 'one is missing'}")
    return None if 100 * count >= SHOWN * len(names) else f"{count} of {len(names)} are shown"


def calls_left(name):
    """How many calls are left in the shortest list that shows a switch, or None."""
    _, report = piped_agents.compare(
        ["--random", "1-200", "--shrink"], [sys.executable, piped_agents.PYTHON_AGENT, "--wrong", name]
    )
    left = re.search(r"^shrunk to (\d+) of ", report, re.M)
    return int(left.group(1)) if left else None


def unshrunk():
    """What is wrong with the shortened schedules of a sample of the switches, or None."""
    elsewhere = (*switches.ONLY_BY_KEEPING, *switches.ONLY_BY_HANDLER_LINES)
    sample = [name for name in switches.SWITCHES if name not in elsewhere][::SAMPLE]
    calls = [calls_left(name) for name in sample]
    calls = [count for count in calls if count is not None]
    median = statistics.median(calls) if calls else 0
    print(f"of {len(sample)} switches {len(calls)} are shrunk, to {median} calls in the median")
    return None if calls and median <= CALLS else f"{calls} calls are left"


def rows_that_show(name):
    """The worked rows of agents that keep their events which show that a body is wrong."""
    switches.chosen.clear()
    switches.choose(name)
    rows = [row for row in kept_rows.names() if kept_rows.fault_of(row)]
    switches.chosen.clear()
    return rows


def kept(count):
    """The worked rows of agents that keep their events, and the switches that they show."""
    for name in kept_rows.names():
        fault = kept_rows.fault_of(name)
        count.check(name, not fault, fault)
    shown = [name for name in switches.ONLY_BY_KEEPING if rows_that_show(name)]
    for name in switches.ONLY_BY_KEEPING:
        count.check(f"{name} is shown", name in shown)
    print(f"{len(shown)} of {len(switches.ONLY_BY_KEEPING)} switches of an agent that keeps its events are shown")


def schedules(asked):
    """The schedules that are tried, by their names: those of the files that are named, or all of them and random ones."""
    if asked.files:
        return [(os.path.basename(path), checks.read(os.path.abspath(path))) for path in asked.files]
    folders = (checks.EXAMPLES, checks.ROWS)
    given = [
        (name, checks.read(folder, name + ".schedule")) for folder in folders for name in checks.names_in(folder)
    ]
    first, _, last = asked.seeds.partition("-")
    seeds = range(int(first), int(last) + 1)
    return given + [(f"{kind} {seed}", random_schedule(kind, seed)) for seed in seeds for kind in checks.KINDS]


def main():
    parser = argparse.ArgumentParser()
    parser.add_argument("--seeds", default="1-4")
    parser.add_argument("files", nargs="*")
    options = parser.parse_args()

    def held(count):
        given, total = schedules(options), 0
        for name, schedule in given:
            fault, compared = differs(schedule)
            count.check(name, not fault, fault)
            total += compared
        print(f"{total} calls compared")
        if not options.files:
            kept(count)
            for name, fault in (("the switches", unshown(given)), ("fewer calls", unshrunk())):
                count.check(name, not fault, fault)

    return checks.over_program(held)


if __name__ == "__main__":
    sys.exit(main())
