"""By hand, since it needs Go and Serf's sources: how many events a second agents fire by RPC, each compared with Serf's own.

    tests/by_hand/rpc_speed.py [--connections N] [--rounds N] [--events N] [--level LEVEL] [--on FOLDER] [--library FOLDER]
                               [--other PROGRAM]

In each round, Serf's agent and ours take their turns, each alone, on a fresh snapshot in the folder, and so many connections fire at
it. If `chrt` may do so, the agents and the client run in real-time priority, so that a busy machine disturbs the rounds less. A line
has the median of the events in a second, the median of each round's ratio to Serf's agent with its quartiles, and the agent's processor
time for an event.

To compare two commits, build the agent in a clone of one of them (`agent/build`), and name it by --other.
"""

import argparse
import os
import shutil
import statistics
import subprocess
import sys
import tempfile

sys.path.insert(0, os.path.dirname(os.path.abspath(__file__)))
sys.dont_write_bytecode = True
import agent_cluster_kit as kit
import c_library
import package_speed
from agent_cluster_kit import Agent

# Real-time priority, if it is allowed.
REAL_TIME = ["chrt", "-r", "5"]


def first_words():
    """The words before a program by which it runs in real-time priority, or none."""
    try:
        return REAL_TIME if subprocess.run([*REAL_TIME, "true"], stderr=subprocess.DEVNULL).returncode == 0 else []
    except OSError:
        return []


def processor_seconds(pid):
    """What a process has used so far."""
    with open(f"/proc/{pid}/stat", encoding="ascii", errors="replace") as file:
        words = file.read().rpartition(")")[2].split()
    return (int(words[11]) + int(words[12])) / os.sysconf("SC_CLK_TCK")


def fire(firing, first, agent, asked):
    """Fires at an agent: the events in a second, and the agent's processor time for an event in microseconds."""
    agent.words = ["-snapshot", agent.snapshot, "-log-level", asked.level]
    agent.start()
    try:
        before = processor_seconds(agent.process.pid)
        words = [*first, firing, f"rpc:{agent.rpc}", str(asked.connections), str(asked.events)]
        rate = float(subprocess.run(words, check=True, stdout=subprocess.PIPE, text=True).stdout)
        return rate, 1e6 * (processor_seconds(agent.process.pid) - before) / asked.events
    finally:
        agent.end()


def print_row(kind, found, stock):
    """The line of a kind of agent."""
    ratios = statistics.quantiles([own[0] / other[0] for own, other in zip(found, stock)], n=4)
    rates, times = zip(*found)
    return f"{kind:6} {statistics.median(rates):9,.0f} a second, {ratios[1]:.2f} of stock ({ratios[0]:.2f} to {ratios[2]:.2f}), {statistics.median(times):.0f} us of the processor for an event"


def arguments():
    parser = argparse.ArgumentParser(description=__doc__, formatter_class=argparse.RawDescriptionHelpFormatter)
    parser.add_argument("--connections", type=int, default=32)
    parser.add_argument("--rounds", type=int, default=11)
    parser.add_argument("--events", type=int, default=16000)
    parser.add_argument("--level", default="err", choices=package_speed.LEVELS)
    parser.add_argument("--on", help="the folder for snapshots")
    parser.add_argument("--library", default=os.path.dirname(c_library.LIBRARY))
    parser.add_argument("--other", help="another agent of ours")
    return parser.parse_args()


def main():
    asked = arguments()
    missing = kit.missing_command()
    if missing:
        sys.exit(f"there is no {missing}")
    folder = tempfile.mkdtemp(prefix="rpc-speed-", dir=asked.on)
    try:
        first, firing = first_words(), package_speed.build(folder, asked.library)["stock"]
        agents = {
            "stock": ["serf", "agent"],
            "ours": [kit.build(folder, asked.library, ())],
            **({"other": [asked.other]} if asked.other else {}),
        }
        found, number = {kind: [] for kind in agents}, 0
        for turn in range(asked.rounds):
            for kind in list(agents)[:: -1 if turn % 2 else 1]:
                number += 1
                agent = Agent(
                    tempfile.mkdtemp(dir=folder), [*first, *agents[kind]], "node", 1 + number % 250, net=f"127.0.{20 + number // 250}"
                )
                found[kind].append(fire(firing, first, agent, asked))
        print(f"{asked.connections} connections, log level {asked.level}, load {open('/proc/loadavg', encoding='ascii').read().split()[0]}")
        for kind, results in found.items():
            print(print_row(kind, results, found["stock"]))
    finally:
        shutil.rmtree(folder)
    return 0


if __name__ == "__main__":
    sys.exit(main())
