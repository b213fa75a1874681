"""By hand, since it needs Go and Serf's sources: how many events a second a node of our package `serf` fires, compared with Serf's own.

    tests/by_hand/package_speed.py [--rounds N] [--on FOLDER] [--library FOLDER] [--other PROGRAM]
    tests/by_hand/package_speed.py --build FOLDER [--library FOLDER]

`bindings/go/beside_serf/firing` is compiled with either package. By turns each fires with 1, 8 and 32 callers on a snapshot in the
folder, and with 8 callers in memory. A line has the median of the rounds, the minimum and the maximum, how many events never arrived
on EventCh, and the memory after 100,000 events.

Then 32 connections fire by the RPC of an agent, on snapshots: Serf's own, Serf's own program over our package, and ours, each with its
default log level (info), and with a log of errors only.

To compare two commits, run --build in a clone of one of them: it leaves the programs firing-stock and firing-ours in the folder. Then
pass that firing-ours to --other in the other clone. It takes its turns too, and nothing is fired by RPC.
"""

import argparse
import os
import shutil
import statistics
import subprocess
import sys
import tempfile

sys.path.insert(0, os.path.dirname(os.path.abspath(__file__)))
sys.dont_write_bytecode = True
import agent_cluster_kit as kit
import c_library
import serf_package
from agent_cluster_kit import Agent

FIRING = os.path.join(kit.TOP, "bindings", "go", "beside_serf", "firing", "main.go")

# How many callers, whether on a snapshot, and how many events.
RUNS = [(1, True, 6000), (8, True, 40000), (32, True, 100000), (8, False, 100000)]

CONNECTIONS, BY_RPC = 32, 100000

LEVELS = ("info", "err")


def build(folder, library):
    """The program over each package."""
    ours = serf_package.laid(folder, os.path.join(library, "libserf_agent_c.a"))
    programs = {}
    for kind, env in (("stock", {**ours, "GOPATH": kit.GOCODE}), ("ours", ours)):
        programs[kind] = os.path.join(folder, f"firing-{kind}")
        subprocess.run(["go", "build", "-o", programs[kind], FIRING], check=True, env=env, cwd=folder)
    return programs


def fired(program, folder, callers, on_file, events):
    path = os.path.join(tempfile.mkdtemp(dir=folder), "snapshot") if on_file else "-"
    said = subprocess.run([program, path, str(callers), str(events)], check=True, stdout=subprocess.PIPE, text=True).stdout.split()
    return float(said[0]), events - int(said[1]), int(said[2]) / 1024


def by_rpc(programs, agent, level):
    """Events a second by so many connections to an agent that is alone, on a snapshot."""
    agent.words = ["-snapshot", agent.snapshot, "-log-level", level]
    agent.start()
    try:
        said = subprocess.run(
            [programs["stock"], f"rpc:{agent.rpc}", str(CONNECTIONS), str(BY_RPC)], check=True, stdout=subprocess.PIPE, text=True
        ).stdout
        return float(said)
    finally:
        agent.end()


def by_turns(kinds, rounds, run):
    """The results of each kind, round by round: all kinds take their turn in each."""
    found = {kind: [] for kind in kinds}
    for at in range(1, rounds + 1):
        for kind in kinds:
            found[kind].append(run(kind, at))
    return found


def main():
    parser = argparse.ArgumentParser(description=__doc__, formatter_class=argparse.RawDescriptionHelpFormatter)
    parser.add_argument("--rounds", type=int, default=3)
    parser.add_argument("--on", help="the folder, and so the disk, of the snapshots")
    parser.add_argument("--library", default=os.path.dirname(c_library.LIBRARY))
    parser.add_argument("--build", metavar="FOLDER", help="only leave the programs in a folder")
    parser.add_argument("--other", metavar="PROGRAM", help="firing-ours of another commit, which takes its turns too")
    options = parser.parse_args()
    missing = kit.missing_command()
    if missing:
        sys.exit(f"it needs {missing}")
    if options.build:
        os.makedirs(options.build, exist_ok=True)
        print(*build(os.path.abspath(options.build), options.library).values(), sep="\n")
        return 0
    folder = tempfile.mkdtemp(prefix="package-speed-", dir=options.on)
    try:
        programs = build(folder, options.library)
        if options.other:
            programs["other"] = options.other
        for callers, on_file, events in RUNS:
            found = by_turns(programs, options.rounds, lambda kind, _: fired(programs[kind], folder, callers, on_file, events))
            for kind in programs:
                speeds, lost, memory = zip(*found[kind])
                where = "on a snapshot" if on_file else "in memory"
                print(
                    f"{kind}, {callers} callers {where}: {statistics.median(speeds):.0f} events a second ({min(speeds):.0f} to {max(speeds):.0f}), {max(lost)} of {events} never arrived, {max(memory):.1f} MiB",
                    flush=True,
                )
        if options.other:
            return 0
        over = kit.build_serf(tempfile.mkdtemp(dir=folder), options.library)
        agents = {"stock": ["serf", "agent"], "cmd/serf over ours": [over, "agent"], "ours": [kit.build(folder, options.library, [])]}
        for level in LEVELS:
            found = by_turns(
                agents,
                options.rounds,
                lambda kind, at: by_rpc(programs, Agent(tempfile.mkdtemp(dir=folder), agents[kind], "node", at, net="127.0.10"), level),
            )
            for kind, speeds in found.items():
                print(
                    f"{kind}, {CONNECTIONS} connections by RPC, log at {level}: {statistics.median(speeds):.0f} events a second ({min(speeds):.0f} to {max(speeds):.0f})",
                    flush=True,
                )
    finally:
        shutil.rmtree(folder)
    return 0


if __name__ == "__main__":
    sys.exit(main())
