"""By hand, since it needs Go, Serf and its sources: kills, losses and cuts in a cluster of three kinds of agents.

    tests/by_hand/agent_cluster.py [--minutes M] [--kills N] [--events N] [--stock N] [--ours N] [--serf N] [--lose SHARE]
                                   [--repeat SHARE] [--calm] [--cut-every SECONDS] [--keep-events N] [--retry-join]
                                   [--rest SECONDS] [--seed S] [--net ADDRESS] [--library FOLDER] [--agent PROGRAM]
                                   [--judge PROGRAM] [--keep]

There are stock agents (3), ours (3), and Serf's own program over our package `serf` (2). Some of ours keep their events (2).
Events and queries are fired at random nodes in bursts, and a random node is killed by SIGKILL and started again on its snapshot,
its only way to rejoin. Ours and those over the package lose packets and repeat them, and are cut off from a random half of all
nodes for 2 to 8 seconds, again and again (by the transport in bindings/go/serf); --calm leaves that out. --cut-every is
the average time between two cuts, in seconds (6). The more often kills and cuts happen, the more events leave the windows of
the nodes that had them before the others receive them. A node that starts while it is cut off from all that it knows doesn't try
again, and may stay alone; with --retry-join all but stock agents keep trying. The run ends after so many minutes, kills or events,
whichever is first. Then the cluster rests for --rest seconds after all nodes see one another (120, or 5 if no agent keeps its events:
a node gets what it lacks from the states, which agents exchange every 30 seconds). Then `serf-replay judge` reads the log of all
handlers except stock's, with their snapshots, and the records of ours have to be attested, with these logs and files
(`tests/attestation.py`).

The script fails if a handler ran an event or a query twice, except on a stock agent, if the judge finds an error, or if the records aren't
attested. It also prints
how often stock's handlers ran something twice, and for each kind how many of the accepted events never ran; those of ours that keep
their events are a separate kind. Events that only their firer ever had are counted separately: no other handler ran them, and no
other file that keeps events has them. For ours the script prints why: by their records, and for those that keep their events by their
files as the kills left them. One process writes each handler's line, so that few events wait for their handlers when a node is killed.
"""

import argparse
import collections
import os
import random
import shutil
import subprocess
import sys
import tempfile
import time

sys.path.insert(0, os.path.dirname(os.path.abspath(__file__)))
sys.dont_write_bytecode = True
import agent_cluster_kit as kit
import attestation
import c_library
import checks

sys.path.insert(0, os.path.join(kit.TOP, "conformance", "python"))
from serf_agent import kept
from agent_cluster_kit import Agent, until

# The end of the name of the log of a node's handlers.
LOGS = ".events"

# What the handlers do: a line for the judge. Names and payloads have no space here.
LINES = {
    "user": 'read -r text; echo "event $SERF_SELF_NAME $SERF_USER_LTIME $SERF_USER_EVENT $text"',
    "query": 'read -r text; echo "query $SERF_SELF_NAME $SERF_QUERY_LTIME ${text#q}"',
}


def arguments():
    parser = argparse.ArgumentParser(description=__doc__, formatter_class=argparse.RawDescriptionHelpFormatter)
    parser.add_argument("--minutes", type=float, default=60)
    parser.add_argument("--kills", type=int, default=1000)
    parser.add_argument("--events", type=int, default=20000)
    parser.add_argument("--stock", type=int, default=3)
    parser.add_argument("--ours", type=int, default=3)
    parser.add_argument("--serf", type=int, default=2)
    parser.add_argument("--lose", type=float, default=0.1)
    parser.add_argument("--repeat", type=float, default=0.1)
    parser.add_argument("--calm", action="store_true")
    parser.add_argument("--cut-every", type=float, default=6)
    parser.add_argument("--keep-events", type=int, default=2)
    parser.add_argument("--retry-join", action="store_true")
    parser.add_argument("--rest", type=float)
    parser.add_argument("--seed", type=int, default=1)
    parser.add_argument("--net", default="127.0.8")
    parser.add_argument("--library")
    parser.add_argument("--agent")
    parser.add_argument("--judge", default=os.path.join(kit.TOP, "serf-replay"))
    parser.add_argument("--keep", action="store_true")
    return parser.parse_args()


# The kinds of agents: stock, kitchenrue-agent, with -keep-events too, and Serf's own program over our package.
STOCK, OURS, KEEPS, SERF = "stock", "ours", "ours with -keep-events", "serf"


def cluster(folder, programs, asked):
    keep = min(asked.keep_events, asked.ours)
    kinds = [STOCK] * asked.stock + [KEEPS] * keep + [OURS] * (asked.ours - keep) + [SERF] * asked.serf
    agents = []
    for number, kind in enumerate(kinds, 1):
        agent = Agent(folder, programs[kind], f"{kind.split()[0]}{number}", number, net=asked.net)
        agent.kind, agent.is_proved, agent.events = kind, kind != STOCK, os.path.join(folder, agent.name + LOGS)
        agent.left = []
        agent.words = ["-snapshot", agent.snapshot]
        for of, line in LINES.items():
            agent.words += ["-event-handler", f"{of}={line} >>{agent.events}"]
        if kind in (OURS, KEEPS):
            agent.words += ["-record", agent.record, *(["-keep-events"] if kind == KEEPS else [])]
        if agent.is_proved:
            agent.faults = os.path.join(folder, f"{agent.name}.faults")
            agent.env = {**os.environ, "KITCHENRUE_FAULTS": agent.faults}
        agents.append(agent)
    for agent in agents:
        if agent.is_proved and asked.retry_join:
            agent.words += [
                "-retry-interval",
                "1s",
                *(word for other in agents if other is not agent for word in ("-retry-join", other.addr)),
            ]
    return agents


def handler_runs(agent):
    """The events and queries that its handler ran, each as a line, in order."""
    try:
        with open(agent.events, encoding="utf-8") as file:
            return file.read().splitlines()
    except OSError:
        return []


def put_faults(agents, asked, side=()):
    """Makes all but stock agents lose and repeat packets, and cuts those of one side off from all others."""
    for agent in agents:
        if agent.is_proved:
            beyond = [other.addr for other in agents if side and (other in side) != (agent in side)]
            with open(f"{agent.faults}.new", "w", encoding="ascii") as file:
                file.write(f"lose {asked.lose}\nrepeat {asked.repeat}\n" + (f"cut {' '.join(beyond)}\nrefuse streams\n" if beyond else ""))
            os.replace(f"{agent.faults}.new", agent.faults)


class Torment:
    """What happens to the cluster, until the first of its limits."""

    def __init__(self, agents, asked):
        self.agents, self.asked, self.draw = agents, asked, random.Random(asked.seed)
        # the texts of the events that an agent accepted, and its name; how many were fired, and how many queries
        self.taken, self.fired, self.asked_of, self.cuts, self.kills = {}, 0, 0, 0, collections.Counter()
        self.next_kill = time.monotonic() + 2
        self.next_cut, self.mended_at = time.monotonic() + 5, None

    def fire(self):
        up = [agent for agent in self.agents if agent.process.poll() is None]
        for _ in range(self.draw.randint(1, 3)):
            self.fired += 1
            firer = self.draw.choice(up)
            if firer.serf("event", "-coalesce=false", "deploy", f"v{self.fired}")[0] == 0:
                self.taken[f"v{self.fired}"] = firer.name
        self.asked_of += 1
        self.draw.choice(up).serf("query", "-timeout=200ms", "check", f"q{self.asked_of}")

    def cut(self):
        """Cuts nodes off, or ends a cut, when it is time."""
        now = time.monotonic()
        if self.mended_at is None and now > self.next_cut:
            put_faults(self.agents, self.asked, self.draw.sample(self.agents, len(self.agents) // 2))
            self.cuts, self.mended_at = self.cuts + 1, now + self.draw.uniform(2, 8)
        elif self.mended_at is not None and now > self.mended_at:
            put_faults(self.agents, self.asked)
            self.mended_at, self.next_cut = None, now + self.asked.cut_every * self.draw.uniform(0.5, 1.5)

    def kill(self):
        if time.monotonic() > self.next_kill:
            victim = self.draw.choice(self.agents)
            victim.end()
            if victim.kind == KEEPS:
                victim.left.append(text_of(victim.snapshot))
            self.kills[victim.kind] += 1
            time.sleep(self.draw.uniform(0.1, 1.5))
            victim.start()
            self.next_kill = time.monotonic() + self.draw.uniform(0.2, 1.5)

    def run(self):
        end = time.monotonic() + 60 * self.asked.minutes
        while time.monotonic() < end and self.kills.total() < self.asked.kills and self.fired < self.asked.events:
            self.fire()
            time.sleep(self.draw.uniform(0.1, 0.5))
            if not self.asked.calm:
                self.cut()
            self.kill()
        if not self.asked.calm:
            put_faults(self.agents, argparse.Namespace(lose=0, repeat=0))


def run_judge(agents, folder, judge):
    """What the judge reports about all handlers except stock's: its status and its text."""
    log = os.path.join(folder, "proved.log")
    words = [judge, "judge", log]
    with open(log, "w", encoding="utf-8") as file:
        for agent in agents:
            if agent.is_proved:
                file.write("".join(line + "\n" for line in handler_runs(agent)))
                words += ["--kept", f"{agent.name}={agent.snapshot}"]
    result = subprocess.run(words, stdout=subprocess.PIPE, stderr=subprocess.STDOUT, text=True)
    return result.returncode, result.stdout


def text_of(path):
    """The bytes of a file; empty if it doesn't exist."""
    try:
        with open(path, "rb") as file:
            return file.read()
    except OSError:
        return b""


def noted_by(agent):
    """The events that an agent's file kept when it was killed."""
    return {payload.decode() for text in agent.left for _, _, payload in kept.events_in(text)}


def why_by_files(agent, payloads):
    """Why a node of ours whose file keeps events never ran these events, by its file as its kills left it."""
    noted, causes = noted_by(agent), collections.Counter()
    for payload in payloads:
        causes["killed between its line and its handler" if payload in noted else "it has no line: it never arrived, or was too old"] += 1
    return causes


def why(agent, payloads):
    """Why a node of ours never ran these events, by its record."""
    text = ""
    for name in (f"{agent.record}.1", agent.record):
        if os.path.exists(name):
            with open(name, encoding="ascii", errors="replace") as file:
                text += file.read()
    handed = {line.split()[3] for line in text.splitlines() if line.startswith("event ") and len(line.split()) == 5}
    causes = collections.Counter()
    for payload in payloads:
        raw = payload.encode()
        if raw.hex() in handed:
            causes["killed between its line and its handler"] += 1
        elif (b"\xa7Payload" + bytes([0xA0 | len(raw)]) + raw).hex() in text:
            causes[
                "it arrived, and was too old or below the minimum time: a later one was first, or the node was killed after the line"
            ] += 1
        else:
            causes["it never arrived: the node that fired it was killed before it was sent, or nobody kept it"] += 1
    return causes


def lonely(agents, torment):
    """The events that only their firer ever had, as far as handlers and files show."""
    had = {
        agent.name: {line.split()[-1] for line in handler_runs(agent) if line.startswith("event ")} | noted_by(agent) for agent in agents
    }
    return {text for text, firer in torment.taken.items() if not any(text in had[name] for name in had if name != firer)}


def print_results(agents, torment):
    """Prints what happened to each kind: how many repeats each has."""
    repeats, alone = collections.Counter(), lonely(agents, torment)
    print(f"{len(alone)} events that only their firer ever had")
    for kind in (STOCK, OURS, KEEPS, SERF):
        of_kind = [agent for agent in agents if agent.kind == kind]
        once, queries, apart, causes = 0, 0, 0, collections.Counter()
        for agent in of_kind:
            counts = collections.Counter(handler_runs(agent))
            had = {line.split()[-1] for line in counts if line.startswith("event ")}
            missed = torment.taken.keys() - had
            once += len(torment.taken) - len(missed)
            apart += len(missed & alone)
            queries += sum(line.startswith("query ") for line in counts)
            repeats[kind] += sum(count - 1 for count in counts.values())
            if kind in (OURS, KEEPS):
                causes += (why_by_files if kind == KEEPS else why)(agent, missed - alone)
        pairs = len(torment.taken) * len(of_kind)
        if pairs:
            other = pairs - once - apart
            print(
                f"{kind}: {torment.kills[kind]} kills, {once} of {pairs} pairs of an event and a node ran, {queries} of {torment.asked_of * len(of_kind)} of a query and a node, {repeats[kind]} repeats"
            )
            print(f"{kind}, never ran: {apart} that only their firer had, and {other} others, {1000 * other / pairs:.1f} in 1,000")
        for cause, count in causes.most_common():
            print(f"{kind}, of these others: {count}: {cause}")
    return repeats


def programs_of(folder, asked):
    """The three programs."""
    library = asked.library or os.path.dirname(c_library.LIBRARY)
    agent = asked.agent or kit.build(folder, asked.library, ["-tags", "faults"])
    return {
        STOCK: ["serf", "agent"],
        OURS: agent,
        KEEPS: agent,
        SERF: [kit.build_serf(folder, library, ["-tags", "faults"]), "agent"] if asked.serf else None,
    }


def main():
    asked = arguments()
    missing = kit.missing_command()
    if missing:
        sys.exit(f"it needs {missing}")
    folder = tempfile.mkdtemp(prefix="agents-")
    agents = cluster(folder, programs_of(folder, asked), asked)
    torment = Torment(agents, asked)
    try:
        for agent in agents:
            agent.start(*(["-join", agents[0].addr] if agent is not agents[0] else []))
        if not asked.calm:
            put_faults(agents, asked)
        torment.run()
        names = {agent.name for agent in agents}
        whole = until(lambda: all(agent.status(name) == "alive" for agent in agents for name in names), 90)
        time.sleep(asked.rest or (120 if any(agent.kind == KEEPS for agent in agents) else 5))
    finally:
        for agent in agents:
            agent.end()
    print(
        f"{torment.fired} events, {len(torment.taken)} of them accepted, {torment.asked_of} queries, {torment.cuts} cuts, all nodes {'see' if whole else 'do not see'} one another at the end"
    )
    repeats = print_results(agents, torment)
    status, text = run_judge(agents, folder, asked.judge)
    print(text, end="")
    count = checks.Checks()
    attestation.check_attested(count, folder, LOGS)
    if asked.keep:
        print(f"the files are in {folder}")
    else:
        shutil.rmtree(folder)
    good = status == 0 and repeats[OURS] == repeats[KEEPS] == repeats[SERF] == 0 and not count.failed
    print("passed" if good else "FAILED")
    return 0 if good else 1


if __name__ == "__main__":
    sys.exit(main())
