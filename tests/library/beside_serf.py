"""Nodes of the package serf in Go (`bindings/go/serf`) and stock agents of Serf in one cluster: what each shows of the others, and
that no event and no query runs twice on a node of ours, despite losses, repeats and kills.

    tests/library/beside_serf.py [--library FILE] [--over-ci] [--stock N] [--ours N] [--seconds S] [--seed N] [--judge PROGRAM]
                                 [--keep]

Each node is a separate process with its own loopback address; ours are the program of bindings/go/beside_serf/node. Some of what a
node of ours sends and receives by UDP is lost, repeated or late. Events are fired at random nodes, and a random node is killed
by SIGKILL and started again on its file. If there is a built program (or --judge), `serf-replay judge` reads the log of everything
that was handed out on ours, with their files. If there is a built program, the records of our nodes have to be attested, with these logs
and files (`tests/attestation.py`).

Go, memberlist and Debian's package `serf` have to be installed (`tools/packages`); otherwise the script prints what is missing, and
checks nothing. --library names another static library than that of crates/serf_agent_c, which is built otherwise; --over-ci builds it over
what `rt ci` left, as the gate does. `tests/by_hand/beside_serf_long.py` runs this with twelve nodes, for longer.
"""

import argparse
import collections
import json
import os
import random
import select
import shutil
import signal
import subprocess
import sys
import tempfile
import time

sys.dont_write_bytecode = True
sys.path.insert(0, os.path.dirname(os.path.dirname(os.path.abspath(__file__))))
import attestation
import checks
import c_library
from checks import TOP

sys.path.insert(0, os.path.join(TOP, "tests", "by_hand"))
import agent_cluster_kit as kit
from agent_cluster_kit import until

HANDLER = os.path.join(TOP, "examples", "serf_log_handler.sh")

# The end of the name of the log of what was handed out on a node.
LOGS = ".events"

# The shares of packets that are lost, repeated and late on a node of ours (by the transport in `bindings/go/serf/faults.go`).
CHANCES = "lose 0.15\nrepeat 0.1\nlate 0.2\n"

# How long it may take until something is seen, in seconds: a failed node is suspected for some seconds first.
SEEN = 120

# How often a query is fired at most, since an ack or an answer is one packet, and how long each may take, in seconds.
ASKED, ANSWERED = 10, 4

# The minimum number of kills of each kind, and of events that a node accepted.
MIN_KILLS, MIN_FIRED = 2, 40

# Of 100 events that were fired while a node of ours was up, at least so many have to have run there. An event doesn't count
# if that node, or the one that fired it, was killed within so many seconds after it: it may never have been sent.
MIN_RAN, SENT = 60, 2

# So many events are fired when the cluster is at rest: each has to run on every node of ours.
AT_REST = 10

# For how long no handler has to run before the events are counted, in seconds.
STILL = 2


def build(folder, library):
    """Builds the program of a node of ours: its path, or what went wrong."""
    path = os.path.join(folder, "node")
    flags = c_library.go_flags(os.path.join(library, os.path.basename(c_library.LIBRARY)))
    env = c_library.go_env(c_library.linked_packages(os.path.join(folder, "go")), kit.GOCODE) | flags
    status, output = c_library.ran(["go", "build", "-tags", "faults", "-o", path, "kitchenrue.example/beside_serf/node"], env=env)
    return path, output[-2000:] if status else None


class Stock(kit.Agent):
    """A stock agent, which rejoins only by its snapshot."""

    is_ours = False

    def __init__(self, folder, number, net):
        super().__init__(folder, ["serf", "agent"], f"stock{number}", number, net=net)
        self.events = os.path.join(folder, self.name + LOGS)
        self.words = ["-snapshot", self.snapshot, "-tag", "kind=stock", "-event-handler", f"user=SERF_LOG={self.events} sh {HANDLER}"]

    def fire(self, name, text):
        """Whether the agent accepted it."""
        return self.serf("event", "-coalesce=false", name, text)[0] == 0

    def seen(self):
        """Each member as this agent shows it: its status and its tags, by its name."""
        status, output = self.serf("members", "-format=json")
        try:
            return {one["name"]: (one["status"], one["tags"]) for one in json.loads(output)["members"]} if status == 0 else {}
        except ValueError:
            return {}


class Ours:
    """A node of ours, which joins all others when it starts."""

    is_ours = True

    def __init__(self, folder, program, number, net):
        self.name, self.addr, self.process = f"ours{number}", f"{net}.{number}", None
        self.snapshot, self.events, self.log, self.faults = (
            os.path.join(folder, self.name + end) for end in (".snapshot", LOGS, ".log", ".faults")
        )
        self.words = [program, "-name", self.name, "-bind", self.addr, "-snapshot", self.snapshot, "-log", self.events]
        self.words += ["-record", os.path.join(folder, f"{self.name}.record")]
        self.tags, self.others = {"kind": "ours", "node": self.name}, []
        self.put_faults()

    def put_faults(self, beyond=()):
        """What happens to its packets, and which addresses it is cut off from."""
        with open(f"{self.faults}.new", "w", encoding="ascii") as file:
            file.write(CHANCES + f"cut {' '.join(beyond)}\n")
        os.replace(f"{self.faults}.new", self.faults)

    def start(self, *_):
        tags = ",".join(f"{name}={value}" for name, value in self.tags.items())
        with open(self.log, "a", encoding="utf-8") as log:
            more = {"stdin": subprocess.PIPE, "stdout": subprocess.PIPE, "stderr": log, "bufsize": 0, "start_new_session": True}
            self.process = subprocess.Popen([*self.words, "-tags", tags], env={**os.environ, "KITCHENRUE_FAULTS": self.faults}, **more)
        self.answer()
        if self.others:
            self.said("join", *self.others)
        return self

    def answer(self, wait=60):
        """A line that it prints; empty if it prints none in time."""
        ready, _, _ = select.select([self.process.stdout], [], [], wait)
        return self.process.stdout.readline().decode("utf-8", "replace").strip() if ready else ""

    def said(self, *words):
        """What it replies to a command."""
        try:
            self.process.stdin.write((" ".join(words) + "\n").encode())
        except OSError:
            return ""
        return self.answer()

    def fire(self, name, text):
        """Whether the node accepted it."""
        return self.said("fire", name, text).startswith("ok")

    def answers(self):
        """The nodes that acked a query of this node, and the nodes that answered one, since the last call."""
        return [set(names.split(",")) - {"-"} for names in (self.said("answers").split() + ["-", "-", "-"])[1:3]]

    def end(self, how=signal.SIGKILL, wait=20):
        return kit.Agent.end(self, how, wait)


def handler_runs(node, kinds=("event ",)):
    """The events that a node's handler ran, each as a line, in order."""
    try:
        with open(node.events, encoding="utf-8") as file:
            # (a date is before each line that Serf's handler writes)
            lines = [line.split(" ", 1)[1] if line[:1].isdigit() else line for line in file.read().splitlines()]
            return [line for line in lines if line.startswith(kinds)]
    except OSError:
        return []


class Torment:
    """Events that are fired, and nodes of both kinds that are killed in turn and started again."""

    def __init__(self, nodes, draw):
        self.nodes, self.draw = nodes, draw
        # each event's text, with the time at which it was fired, the node that fired it, and the nodes that were up
        self.fired, self.refused, self.kills = {}, 0, []
        self.down = set()

    def fire(self):
        node, at = self.draw.choice([node for node in self.nodes if node not in self.down]), time.monotonic()
        text = f"v{len(self.fired) + self.refused + 1}"
        if node.fire("deploy", text):
            self.fired[text] = at, node, [other for other in self.nodes if other not in self.down]
        else:
            self.refused += 1
        return text

    def count(self, is_ours):
        return sum(node.is_ours == is_ours for _, node in self.kills)

    def kill(self):
        """Kills a node, of the kind that was killed less often, and starts it again."""
        is_ours = self.count(True) <= self.count(False)
        victim = self.draw.choice([node for node in self.nodes if node.is_ours == is_ours])
        victim.end()
        self.kills.append((time.monotonic(), victim))
        self.down.add(victim)
        for _ in range(self.draw.randint(0, 2)):
            self.fire()
        time.sleep(self.draw.uniform(0.1, 0.8))
        victim.start()
        self.down.remove(victim)

    def run(self, seconds):
        """Runs for at least so long, and until enough was fired and killed."""
        end, next_kill = time.monotonic() + seconds, time.monotonic() + 1
        while time.monotonic() < end or min(self.count(True), self.count(False)) < MIN_KILLS or len(self.fired) < MIN_FIRED:
            for _ in range(self.draw.randint(1, 3)):
                self.fire()
            time.sleep(self.draw.uniform(0.1, 0.4))
            if time.monotonic() > next_kill:
                self.kill()
                next_kill = time.monotonic() + self.draw.uniform(0.3, 1.5)

    def due(self, node):
        """The events that were fired while a node was up, and that it had time to receive."""
        def is_killed(at, *those):
            return any(at <= when < at + SENT and victim in those for when, victim in self.kills)

        return {text for text, (at, firer, up) in self.fired.items() if node in up and not is_killed(at, node, firer)}


def see(count, nodes, what, name, status, tags=None):
    """Checks that every stock agent shows a node like this, in time."""
    stock = [node for node in nodes if not node.is_ours]

    def holds():
        return all(
            node.seen().get(name, ("", None)) in ((status, tags),) if tags else node.seen().get(name, ("",))[0] == status for node in stock
        )

    count.check(f"stock shows {name} {what}", until(holds, SEEN), [node.seen().get(name) for node in stock])


def members(count, nodes):
    """What stock agents show of a node of ours in each state."""
    first, other = [node for node in nodes if node.is_ours][:2]
    for node in nodes:
        see(count, nodes, "alive", node.name, "alive", node.tags if node.is_ours else None)
    other.tags = {"kind": "ours", "colour": "green"}
    count.check("the tags are changed", other.said("tags", "kind=ours,colour=green").startswith("ok"))
    see(count, nodes, "with other tags", other.name, "alive", other.tags)
    count.check("it leaves", first.said("leave").startswith("ok"))
    see(count, nodes, "left", first.name, "left")
    first.end()
    first.start()
    see(count, nodes, "alive after its leave", first.name, "alive", first.tags)
    other.end()
    see(count, nodes, "failed after a kill", other.name, "failed")
    count.check("ours shows it failed", until(lambda: f"{other.name}=failed" in first.said("members"), SEEN), first.said("members"))
    other.start()
    see(count, nodes, "alive after a kill", other.name, "alive", other.tags)


def asked(count, nodes):
    """Queries in both directions, and one with a filter of tags."""
    stock, ours = next(node for node in nodes if not node.is_ours), [node for node in nodes if node.is_ours]
    wanted = {node.name for node in ours}

    def answered(*words):
        found = set()
        for _ in range(ASKED):
            # (packets are lost)
            found |= {name for name in wanted if f"Response from '{name}'" in stock.serf("query", "-timeout=2s", *words, "who")[1]}
            if found == wanted:
                break
        return found

    count.check("ours answer a query with a filter of tags", answered("-tag", "kind=^ours$") == wanted)
    said = stock.serf("query", "-timeout=1s", "-tag", "kind=^none$", "who")[1]
    count.check("nobody answers another tag's", "Response from" not in said, said)
    acks, responses = set(), set()

    def heard():
        for found, more in zip((acks, responses), ours[0].answers()):
            found |= more
        return acks == {node.name for node in nodes} and responses == wanted

    for _ in range(ASKED):
        ours[0].said("query", "who")
        if until(heard, ANSWERED):
            break
    count.check("a query of ours is acked by all, and answered by ours", heard(), (acks, responses))


def run_judge(nodes, folder, judge):
    """What the judge reports on the events and queries that ran on ours: its status and its text."""
    log = os.path.join(folder, "ours.log")
    words = [judge, "judge", log]
    with open(log, "w", encoding="utf-8") as file:
        for node in nodes:
            if node.is_ours:
                file.write("".join(line + "\n" for line in handler_runs(node, ("event ", "query "))))
                words += ["--kept", f"{node.name}={node.snapshot}"]
    return c_library.ran(words)


def still(nodes):
    """Waits until no handler runs any more, and returns what ran on each node."""
    last, since = None, time.monotonic()

    def is_still():
        nonlocal last, since
        now = [len(handler_runs(node)) for node in nodes]
        if now != last:
            last, since = now, time.monotonic()
        return time.monotonic() - since > STILL

    until(is_still, SEEN)
    return {node: handler_runs(node) for node in nodes}


def at_rest(count, torment, nodes):
    """Events that are fired when all nodes are up, without kills: each runs on every node of ours."""
    # (by then each node knows the others' times, so that none of these is too old)
    still(nodes)
    texts = {torment.fire() for _ in range(AT_REST)}
    count.check("events at rest are accepted", texts <= set(torment.fired), torment.refused)
    for node in nodes:
        if node.is_ours:
            lacks = lambda: texts - {line.split()[-1] for line in handler_runs(node)}
            count.check(f"each event at rest ran on {node.name}", until(lambda: not lacks(), SEEN), lacks())


def torn(count, nodes, asked_, folder):
    """Kills, losses and events, and what the handlers ran."""
    torment = Torment(nodes, random.Random(asked_.seed))
    torment.run(asked_.seconds)
    names = {node.name for node in nodes}
    stock = [node for node in nodes if not node.is_ours]
    whole = until(lambda: all(sum(status == "alive" for status, _ in node.seen().values()) == len(names) for node in stock), SEEN)
    count.check("all are alive at the end", whole, [node.seen() for node in stock])
    at_rest(count, torment, nodes)
    told = collections.Counter()
    for node, lines in still(nodes).items():
        counts = collections.Counter(lines)
        twice = [line for line, times in counts.items() if times > 1]
        told[node.is_ours, "once"] += len(counts)
        told[node.is_ours, "twice"] += len(twice)
        if node.is_ours:
            count.check(f"no event ran twice on {node.name}", not twice, twice)
            due = torment.due(node)
            found = due & {line.split()[-1] for line in counts}
            print(f"{node.name}: {len(found)} ran of {len(due)} that it was up for")
            count.check(f"most events ran on {node.name}", 100 * len(found) >= MIN_RAN * len(due), f"{len(found)} of {len(due)}")
    print(
        f"{len(torment.fired)} events, {torment.refused} refused; stock: {torment.count(False)} kills, {told[False, 'twice']} repeats, {told[False, 'once']} ran; "
        f"ours: {torment.count(True)} kills, {told[True, 'twice']} repeats, {told[True, 'once']} ran"
    )
    judge = asked_.judge or checks.PROGRAM
    if not os.path.exists(judge):
        print(f"not run: the judge, since {judge} isn't built")
        return
    status, text = run_judge(nodes, folder, judge)
    count.check("the judge", status == 0 and "Once: holds" in text, f"{status}: {text}")


def cluster(folder, program, asked_):
    """The nodes, stock's first. The addresses depend on this process, so that two runs don't meet."""
    net = f"127.{10 + os.getpid() % 240}.{os.getpid() // 240 % 250}"
    nodes = [Stock(folder, number, net) for number in range(1, asked_.stock + 1)]
    for number in range(asked_.stock + 1, asked_.stock + asked_.ours + 1):
        nodes.append(Ours(folder, program, number, net))
    return nodes


def run(count, asked_, library, folder):
    program, fault = build(folder, library)
    count.check("the node builds", fault is None, fault)
    if fault:
        return
    nodes = cluster(folder, program, asked_)
    try:
        for node in nodes:
            node.start(*(["-join", nodes[0].addr] if node is not nodes[0] else []))
            if node.is_ours:
                node.others = [other.addr for other in nodes if other is not node]
                node.said("join", *node.others)
        members(count, nodes)
        asked(count, nodes)
        torn(count, nodes, asked_, folder)
    finally:
        for node in nodes:
            node.end()
    attestation.check_attested(count, folder, LOGS)


def main():
    parser = argparse.ArgumentParser(description=__doc__, formatter_class=argparse.RawDescriptionHelpFormatter)
    parser.add_argument("--library")
    parser.add_argument("--over-ci", action="store_true")
    parser.add_argument("--stock", type=int, default=2)
    parser.add_argument("--ours", type=int, default=3)
    parser.add_argument("--seconds", type=float, default=25)
    parser.add_argument("--seed", type=int, default=1)
    parser.add_argument("--judge")
    parser.add_argument("--keep", action="store_true")
    asked_ = parser.parse_args()
    count = checks.Checks()
    missing = kit.missing_command()
    if missing:
        print(f"not run, since {missing} is missing")
        return count.finish()
    fault = None if asked_.library else c_library.fault_of_library(asked_.over_ci)
    if fault:
        count.check("the library is built", False, fault)
        return count.finish()
    folder = tempfile.mkdtemp(prefix="beside-serf-")
    try:
        run(count, asked_, os.path.dirname(os.path.abspath(asked_.library or c_library.LIBRARY)), folder)
    finally:
        if asked_.keep:
            print(f"the files are in {folder}")
        else:
            shutil.rmtree(folder)
    return count.finish()


if __name__ == "__main__":
    sys.exit(main())
