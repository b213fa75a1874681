"""A cluster of nodes of the package serf in Go (`bindings/go/serf`) under kills, whose files keep their events (`KeepEvents`): no event
runs twice on a node, and nearly none is missed.

    tests/library/kept_cluster.py [--library FILE] [--over-ci] [--nodes N] [--kills N] [--seconds S] [--rate N] [--seed N]
                                  [--cut] [--without] [--keep]

Each node is a separate process with its own loopback address. Some of what it sends and receives by UDP is lost, repeated or late,
so that events overtake one another. Events are fired at random nodes. Random nodes are killed by SIGKILL, some of them in
the middle of a firing, and started again on their files; they join all others then. With --cut some nodes are cut off from the
others again and again, for some seconds, and join them afterwards. After enough kills the cluster comes to rest.

An event counts if the node that fired it accepted it. All nodes come back, so each event should run on each node. If a node
missed an event, the cause is one of these, by the node's files as its kills left them:

- in flight: its line was in the file, and its handler never ran;
- overtaken: the node started again on a file by which the event's time was old already;
- other: everything else, such as an event that never arrived.

The script fails if an event ran twice on a node, or if a node missed one event in a thousand or more. With --without the files keep
no events: then missed events are only reported. If there is a built program, the records of the nodes have to be attested, with their logs
and files, and one of them has to have made each packet (`tests/attestation.py`). `tests/by_hand/kept_cluster_long.py` runs both for longer.

Go and the sources of memberlist and of Serf have to be installed (`tools/packages`); otherwise the script prints what is missing, and
checks nothing. --library names another static library than that of crates/serf_agent_c, which is built otherwise; --over-ci builds it
over what `rt ci` left, as the gate does.
"""

import argparse
import collections
import os
import random
import re
import shutil
import sys
import tempfile
import threading
import time

sys.dont_write_bytecode = True
sys.path.insert(0, os.path.dirname(os.path.dirname(os.path.abspath(__file__))))
import attestation
import checks
import c_library
from checks import TOP

sys.path[:0] = [os.path.join(TOP, part) for part in ("tests/library", "conformance/python")]
import beside_serf
from beside_serf import kit, handler_runs, until
from serf_agent import kept
from serf_agent.snapshot import values_in

# How often a node exchanges its state with another one. (LAN clusters of Serf do so every 30 seconds.)
STATES = 1

# One of so many pairs of an event and a node may be missed. In a run of fewer than FEW pairs, events in flight don't count.
MISSED, FEW = 1000, 20000

# For how long no handler has to run at the end, and how long it may take until then, in seconds.
STILL, REST = 4 * STATES, 60

# How long a cut lasts, how long there is none, in seconds, and the share of the nodes that are cut off.
CUT, WHOLE, SIDE = (2, 6), (3, 8), 0.34

# The shares of kills in the middle of a firing, and of nodes that may be down at once.
FIRING, DOWN = 0.3, 0.5


class Node(beside_serf.Ours):
    """A node of ours, and its file's texts as its kills left them."""

    def __init__(self, folder, program, number, net, asked):
        super().__init__(folder, program, number, net)
        self.words += ["-states", f"{STATES}s"] + ([] if asked.without else ["-keep"])
        self.left, self.starting = [], None

    def killed(self):
        self.end()
        try:
            with open(self.snapshot, "rb") as file:
                self.left.append(file.read())
        except OSError:
            self.left.append(b"")

    def start_soon(self, wait):
        """Starts it again after so many seconds, in the background."""

        def begin():
            time.sleep(wait)
            self.start()

        self.starting = threading.Thread(target=begin)
        self.starting.start()

    def cut(self, others):
        """Cuts it off from exactly these others; then it joins all others."""
        self.put_faults([other.addr for other in others])
        if self.is_up() and not others:
            # (it reads every tenth of a second what it is cut off from)
            time.sleep(0.2)
            self.said("join", *self.others)

    def is_up(self):
        return self.starting is None or not self.starting.is_alive()


class Torment:
    """Events that are fired, and nodes that are killed and started again."""

    def __init__(self, nodes, asked):
        self.nodes, self.asked, self.draw = nodes, asked, random.Random(asked.seed)
        # (for each event that a node accepted its time, by its text; and the events whose fate is unknown, since the node was killed)
        self.fired, self.unknown, self.kills = {}, set(), 0
        self.cuts, self.side, self.next_cut = 0, [], time.monotonic() + WHOLE[0]

    def up(self):
        return [node for node in self.nodes if node.is_up()]

    def text(self):
        return f"v{len(self.fired) + len(self.unknown) + 1}"

    def fire(self):
        text, node = self.text(), self.draw.choice(self.up())
        answer = node.said("fire", "deploy", text).split()
        if answer[:1] == ["ok"]:
            self.fired[text] = int(answer[1])
        else:
            self.unknown.add(text)

    def kill(self):
        """Kills a node, if enough are up, and has it start again soon."""
        up = self.up()
        if len(up) <= len(self.nodes) * DOWN:
            return
        victim = self.draw.choice(up)
        if self.draw.random() < FIRING:
            text = self.text()
            self.unknown.add(text)
            victim.process.stdin.write(f"fire deploy {text}\n".encode())
            time.sleep(self.draw.uniform(0, 0.004))
        victim.killed()
        self.kills += 1
        victim.start_soon(self.draw.uniform(0.1, 1.5))

    def cut(self):
        """Cuts some nodes off, or ends a cut, when it is time."""
        if time.monotonic() < self.next_cut:
            return
        if self.side:
            self.side = []
        else:
            self.side, self.cuts = self.draw.sample(self.nodes, round(SIDE * len(self.nodes))), self.cuts + 1
        for node in self.nodes:
            node.cut([other for other in self.nodes if self.side and (other in self.side) != (node in self.side)])
        self.next_cut = time.monotonic() + self.draw.uniform(*(CUT if self.side else WHOLE))

    def run(self):
        end, next_kill = time.monotonic() + self.asked.seconds, 0
        while time.monotonic() < end or self.kills < self.asked.kills:
            for _ in range(self.draw.randint(1, 3)):
                self.fire()
            time.sleep(self.draw.expovariate(self.asked.rate / 2))
            if self.asked.cut:
                self.cut()
            if time.monotonic() > next_kill:
                self.kill()
                next_kill = time.monotonic() + self.draw.uniform(0.1, 0.6)

    def rest(self):
        """Starts all nodes that are down, and waits until no handler runs any more and no event is missing that may still arrive."""
        for node in self.nodes:
            if node.starting is not None:
                node.starting.join()
        for node in self.nodes if self.asked.cut else []:
            node.cut([])
        last, since = None, time.monotonic()

        def is_still():
            nonlocal last, since
            now = [len(handler_runs(node)) for node in self.nodes]
            if now != last:
                last, since = now, time.monotonic()
            return time.monotonic() - since > STILL

        # (on a busy machine, a node may still be joining the others)
        until(lambda: is_still() and (self.asked.without or not Outcome(self, False).missed["other"]), REST)
        return is_still()


def noted(text):
    """The events that have their own lines in a file's text, as times and texts."""
    return {(time, payload.decode("ascii", "replace")) for time, _, payload in kept.events_in(text)}


def cause(node, text, time, without):
    """Why a node missed an event, by its files as its kills left them."""
    if without:
        # (the clock line of exactly this time, and no event of this time ran)
        has_line = any(re.search(rb"^event-clock: 0*%d$" % time, left, re.M) for left in node.left)
        if has_line and not any(line.split()[2] == str(time) for line in handler_runs(node)):
            return "in flight"
        is_old = any(values_in(left)["event-clock"] >= time for left in node.left)
    else:
        if any((time, text) in noted(left) for left in node.left):
            return "in flight"
        is_old = any(kept.min_in(left, kept.EVENTS) > time for left in node.left)
    return "overtaken" if is_old else "other"


class Outcome:
    """What ran on the nodes, compared with what was fired."""

    def __init__(self, torment, without):
        self.once = self.twice = 0
        self.missed = collections.Counter()
        for node in torment.nodes:
            counts = collections.Counter(line.split()[-1] for line in handler_runs(node))
            self.twice += sum(count - 1 for count in counts.values())
            self.once += sum(text in counts for text in torment.fired)
            for text, at in torment.fired.items():
                if text not in counts:
                    self.missed[cause(node, text, at, without)] += 1
        self.pairs = len(torment.fired) * len(torment.nodes)

    def said(self):
        causes = ", ".join(f"{self.missed[name]} {name}" for name in ("overtaken", "in flight", "other"))
        share = 1000 * self.missed.total() / max(self.pairs, 1)
        return (
            f"{self.once:,} of {self.pairs:,} pairs of an event and a node ran; {self.missed.total()} missed, {share:.2f} in 1,000 "
            f"({causes}); {self.twice} ran twice"
        )


def cluster(folder, program, asked):
    """The nodes. The addresses depend on this process, so that two runs don't meet."""
    net = f"127.{10 + os.getpid() % 240}.{os.getpid() // 240 % 250}"
    nodes = [Node(folder, program, number, net, asked) for number in range(1, asked.nodes + 1)]
    for node in nodes:
        node.others = [other.addr for other in nodes if other is not node]
    return nodes


def run(count, asked, library, folder):
    program, fault = beside_serf.build(folder, library)
    count.check("the node builds", fault is None, fault)
    if fault:
        return
    nodes, began = cluster(folder, program, asked), time.monotonic()
    torment = Torment(nodes, asked)
    try:
        for node in nodes:
            node.start()
        torment.run()
        count.check("the cluster comes to rest", torment.rest(), [len(handler_runs(node)) for node in nodes])
    finally:
        for node in nodes:
            node.end()
    told, setting = Outcome(torment, asked.without), "without keep_events" if asked.without else "with keep_events"
    print(
        f"{setting}: {len(nodes)} nodes, {torment.kills} kills, {torment.cuts} cuts, {len(torment.fired):,} events and "
        f"{len(torment.unknown)} of unknown fate, in {time.monotonic() - began:.0f} seconds; {told.said()}",
        flush=True,
    )
    count.check("no event ran twice on a node", told.twice == 0, told.said())
    count.check("there were kills and events", torment.kills >= asked.kills and told.pairs > 0, torment.kills)
    if not asked.without:
        missed = told.missed.total() - (told.missed["in flight"] if told.pairs < FEW else 0)
        count.check(f"less than 1 in {MISSED:,} was missed", MISSED * missed < told.pairs, told.said())
    attestation.check_attested(count, folder, beside_serf.LOGS, "--whole")


def main():
    parser = argparse.ArgumentParser(description=__doc__, formatter_class=argparse.RawDescriptionHelpFormatter)
    parser.add_argument("--library")
    parser.add_argument("--over-ci", action="store_true")
    parser.add_argument("--nodes", type=int, default=4)
    parser.add_argument("--kills", type=int, default=12)
    parser.add_argument("--seconds", type=float, default=6)
    parser.add_argument("--rate", type=float, default=20, help="about how many events a second")
    parser.add_argument("--seed", type=int, default=1)
    parser.add_argument("--cut", action="store_true")
    parser.add_argument("--without", action="store_true")
    parser.add_argument("--keep", action="store_true")
    options = parser.parse_args()
    count = checks.Checks()
    missing = kit.missing_command(["go"])
    if missing:
        print(f"not run, since {missing} is missing")
        return count.finish()
    fault = None if options.library else c_library.fault_of_library(options.over_ci)
    if fault:
        count.check("the library is built", False, fault)
        return count.finish()
    folder = tempfile.mkdtemp(prefix="kept-cluster-")
    try:
        run(count, options, os.path.dirname(os.path.abspath(options.library or c_library.LIBRARY)), folder)
    finally:
        if options.keep:
            print(f"the files are in {folder}")
        else:
            shutil.rmtree(folder)
    return count.finish()


if __name__ == "__main__":
    sys.exit(main())
