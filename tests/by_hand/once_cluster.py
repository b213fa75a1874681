"""By hand, since it kills nodes for half an hour: what becomes of each event in a cluster of our agents and stock agents.

    tests/by_hand/once_cluster.py [--kills N] [--minutes M] [--seed S] [--ours N] [--stock N] [--waiting N] [--rest SECONDS]
                                  [--net ADDRESS] [--agent PROGRAM] [--library FOLDER] [--keep]

The cluster has five agents with `-keep-events` and three stock agents, each with a handler that takes 0 to 200 milliseconds, and writes
a line when it begins and when it ends. Events are fired at random nodes by `serf event`, so fast that about --waiting events always
wait for their handlers. Random nodes are killed by SIGKILL, every second time together with the handler that runs, and some of them
while they start. Each starts again on its snapshot. The run ends after so many kills or minutes, whichever is first. Then the cluster
rests, until no handler of ours has run for --rest seconds (agents exchange their states every 30 seconds) and no event of theirs is
open.

On each node of ours, each event that a `serf event` confirmed and that reached the node has to be exactly one of these: its handler ran
once to its end; it began, was cut off, and a start reported that; or it still waits. No handler may begin twice, and no event may be
without a word. An event has reached a node if its handler began there, or if the node's file had its line at a kill or at the end. What
a node of ours confirmed has to reach all nodes of ours, since a node keeps what it fired. What a stock agent confirmed and never sent
is counted, and so is what became of events on the stock agents, as a measure. Our agents record, and their records have to be attested,
with their files (`tests/attestation.py`). It needs Go and memberlist, or --agent, Debian's `serf`, and the built program for the
records.
"""

import argparse
import collections
import os
import random
import re
import shutil
import signal
import statistics
import sys
import tempfile
import threading
import time

sys.path.insert(0, os.path.dirname(os.path.abspath(__file__)))
sys.dont_write_bytecode = True
import agent_cluster_kit as kit
import attestation
import checks
import once
from agent_cluster_kit import Agent, until

sys.path.insert(0, os.path.join(kit.TOP, "conformance", "python"))
from serf_agent import handlers, kept
from serf_agent.snapshot import lines_of

# How many `serf event` run at once.
CLIENTS = 4

# The share of kills while the node starts, and of the nodes that may be down at once.
STARTING, DOWN = 0.1, 0.5

# How long a handler takes at most, in milliseconds.
LONGEST = 200

# How long the cluster may take to come to rest, in seconds.
REST = 900

HANDLER = 'read number seconds; echo begin $number >>"{0}"; sleep $seconds; echo end $number >>"{0}"'

# What a start reports about a handler that was cut off.
REPORTED = re.compile(r'\[WARN\] agent: a handler of user-event: n \(time \d+, payload "(\d+) [\d.]+"\) began')


class Node(Agent):
    """A node, what its handlers wrote, and its files as its kills left them."""

    def __init__(self, folder, program, kind, number, net):
        super().__init__(folder, program, f"{kind}{number}", number, net=net)
        self.kind, self.handler_log = kind, os.path.join(folder, f"{self.name}.handler")
        self.kills = self.group_kills = self.waited = 0
        # the numbers of the events that its files had, and the thread that starts it
        self.had, self.starting = set(), None

    def settings(self, others):
        self.words = ["-snapshot", self.snapshot, "-event-handler", f"user:n={HANDLER.format(self.handler_log)}"]
        if self.kind == "ours":
            joins = [word for other in others for word in ("-retry-join", other.addr)]
            self.words += ["-keep-events", "-record", self.record, "-retry-interval", "1s", *joins]

    def is_up(self):
        return self.process is not None and self.process.poll() is None and (self.starting is None or not self.starting.is_alive())

    def kill(self, kills_handler):
        """Kills it, with or without the handlers that run, and records what its file has."""
        self.kills, self.group_kills = self.kills + 1, self.group_kills + kills_handler
        if kills_handler:
            # (so the agent starts no other handler meanwhile)
            self.process.send_signal(signal.SIGSTOP)
        handlers_of_it = once.children(self.process.pid) if kills_handler else []
        self.process.kill()
        for pid in handlers_of_it:
            try:
                # a handler of ours has its own process group, and one of a stock agent is in the group of its agent
                os.killpg(os.getpgid(pid), signal.SIGKILL)
            except OSError:
                pass
        self.process.wait()
        self.waited += self.note_file()

    def note_file(self):
        """Records which events its file has, and returns how many of them wait."""
        text = self.text()
        events = [event for event in map(event_of, lines_of(text)) if event]
        self.had |= {number_of(event) for event in events}
        return sum(not has_begun for _, has_begun in handlers.open_events(text) or [])

    def text(self):
        try:
            with open(self.snapshot, "rb") as file:
                return file.read()
        except OSError:
            return b""

    def start_soon(self, wait):
        """Starts it again after so many seconds, in the background."""

        def begin():
            time.sleep(wait)
            self.start()

        self.starting = threading.Thread(target=begin)
        self.starting.start()

    def numbers(self, word):
        """The numbers of the events whose handlers began, or ended."""
        try:
            with open(self.handler_log, encoding="ascii", errors="replace") as file:
                return [int(line.split()[1]) for line in file if line.startswith(f"{word} ")]
        except OSError:
            return []

    def reported(self):
        with open(self.log, encoding="utf-8", errors="replace") as file:
            return {int(number) for number in REPORTED.findall(file.read())}

    def open_count(self):
        """How many of its events are open or wait, or None if it doesn't answer."""
        found = re.findall(r"(?:events_open|handlers_waiting) = (\d+)", self.serf("info")[1])
        return sum(map(int, found)) if found else None


def event_of(line):
    """The event that a line of a snapshot says was handed out, or None."""
    return kept.event_of(line) or handlers.event_after(handlers.OPEN, line)


def number_of(event):
    return int(event[2].split()[0])


class Torment:
    """The flood of events, and the kills."""

    def __init__(self, nodes, asked):
        self.nodes, self.asked, self.draw = nodes, asked, random.Random(asked.seed)
        self.ours = [node for node in nodes if node.kind == "ours"]
        self.lock, self.is_over = threading.Lock(), False
        # the numbers that were confirmed, each with the name of its node
        self.fired, self.confirmed = 0, {}
        self.backlog = 0
        # the nodes that ended though nobody killed them, each with its status
        self.dead = []

    def next(self):
        """The next event, and the node at which it is fired; None if there is nothing to do yet."""
        with self.lock:
            up = [node for node in self.nodes if node.is_up()]
            if not up or self.backlog >= self.asked.waiting:
                return None
            self.fired, self.backlog = self.fired + 1, self.backlog + 1
            return self.draw.choice(up), self.fired, self.draw.randint(0, LONGEST)

    def flood(self):
        while not self.is_over:
            found = self.next()
            if found is None:
                time.sleep(0.05)
                continue
            node, number, milliseconds = found
            status, _ = kit.run_serf(
                ["serf", "event", f"-rpc-addr={node.rpc}", "-coalesce=false", "n", f"{number} {milliseconds / 1000:.3f}"]
            )
            if status == 0:
                with self.lock:
                    self.confirmed[number] = node.name

    def measure(self):
        """How many events wait for their handlers, on the node of ours that is ahead of the others."""
        begun = max(len(set(node.numbers("begin"))) for node in self.ours)
        with self.lock:
            self.backlog = len(self.confirmed) - begun

    def start_the_dead(self):
        """Starts the nodes again that ended though nobody killed them, and records them."""
        for node in self.nodes:
            if not node.is_up() and (node.starting is None or not node.starting.is_alive()):
                self.dead.append(f"{node.name}: {node.process.returncode}")
                node.start_soon(1)

    def victim(self):
        up = [node for node in self.nodes if node.is_up()]
        return self.draw.choice(up) if len(up) > DOWN * len(self.nodes) else None

    def kill(self):
        node = self.victim()
        if node is None:
            return
        kills_handler = (node.kills + node.number) % 2 == 1
        node.kill(kills_handler)
        while self.draw.random() < STARTING:
            # (started without waiting until it answers)
            node.launch()
            time.sleep(self.draw.uniform(0, 1))
            node.kill(kills_handler)
        node.start_soon(self.draw.uniform(0.1, 1.5))

    def kills(self):
        return sum(node.kills for node in self.nodes)

    def run(self):
        clients = [threading.Thread(target=self.flood) for _ in range(CLIENTS)]
        for client in clients:
            client.start()
        end, next_kill = time.monotonic() + 60 * self.asked.minutes, time.monotonic() + 5
        try:
            while self.kills() < self.asked.kills and time.monotonic() < end:
                self.measure()
                self.start_the_dead()
                if time.monotonic() > next_kill:
                    self.kill()
                    next_kill = time.monotonic() + self.draw.uniform(0.5, 3)
                time.sleep(0.1)
        finally:
            self.is_over = True
            for client in clients:
                client.join()
            for node in self.nodes:
                if node.starting is not None:
                    node.starting.join()

    def rest(self):
        """Waits until no handler of ours runs any more, and nothing of theirs is open. Returns whether that is so."""
        last, since = None, time.monotonic()

        def is_still():
            nonlocal last, since
            now = [len(node.numbers("begin")) for node in self.nodes]
            if now != last:
                last, since = now, time.monotonic()
            return time.monotonic() - since > self.asked.rest and all(node.open_count() == 0 for node in self.ours)

        return until(is_still, REST)


class Became:
    """What became of the confirmed events on a node."""

    def __init__(self, node, confirmed):
        began, self.ended = collections.Counter(node.numbers("begin")), set(node.numbers("end"))
        open_events = handlers.open_events(node.text()) or [] if node.kind == "ours" else []
        self.waiting = {number_of(event) for event, has_begun in open_events if not has_begun}
        self.reported = node.reported() if node.kind == "ours" else set()
        self.twice = sorted(number for number, count in began.items() if count > 1)
        reached = set(began) | node.had | self.reported
        self.never = sorted(confirmed - reached)
        reached &= confirmed
        self.cut_off = reached & self.reported
        self.waits = (reached & self.waiting) - self.reported
        self.once = (reached & self.ended) - self.reported - self.waits
        self.silent = sorted(reached - self.once - self.cut_off - self.waits)
        # one that waits, and has begun all the same
        self.mixed = sorted(number for number in self.waiting if number in began)
        self.cut_off_by_kill = sorted(number for number in began if number not in self.ended)


def total(became, name):
    return sum(len(getattr(one, name)) for one in became)


def print_results(torment, is_at_rest):
    """Prints what became of the events, and returns what must not be."""
    confirmed = set(torment.confirmed)
    became = {kind: [Became(node, confirmed) for node in torment.nodes if node.kind == kind] for kind in ("ours", "stock")}
    for kind, ones in became.items():
        nodes = [node for node in torment.nodes if node.kind == kind]
        kills, groups, waited = (sum(getattr(node, name) for node in nodes) for name in ("kills", "group_kills", "waited"))
        print(
            f"{kind}: {len(nodes)} nodes, {kills} kills, {groups} of them with the handler; {len(confirmed) * len(nodes):,} pairs of an event and a node"
        )
        if kind == "ours":
            ended = sum(len(one.cut_off & one.ended) for one in ones)
            print(
                f"  {total(ones, 'once'):,} ran once, {total(ones, 'cut_off')} were cut off and reported ({ended} of them ended all the same), {total(ones, 'waits')} still wait"
            )
            print(
                f"  {total(ones, 'silent')} lost silently, {total(ones, 'twice')} began twice, {total(ones, 'never')} never reached the node"
            )
            print(f"  {waited:,} times an event waited in the file of a node when it was killed")
        else:
            print(
                f"  {total(ones, 'once'):,} ran to their ends, {total(ones, 'cut_off_by_kill')} were cut off silently, {total(ones, 'twice')} began twice"
            )
            print(f"  {total(ones, 'never'):,} never ran")
    ours = became["ours"]
    for number in sorted({number for one in ours for number in one.never})[:20]:
        missing = [node.name for node, one in zip(torment.ours, ours) if number in one.never]
        print(f"  {number}, fired at {torment.confirmed[number]}, never reached {', '.join(missing)}")
    return {
        "ended though nobody killed them": torment.dead,
        "did not come to rest": [] if is_at_rest else [node.open_count() for node in torment.ours],
        "began twice": [number for one in ours for number in one.twice],
        "were confirmed by a node of ours, and never reached another one": [
            number for one in ours for number in one.never if torment.confirmed[number].startswith("ours")
        ],
        "reached a node of ours, and neither ran, nor were reported, nor wait": [number for one in ours for number in one.silent],
        "wait, and have begun": [number for one in ours for number in one.mixed],
        "began and did not end, and were not reported": [
            number for one in ours for number in one.cut_off_by_kill if number not in one.reported
        ],
    }


def arguments():
    parser = argparse.ArgumentParser(description=__doc__, formatter_class=argparse.RawDescriptionHelpFormatter)
    parser.add_argument("--kills", type=int, default=300)
    parser.add_argument("--minutes", type=float, default=60)
    parser.add_argument("--seed", type=int, default=1)
    parser.add_argument("--ours", type=int, default=5)
    parser.add_argument("--stock", type=int, default=3)
    parser.add_argument("--waiting", type=int, default=12)
    parser.add_argument("--rest", type=float, default=70)
    parser.add_argument("--net", default="127.0.12")
    parser.add_argument("--agent")
    parser.add_argument("--library")
    parser.add_argument("--keep", action="store_true")
    return parser.parse_args()


def main():
    asked = arguments()
    missing = kit.missing_command(("serf",) if asked.agent else ("go", "serf"))
    if missing:
        sys.exit(f"not installed: {missing}")
    folder = tempfile.mkdtemp(prefix="once-cluster.")
    programs = {"ours": asked.agent or kit.build(folder, asked.library, ()), "stock": ["serf", "agent"]}
    kinds = ["ours"] * asked.ours + ["stock"] * asked.stock
    nodes = [Node(folder, programs[kind], kind, number, asked.net) for number, kind in enumerate(kinds, 1)]
    torment, began = Torment(nodes, asked), time.monotonic()
    try:
        for node in nodes:
            node.settings([other for other in nodes if other is not node])
            node.start(*(["-join", nodes[0].addr] if node is not nodes[0] else []))
        # (the first start of a node ignores what was fired before it joined)
        until(lambda: all(node.status(other.name) == "alive" for node in nodes for other in nodes), 120)
        time.sleep(5)
        torment.run()
        is_at_rest = torment.rest()
        for node in nodes:
            node.end()
            node.note_file()
    finally:
        for node in nodes:
            node.end()
        if asked.keep:
            print(f"kept: {folder}")
    backlog = statistics.median(node.waited / max(node.kills, 1) for node in torment.ours)
    print(
        f"seed {asked.seed}: {torment.kills()} kills, {torment.fired:,} events were fired and {len(torment.confirmed):,} confirmed, "
        f"{backlog:.0f} waited at a kill of a node of ours (median of the nodes), in {time.monotonic() - began:.0f} seconds"
    )
    wrong = print_results(torment, is_at_rest)
    failed = {what: found for what, found in wrong.items() if found}
    for what, found in failed.items():
        print(f"FAILED: {len(found)} {what}: {found[:20]}")
    count = checks.Checks()
    count.add(len(wrong) - len(failed), len(failed))
    attestation.check_attested(count, folder)
    if not asked.keep:
        shutil.rmtree(folder, ignore_errors=True)
    return count.finish()


if __name__ == "__main__":
    sys.exit(main())
