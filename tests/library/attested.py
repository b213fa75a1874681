"""A day of agents that record, under kills, is attested (`examples/records/attest.py`); and it isn't if a file lost a line, or a
handler ran again.

    tests/library/attested.py [--library FILE] [--over-ci] [--ours N] [--stock N] [--kills N] [--seed N] [--keep]

Processes of `kitchenrue-agent`, every second one with `-keep-events`, and stock agents run next to each other. Events and queries are
fired at random nodes, and random nodes of ours are killed by SIGKILL and started again. Then the records, the snapshots and the
handlers' logs of our nodes have to be attested. A snapshot without a flushed line, and a log with a handler's line twice, have to be
refused. Afterwards, the newest flushed line is taken out of the snapshot of a node, which is then started again: attest.py has to
refuse that life.

Go and the sources of memberlist and of Serf have to be installed (`tools/packages`); otherwise the script prints what is missing, and
checks nothing. Without Debian's `serf` nothing is fired, so it is needed too. --library names another static library than that of
crates/serf_agent_c, which is built otherwise; --over-ci builds it over what `rt ci` left, as the gate does.
"""

import argparse
import os
import random
import re
import shutil
import subprocess
import sys
import tempfile
import time

sys.dont_write_bytecode = True
sys.path.insert(0, os.path.dirname(os.path.dirname(os.path.abspath(__file__))))
import attestation
import checks
import c_library
import programs

sys.path.insert(0, os.path.join(checks.TOP, "tests", "by_hand"))
import agent_cluster_kit as kit
from agent_cluster_kit import until

HANDLER = os.path.join(checks.EXAMPLES, "serf_log_handler.sh")

# The end of the name of a node's log of its handlers.
LOGS = ".handlers"

# How long the nodes may take to hear of the last event, in seconds.
REST = 60


class Recorded(kit.Agent):
    """An agent of ours with a record, and with a log of its handler."""

    def __init__(self, folder, program, number, keeps):
        super().__init__(folder, program, f"ours{number}", number, net="127.0.9")
        self.log_of_handler, self.keeps = os.path.join(folder, self.name + LOGS), keeps
        self.env = {**os.environ, "SERF_LOG": self.log_of_handler}
        self.words = ["-snapshot", self.snapshot, "-record", self.record, "-event-handler", f"user={HANDLER}", "-profile", "local"]
        self.words += ["-retry-interval", "1s", *(["-keep-events"] if keeps else ["-replay"])]

    def is_up(self):
        return self.process is not None and self.process.poll() is None

    def events(self):
        """The events that its agent handed out, by its record."""
        try:
            with open(self.record, encoding="ascii", errors="replace") as file:
                return len(re.findall(r"^event ", file.read(), re.M))
        except OSError:
            return 0


class Stock(kit.Agent):
    def __init__(self, folder, number):
        super().__init__(folder, ["serf", "agent"], f"stock{number}", number, net="127.0.9")
        self.words = ["-profile", "local", "-snapshot", self.snapshot]

    def is_up(self):
        return self.process is not None and self.process.poll() is None


class Cluster:
    """The agents of a run, what was fired, and the kills."""

    def __init__(self, folder, program, asked):
        self.draw, self.asked, self.fired, self.kills = random.Random(asked.seed), asked, 0, 0
        self.ours = [Recorded(folder, program, number, number % 2 == 0) for number in range(1, asked.ours + 1)]
        self.stock = [Stock(folder, asked.ours + number) for number in range(1, asked.stock + 1)]
        self.nodes = self.ours + self.stock
        for node in self.nodes:
            node.words += [word for other in self.nodes if other is not node for word in ("-retry-join", other.addr)]
        for node in self.nodes:
            node.start()
        # (on a busy machine, the first joins may take long)
        until(lambda: all(len(node.serf("members", "-status=alive")[1].splitlines()) == len(self.nodes) for node in self.nodes), REST)

    def fire(self):
        """Fires an event or a query at a node that is up."""
        node = self.draw.choice([node for node in self.nodes if node.is_up()])
        if self.draw.random() < 0.2:
            node.serf("query", "-timeout=200ms", "load")
        elif node.serf("event", "-coalesce=false", "deploy", f"v{self.fired}")[0] == 0:
            self.fired += 1

    def kill(self):
        node = self.draw.choice([node for node in self.ours if node.is_up()])
        if self.draw.random() < 0.5:
            # (in the middle of a firing)
            subprocess.Popen(
                ["serf", "event", f"-rpc-addr={node.rpc}", "-coalesce=false", "deploy", "last"],
                stdout=subprocess.DEVNULL,
                stderr=subprocess.DEVNULL,
            )
            time.sleep(self.draw.uniform(0, 0.02))
        node.end()
        self.kills += 1
        node.start()

    def run(self):
        while self.kills < self.asked.kills:
            for _ in range(self.draw.randint(2, 5)):
                self.fire()
            self.kill()
        self.rest()

    def rest(self):
        """Waits until the nodes hand out nothing more."""
        last, since, end = None, time.monotonic(), time.monotonic() + REST
        while time.monotonic() < end and time.monotonic() - since < 3:
            now = [node.events() for node in self.ours]
            if now != last:
                last, since = now, time.monotonic()
            time.sleep(0.2)

    def end(self):
        for node in self.nodes:
            node.end()


def lives(node):
    """How many lives the record of a node has."""
    with open(node.record, encoding="ascii", errors="replace") as file:
        return len(re.findall(r"^# kitchenrue-agent record", file.read(), re.M))


def check_day(count, cluster, folder):
    status, output = attestation.attest(folder, LOGS)
    count.check("it has the kills", sum(map(lives, cluster.ours)) == len(cluster.ours) + cluster.kills, output)
    count.check("each node handed out events", all(node.events() for node in cluster.ours) and cluster.fired > cluster.kills, output)
    count.check("handlers ran", re.search(r"\n  [1-9]\d* runs of handlers", output), output)


def check_life_without_line(count, cluster, folder, keeps, kind):
    """A node whose disk lost its newest line of a kind, and that was started again, isn't attested."""
    node = next(node for node in cluster.ours if node.keeps == keeps)
    with open(node.snapshot, "rb") as file:
        lines = [line for line in file.read().splitlines(True) if not line.startswith(b"##")]
    last = max(at for at, line in enumerate(lines) if line.startswith(kind))
    with open(node.snapshot, "wb") as file:
        file.write(b"".join(lines[:last] + lines[last + 1 :]))
    before = lives(node)
    node.start()
    until(lambda: lives(node) > before)
    node.end()
    status, output = attestation.attest(folder, nodes=[node.name])
    named = f"the snapshot of {node.name} lost what was flushed before the life"
    count.check(f"a life without {lines[last]!r}", status == 1 and named in output and node.record in output, output)


def arguments():
    parser = argparse.ArgumentParser(description=__doc__, formatter_class=argparse.RawDescriptionHelpFormatter)
    parser.add_argument("--library")
    parser.add_argument("--over-ci", action="store_true")
    parser.add_argument("--ours", type=int, default=3)
    parser.add_argument("--stock", type=int, default=1)
    parser.add_argument("--kills", type=int, default=6)
    parser.add_argument("--seed", type=int, default=1)
    parser.add_argument("--keep", action="store_true", help="keep the folder of the run")
    return parser.parse_args()


def main():
    asked = arguments()
    missing = kit.missing_command()
    if missing:
        print(f"not run: there is no {missing}")
        print("0 passed, 0 failed")
        return 0
    count = checks.Checks()
    fault = programs.fault_of_build("serf_replay_program") or (None if asked.library else c_library.fault_of_library(asked.over_ci))
    if fault:
        count.check("the program and the library are built", False, fault)
        return count.finish()
    folder = tempfile.mkdtemp(prefix="attested-")
    cluster = None
    try:
        program = kit.build(folder, os.path.dirname(asked.library or c_library.LIBRARY), ())
        cluster = Cluster(folder, program, asked)
        cluster.run()
        cluster.end()
        attestation.check_attested(count, folder, LOGS)
        check_day(count, cluster, folder)
        check_life_without_line(count, cluster, folder, False, b"event-clock: ")
        check_life_without_line(count, cluster, folder, True, b"#event ")
    finally:
        if cluster:
            cluster.end()
        if asked.keep:
            print(folder)
        else:
            shutil.rmtree(folder)
    return count.finish()


if __name__ == "__main__":
    sys.exit(main())
