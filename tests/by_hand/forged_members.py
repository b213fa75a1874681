"""By hand, since it takes some minutes and needs root, Go and Serf: forged members at one agent of four, and who still joins and hears.

    tests/by_hand/forged_members.py [--plain | --encrypted] [--forged N] [--stock] [--library FOLDER] [--agent PROGRAM]

It runs in a separate network. Four agents form a cluster, and one of them receives N forged members in UDP packets and states of
memberlist, as fast as it reads them; nobody answers for these. With a key, the sender has the key. Then:

- a new machine joins within ten seconds, during the flood and after it, and the attacked agent and another one see it alive;
- 20 events are fired at the four agents in turn, before the flood, in the first minute after it and two minutes later, and of the 80 runs
  of their handlers at least 78 happen;
- no agent has a forged member, and each has forgotten what waited for an answer.

It prints how long a join takes, and how many pings the attacked agent sent in comparison to the packets that it received. --stock does the
same with stock agents and checks nothing, for comparison.
"""

import argparse
import os
import re
import subprocess
import sys
import tempfile
import time

sys.path.insert(0, os.path.dirname(os.path.abspath(__file__)))
sys.dont_write_bytecode = True
import agent_cluster_kit as kit
from agent_cluster_kit import Agent, until
from hostile_hour import KEY, build_guard, in_own_network

# How many seconds a join may take, how many events are fired in a round, and how many of the runs have to happen.
JOIN, EVENTS, RUNS = 10, 20, 78


def arguments():
    parser = argparse.ArgumentParser(description=__doc__, formatter_class=argparse.RawDescriptionHelpFormatter)
    kinds = parser.add_mutually_exclusive_group()
    kinds.add_argument("--plain", action="store_true")
    kinds.add_argument("--encrypted", action="store_true")
    parser.add_argument("--forged", type=int, default=100_000)
    parser.add_argument("--stock", action="store_true")
    parser.add_argument("--library")
    parser.add_argument("--agent")
    return parser.parse_args()


def datagrams():
    """How many UDP packets were sent in this network."""
    with open("/proc/net/snmp", encoding="ascii") as file:
        rows = [line.split() for line in file if line.startswith("Udp:")]
    return int(dict(zip(*rows))["OutDatagrams"])


class Siege:
    """Four agents, and the forged members at the first of them."""

    def __init__(self, folder, program, is_keyed, is_stock):
        self.folder, self.program, self.is_keyed, self.is_stock, self.failed, self.fired = folder, program, is_keyed, is_stock, [], 0
        self.handler = os.path.join(folder, "handler.sh")
        with open(self.handler, "w", encoding="utf-8") as file:
            file.write(kit.HANDLER)
        self.agents = [self.made(f"agent{n}", n) for n in range(1, 5)]

    def made(self, name, number):
        agent = Agent(self.folder, self.program, name, number)
        agent.words = ["-log-level", "warn", "-event-handler", f"user:honest=sh {self.handler} {agent.handled}"]
        agent.words += ["-encrypt", KEY] if self.is_keyed else []
        return agent

    def check(self, what, holds, why=""):
        holds = holds or self.is_stock
        print(f"{'passed' if holds else f'FAILED ({why})'}: {what}", flush=True)
        if not holds:
            self.failed.append(what)

    def joins(self, number, when):
        """A new machine joins at the first agent, and that one and the second one see it."""
        new = self.made(f"new{number}", 10 + number).start()
        self.agents.append(new)
        try:
            began = time.monotonic()
            status, output = new.serf("join", self.agents[0].addr)
            joined = time.monotonic() - began
            seen = until(lambda: self.agents[0].status(new.name) == self.agents[1].status(new.name) == "alive", JOIN)
            took = time.monotonic() - began
            print(f"  {when}: the command `serf join` took {joined:.2f} s, and after {took:.2f} s both agents saw it", flush=True)
            self.check(
                f"a new machine joins {when}",
                status == 0 and seen and took <= JOIN,
                f"{status}, {output.strip()}, {took:.1f} s, {[agent.status(new.name) for agent in self.agents]}",
            )
        finally:
            # (a member that was killed would draw gossip until it is found dead)
            new.serf("leave")
            new.end()
            self.agents.remove(new)

    def round(self, when):
        """Fires events at the agents in turn, and counts the runs at all of them."""
        texts = []
        for n in range(EVENTS):
            self.fired += 1
            texts.append(f"n{self.fired}")
            self.agents[n % 4].serf("event", "-coalesce=false", "honest", texts[-1])
            time.sleep(0.1)

        def runs():
            return sum(text in ran for agent in self.agents for ran in [set(agent.ran("honest"))] for text in texts)

        until(lambda: runs() == EVENTS * 4, 30)
        self.check(f"{when}, {runs()} of {EVENTS * 4} runs happened", runs() >= RUNS, f"fewer than {RUNS}")

    def counts(self, agent):
        return dict(re.findall(r"^\t?(\w+) = (.*)$", agent.serf("info")[1], re.M))

    def flood(self, guard, count):
        env = {**os.environ, "GUARD_AT": f"{self.agents[0].addr}:7946", "GUARD_FORGED": str(count)}
        env |= {"GUARD_KEYED": "1"} if self.is_keyed else {}
        words = [guard, "-test.run", "^TestForgeOutside$", "-test.v", "-test.timeout", "0"]
        return subprocess.Popen(words, env=env, stdout=subprocess.PIPE, stderr=subprocess.STDOUT, text=True)

    def run(self, guard, count):
        self.agents[0].start()
        for agent in self.agents[1:]:
            agent.start("-join", self.agents[0].addr)
        members = lambda agent: len(agent.serf("members")[1].splitlines())
        self.check("four agents form a cluster", until(lambda: all(members(agent) == 4 for agent in self.agents), 60))
        self.round("before the flood")
        self.joins(1, "before the flood")
        sent = datagrams()
        sender = self.flood(guard, count)
        time.sleep(2)
        self.check("the flood lasts", sender.poll() is None)
        self.joins(2, "during the flood")
        print("\n".join(line.strip() for line in sender.communicate()[0].splitlines() if "forged" in line), flush=True)
        print(f"  {datagrams() - sent - count} packets were sent in this network besides those of the flood", flush=True)
        self.check("the flood ends", sender.returncode == 0, sender.returncode)
        self.round("in the first minute after the flood")
        self.joins(3, "after the flood")
        time.sleep(120)
        self.round("two minutes later")
        for agent in self.agents:
            listed = agent.serf("members")[1]
            self.check(f"{agent.name} has no forged member", "forged" not in listed, f"{len(listed.splitlines())} members")
        print(
            "  its counts:",
            ", ".join(
                f"{name} {value}" for name, value in sorted(self.counts(self.agents[0]).items()) if name.startswith(("refused", "members"))
            ),
        )


def main():
    asked = arguments()
    missing = kit.missing_command(("go", "serf", "unshare", "ip"))
    if missing or os.geteuid():
        sys.exit(f"it needs {missing or 'root'}")
    in_own_network()
    failed = []
    with tempfile.TemporaryDirectory(prefix="forged-", ignore_cleanup_errors=True) as folder:
        program = ["serf", "agent"] if asked.stock else asked.agent or kit.build(folder, asked.library, [])
        guard = build_guard(folder)
        for is_keyed in [False] * (not asked.encrypted) + [True] * (not asked.plain):
            own = os.path.join(folder, "keyed" if is_keyed else "plain")
            os.mkdir(own)
            print(f"{'with' if is_keyed else 'without'} a key, {asked.forged} forged members:", flush=True)
            siege = Siege(own, program, is_keyed, asked.stock)
            try:
                siege.run(guard, asked.forged)
            finally:
                for agent in siege.agents:
                    agent.end()
            failed += siege.failed
    print(f"FAILED: {', '.join(failed)}" if failed else "passed")
    return 1 if failed else 0


if __name__ == "__main__":
    sys.exit(main())
