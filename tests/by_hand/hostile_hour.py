"""By hand, since it is long and needs root, Go and Serf: hostile packets and streams at an agent of ours, for half an hour without a key
and half an hour with one.

    tests/by_hand/hostile_hour.py [--minutes M] [--plain | --encrypted] [--library FOLDER] [--agent PROGRAM] [--seed S]

It runs in a separate network, since the agent sends to whatever address a packet names. It sends what the guard's own tests send
(TestOutside of `bindings/go/guard`): each single case, changed packets and streams, idle streams, answers to the agent's own
connections, and floods of members, deaths, intents, events, queries and states, with times that are implausibly far ahead. With a key,
all hostile data is from a sender that has the key, and some is from one without it.

Meanwhile an event is fired at the agent every ten seconds, and its handler has to run. From the far side, a friend that has been a
member from the start fires one too, and the script counts the events that reach the agent from it and it from the agent: at least half
of them have to. (Floods of events whose times are far ahead make the friend's clock late for a moment, so that its events are too old.
Datagrams are lost if more arrive than the agent can read.) A new name joins while the floods last, within ten seconds. At the end no
clock is stuck: the agent is the same process, its clocks are far from their end, and a new node whose clocks are at their start joins
it, receives an event that the agent fires, and is received. The agent had at most 64 MiB more than when it was idle.
"""

import argparse
import base64
import os
import re
import subprocess
import sys
import tempfile
import time

sys.path.insert(0, os.path.dirname(os.path.abspath(__file__)))
sys.dont_write_bytecode = True
import agent_cluster_kit as kit
import c_library
from agent_cluster_kit import Agent, until

# How many MiB the agent may use more than when it is idle.
MORE = 64

# What no clock reaches, whatever arrives: half of the times are left (docs/AGENT.md, "A clock that is too far").
FAR = 2**63

# The key of the guard's tests.
KEY = base64.b64encode(b"sixteen bytes is").decode()


def arguments():
    parser = argparse.ArgumentParser(description=__doc__, formatter_class=argparse.RawDescriptionHelpFormatter)
    parser.add_argument("--minutes", type=float, default=30)
    kinds = parser.add_mutually_exclusive_group()
    kinds.add_argument("--plain", action="store_true")
    kinds.add_argument("--encrypted", action="store_true")
    parser.add_argument("--library")
    parser.add_argument("--agent")
    parser.add_argument("--seed", type=int, default=1)
    return parser.parse_args()


def in_own_network():
    """Runs the script again in a network that has nothing but a loopback device."""
    if os.environ.get("KITCHENRUE_ALONE"):
        subprocess.run(["ip", "link", "set", "lo", "up"], check=True)
        return
    os.execvpe("unshare", ["unshare", "--net", sys.executable, *sys.argv], {**os.environ, "KITCHENRUE_ALONE": "1"})


def build_guard(folder):
    """Compiles the guard's tests as a program."""
    path = os.path.join(folder, "guard.test")
    env = c_library.go_env(c_library.linked_packages(os.path.join(folder, "go"), "guard"), kit.GOCODE)
    subprocess.run(["go", "test", "-c", "-o", path, "kitchenrue.example/guard"], check=True, env=env)
    return path


def mib(agent, word):
    """A number of the memory of an agent's process; 0 where it ended."""
    try:
        with open(f"/proc/{agent.process.pid}/status", encoding="ascii") as file:
            return int(re.search(rf"{word}:\s+(\d+) kB", file.read())[1]) / 1024
    except (OSError, TypeError):
        return 0


def info_of(agent):
    return dict(re.findall(r"^\t?(\w+) = (.*)$", agent.serf("info")[1], re.M))


def clocks_of(agent):
    info = info_of(agent)
    return {name: int(info[name]) for name in ("member_time", "event_time", "query_time")}


class Hour:
    """One agent, what arrives at it, and the checks."""

    def __init__(self, folder, program, is_keyed):
        self.folder, self.program, self.is_keyed, self.failed, self.fired = folder, program, is_keyed, [], 0
        self.crossed, self.friend = 0, None
        self.handler = os.path.join(folder, "handler.sh")
        with open(self.handler, "w", encoding="utf-8") as file:
            file.write(kit.HANDLER)
        self.agent = self.made("victim", 1)

    def made(self, name, number):
        agent = Agent(self.folder, self.program, name, number)
        agent.words = [
            "-snapshot",
            agent.snapshot,
            "-log-level",
            "warn",
            "-event-handler",
            f"user:honest=sh {self.handler} {agent.handled}",
        ]
        agent.words += ["-encrypt", KEY] if self.is_keyed else []
        return agent

    def check(self, what, holds, why=""):
        print(f"{'passed' if holds else f'FAILED ({why})'}: {what}", flush=True)
        if not holds:
            self.failed.append(what)

    def fires(self, at, by, meet=lambda: None):
        """Whether an event that is fired at one agent runs at another one, while `meet` joins them."""
        self.fired += 1
        text = f"n{self.fired}"

        def has_run():
            return text in by.ran("honest") or meet() and text in by.ran("honest")

        return at.serf("event", "-coalesce=false", "honest", text)[0] == 0 and until(has_run, 30)

    def crosses(self, friend):
        """Fires an event at the agent and one at its friend, and returns of each whether it ran at the other one."""
        texts = []
        for at in (self.agent, friend):
            self.crossed += 1
            texts.append(f"far{self.crossed}")
            at.serf("event", "-coalesce=false", "honest", texts[-1])
        until(lambda: texts[0] in friend.ran("honest") and texts[1] in self.agent.ran("honest"), 10)
        return [texts[0] in friend.ran("honest"), texts[1] in self.agent.ran("honest")]

    def joins(self):
        """Whether a machine with a new name joins the agent within ten seconds."""
        new = self.made("newcomer", 3).start()
        try:
            began = time.monotonic()
            status, output = new.serf("join", self.agent.addr)
            seen = until(lambda: self.agent.status("newcomer") == "alive", 10)
            print(f"a new name joins after {time.monotonic() - began:.1f} s: {status}, {output.strip()}", flush=True)
            return status == 0 and seen and time.monotonic() - began <= 10
        finally:
            new.end()

    def run(self, guard, minutes, seed):
        self.agent.start()
        self.check("it handles an event", self.fires(self.agent, self.agent))
        friend = self.friend = self.made("friend", 2).start("-join", self.agent.addr)
        self.check("a friend is a member", until(lambda: self.agent.status("friend") == "alive", 60))
        time.sleep(10)
        idle = mib(self.agent, "VmRSS")
        env = {
            **os.environ,
            "GUARD_AT": f"{self.agent.addr}:7946",
            "GUARD_NAME": self.agent.name,
            "GUARD_SEED": str(seed),
            "GUARD_SECONDS": str(int(60 * minutes)),
        }
        env |= {"GUARD_KEYED": "1"} if self.is_keyed else {}
        words = [guard, "-test.run", "^TestOutside$", "-test.v", "-test.timeout", "0"]
        sender = subprocess.Popen(words, env=env, stdout=subprocess.PIPE, stderr=subprocess.STDOUT, text=True)
        missed, far, joined = [], [], False
        while sender.poll() is None and self.agent.process.poll() is None:
            if not self.fires(self.agent, self.agent):
                missed.append(self.fired)
            far += self.crosses(friend)
            if len(far) >= 6 and not joined:
                joined = self.joins()
            time.sleep(10)
        if sender.poll() is None:
            sender.kill()
        print(sender.communicate()[0].strip())
        self.check("it was answered all the time", sender.returncode == 0, sender.returncode)
        self.check(f"the handler of each of {self.fired} events that were fired at the agent ran", not missed, missed)
        self.check(f"of {len(far)} honest events between it and the friend {sum(far)} ran at the other one", sum(far) >= len(far) / 2)
        self.check("a new name joined during the floods", joined)
        self.check("each ran once", len(self.agent.ran("honest")) == len(set(self.agent.ran("honest"))))
        if self.agent.process.poll() is None:
            self.ends(idle, friend)
        else:
            self.check("the agent continues", False, self.agent.process.returncode)

    def ends(self, idle, friend):
        """The checks of an agent that continues."""
        peak = mib(self.agent, "VmHWM")
        self.check(f"{idle:.0f} MiB when idle, {peak:.0f} at most: {MORE} more at most", peak <= idle + MORE)
        friend.end()
        friend = self.made("late", 4).start()
        try:
            self.check("a node begins with fresh clocks", max(clocks_of(friend).values()) < 9, clocks_of(friend))
            joined = (
                lambda: friend.serf("join", self.agent.addr)[0] == 0 and self.agent.status("late") == friend.status("victim") == "alive"
            )
            self.check("it is a member", until(joined, 60))
            clocks = clocks_of(self.agent)
            self.check(
                "the floods moved its clocks, and none is near its end",
                FAR // 2 <= min(clocks.values()) and max(clocks.values()) < FAR,
                clocks,
            )
            for name, at, by in (("the agent's event reaches it", self.agent, friend), ("its event reaches the agent", friend, self.agent)):
                self.check(name, self.fires(at, by, lambda: friend.serf("join", "-replay", self.agent.addr)))
            info = info_of(self.agent)
        finally:
            friend.end()
        print(
            "its counts:",
            ", ".join(
                f"{name} {value}" for name, value in sorted(info.items()) if re.match("refused|dropped|members|failed|.*_time", name)
            ),
        )


def main():
    asked = arguments()
    missing = kit.missing_command(("go", "serf", "unshare", "ip"))
    if missing or os.geteuid():
        sys.exit(f"it needs {missing or 'root'}")
    in_own_network()
    failed = []
    with tempfile.TemporaryDirectory(prefix="hostile-", ignore_cleanup_errors=True) as folder:
        program, guard = asked.agent or kit.build(folder, asked.library, []), build_guard(folder)
        for is_keyed in [False] * (not asked.encrypted) + [True] * (not asked.plain):
            own = os.path.join(folder, "keyed" if is_keyed else "plain")
            os.mkdir(own)
            print(f"{'with' if is_keyed else 'without'} a key, {asked.minutes:g} minutes:", flush=True)
            hour = Hour(own, program, is_keyed)
            try:
                hour.run(guard, asked.minutes, asked.seed)
            finally:
                hour.agent.end()
                if hour.friend:
                    hour.friend.end()
            failed += hour.failed
    print(f"FAILED: {', '.join(failed)}" if failed else "passed")
    return 1 if failed else 0


if __name__ == "__main__":
    sys.exit(main())
