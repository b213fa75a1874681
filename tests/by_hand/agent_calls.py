"""By hand, since it needs Go and Serf: each command of the stock command line prints the same for a stock agent and for ours.

    tests/by_hand/agent_calls.py [--plain | --encrypted] [--library FOLDER] [--agent PROGRAM]

Two stock agents and two of ours are one cluster, first plain and then encrypted. Each call is made at the first agent of either kind.
Statuses and texts have to be the same, regardless of the order of lines. Names and addresses are replaced by their relation to the
agent that was called (itself, its peer, the two of the other kind), and measured or random values are ignored. A difference has a row
in DIFFERENT, with the reason, and docs/AGENT.md names it. A call that depends on a packet of UDP, or on news, is made up to five times.
"""

import argparse
import base64
import os
import re
import sys
import tempfile
import time

sys.path.insert(0, os.path.dirname(os.path.abspath(__file__)))
sys.dont_write_bytecode = True
import agent_cluster_kit as kit
from agent_cluster_kit import Agent, until

# Two keys that no agent starts with.
NEW, OTHER = (base64.b64encode(bytes([n]) * 16).decode() for n in (1, 2))

# Each call, as words. {me} is the agent itself, {peer} the other one of its kind, {far} and {farther} those of the other kind; {KEY} is
# the cluster's key, {512} a text of so many bytes.
CALLS = """
version
members
members -detailed
members -format json
members -format text
members -format nonsense
members -detailed -format json
members -status alive
members -status failed
members -status al
members -status .*
members -status (
members -name {me}
members -name {far}
members -name {far}.*
members -name .*
members -name nobody
members -name (
members -tag role=web
members -tag role=w
members -tag role=.*
members -tag none=.*
members -tag role=(
members -tag role
members -tag role=web -tag size=.*
members -role web
members extra
event
event deploy
event deploy v1
event deploy v1 v2
event -coalesce=false deploy v1
event -coalesce=true deploy v1
event -coalesce=perhaps deploy v1
event deploy {500}
event deploy {513}
event {100} {100}
event {600}
query
query -timeout=1s load
query -timeout=1s load payload
query -timeout=1s load {1000}
query -timeout=1s load {1100}
query -timeout=1s nothing
query -timeout=1s cat payload
query -timeout=1s bad
query -timeout=1s -no-ack load
query -timeout=1s -node {me} load
query -timeout=1s -node {peer} load
query -timeout=1s -node {far} load
query -timeout=1s -node {far} -node {farther} load
query -timeout=1s -node nobody load
query -timeout=1s -tag role=web load
query -timeout=1s -tag role=w load
query -timeout=1s -tag role=^w load
query -timeout=1s -tag none=x load
query -timeout=1s -tag role=( load
query -timeout=1s -tag role load
query -timeout=1s -tag role=db -node {far} -node {farther} load
query -timeout=1s -relay-factor 0 load
query -timeout=1s -relay-factor 1 load
query -timeout=1s -relay-factor 2 load
query -timeout=1s -relay-factor 255 load
query -timeout=1s -relay-factor 256 load
query -timeout=1s -relay-factor -1 load
query -timeout=1s -relay-factor many load
query -timeout=1s -format json load
query -timeout=1s -format nonsense load
query -timeout=-1s load
query -timeout=2h -node nobody load
query -timeout=soon load
query -timeout=1s _serf_ping
query -timeout=1s _serf_list-keys
query -timeout=1s _serf_other
query -timeout=1s load a b
reachability
reachability -verbose
reachability extra
rtt
rtt {peer}
rtt {far}
rtt {me}
rtt nobody
rtt {peer} {far}
rtt {far} nobody
rtt {far} {farther}
rtt a b c
join
join {far_address}
join -replay {far_address}
join {far_address} {farther_address}
join {nowhere}
join {nowhere} {far_address}
join -replay {nowhere}
join :99999
join nobody.invalid
force-leave
force-leave nobody
force-leave -prune nobody
force-leave a b
info
info -format json
info -format nonsense
info extra
tags
tags -set size=big
tags -set size=big -set rack=7
tags -set size
tags -set =big
tags -delete size
tags -delete nothing
tags -set size=1 -delete size
tags -set long={600}
tags -delete size -delete rack
monitor -log-level=loud
keygen
keys
keys -list
keys -install x
keys -install {NEW}
keys -list
keys -use {OTHER}
keys -use {NEW}
keys -list
keys -remove {NEW}
keys -use {KEY}
keys -remove {NEW}
keys -remove {OTHER}
keys -list -relay-factor 2
keys -list -relay-factor 300
keys -install {NEW} -list
leave
""".strip().split("\n")

# The differences: the call, and why. Each is in docs/AGENT.md, "What differs".
DIFFERENT = (
    (r"info( -format json| extra)?", "ours reports more about itself"),
    (r"event deploy \{500\}", "the same limit of the packet, in other words"),
    (r"members -(name|status|tag) .*\($", "a stock agent ends the client"),
    (r"query -timeout=(-1s|2h) .*", "a time below 0, or above an hour"),
    (r"query -timeout=1s _serf_(list-keys|other)", "the agents' own names"),
)


class Side:
    """Agents of a kind; the calls are made at the first one."""

    def __init__(self, agents, others, key):
        self.me, self.peer = agents
        self.far, self.farther = others
        self.key = key
        self.words = {
            "me": self.me.name,
            "peer": self.peer.name,
            "far": self.far.name,
            "farther": self.farther.name,
            "nowhere": "127.0.7.99",
        }
        self.words |= {"far_address": self.far.addr, "farther_address": self.farther.addr, "KEY": key or NEW, "NEW": NEW, "OTHER": OTHER}

    def asked(self, call):
        """The status of a call at this side, and its lines in order, with neutral words."""
        words = [
            re.sub(r"\{(\w+)\}", lambda found: "x" * int(found[1]) if found[1].isdigit() else self.words[found[1]], word)
            for word in call.split()
        ]
        status, text = self.me.serf(*words)
        for name, agent in (("ME", self.me), ("PEER", self.peer), ("FAR", self.far), ("FARTHER", self.farther)):
            text = (
                re.sub(rf"\b{agent.name}\b", name, text)
                .replace(agent.rpc, f"{name}'s RPC")
                .replace(f"{agent.addr}:", f"{name}'s:")
                .replace(agent.addr, f"{name}'s")
            )
        text = re.sub(r"\d+(\.\d+)? ?(µs|ms|sec|s)\b", "TIME", text)
        text = re.sub(r"\d{4}/\d\d/\d\d \d\d:\d\d:\d\d", "MOMENT", text)
        if call == "keygen":
            text = re.sub(r"^[\w+/]{43}=", "KEY", text)
        lines = (re.sub(r" +", " ", line.strip().rstrip(",")) for line in text.replace("\t", " ").splitlines())
        return status, sorted(line for line in lines if line and not line.startswith("==> Usage"))


class Run:
    """One cluster, and the results of the calls."""

    def __init__(self, folder, program, key):
        stock = ["serf", "agent"]
        self.agents = [
            Agent(folder, how, name, number)
            for number, (name, how) in enumerate((("stockone", stock), ("stocktwo", stock), ("oursone", program), ("ourstwo", program)), 1)
        ]
        for agent, role in zip(self.agents, ("web", "db", "web", "db")):
            agent.words = ["-tag", f"role={role}", "-snapshot", agent.snapshot, *(["-encrypt", key] if key else [])]
            for line in ("query:load=echo load", "query:cat=cat", "query:bad=echo no; exit 3"):
                agent.words += ["-event-handler", line]
        self.sides = [Side(self.agents[:2], self.agents[2:], key), Side(self.agents[2:], self.agents[:2], key)]
        self.same, self.known, self.other = 0, set(), []

    def start(self):
        for agent in self.agents:
            agent.start(*(["-join", self.agents[0].addr] if agent is not self.agents[0] else []))
        names = [agent.name for agent in self.agents]
        if not until(lambda: all(agent.status(name) == "alive" for agent in self.agents for name in names), 60):
            sys.exit("the agents don't all see one another")

    def call(self, call):
        row = next((why for words, why in DIFFERENT if re.fullmatch(words, call)), None)
        for _ in range(5):
            stock, ours = (side.asked(call) for side in self.sides)
            if stock == ours:
                break
            if row:
                self.known.add(call)
                print(f"known: {call}: {row}\n    stock: {stock}\n    ours:  {ours}", flush=True)
                return
            time.sleep(1)
        if stock == ours:
            self.same += 1
        else:
            self.other.append(call)
            print(f"DIFFERENT: {call}\n    stock: {stock}\n    ours:  {ours}", flush=True)

    def run(self):
        try:
            self.start()
            for call in CALLS:
                self.call(call)
        finally:
            for agent in self.agents:
                agent.end()


def main():
    parser = argparse.ArgumentParser(description=__doc__, formatter_class=argparse.RawDescriptionHelpFormatter)
    kinds = parser.add_mutually_exclusive_group()
    kinds.add_argument("--plain", action="store_true")
    kinds.add_argument("--encrypted", action="store_true")
    parser.add_argument("--library")
    parser.add_argument("--agent")
    options = parser.parse_args()
    missing = kit.missing_command()
    if missing:
        sys.exit(f"it needs {missing}")
    other = []
    with tempfile.TemporaryDirectory(prefix="calls-", ignore_cleanup_errors=True) as folder:
        program = options.agent or kit.build(folder, options.library, [])
        for key in [None] * (not options.encrypted) + [base64.b64encode(os.urandom(32)).decode()] * (not options.plain):
            own = os.path.join(folder, "encrypted" if key else "plain")
            os.mkdir(own)
            run = Run(own, program, key)
            run.run()
            print(
                f"{'encrypted' if key else 'plain'}: of {len(CALLS)} calls {run.same} print the same, {len(run.known)} differ as is known, {len(run.other)} otherwise",
                flush=True,
            )
            other += run.other
    print("FAILED" if other else "passed")
    return 1 if other else 0


if __name__ == "__main__":
    sys.exit(main())
