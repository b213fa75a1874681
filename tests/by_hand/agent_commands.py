"""By hand, since it needs Go, Serf and memberlist's sources: the stock command line, and stock agents, together with ours.

    tests/by_hand/agent_commands.py [--plain | --encrypted] [--agent PROGRAM] [--keep]

Two stock agents and two or three of ours are one cluster on loopback addresses (127.0.7.1 and on), first plain and then
encrypted. Each check is a line; the last line counts them. It takes some minutes, most of which are waits for failures to be
seen.
"""

import base64
import json
import os
import re
import shutil
import signal
import subprocess
import sys
import tempfile
import time

sys.path.insert(0, os.path.dirname(os.path.abspath(__file__)))
sys.dont_write_bytecode = True
import agent_cluster_kit as kit
from agent_cluster_kit import Agent, until


class Run:
    """One cluster, and the checks that were made on it."""

    def __init__(self, folder, program, key):
        self.key, self.passed, self.failed = key, 0, []
        self.folder = folder
        handler = os.path.join(folder, "handler.sh")
        with open(handler, "w", encoding="utf-8") as file:
            file.write(kit.HANDLER)
        self.handler = handler
        encrypt = ["-encrypt", key] if key else []

        def agent(name, number, program, role, auth=None, more=()):
            found = Agent(folder, program, name, number, auth=auth)
            found.words = ["-snapshot", found.snapshot, "-tag", f"role={role}", *encrypt, *self.handlers(found), *more]
            return found

        stock = ["serf", "agent"]
        self.a = agent("a", 1, stock, "web")
        self.b = agent("b", 2, stock, "web")
        self.x = agent("x", 3, program, "db")
        # (its token is in a file of settings)
        settings = os.path.join(folder, "y.json")
        with open(settings, "w", encoding="utf-8") as file:
            json.dump({"rpc_auth": "sesame", "tags": {"dc": "south"}, "start_join": [self.a.addr]}, file)
        self.y = agent("y", 4, program, "cache", "sesame", ["-config-file", settings])
        self.z = agent("z", 5, program, "extra")

    def handlers(self, agent):
        log = f"sh {self.handler} {agent.handled}"
        return [
            "-event-handler", f"user={log}", "-event-handler", f"member-join,member-leave,member-failed,member-update,member-reap={log}",
            "-event-handler", f"query:load={log}; echo load of {agent.name}", "-event-handler", "query:cat=cat",
            "-event-handler", "query:bad=echo no; exit 3", "-event-handler", "query:long=head -c 2000 /dev/zero | tr '\\0' x",
        ]

    def all(self):
        return [self.a, self.b, self.x, self.y, self.z]

    def check(self, what, holds):
        if holds:
            self.passed += 1
        else:
            self.failed.append(what)
        print(f"{'passed' if holds else 'FAILED'}: {what}", flush=True)

    def says(self, what, agent, command, *words, has=(), lacks=(), status=0, tries=1):
        """Checks what the command line prints. Queries are tried again, since each answer is one packet of UDP."""
        for _ in range(tries):
            got, text = agent.serf(command, *words)
            good = got == status and all(re.search(one, text) for one in has) and not any(re.search(one, text) for one in lacks)
            if good:
                break
            time.sleep(1)
        self.check(what, good)
        if not good:
            print(f"    status {got}: {text[:600]!r}")
        return text

    def sees(self, who, whom, status, wait=25):
        self.check(f"{who.name} sees {whom.name} {status or 'no more'}", until(lambda: who.status(whom.name) == status, wait))

    # The parts.

    def members(self):
        a, b, x, y = self.a, self.b, self.x, self.y
        for who, whom in ((a, x), (a, y), (x, a), (x, b), (y, x), (b, y)):
            self.sees(who, whom, "alive")
        self.says("stock shows our tags", a, "members", has=[r"x +127\.0\.7\.3:7946 +alive +.*role=db"])
        self.says(
            "tags of a file and of a flag are merged", x, "members",
            has=[r"y .*alive +.*dc=south,role=cache|y .*alive +.*role=cache,dc=south"],
        )
        self.says("members -detailed", x, "members", "-detailed", has=[r"a +.*Protocol Version: 5 +Available Protocol Range: \[2, 5\]"])
        text = self.says("members -format json", x, "members", "-format", "json", has=["members"])
        names = sorted(one["name"] for one in json.loads(text)["members"])
        self.check("json has them all", names == ["a", "b", "x", "y"])
        self.says("members -status", x, "members", "-status", "alive", has=["^a ", r"\nx "], lacks=["failed"])
        self.says("members -name matches the whole name", x, "members", "-name", "[ab]", has=["a ", "b "], lacks=["x ", "y "])
        self.says("members -tag", x, "members", "-tag", "role=w.b", has=["a ", "b "], lacks=["x "])
        self.says("members -tag matches the whole value", x, "members", "-tag", "role=w", lacks=["a ", "b "])
        self.says("a bad expression is refused", x, "members", "-tag", "role=(", status=1, has=["missing closing"])
        self.says("reachability at ours", x, "reachability", has=["Successfully contacted all live nodes"], tries=3)
        self.says("reachability at stock", a, "reachability", has=["Successfully contacted all live nodes"], tries=3)
        for who in (a, x):
            self.says(f"rtt at {who.name}", who, "rtt", "b", "y", has=[r"Estimated b <-> y rtt: \d"], tries=20)

    def events(self):
        a, b, x, y = self.a, self.b, self.x, self.y
        a.serf("event", "-coalesce=false", "from-stock", "v 1")
        x.serf("event", "-coalesce=false", "from-ours", "v 2")
        for who in (a, b, x, y):
            self.check(f"{who.name} ran the event of stock once", until(lambda: who.ran("from-stock") == ["v 1"], 10))
            self.check(f"{who.name} ran the event of ours once", until(lambda: who.ran("from-ours") == ["v 2"], 10))
        line = [line for line in x.lines() if "from-stock" in line]
        self.check("the environment is Serf's", line and line[0].startswith("user|x|db|db|from-stock|"))
        for _ in range(5):
            x.serf("event", "burst", f"n{_}")
        for who in (a, x):
            self.check(
                f"{who.name} coalesced a burst",
                until(lambda: who.ran("burst") and who.ran("burst")[-1] == "n4", 10) and len(who.ran("burst")) < 5,
            )
        for number in range(6):
            (a, x)[number % 2].serf("event", "-coalesce=false", "row", f"n{number}")
            time.sleep(0.5)
        for who in (x, y):
            self.check(f"{who.name} ran a row in order", until(lambda: who.ran("row") == [f"n{number}" for number in range(6)], 10))
        self.says(
            "an event that is too long is refused", x, "event", "deploy", "x" * 600, status=1, has=["exceeds configured limit of 512 bytes"]
        )
        self.says("an event without a payload", x, "event", "-coalesce=false", "empty", has=["dispatched"])
        self.check("stock received it", until(lambda: a.ran("empty") == [""], 10))

    def queries(self):
        a, x = self.a, self.x
        acks = [f"Ack from '{name}'" for name in "abxy"]
        answers = [f"Response from '{name}': load of {name}" for name in "abxy"]
        self.says("a query of stock: all ack and answer", a, "query", "-timeout", "2s", "load", has=acks + answers, tries=4)
        self.says("a query of ours: all ack and answer", x, "query", "-timeout", "2s", "load", has=acks + answers, tries=4)
        self.says(
            "-node x at stock", a, "query", "-timeout", "1s", "-node", "x", "load", has=["Response from 'x'", "Total Acks: 1"], tries=3
        )
        self.says(
            "-node a at ours", x, "query", "-timeout", "1s", "-node", "a", "load", has=["Response from 'a'", "Total Acks: 1"], tries=3
        )
        self.says(
            "-tag at stock", a, "query", "-timeout", "1s", "-tag", "role=d", "load", has=["Response from 'x'", "Total Acks: 1"], tries=3
        )
        self.says(
            "-tag at ours, of others", x, "query", "-timeout", "1s", "-tag", "role=^web$", "load", has=["'a'", "'b'", "Total Responses: 2"],
            tries=3,
        )
        self.says(
            "-tag at ours, of itself", x, "query", "-timeout", "1s", "-tag", "role=db", "load", has=["'x'", "Total Responses: 1"], tries=3
        )
        self.says(
            "two -tag and a -node", x, "query", "-timeout", "1s", "-tag", "dc=south", "-tag", "role=cache", "-node", "y", "-node", "a",
            "load", has=["'y'", "Total Responses: 1"], tries=3,
        )
        self.says(
            "-tag that nobody has", x, "query", "-timeout", "1s", "-tag", "role=none", "load", has=["Total Acks: 0", "Total Responses: 0"]
        )
        self.says(
            "-no-ack", x, "query", "-timeout", "1s", "-no-ack", "-node", "a", "load", has=["Response from 'a'"], lacks=["Ack"], tries=3
        )
        self.says(
            "-relay-factor at stock", a, "query", "-timeout", "2s", "-relay-factor", "2", "load",
            has=acks + answers + ["Total Acks: 4", "Total Responses: 4"], tries=4,
        )
        self.says(
            "-relay-factor at ours", x, "query", "-timeout", "2s", "-relay-factor", "2", "load", has=acks + answers + ["Total Acks: 4"],
            tries=4,
        )
        self.says(
            "a payload is sent there and back", a, "query", "-timeout", "1s", "-node", "x", "cat", "pay load",
            has=["Response from 'x': pay load"], tries=3,
        )
        self.says(
            "a handler that fails sends no answer", a, "query", "-timeout", "1s", "-node", "x", "bad",
            has=["Ack from 'x'", "Total Responses: 0"], tries=3,
        )
        self.says(
            "an answer that is too long isn't sent", a, "query", "-timeout", "1s", "-node", "x", "long",
            has=["Ack from 'x'", "Total Responses: 0"], tries=3,
        )
        text = self.says(
            "query -format json", x, "query", "-timeout", "1s", "-format", "json", "-node", "a", "load", has=["Responses"], tries=3
        )
        self.check("json has the answer", '"a"' in text and "load of a" in text)
        self.says(
            "a query that is too long is refused", x, "query", "load", "x" * 1100, status=1, has=["query exceeds limit of 1024 bytes"]
        )
        self.says("the agents' own names are refused", x, "query", "_serf_list-keys", status=1, has=["can't begin with _serf_"])
        self.check("their queries never reach a handler", not any("_serf_" in line for line in x.lines()))

    def tags(self):
        a, x, y = self.a, self.x, self.y
        self.says("tags -set", x, "tags", "-set", "size=big", has=["Successfully updated"])
        self.check("stock sees a new tag", until(lambda: "size=big" in a.serf("members", "-name", "x")[1], 10))
        self.says("tags -delete", x, "tags", "-delete", "size", has=["Successfully updated"])
        self.check("stock sees that it was deleted", until(lambda: "size=big" not in a.serf("members", "-name", "x")[1], 10))
        a.serf("tags", "-set", "rack=7")
        self.check("ours sees a tag of stock", until(lambda: "rack=7" in x.serf("members", "-name", "a")[1], 10))
        self.check("the handler of member-update ran", until(lambda: any(line.startswith("member-update|y") for line in y.lines()), 10))
        self.says("tags that are too long are refused", x, "tags", "-set", "t=" + "x" * 600, status=1, has=["exceeds limit of 512 bytes"])

    def watching(self):
        x, y = self.x, self.y
        self.says("info", x, "info", has=["name = x", "members = 4", "failed = 0", r"query:load =", "role = db"])
        monitor = subprocess.Popen(
            ["serf", "monitor", f"-rpc-addr={x.rpc}", "-log-level=debug"], stdout=subprocess.PIPE, stderr=subprocess.STDOUT, text=True
        )
        time.sleep(1)
        x.serf("event", "-coalesce=false", "watched", "v1")
        time.sleep(1.5)
        monitor.terminate()
        text = monitor.communicate()[0]
        self.check("monitor shows earlier and new lines", "agent starting" in text and "Requesting user event send: watched" in text)
        self.check("monitor at an unknown level is refused", x.serf("monitor", "-log-level=loud")[1].find("Unknown log level: LOUD") >= 0)
        for words, says in (([], "Authentication required"), (["-rpc-auth=wrong"], "Invalid authentication token")):
            status, text = kit.run_serf(["serf", "members", f"-rpc-addr={y.rpc}", *words])
            self.check(f"without the token: {says}", status == 1 and says in text)
        self.says("with the token", y, "members", has=["y "])

    def coming_and_going(self):
        a, b, x, y, z = self.all()
        z.start()
        self.says("join at ours", z, "join", x.addr, has=["Successfully joined cluster by contacting 1 nodes"])
        for who in (a, x):
            self.sees(who, z, "alive")
        self.says("a join of nobody fails", z, "join", "127.0.7.99", status=1, has=["connection refused|Error joining"])
        self.says("leave", z, "leave", has=["Graceful leave complete"])
        self.check("a leave ends the process with 0", z.end(signal.SIGCONT) == 0)
        for who in (a, b, x, y):
            self.sees(who, z, "left")
        z.start("-join", a.addr)
        for who in (a, x):
            self.sees(who, z, "alive")
        z.end()
        for who in (a, b, x):
            self.sees(who, z, "failed", 40)
        self.says("force-leave at ours", x, "force-leave", "z")
        for who in (a, x, y):
            self.sees(who, z, "left")
        self.says("force-leave -prune at ours", x, "force-leave", "-prune", "z")
        for who in (a, x):
            self.sees(who, z, "")
        self.check("the handler of member-reap ran", until(lambda: any(line.startswith("member-reap|x") for line in x.lines()), 10))
        b.serf("leave")
        b.end(signal.SIGCONT)
        for who in (a, x):
            self.sees(who, b, "left")
        b.start("-join", x.addr)
        for who in (a, x, y):
            self.sees(who, b, "alive")
        b.end()
        for who in (x, y):
            self.sees(who, b, "failed", 40)
        self.says("force-leave at stock", a, "force-leave", "b")
        for who in (a, x):
            self.sees(who, b, "left")
        b.start("-join", x.addr)
        self.sees(x, b, "alive")

    def names(self):
        """Another node with a name that the cluster knows."""
        twin = Agent(self.folder, self.x.program, "a", 9)
        twin.words = ["-encrypt", self.key] if self.key else []
        twin.start("-retry-join", self.x.addr)
        try:
            status = twin.process.wait(30)
        except subprocess.TimeoutExpired:
            status = None
        with open(os.path.join(self.folder, "a.log"), encoding="utf-8", errors="replace") as file:
            text = file.read()
        self.check("a second node of a name ends", status == 1 and "another node has the name" in text)
        twin.end()
        self.sees(self.x, self.a, "alive")

    def replaying(self):
        """A new node accepts events from before its join only if an option says so."""
        z = Agent(self.folder, self.x.program, "new", 8)
        z.words = [*(["-encrypt", self.key] if self.key else []), *self.handlers(z)]
        z.start("-join", self.a.addr)
        self.sees(self.x, z, "alive")
        time.sleep(2)
        self.check("a join ignores old events", z.ran("from-stock") == [])
        self.x.serf("event", "-coalesce=false", "fresh", "v1")
        self.check("and accepts new ones", until(lambda: z.ran("fresh") == ["v1"], 10))
        z.serf("leave")
        z.end(signal.SIGCONT)
        for name, words, join in (("flag", ["-replay", "-join", self.a.addr], None), ("command", [], ["-replay", self.x.addr])):
            open(z.handled, "w", encoding="utf-8").close()
            z.start(*words)
            if join:
                self.says("join -replay", z, "join", *join, has=["Successfully joined"])
            self.check(f"-replay by the {name} accepts old events", until(lambda: z.ran("from-stock") == ["v 1"], 10))
            z.serf("leave")
            z.end(signal.SIGCONT)

    def crashes(self):
        a, x = self.a, self.x
        repeats = {}
        for number in range(5):
            a.serf("event", "-coalesce=false", "crash", f"{number}-1")
            time.sleep(0.1)
            a.serf("event", "-coalesce=false", "crash", f"{number}-2")
            until(lambda: f"{number}-2" in x.ran("crash"), 5)
            x.end()
            time.sleep(0.5)
            x.start()
            until(lambda: a.status("x") == "alive" and x.status("a") == "alive", 20)
        self.check("ours rejoins by its snapshot", x.status("a") == "alive" and a.status("x") == "alive")
        time.sleep(3)
        for payload in x.ran("crash"):
            repeats[payload] = repeats.get(payload, 0) + 1
        self.check(
            "ten events over five kills: each ran once at ours",
            sorted(repeats) == sorted(f"{n}-{m}" for n in range(5) for m in (1, 2)) and set(repeats.values()) == {1},
        )
        before = x.ran("from-stock")
        self.check("no earlier event ran again", before == ["v 1"])

    def signals(self):
        a, x, z = self.a, self.x, self.z
        settings = os.path.join(self.folder, "z.json")

        def write(handler, size, level):
            with open(settings, "w", encoding="utf-8") as file:
                json.dump({"event_handlers": [handler], "tags": {"size": size}, "log_level": level}, file)

        write("user=true", "small", "info")
        z.words = ["-snapshot", z.snapshot, "-config-file", settings] + (["-encrypt", self.key] if self.key else [])
        z.start("-retry-join", "127.0.7.99", "-retry-join", a.addr, "-retry-interval", "1s")
        self.sees(x, z, "alive")
        write(f"user=sh {self.handler} {z.handled}", "large", "debug")
        z.process.send_signal(signal.SIGHUP)
        self.check("SIGHUP reloads tags", until(lambda: "size=large" in a.serf("members", "-name", "z")[1], 10))
        a.serf("event", "-coalesce=false", "hung-up", "v1")
        self.check("and handlers", until(lambda: z.ran("hung-up") == ["v1"], 10))
        write("nonsense=true", "other", "debug")
        z.process.send_signal(signal.SIGHUP)
        time.sleep(1)
        self.check("a bad file changes nothing", "size=large" in a.serf("members", "-name", "z")[1] and z.process.poll() is None)
        self.check("SIGINT leaves, with 0", z.end(signal.SIGINT) == 0)
        self.sees(a, z, "left")
        write("user=true", "small", "info")
        z.start()
        time.sleep(2)
        self.check("after a leave it doesn't rejoin by itself", z.status("a") == "")
        z.end(signal.SIGTERM)
        z.start("-rejoin")
        self.check("with -rejoin it does", until(lambda: z.status("a") == "alive", 20) or z.status("a") == "alive")
        self.sees(a, z, "alive")
        self.check("SIGTERM has Serf's status", z.end(signal.SIGTERM) == 1)
        self.sees(a, z, "failed", 40)

    def taking_over(self):
        """A stock agent's file is used by ours, and then by stock again."""
        a, b, x = self.a, self.b, self.x
        b.end()
        ours = Agent(self.folder, self.x.program, "b", 2)
        ours.words = ["-snapshot", b.snapshot, *(["-encrypt", self.key] if self.key else []), *self.handlers(ours)]
        ours.handled = b.handled
        count = len(b.ran("crash"))
        ours.start()
        self.check("ours takes over a stock agent's file and rejoins", until(lambda: ours.status("a") == "alive", 20))
        self.sees(a, ours, "alive")
        time.sleep(3)
        self.check("and runs no old event", len(ours.ran("crash")) == count)
        a.serf("event", "-coalesce=false", "handed-over", "v1")
        self.check("and runs new ones", until(lambda: ours.ran("handed-over") == ["v1"], 10))
        time.sleep(1)
        ours.end()
        b.start()
        self.check("stock uses it again and rejoins", until(lambda: b.status("a") == "alive", 20))
        self.sees(x, b, "alive")

    def keys(self):
        a, x = self.a, self.x
        listing = rf"{re.escape(self.key)} +\[(\d)/\1\]" if self.key else None
        if not self.key:
            self.says("keys -list without encryption", x, "keys", "-list", status=1, has=["nodes reported failure", "not enabled"], tries=2)
            return
        new = base64.b64encode(os.urandom(32)).decode()
        self.says("keys -list at ours", x, "keys", "-list", has=[listing], tries=3)
        self.says("keys -list at stock", a, "keys", "-list", has=[listing], tries=3)
        self.says("keys -install at ours", x, "keys", "-install", new, has=["Successfully installed key"], tries=3)
        self.says("keys -use at stock", a, "keys", "-use", new, has=["Successfully changed primary key"], tries=3)
        self.says(
            "removing the primary key fails", x, "keys", "-remove", new, status=1, has=["Removing the primary key is not allowed"], tries=2
        )
        self.says("keys -remove at ours", x, "keys", "-remove", self.key, has=["Successfully removed key"], tries=3)
        self.says("a key that is none is refused", x, "keys", "-install", "x", status=1, has=["illegal base64"])
        self.says("only the new one is there", x, "keys", "-list", has=[re.escape(new)], lacks=[re.escape(self.key)], tries=3)
        a.serf("event", "-coalesce=false", "rekeyed", "v1")
        self.check("events continue", until(lambda: x.ran("rekeyed") == ["v1"], 10))

    def refused(self):
        """What isn't possible: the agent prints a sentence, and ends with status 1."""
        program = self.x.program
        at = ["-bind", "127.0.7.9:7946", "-rpc-addr", "127.0.7.9:7373"]
        for what, words, says in (
            ("a flag that nobody knows", ["-foo"], "-foo"),
            ("-discover", ["-discover", "x"], "-join"),
            ("a name of 129 bytes", [*at, "-node", "x" * 129], "at most 128"),
            ("a file that another agent has", [*at, "-snapshot", self.x.snapshot], "another agent has the file"),
            ("a folder as a file", [*at, "-snapshot", self.folder], "is not a regular file"),
            ("a folder that isn't there", [*at, "-snapshot", "/nowhere/x"], "folder of the file doesn't exist"),
            ("a full disk", [*at, "-tags-file", "/dev/full"], "-tags-file"),
            ("an address that is taken", ["-bind", f"{self.a.addr}:7946", "-rpc-addr", "127.0.7.9:7373"], "address already in use"),
            ("an RPC address that is taken", ["-bind", "127.0.7.9:7946", "-rpc-addr", self.a.rpc], "address already in use"),
            ("a join of nobody", [*at, "-join", "127.0.7.99"], "-join"),
            ("a bad handler", [*at, "-event-handler", "foo=bar"], "is not an event"),
        ):
            status, text = kit.run_serf([*program, *words])
            good = status == 1 and says in text.splitlines()[-1] if text else False
            self.check(f"{what}: {says}", good)
            if not good:
                print(f"    status {status}: {text[-400:]!r}")

    def run(self):
        self.a.start()
        self.b.start("-join", self.a.addr)
        self.x.start("-join", self.a.addr)
        self.y.start()
        parts = (
            self.members, self.events, self.queries, self.tags, self.watching, self.refused, self.names, self.replaying,
            self.coming_and_going, self.crashes, self.signals, self.taking_over, self.keys,
        )
        try:
            for part in parts:
                print(f"-- {part.__name__}", flush=True)
                part()
        finally:
            for agent in self.all():
                agent.end()
        for agent in (self.x, self.y, self.z):
            with open(agent.log, encoding="utf-8", errors="replace") as file:
                text = file.read()
            self.check(f"no race and no panic at {agent.name}", "DATA RACE" not in text and "panic:" not in text)


def main(words):
    missing = kit.missing_command()
    if missing:
        sys.exit(f"it needs {missing}")
    folder = tempfile.mkdtemp(prefix="agent-")
    program = words[words.index("--agent") + 1] if "--agent" in words else kit.build(folder)
    key = base64.b64encode(os.urandom(32)).decode()
    passed, failed = 0, []
    for name, one in (("plain", None), ("encrypted", key)):
        if {"--plain", "--encrypted"} & set(words) and f"--{name}" not in words:
            continue
        print(f"== {name}", flush=True)
        room = os.path.join(folder, name)
        os.mkdir(room)
        run = Run(room, program, one)
        run.run()
        passed += run.passed
        failed += [f"{name}: {what}" for what in run.failed]
    if "--keep" not in words:
        shutil.rmtree(folder)
    else:
        print(f"the files are in {folder}")
    print("\n".join(failed))
    print(f"{passed} passed, {len(failed)} failed")
    return 1 if failed else 0


if __name__ == "__main__":
    sys.exit(main(sys.argv[1:]))
