"""Days that a cluster of Python agents lives: what `kitchenrue-agent -record` would write of them, the snapshots, and the handlers' log.

The agents are those of conformance/python, so nothing here shares code with the program that judges the records.
"""

import os
import random
import sys

sys.path.insert(0, os.path.join(os.path.dirname(os.path.abspath(__file__)), *[os.pardir] * 3, "conformance", "python"))
from serf_agent.pipe import Pipe

HEADING = "# kitchenrue-agent record 3\n"
OTHER_LINES = (b"alive: b 10.0.0.2:7946\n", b"not-alive: c\n", b"#begun 1 61 62\n", b"##########\n", b"coordinate: {}\n")


# A filter of tags, and the field of a query with no filter and with this one.
TAG_FILTER = "0182a445787072a3776562a3546167a4726f6c65"
NO_FILTER, TAG_FILTERS = "a746696c7465727390", f"a746696c7465727391b4{TAG_FILTER}"


def spliced(chance, text):
    """A text with other lines at the ends of some of its lines."""
    lines = text.splitlines(True)
    out = b""
    for line in lines:
        out += line
        if line.endswith(b"\n") and chance.random() < 0.2:
            out += chance.choice(OTHER_LINES)
    return out


class DayNode:
    """A node of a day."""

    def __init__(self, day, name, mode):
        self.day, self.name, self.mode = day, name, mode
        self.text, self.record, self.handed = b"", "", 0
        self.pipe, self.moment = Pipe(), 10**18
        self.opened_on = []
        self.open()

    def open(self, tail=b""):
        """Begins a life on the file's text and a tail."""
        text = self.text + tail
        self.opened_on.append(text)
        self.handed = 0
        self.record += HEADING if not self.record else "\n" + HEADING
        self.call(f"open {self.name.encode().hex()} 64 64 512 8 {self.mode} 1024 {text.hex() or '-'}")
        self.before = text

    def call(self, line, shown=None):
        """Makes a call, records it and its reply, and puts what was sent on the network."""
        reply = self.pipe.reply(line.encode())
        self.moment += self.day.chance.randrange(10**6)
        self.record += f"at {self.moment}\n{line}\n" + "".join(f"{shown(one) if shown else one}\n" for one in reply) + "\n"
        for one in reply:
            word, *words = one.split(" ")
            if word == "sent":
                self.day.network.append(shown(one).split(" ")[1] if shown else words[0])
            elif word == "event":
                texts = ("" if data == "-" else bytes.fromhex(data).decode("utf-8", "replace") for data in words[1:3])
                time, name, payload = words[0], *texts
                self.day.log.append(f"event {self.name} {time} {name} {payload or '-'}")
            elif word == "handed":
                self.handed = int(words[0]) + 1
        return reply

    def call_with_tags(self, line):
        """Makes a call of a query, which the agent's tags pass, and records it with the filter of tags."""
        start = len(self.record)
        reply = self.call(line)
        bare = next(one.split(" ")[1] for one in reply if one.startswith("sent 04"))
        whole = bare.replace(NO_FILTER, TAG_FILTERS)
        call = self.record[start:].replace(bare, whole)
        at, _, rest = call.partition("\n")
        if line.startswith("query "):
            rest = rest.replace("\n", f" {TAG_FILTER}\n", 1)
        self.record = f"{self.record[:start]}{at}\n# tags pass\n{rest}"
        return whole

    def kept(self):
        """What the disk keeps."""
        word = self.pipe.reply(b"look")[1].split(" ")[1]
        return b"" if word == "-" else bytes.fromhex(word)

    def kill(self):
        """Ends this life and begins the next one, on what the disk keeps with other lines between, and a torn tail."""
        chance = self.day.chance
        self.text = spliced(chance, self.kept())
        whole = self.text.endswith(b"\n") or not self.text
        self.open(chance.choice((b"", b"", b"event-cl", b"alive: x 1\n", b"#ev")) if whole else b"")


def with_members(line):
    """A reply's line with a state that says something of members, as a node's does."""
    return line.replace(
        "ac5374617475734c54696d657380ab4c6566744d656d6265727390", "ac5374617475734c54696d657381a16103ab4c6566744d656d6265727391a162"
    )


def with_address(line):
    """A reply's line with a query that has an address and relays, as a node's does."""
    return line.replace("a441646472a0a4506f727400", "a441646472a40a000001a4506f7274cd1f0a").replace(
        "ab52656c6179466163746f7200", "ab52656c6179466163746f7203"
    )


class Day:
    """A day of three nodes: firings, queries, deliveries, repeats, states and kills, by chance from a seed."""

    def __init__(self, seed, steps=150, modes=("keep", "keep+events", "ignore+events")):
        self.chance, self.network, self.log = random.Random(seed), [], []
        self.nodes = [DayNode(self, name, mode) for name, mode in zip("abc", modes)]
        for number in range(steps):
            self.step(number)

    def step(self, number):
        chance = self.chance
        node = chance.choice(self.nodes)
        pick = chance.random()
        if pick < 0.2:
            node.call(f"fire {chance.choice((b'deploy', b'reload')).hex()} {(b'v%d' % number).hex()} {chance.randrange(2)}")
        elif pick < 0.27:
            node.call(f"query {number * 1000} {number} {b'load'.hex()} - 100000 1", with_address)
        elif pick < 0.34:
            node.call("state", with_members)
        elif pick < 0.38:
            node.call("save")
        elif pick < 0.41:
            node.record += "# compacting\n"
            node.call("compact")
        elif pick < 0.44:
            node.call(f"close {number * 1000}")
        elif pick < 0.48 and node.handed:
            node.call(f"respond {chance.randrange(node.handed)} {number * 1000} {b'0.12'.hex()}")
        elif pick < 0.52:
            node.kill()
        elif self.network:
            packet = chance.choice(self.network[-30:])
            is_state = packet.startswith("02")
            node.call(f"merge {packet} {chance.choice(('join', 'sync'))}" if is_state else f"deliver {packet} {number * 1000}")

    def write(self, folder):
        """Writes the records, the snapshots and the log into a folder, and returns the paths of the records."""
        paths = []
        for node in self.nodes:
            paths.append(os.path.join(folder, f"{node.name}.record"))
            with open(paths[-1], "w", encoding="ascii") as file:
                file.write(node.record)
            with open(os.path.join(folder, f"{node.name}.snapshot"), "wb") as file:
                file.write(spliced(self.chance, node.kept()))
        with open(os.path.join(folder, "handlers.log"), "w", encoding="utf-8") as file:
            file.write("".join(line + "\n" for line in self.log))
        return paths
