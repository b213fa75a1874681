"""Agents that keep their events, over random lives: compares the library, through its binding for Python, with the agent in Python of
conformance/.

    tests/library/kept_lives.py [--library FILE] [--over-ci] [--seeds FIRST-LAST] [--steps N]

Both make the same calls on the same text: packets, firings, queries, merges, compactions, and restarts on a text that is unchanged,
that has a tail of strangers' lines, or that is torn; with settings that change from life to life, `keep_events` among them. After
each call both have to answer the same, and to have the same clocks, minimum times, state and text, byte for byte. The
library has to report that a compaction is worthwhile exactly if it would leave half of the text or less.

The script also fails if a seed hands out an event twice, or if too few of the cases that it needs occurred. (`replay` and `conform`
don't know the setting yet.) --library and --over-ci are those of tests/library/embed.py.
"""

import argparse
import collections
import os
import random
import sys
import tempfile

sys.dont_write_bytecode = True
sys.path.insert(0, os.path.dirname(os.path.dirname(os.path.abspath(__file__))))
import checks
import c_library

sys.path.insert(0, os.path.join(checks.TOP, "conformance", "python"))
from serf_agent import agent as python_agent
from serf_agent import kept, messages

# What a name or a payload may be.
TEXTS = [b"", b"a", b"b", b"deploy"]

# Times that packets have, in addition to those near the clock.
FAR = [0, 1, 100]

# Lines of unknown origin, as a tail may have them.
STRANGE = [
    b"event-clock: 7\n",
    b"event-clock: 012\n",
    b"query-clock: 3\n",
    b"clock: 4\n",
    b"#least event-clock: 6\n",
    b"#least query-clock: 2\n",
    b"#least event-clock: 0\n",
    b"#event 5 61 62\n",
    b"#event 5  62\n",
    b"#event 5 6 62\n",
    b"#event 0 61 62\n",
    b"#event 9 61\n",
    b"#query 3 7\n",
    b"#query 3 4294967296\n",
    b"alive: a 127.0.0.1:7946\n",
    b"#\n",
    b"\n",
]

# The minimum size of a text that is worth a compaction, in bytes.
LIMIT = 100

# The minimum number of times that each of these has to occur in all seeds together.
MINIMUMS = {
    "new": 300,
    "Seen": 100,
    "BelowMinimum": 100,
    "TooOld": 20,
    "TimeFull": 20,
    "compacted": 50,
    "restarted": 100,
    "torn": 30,
    "merged": 100,
    "worth": 100,
}


def words_of(name):
    """A reason in the words of a trace."""
    return "".join(part.capitalize() for part in name.split("_"))


class Library:
    """The library's agent over a file."""

    def __init__(self, binding, path):
        self.binding, self.path, self.agent = binding, path, None

    def open(self, config, text):
        if self.agent is not None:
            self.agent.close()
        with open(self.path, "wb") as file:
            file.write(text)
        settings = self.binding.Settings(
            event_buffer=config.events, query_buffer=config.queries, responders=config.responders, per_time=config.per_time,
            ignore_old=config.ignore_old, keep_events=config.keeps,
        )
        self.agent = self.binding.Agent(config.name, self.path, settings)
        return "opened", []

    def text(self):
        with open(self.path, "rb") as file:
            return file.read()

    def dump_state(self):
        clocks = self.agent.clocks()
        minimum = clocks.event_minimum, clocks.query_minimum
        return (
            (clocks.member, clocks.event, clocks.query, *minimum),
            self.text(),
            self.agent.local_state(),
            self.agent.should_compact(LIMIT),
        )

    def call(self, name, *words):
        try:
            return getattr(self, name)(*words)
        except self.binding.AgentError as error:
            return f"refused {words_of(error.code.name)}", []

    def deliver(self, packet):
        received = self.agent.receive(0, packet)
        if isinstance(received, self.binding.ReceivedEvent):
            return "new", [line_of(received.event)]
        if isinstance(received, self.binding.ReceivedQuery):
            return "query", [f"handed {received.query.time} {received.query.id}"] if received.query else []
        return f"ignored {words_of(received.reason.name)}", []

    def fire(self, name, payload):
        return "fired", [line_of(self.agent.fire(name, payload).event)]

    def query(self, number):
        asked = self.agent.query(0, number, b"q", b"", timeout=1000)
        return "queried", [f"handed {asked.query.time} {asked.query.id}"]

    def merge(self, packet, join):
        return "merged", [line_of(event) for event in self.agent.merge(packet, join=join)]

    def compact(self):
        self.agent.compact()
        return "compacted", []

    def save(self):
        self.agent.save_member_clock()
        return "saved", []


def line_of(event):
    return python_agent.event_line(event.time, event.name, event.payload, event.coalesce)


class Reference:
    """The agent in Python."""

    def open(self, config, text):
        self.agent = python_agent.Agent(config, text)
        return "opened", []

    def text(self):
        return self.agent.snapshot.disk.durable

    def dump_state(self):
        agent, text = self.agent, self.text()
        is_worth = len(text) > LIMIT and 2 * len(agent.snapshot.compacted(agent.kept_lines())) <= len(text)
        return (*agent.clocks(), agent.events.minimum, agent.queries.minimum), text, bytes(agent.state().packets[0]), is_worth

    def call(self, name, *words):
        try:
            reply = self.called(name, *words)
        except python_agent.Refusal as refusal:
            return f"refused {refusal}", []
        first = reply.answer if reply.answer.startswith("ignored") else reply.answer.split()[0]
        return first, reply.events + [" ".join(["handed", *line.split()[2:4]]) for line in reply.handed]

    def called(self, name, *words):
        if name == "deliver":
            return self.agent.deliver(words[0], 0)
        if name == "fire":
            return self.agent.fire(*words, False)
        if name == "query":
            return self.agent.query(0, words[0], b"q", b"", 1000, 0, [])
        return getattr(self.agent, name)(*words)


class Lives:
    """A random sequence of lives, made by both."""

    def __init__(self, seed, library):
        self.draw, self.both = random.Random(seed), (library, Reference())
        self.seen, self.handed, self.packets = collections.Counter(), collections.Counter(), []
        self.restart(b"")

    def config(self):
        draw = self.draw
        slots = [draw.choice([1, 2, 4, 16]) for _ in range(2)]
        return python_agent.Config(b"a", *slots, 512, 8, draw.random() < 0.5, draw.choice([1, 2, 3]), 1024, 1024, draw.random() < 0.85)

    def restart(self, text):
        self.opened = self.config()
        for one in self.both:
            one.open(self.opened, text)
        self.seen["restarted"] += 1

    def time(self):
        draw = self.draw
        clock = self.both[1].agent.events.clock
        return draw.choice(FAR) if draw.random() < 0.05 else max(0, clock + draw.randint(-6, 3))

    def event(self):
        draw = self.draw
        return messages.encode_event(messages.UserEvent(self.time(), draw.choice(TEXTS), draw.choice(TEXTS), False))

    def asked(self):
        return messages.encode_query(messages.Query(self.time(), self.draw.randint(0, 3), b"", 0, b"o", [], 0, 0, 1000, b"q", b""))

    def state(self):
        draw = self.draw
        slots = [
            messages.Slot(self.time(), [messages.Texts(draw.choice(TEXTS), draw.choice(TEXTS)) for _ in range(draw.randint(1, 3))])
            for _ in range(draw.randint(0, 3))
        ]
        return messages.encode_state(messages.PushPull(draw.randint(0, 9), [], [], self.time(), slots, self.time()))

    def packet(self):
        """A packet, which may be one that was received before."""
        if self.packets and self.draw.random() < 0.4:
            return self.draw.choice(self.packets[-40:])
        self.packets.append(self.event() if self.draw.random() < 0.75 else self.asked())
        return self.packets[-1]

    def next(self):
        """A call, by its name and its words."""
        draw = self.draw.random()
        if draw < 0.5:
            return "deliver", self.packet()
        if draw < 0.62:
            return "fire", self.draw.choice(TEXTS), self.draw.choice(TEXTS)
        if draw < 0.68:
            return "query", self.draw.randint(0, 3)
        if draw < 0.8:
            return "merge", self.state(), self.draw.random() < 0.4
        if draw < 0.86:
            return ("compact",)
        return ("save",) if draw < 0.88 else ("restart",)

    def left(self):
        """The text of the next life: unchanged, with a tail, or torn by an append that wasn't confirmed."""
        draw, text = self.draw, self.both[1].text()
        kind = draw.random()
        if kind < 0.5:
            return text
        if kind < 0.65:
            return text + b"".join(draw.choice(STRANGE) for _ in range(draw.randint(1, 3)))
        self.seen["torn"] += 1
        time = self.time() or 1
        lines = f"event-clock: 0{time}\n".encode() + kept.event_line(time, draw.choice(TEXTS), draw.choice(TEXTS))
        return text + lines[: draw.randint(1, len(lines))]

    def step(self):
        """Makes a call on both. Returns what differs, or None."""
        call = self.next()
        if call[0] == "restart":
            self.restart(self.left())
        else:
            answers = [one.call(*call) for one in self.both]
            if answers[0] != answers[1]:
                return f"{call}: the library {answers[0]}, the agent in Python {answers[1]}"
            self.seen[answers[0][0].split()[-1]] += 1
            self.handed.update(answers[0][1])
        states = [one.dump_state() for one in self.both]
        self.seen["worth"] += states[0][-1]
        return None if states[0] == states[1] else f"after {call}, {self.opened}: the library {states[0]}, the agent in Python {states[1]}"


def run(count, binding, asked):
    seen, handed = collections.Counter(), 0
    first, _, last = asked.seeds.partition("-")
    with tempfile.TemporaryDirectory(dir="/dev/shm" if os.access("/dev/shm", os.W_OK) else None) as folder:
        for seed in range(int(first), int(last) + 1):
            library = Library(binding, os.path.join(folder, "snapshot"))
            lives = Lives(seed, library)
            fault = next(filter(None, (lives.step() for _ in range(asked.steps))), None)
            library.agent.close()
            count.check(f"seed {seed}", not fault, fault)
            twice = [line for line, times in lives.handed.items() if times > 1]
            count.check(f"seed {seed}: nothing is handed out twice", not twice, twice)
            seen.update(lives.seen)
            handed += lives.handed.total()
    print(f"{handed:,} hand-outs; " + ", ".join(f"{seen[name]} {name}" for name in MINIMUMS))
    for name, minimum in MINIMUMS.items():
        count.check(f"{name} occurred often enough", seen[name] >= minimum, f"{seen[name]}, and {minimum} are needed")


def main():
    parser = argparse.ArgumentParser(description=__doc__, formatter_class=argparse.RawDescriptionHelpFormatter)
    parser.add_argument("--library")
    parser.add_argument("--over-ci", action="store_true")
    parser.add_argument("--seeds", default="1-40")
    parser.add_argument("--steps", type=int, default=100)
    options = parser.parse_args()
    count = checks.Checks()
    fault = None if options.library else c_library.fault_of_library(options.over_ci)
    with tempfile.TemporaryDirectory() as folder:
        shared = os.path.join(folder, "libserf_agent.so")
        fault = fault or c_library.fault_of_shared(shared, os.path.abspath(options.library or c_library.LIBRARY))
        if fault:
            count.check("the library is built", False, fault)
            return count.finish()
        os.environ["SERF_AGENT_LIBRARY"] = shared
        run(count, binding_for_python(), options)
    return count.finish()


def binding_for_python():
    """The package of bindings/python. The agent of conformance/ has a package of the same name, which is set aside meanwhile."""
    own = {name: sys.modules.pop(name) for name in list(sys.modules) if name.partition(".")[0] == "serf_agent"}
    sys.path.insert(0, os.path.join(checks.TOP, "bindings", "python"))
    try:
        import serf_agent

        return serf_agent
    finally:
        sys.path.pop(0)
        for name in [name for name in sys.modules if name.partition(".")[0] == "serf_agent"]:
            sys.modules[f"binding_{name}"] = sys.modules.pop(name)
        sys.modules.update(own)


if __name__ == "__main__":
    sys.exit(main())
