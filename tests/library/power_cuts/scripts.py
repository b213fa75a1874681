"""Random lines for hosts, from a seed. hosts.py describes what a line means."""

import os
import sys

sys.path.insert(0, os.path.join(os.path.dirname(os.path.abspath(__file__)), "..", "..", "..", "conformance", "python"))
from serf_agent import messages

# The file when a host first opens it: its text, whether the process that wrote it synced it, and what a crash left
# next to it.
OLD = b"clock: 2\nevent-clock: 3\nquery-clock: 1\n"
BEGINNINGS = {
    "no file": (None, True),
    "a file": (OLD, True),
    "a file with filler": (OLD + 60 * b"#" + b"\n", True),
    "a file that was never synced": (OLD, False),
}

# The file of a host that tracks its handlers: one event is done, the handler of one began, and two wait.
OPEN_EVENTS = (
    b"event-clock: 02\n#event 2 6f6e65 \n#done 2\nevent-clock: 03\n#event 3 74776f \n#event 3 7468726565 \n#begun 3 74776f \n"
    b"event-clock: 05\n#event 5 666f7572 \n"
)
TRACKED = {"no file": (None, True), "a file": (OLD, True), "a file with open events": (OPEN_EVENTS, True)}


def clocks_of(text):
    """The numbers of a beginning's lines of events and of queries, by the first word of their hand-outs; 0 if there is none."""
    found = {"e": 0, "h": 0}
    for line in text.decode("ascii").splitlines():
        kind, _, number = line.partition(": ")
        if kind in ("event-clock", "query-clock"):
            found["e" if kind == "event-clock" else "h"] = int(number)
    return found


def hex_line(text):
    return (text + "\n").encode().hex()


def of_a_store(drawn):
    """Lines for a store: appends, and replacements between them."""
    lines, time = [], 3
    for _ in range(drawn.randint(9, 12)):
        time += drawn.randint(1, 400)
        kind = drawn.choice(["event-clock", "event-clock", "query-clock", "clock"])
        lines.append(f"append {hex_line(f'{kind}: {time}')}")
        if drawn.random() < 0.35:
            lines.append(f"replace {hex_line(f'event-clock: {time}')}")
    return [*lines, f"replace {hex_line(f'clock: {time}')}", f"append {hex_line('query-clock: 9')}"]


def appending(drawn):
    """Lines for a store: appends alone, so that filler is used up again and again, at each length of what is left of it."""
    lines, time = [], 3
    for _ in range(40):
        time += drawn.randint(1, 400)
        lines.append(f"append {hex_line(f'event-clock: {time}')}")
        if drawn.random() < 0.3:
            lines.append(f"append {hex_line(f'event-clock: 0{time}') + hex_line(f'#event {time} 6162 ')}")
    return lines


def event(time, name):
    return "r " + messages.encode_event(messages.UserEvent(time, name, b"", False)).hex()


def query(time, number, name):
    # the first flag requests an ack
    return "r " + messages.encode_query(messages.Query(time, number, b"", 0, b"other", [], 1, 0, 1000, name, b"")).hex()


def state(clock, times, names):
    slots = [messages.Slot(time, [messages.Texts(name, b"") for name in names(time)]) for time in times]
    return "m " + messages.encode_state(messages.PushPull(clock, [], [], max(times) + 1, slots, clock)).hex()


def join(clock, times, names):
    slots = [messages.Slot(time, [messages.Texts(name, b"") for name in names(time)]) for time in times]
    return "j " + messages.encode_state(messages.PushPull(1, [], [], clock, slots, 1)).hex()


class Calls:
    """The calls of an agent's life: packets, states, firings, queries, compactions and saves."""

    def __init__(self, drawn):
        self.drawn, self.count, self.time = drawn, 0, 5

    def name(self):
        self.count += 1
        return b"n%d" % self.count

    def near(self):
        self.time += self.drawn.choice([0, 1, 1, 2, 9])
        return max(1, self.time - self.drawn.choice([0, 0, 0, 1, 3]))

    def of_state(self):
        times = sorted({self.near() for _ in range(3)})
        return state(self.time + 1, times, lambda _: [self.name() for _ in range(self.drawn.randint(1, 2))])

    def all(self):
        """One of each kind, and some of those that write, in a random order; some packets are repeated."""
        drawn = self.drawn
        own = [lambda: "f " + self.name().hex(), lambda: "q " + self.name().hex(), lambda: "p", lambda: "k"]
        foreign = [
            lambda: event(self.near(), self.name()),
            lambda: query(self.near(), drawn.getrandbits(32), self.name()),
            self.of_state,
        ]
        kinds = [*foreign * 3, *own * 2, foreign[0], foreign[0], own[0]]
        drawn.shuffle(kinds)
        lines = []
        for kind in kinds:
            lines.append(kind())
            again = [line for line in lines if line[0] in "rm"]
            if again and drawn.random() < 0.3:
                lines.append(drawn.choice(again))
        return lines


def of_an_agent(drawn):
    """A life: some compactions, and one at the end."""
    lines = []
    for line in Calls(drawn).all():
        lines += [line] if drawn.random() > 0.15 else [line, "c"]
    return [*lines, "c", "f " + b"last".hex()]


def compacting(drawn):
    """A life with a compaction after each call."""
    return [word for line in Calls(drawn).all() for word in (line, "c")]


def tracking(drawn, compacts=0.15):
    """A life of a host that tracks its handlers, which begin and end between the other calls."""
    lines = []
    for line in Calls(drawn).all():
        lines += [line, *["s"] * drawn.choice([0, 1, 1, 2]), *["d"] * drawn.choice([0, 0, 1, 2])]
        if drawn.random() < compacts:
            lines.append("c")
    return [*lines, "f " + b"last".hex(), "s", "c", "d", "f " + b"more".hex()]


def joining(drawn):
    """A life with joins. The clock of each state is one of its events' times, so a join that ignores old events accepts some of them."""
    calls, lines = Calls(drawn), []
    for line in calls.all():
        lines.append(line)
        if drawn.random() < 0.4:
            times = sorted({calls.near() for _ in range(4)})
            lines.append(join(drawn.choice(times), times, lambda _: [calls.name()]))
        if drawn.random() < 0.1:
            lines.append("c")
    return lines


def join_clock(line):
    """The event clock of the state with which a line joins; 0 for all other lines."""
    return messages.decode(bytes.fromhex(line[2:])).EventLTime if line[0] == "j" else 0


def bursting(drawn):
    """A life whose packets and firings are made in bursts of one to six, if nothing else is between them."""
    lines, burst = [], []
    for line in [*Calls(drawn).all(), *Calls(drawn).all(), "c"]:
        is_over = line[0] not in "rfq" or len(burst) > drawn.randint(0, 5)
        if burst and is_over:
            lines.append(" ".join(["b", *burst]))
            burst = []
        if line[0] in "rfq":
            burst.append(line.replace(" ", ""))
        else:
            lines.append(line)
    return lines


def packets_in(lines):
    """The packets of the lines, and those of bursts as if they were separate lines."""
    alone = [f"{word[0]} {word[1:]}" for line in lines if line[0] == "b" for word in line.split()[1:]]
    joins = ["m" + line[1:] for line in lines if line[0] == "j"]
    return [line for line in [*lines, *alone, *joins] if line[0] in "rm"]
