"""Texts with lines about handlers, from a seed: each is a tuple of its kind, the text, and the open events by a host's own list, if there
is such a list."""

import os
import random

from serf_agent import handlers, kept

# The kinds of texts.
KINDS = ("host", "changed", "strange", "without", "cut", "sealed", "agent")

# Nobody but the readers knows what is open.
UNKNOWN = object()

# What a name or a payload may be: some are alike, and some spell parts of lines.
PARTS = [b"", b"a", b"b", b"ab", b"deploy", b"\n", b"#done 9", bytes(range(256))]

# A payload of an event that no restart restores, and how often events have it.
LARGE, LARGE_ONES = bytes(9217), 0.002

# How many texts of each kind a seed has, how often each of them is cut, and how many are cut at each byte.
HOSTS, CHANGED, STRANGE, WITHOUT, CUTS = 40, 80, 80, 20, 3
CUT_AT_EACH_BYTE = {"host": 1, "changed": 1, "strange": 1}

# Lines that no reader accepts, or that say nothing of handlers; {time} is one of the times that are used.
FOREIGN = [
    "#begun {time}",
    "#open {time}",
    "#event {time}",
    "#done",
    "#done ",
    "#done {time} ",
    "#done  {time}",
    "#done {time} 61",
    "#done +{time}",
    "#done -{time}",
    "#done 0{time}",
    "#done {time}.",
    "#done 18446744073709551615",
    "#done 18446744073709551614",
    "#done 99999999999999999999999",
    "#Done {time}",
    "#DONE {time} 61 62",
    "#finished {time} 61 62",
    "#begin {time} 61 62",
    "#begun2 {time} 61 62",
    "#begunx{time} 61 62",
    "#begun {time} 61 62 7",
    "#done {time} 61 62 0",
    "#open {time} 61 62 63 64",
    "#event {time} 61 62 1",
    "#begun {time} 61  62",
    "#begun  {time} 61 62",
    "#begun {time} 61 6",
    "#begun {time} 6g 62",
    "#begun {time} 0x61 62",
    "#done {time} 61",
    "#open 0 61 62",
    "#event 0 61 62",
    "#begun 0 61 62",
    "#open 18446744073709551615 61 62",
    "#event 18446744073709551614 61 62",
    "#begun {time} 61 62\r",
    " #begun {time} 61 62",
    "begun {time} 61 62",
    "##begun {time} 61 62",
    "#begun\t{time} 61 62",
    "#",
    "",
    "#query {time} 7",
    "#least event-clock: {time}",
    "clock: {time}",
    "event-clock: {time}",
    "event-clock: 0{time}",
    "query-clock: {time}",
    "alive: a 127.0.0.1:7946",
    "not-alive: a",
    "leave",
    "coordinate: {{}}",
    "\x00\x00\x00",
    "#ran {time}",
    "#ran {time} 61 62",
    "#ran {time} 61 62 deploy=0",
    "#process {time} 61 62 deploy 12 345 1b4e28ba-2fa1",
    "# filler",
]


class Draw:
    """Random events, lines and texts."""

    def __init__(self, *seed):
        self.draw = random.Random(" ".join(map(str, seed)))

    def event(self):
        draw = self.draw
        time = (
            draw.choice([1, 2, 3, 4, 5, 6, 7, 8, 9, 10, 2**32, 2**64 - 2])
            if draw.random() < 0.97
            else draw.getrandbits(64) % (2**64 - 2) + 1
        )
        name, payload = (draw.choice(PARTS[:5] if draw.random() < 0.9 else PARTS) for _ in range(2))
        return time, name, LARGE if draw.random() < LARGE_ONES else payload

    def spelled(self, line):
        """A line in another spelling, which means the same: more zeros in front of its time, or digits in upper case."""
        draw = self.draw
        word, time, *rest = line.rstrip(b"\n").split(b" ")
        if draw.random() < 0.5:
            time = b"0" * draw.choice([1, 2, 20, 5000]) + time
        if draw.random() < 0.5:
            rest = [text.upper() for text in rest]
        return b" ".join([word, time, *rest]) + b"\n"

    def line(self, events):
        """A line about handlers, or another one."""
        draw, event = self.draw, self.draw.choice(events)
        kind = draw.random()
        if kind < 0.25:
            return foreign(draw.choice(FOREIGN), event[0])
        if kind < 0.4:
            return handlers.done_up_to_line(
                draw.choice([0, event[0], max(event[0] - 1, 0), 2**64 - 2] if draw.random() < 0.3 else [0, 0, 1, 2])
            )
        line = draw.choice(
            [
                kept.event_line,
                kept.event_line,
                of_event(handlers.open_line),
                of_event(handlers.begun_line),
                of_event(handlers.begun_line),
                of_event(handlers.done_line),
            ]
        )(*event)
        return self.spelled(line) if draw.random() < 0.1 else line

    def strange(self):
        events = [self.event() for _ in range(self.draw.randint(1, 5))]
        return b"".join(self.line(events) for _ in range(self.draw.randint(1, 30)))

    def without(self):
        """A text of an agent that knows nothing of handlers, or of Serf."""
        lines = self.strange().splitlines(keepends=True)
        return b"".join(line for line in lines if handlers.time_done(line.rstrip(b"\n")) is None)

    def changed(self, text, other):
        """A text with some of its lines doubled, dropped, moved, changed, or taken from another text."""
        draw, lines, others = self.draw, text.splitlines(keepends=True), other.splitlines(keepends=True)
        for _ in range(draw.randint(1, 6)):
            place, kind = draw.randrange(len(lines) + 1), draw.randrange(6)
            if kind == 0 and lines:
                lines.insert(place, draw.choice(lines))
            elif kind == 1 and lines:
                lines.insert(place, lines.pop(draw.randrange(len(lines))))
            elif kind == 2 and lines:
                del lines[draw.randrange(len(lines))]
            elif kind == 3:
                lines.insert(place, foreign(draw.choice(FOREIGN), draw.randint(1, 10)))
            elif kind == 4 and others:
                lines.insert(place, draw.choice(others))
            elif lines:
                at = draw.randrange(len(lines))
                bytes_of_line = bytearray(lines[at])
                bytes_of_line[draw.randrange(len(bytes_of_line))] = draw.choice(b"0 a#\n\x00\xff")
                lines[at] = bytes(bytes_of_line)
        return b"".join(lines)


def of_event(line):
    """A function of a time, a name and a payload, as `kept.event_line` is one."""
    return lambda *event: line(event)


def foreign(line, time):
    return line.format(time=time).encode("latin-1") + b"\n"


class Host:
    """A host that writes the lines as SPEC says, and its own list of the open events."""

    def __init__(self, drawn):
        self.drawn, self.draw = drawn, drawn.draw
        self.text, self.open, self.is_tracked, self.time = b"", [], False, 0

    def step(self):
        draw, kind = self.draw, self.draw.random()
        if not self.is_tracked and kind < 0.4:
            self.is_tracked, self.open = True, []
            self.text += handlers.done_up_to_line(self.time)
        elif kind < 0.5:
            self.hand_out()
        elif kind < 0.55:
            self.text += foreign(
                draw.choice(["alive: a 127.0.0.1:7946", "clock: {time}", "#query {time} 7", "#a later version's line"]), self.time
            )
        elif self.is_tracked and kind < 0.95:
            self.handle()
        elif self.is_tracked:
            self.compact()

    def hand_out(self):
        """An event is handed out, which is not always later than those before."""
        time = self.time + self.draw.choice([1, 1, 2]) if self.draw.random() < 0.8 else max(self.time - 1, 1)
        event = (time, b"n%d" % len(self.text), self.draw.choice(PARTS))
        clock = f"event-clock: 0{time}\n".encode() if time > self.time else b""
        self.time = max(self.time, time)
        self.text += clock + kept.event_line(*event)
        self.open.append((event, False))

    def handle(self):
        waiting = [event for event, has_begun in self.open if not has_begun]
        if waiting and self.draw.random() < 0.6:
            event = self.draw.choice(waiting)
            self.open[self.open.index((event, False))] = event, True
            self.text += handlers.begun_line(event)
        elif self.open:
            event, _ = self.open.pop(self.draw.randrange(len(self.open)))
            self.text += handlers.done_line(event)

    def compact(self):
        lines = [kept.event_line(*event) for event, _ in self.open if self.draw.random() < 0.5]
        clock = [f"event-clock: 0{self.time}\n".encode()] if self.time else []
        self.text = b"".join([*lines, *clock]) + handlers.compacted(self.time, self.open)

    def run(self, steps):
        for _ in range(steps):
            self.step()
        return self.text, (list(self.open) if self.is_tracked else None)


def cut_at(drawn, text, place):
    """A text that is cut at this byte; and the same sealed, if its last line is torn, and continued by other lines."""
    torn = text[:place]
    yield "cut", torn, UNKNOWN
    if torn and not torn.endswith(b"\n"):
        yield "sealed", torn + b"#\n" + (drawn.strange() if drawn.draw.random() < 0.3 else b""), UNKNOWN


def of_seed(seed):
    """All texts of a seed."""
    drawn = Draw("texts", seed)
    hosts = [Host(drawn).run(drawn.draw.randint(5, 60)) for _ in range(HOSTS)]
    found = [("host", *host) for host in hosts]
    for _ in range(CHANGED):
        (text, _), (other, _) = drawn.draw.choice(hosts), drawn.draw.choice(hosts)
        found.append(("changed", drawn.changed(text, other), UNKNOWN))
    found += [("strange", drawn.strange(), UNKNOWN) for _ in range(STRANGE)]
    found += [("without", drawn.without(), None) for _ in range(WITHOUT)]
    yield from found
    for _, text, _ in found:
        for _ in range(CUTS):
            yield from cut_at(drawn, text, drawn.draw.randint(0, len(text)))
    for kind, times in CUT_AT_EACH_BYTE.items():
        of_kind = [text for its, text, _ in found if its == kind and 100 < len(text) < 600]
        for text in drawn.draw.sample(of_kind, min(times, len(of_kind))):
            for place in range(len(text) + 1):
                yield from cut_at(drawn, text, place)


def events_of(seed):
    drawn = Draw("events", seed)
    return [drawn.event() for _ in range(60)]


def of_agents(seed, binding, path):
    """The files of an agent of the library in lives that a kill ends, at a random byte of what was appended last. The agent seals them."""
    drawn = Draw("agents", seed)
    draw = drawn.draw
    settings = binding.Settings(keep_events=True, event_buffer=8)
    text = handlers.done_up_to_line(0)
    for _ in range(6):
        write(path, text)
        with binding.Agent(b"alpha", path, settings) as agent:
            yield "agent", read(path), UNKNOWN
            for _ in range(12):
                yield "agent", of_call(drawn, agent, path), UNKNOWN
        before, text = text, read(path)
        whole = len(os.path.commonprefix([before, text]))
        text = text[: draw.randint(whole, len(text))]


def of_call(drawn, agent, path):
    """A call of the agent or of its host, and the file after it."""
    draw, kind = drawn.draw, drawn.draw.random()
    open_events = handlers.open_events(read(path)) or []
    if kind < 0.5 or not open_events:
        agent.fire(draw.choice(PARTS[:5]), draw.choice(PARTS[:5]))
    elif kind < 0.9:
        event, has_begun = draw.choice(open_events)
        write(path, (handlers.done_line if has_begun else handlers.begun_line)(event), "ab")
    else:
        agent.compact()
        write(path, handlers.compacted(agent.clocks().event - 1, open_events), "ab")
    return read(path)


def read(path):
    with open(path, "rb") as file:
        return file.read()


def write(path, text, how="wb"):
    with open(path, how) as file:
        file.write(text)
