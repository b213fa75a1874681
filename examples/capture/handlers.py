"""The logs of handlers, and whether a schedule hands out what they have."""

import collections
import os
import re
import shutil
import subprocess

from gossip import Event
from moments import PARTS, SECOND
from story import count_of, quoted

TOP = os.path.dirname(os.path.dirname(os.path.dirname(os.path.abspath(__file__))))

# A line of a log: the node, the event as the log has it, the place of the line, and its date in microseconds since 1970, or None.
Line = collections.namedtuple("Line", "node event place date")

# An event that the schedule hands out to a node, and whether Serf may coalesce it.
Delivery = collections.namedtuple("Delivery", "node event coalesces")

# How long before its handler runs an event can have arrived, in microseconds: Serf holds one that it may coalesce for 3 seconds.
HELD = 4 * SECOND

# How many events a sentence names.
MAX_NAMED = 4

# What can be the matter, and what to do.
STARTED = "If {} was started again, --down says when, and --kept on which snapshot"
IGNORES = "If {} didn't run then, --down says so; if it joins without -replay, --ignore does"

BEGINS = "Its agents begin with nothing; begin the capture earlier"

DATE = re.compile(r"\d{4}-")
TIME_OF_DAY = re.compile(r"\d\d:")

# The first words of lines that hand out no event. (What begins, `begun`, was handed out.)
SKIPPED = (b"fired", b"query", b"restarted", b"ended")

# What `examples/serf_log_handler.sh` writes for these bytes.
ESCAPES = ((b"%", b"%25"), (b" ", b"%20"), (b"\r", b"%0D"), (b"\n", b"%0A"))


class LogError(Exception):
    """A log that can't be read, or the program that runs the schedule."""


def log_word(text):
    """A text as a word of a log."""
    text = text.removesuffix(b"\n")
    for byte, escape in ESCAPES:
        text = text.replace(byte, escape)
    return {b"": b"-", b"-": b"%2D"}.get(text, text)


def logged_event(event):
    """An event with its texts as words of a log."""
    return Event(event.time, log_word(event.name), log_word(event.payload))


def event_text(event):
    """An event as a sentence names it."""
    name, payload = (quoted(text.decode("utf-8", "replace")) for text in event[1:])
    return f'{event.time} "{name}" "{payload}"'


def date_of(words, clock):
    """The date before a log's line, as microseconds since 1970, or None; and the words after it."""
    if not words or not DATE.match(words[0].decode("ascii", "replace")):
        return None, words
    text = words[0].decode("ascii", "replace")
    if len(words) > 1 and TIME_OF_DAY.match(words[1].decode("ascii", "replace")):
        text, words = f"{text}T{words[1].decode('ascii', 'replace')}", words[1:]
    return (clock.of_day(text) if PARTS.fullmatch(text) else None), words[1:]


def lines_of(path, data, clock):
    """The events of a log, and the sentences about its bad lines."""
    lines, bad, name = [], [], os.path.basename(path)
    for number, line in enumerate(data.removeprefix(b"\xef\xbb\xbf").split(b"\n"), 1):
        try:
            date, words = date_of(line.removesuffix(b"\r").split(), clock)
        except ValueError as why:
            bad.append(f"{path}: line {number} of the log has an impossible date: {why}")
            continue
        if not words or words[0].startswith(b"#") or words[0] in SKIPPED:
            continue
        if words[0] not in (b"event", b"begun") or len(words) != 5 or not words[2].isdigit():
            bad.append(f"{path}: line {number} is no line of a handlers' log, such as `event NODE TIME NAME PAYLOAD`")
            continue
        node = words[1].decode("utf-8", "replace")
        lines.append(Line(node, Event(int(words[2]), words[3], words[4]), f"{name}:{number}", date))
    return lines, bad


class Logs:
    """The logs that --log names: their lines, which nodes they are of, and what is wrong with them."""

    def __init__(self, clock):
        self.clock, self.lines, self.nodes, self.bad = clock, [], set(), []

    def add(self, node, path):
        """Reads a log; if a node is said, all of its lines are of this node."""
        with open(path, "rb") as file:
            lines, bad = lines_of(path, file.read(), self.clock)
        other = next((line for line in lines if node is not None and line.node != node), None)
        if other:
            raise LogError(f'--log says that {path} is the log of "{quoted(node)}", and {other.place} is a line of "{quoted(other.node)}"')
        self.lines += lines
        self.bad += bad
        self.nodes |= {line.node for line in lines} | ({node} if node is not None else set())


def program():
    """Where `serf-replay` is: on PATH, in this clone, or in this archive of a release."""
    paths = [shutil.which("serf-replay"), os.path.join(TOP, "serf-replay"), os.path.join(TOP, "bin", "serf-replay")]
    for path in filter(None, paths):
        if os.path.exists(path):
            return path
    raise LogError("--log runs the schedule by serf-replay, which is not on PATH: put it there")


def run_program(arguments, text):
    """Runs serf-replay on a text, and returns what it prints."""
    result = subprocess.run([program(), *arguments], input=text, capture_output=True)
    if result.returncode:
        errors = result.stderr.decode("utf-8", "replace").strip()
        raise LogError(f"--log runs the schedule, and `serf-replay {' '.join(arguments)}` ended with status {result.returncode}: {errors}")
    return result.stdout


def bytes_of(text):
    return b"" if text == b"-" else bytes.fromhex(text.decode())


def handed_out(lines, nodes):
    """The events that a schedule's run hands out. `nodes` are those of its agents, in their order."""
    trace = run_program(["replay", "--stream"], run_program(["write"], "".join(f"{line}\n" for line in lines).encode()))
    for words in (line.split(b" ") for line in trace.splitlines()):
        if words[1] == b"event":
            yield Delivery(
                nodes[int(words[2])], logged_event(Event(int(words[3]), bytes_of(words[4]), bytes_of(words[5]))), words[6] == b"1"
            )


def count_and_names(counts):
    """How many events there are, and the first of them by their times."""
    event_texts = [event_text(event) + (f" ({count} times)" if count > 1 else "") for event, count in sorted(counts.items())]
    rest = f" and {len(event_texts) - MAX_NAMED} more" if len(event_texts) > MAX_NAMED else ""
    return count_of(sum(counts.values()), "event"), ", ".join(event_texts[:MAX_NAMED]) + rest


def is_coalesced(event, logged):
    """Whether Serf may have left an event out: it has handed out a later one of this name."""
    return any(other.name == event.name and other.time > event.time for other in logged)


def is_due(line, clock, carried):
    """Whether the schedule has to hand out an event that a log has."""
    if line.date is None:
        return True
    return line.date <= clock.began + clock.length and ((line.node, line.event) in carried or line.date > clock.began + HELD)


def contradictions(logs, handed, carried, names):
    """What the logs have otherwise than the schedule's run: a sentence for each node and each way.

    A line counts from the capture's first packet on. The schedule has to hand its event out if it is dated up to the last packet. `carried`
    has each node with the events of its packets: another one of the first seconds may have arrived before the capture.
    """
    clock, carried = logs.clock, {(node, logged_event(event)) for node, event in carried}
    first = clock.began // SECOND * SECOND
    for node in sorted(logs.nodes):
        if node not in names:
            yield f'the logs have a node "{quoted(node)}", which the capture doesn\'t have'
            continue
        node_lines = [line for line in logs.lines if line.node == node]
        lines_since_start = [line for line in node_lines if line.date is None or line.date >= first]
        before = {line.event for line in node_lines} - {line.event for line in lines_since_start}
        logged = collections.Counter(line.event for line in lines_since_start)
        due = collections.Counter(line.event for line in lines_since_start if is_due(line, clock, carried))
        node_deliveries = [one for one in handed if one.node == node]
        handed_out_counts = collections.Counter(one.event for one in node_deliveries)
        unexpected = due - handed_out_counts
        if unexpected:
            number, named = count_and_names(unexpected)
            yield f"{quoted(node)}'s log has {number} that this schedule doesn't hand out: {named}. {STARTED.format(quoted(node))}"
        certain_counts = collections.Counter(
            one.event for one in node_deliveries if not (one.coalesces and is_coalesced(one.event, logged))
        )
        missing = certain_counts - logged
        earlier = collections.Counter({event: count for event, count in missing.items() if event in before})
        if missing - earlier:
            number, named = count_and_names(missing - earlier)
            yield f"this schedule hands out {number} that {quoted(node)}'s log doesn't have: {named}. {IGNORES.format(quoted(node))}"
        if earlier:
            number, named = count_and_names(earlier)
            yield f"this schedule hands out {number} that {quoted(node)} ran before the capture: {named}. {BEGINS}"
