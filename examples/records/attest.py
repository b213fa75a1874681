#!/usr/bin/env python3
"""attest.py RECORD.. [--handlers LOG].. [--snapshot NODE=FILE].. [--whole]: checks what agents did on a day against the reference.

Each RECORD is what the agent of a node recorded (`kitchenrue-agent -record`), with the older files next to it. The script prints
"attested" exactly if

- each record is, call by call, what one agent of this project does: for each life, `serf-replay conform` compares every reply with the
  reference's;
- each life opens on a text that begins with everything that the life before had flushed, up to lines that say nothing of clocks,
  minimums, events and queries. So a file that lost something is found, with the line;
- no event was handed out twice;
- with --handlers, for logs as `judge` reads them: each handler of a recorded node ran at most once for an event, and only for an event
  that the node's agent handed out, or whose line was in the file of an agent that keeps its events when a life began (a kill may come after
  the line was flushed, and before the call was recorded: the next life runs the handler);
- with --snapshot, the node's file begins with everything that its last life flushed;
- with --whole, which says that each node of the cluster is recorded: one of them made each packet that a node received. Without it, the
  packets from other nodes are counted.

Otherwise it prints the first thing that isn't so, in a sentence. The status is 0 if the day is attested, 1 if it isn't or if a file can't
be read, 2 if the command line is wrong, and 3 if the program fails.

The members in a state, and the address and the relays of a query, are the host's part: they are left out of the comparison. A record that
a kill cut off is the record of a prefix.
"""

import argparse
import os
import sys
from collections import Counter

sys.dont_write_bytecode = True
sys.path.insert(0, os.path.dirname(os.path.abspath(__file__)))
from lives import Program, ProgramError, Refused, lives_of
from record import RecordError
from snapshot_texts import begins_with, events_in

# The program of this repository or release, or else the installed one.
OWN = os.path.join(os.path.dirname(os.path.abspath(__file__)), os.pardir, os.pardir, "serf-replay")
PROGRAM = OWN if os.path.isfile(OWN) else "serf-replay"


class Node:
    """A recorded node: its lives, in order, and what they handed out, made and received."""

    def __init__(self, path):
        self.path, self.lives = path, lives_of(path)
        self.name = self.lives[0].name
        self.events, self.made, self.received, self.kept = {}, set(), [], set()
        for life in self.lives:
            self.kept.update(events_in(life.opened) if life.keeps else ())
            for call in life.calls:
                try:
                    self.add_call(call)
                except ValueError as error:
                    raise Refused(f"{call.path}:{call.line}: the reply contains an event that isn't in hex") from error

    def add_call(self, call):
        """Adds a call. It refuses an event that was handed out before."""
        for words in call.lines("event"):
            event = tuple(words[:3])
            before = self.events.setdefault(event, call)
            if before is not call:
                raise Refused(
                    f"{call.path}:{call.line}: {describe_event(event)} is handed out again; line {before.line} of {before.path} has it"
                )
        # (a packet that is sent on is somebody else's)
        self.made.update(packet for packet in call.sent() if packet not in call.words)
        if call.kind in ("deliver", "merge") and not call.is_of_members():
            self.received.append(call)

    def check(self, program):
        """Checks each life, and that each opens on what the life before flushed."""
        before = None
        for life in self.lives:
            if before is not None:
                self.check_text(before, life.opened, f"the life that begins at {life.path}:{life.line}")
            life.check(program)
            before = life

    def check_text(self, life, text, what):
        """Refuses a text that doesn't begin with what a life flushed."""
        faults = [begins_with(text, flushed) for flushed in life.flushed]
        if all(faults):
            raise Refused(f"the snapshot of {self.name} lost what was flushed before {what}: of the lines that count, {faults[0]}")


def describe_event(event):
    """An event in words."""
    time, name, payload = (event[0], *(b"" if data == "-" else bytes.fromhex(data) for data in event[1:]))
    return f"the event {time} {name.decode('ascii', 'backslashreplace')!r} {payload.decode('ascii', 'backslashreplace')!r}"


def check_packets(nodes, is_whole):
    """Counts the packets that no recorded node made, or refuses the first one."""
    made = set().union(*(node.made for node in nodes))
    outside_packets = 0
    for node in nodes:
        for call in node.received:
            if call.words[1] not in made:
                outside_packets += 1
                if is_whole:
                    raise Refused(
                        f"{call.path}:{call.line}: {node.name} received a packet that no recorded node made: {call.words[1][:200]}"
                    )
    return outside_packets


def log_word(text):
    """The word that examples/serf_log_handler.sh writes for the name of a node."""
    for byte, word in ((b"%", b"%25"), (b" ", b"%20"), (b"\r", b"%0D"), (b"\n", b"%0A")):
        text = text.replace(byte, word)
    return {b"": b"-", b"-": b"%2D"}.get(text, text)


def logged_event(time, name, payload):
    """An event, with its texts in hex, as a log of handlers has it: examples/serf_log_handler.sh leaves out zero bytes, and one newline at
    the end of a payload."""
    name, payload = (b"" if data == "-" else bytes.fromhex(data).replace(b"\0", b"") for data in (name, payload))
    return time, name, payload.removesuffix(b"\n")


def check_handlers(nodes, logs, program):
    """Refuses a line of a handlers' log that repeats another one, or for which nothing was handed out. It returns how many lines there
    are of recorded nodes, and of others."""
    handed_out = {
        log_word(node.name.encode()): Counter(logged_event(*event) for event in node.events.keys() | node.kept) for node in nodes
    }
    seen, runs, others = {}, 0, 0
    for line in program.log_lines(logs):
        node, event = bytes.fromhex(line["node_hex"]), (
            str(line["time"]),
            bytes.fromhex(line["name_hex"]),
            bytes.fromhex(line["payload_hex"]),
        )
        if node not in handed_out:
            others += 1
            continue
        runs += 1
        log_place, node_name = f"{line['log']}:{line['line']}", node.decode("ascii", "backslashreplace")
        described_event = describe_event((event[0], line["name_hex"], line["payload_hex"]))
        if handed_out[node][event] == 0 and (node, event) in seen:
            raise Refused(
                f"{log_place}: a handler of {node_name} ran again for {described_event}; {seen[node, event]} has the first run"
            )
        if handed_out[node][event] == 0:
            raise Refused(f"{log_place}: a handler of {node_name} ran for {described_event}, which its agent didn't hand out")
        handed_out[node][event] -= 1
        seen[node, event] = log_place
    return runs, others


def attest_records(options, program):
    """Checks everything, and returns the sentences of the verdict."""
    nodes = [Node(path) for path in options.records]
    names = [node.name for node in nodes]
    if len(set(names)) < len(names):
        raise RecordError("two records are from the same node")
    files = dict(option.split("=", 1) for option in options.snapshot)
    for name in files:
        if name not in names:
            raise RecordError(f"--snapshot {name}=..: no record is from this node")
    for node in nodes:
        node.check(program)
    for node in nodes:
        if node.name in files:
            with open(files[node.name], "rb") as file:
                node.check_text(node.lives[-1], file.read(), f"{files[node.name]} was read")
    outside = check_packets(nodes, options.whole)
    sentences = [
        f"attested: {len(nodes)} nodes, {sum(len(node.lives) for node in nodes)} lives, {sum(len(life.calls) for node in nodes for life in node.lives)} calls"
    ]
    for node in nodes:
        sentences.append(
            f"  {node.name}: {len(node.lives)} lives, {sum(len(life.calls) for life in node.lives)} calls, {len(node.events)} events handed out"
        )
    if outside:
        sentences.append(f"  {outside} packets were made by none of these nodes")
    if options.handlers:
        runs, others = check_handlers(nodes, options.handlers, program)
        sentences.append(f"  {runs} runs of handlers, each once and for an event that was handed out; {others} lines of other nodes")
    return sentences


def main():
    parser = argparse.ArgumentParser(description=__doc__, formatter_class=argparse.RawDescriptionHelpFormatter)
    parser.add_argument("records", nargs="+", metavar="RECORD")
    parser.add_argument("--handlers", action="append", default=[], metavar="LOG")
    parser.add_argument("--snapshot", action="append", default=[], metavar="NODE=FILE")
    parser.add_argument("--whole", action="store_true")
    parser.add_argument("--program", default=PROGRAM, help="the program serf-replay")
    options = parser.parse_args()
    if any("=" not in option for option in options.snapshot):
        parser.error("--snapshot needs NODE=FILE")
    try:
        sentences = attest_records(options, Program(options.program))
    except Refused as why:
        print(f"not attested: {why}")
        return 1
    except (OSError, RecordError) as error:
        print(f"attest: {error}", file=sys.stderr)
        return 1
    except ProgramError as error:
        print(f"attest: {error}", file=sys.stderr)
        return 3
    print("\n".join(sentences))
    return 0


if __name__ == "__main__":
    sys.exit(main())
