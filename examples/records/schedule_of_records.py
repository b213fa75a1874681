#!/usr/bin/env python3
"""schedule_of_records.py [--taken] RECORD..: makes a schedule from what agents recorded (`kitchenrue-agent -record`).

Each RECORD is the record of a node. The script first reads the older files next to it (RECORD.1 and so on). It writes the
schedule to standard output, for `serf-replay write`:

    schedule_of_records.py web1.record web2.record | serf-replay write | serf-replay explain

If one of these nodes sent a packet and another one received it, it is one packet of the schedule. Packets from other nodes are
injected. The calls of a node stay in their order, and a packet is sent before it is received. Otherwise the earlier moment is
first. After each action, a comment has its time, in UTC, and the agent's answer, which the trace has to repeat. The schedule has no
states that nobody merged, and no calls that are only about members. With --taken it doesn't have the ignored packets either.

The script prints on standard error what is unknown: a record that begins in the middle of a life, and calls that were cut off. The
status is 1 if a record can't be read.
"""

import argparse
import datetime
import os
import sys

sys.path.insert(0, os.path.dirname(os.path.abspath(__file__)))
from record import RecordError, calls_of, files_of
from snapshot_texts import own_lines


class Node:
    """A node: its calls, in order, and how many of them are written."""

    def __init__(self, path, warn):
        self.calls, self.at = [], 0
        for name in files_of(path):
            for call in calls_of(name, warn):
                # A file that continues another one begins by opening the agent again, with the clocks of that moment.
                if not (call.goes_on and self.calls):
                    self.calls.append(call.without_tag_filters())
        if not self.calls or self.calls[0].kind != "open":
            raise RecordError(f"{path}: this is not the record of an agent")
        self.name = bytes.fromhex(self.calls[0].words[1])
        self.begins_late = self.calls[0].goes_on
        if self.begins_late:
            warn(f"{path}: it begins in the middle of a life: everything that was accepted before counts as below the minimum")
        # The queries that were handed out in this life: the number in the record, and the number in the schedule.
        self.handed = {}
        self.agents, self.clocks = [], [1, 1, 1]

    def next_call(self):
        """Returns the first call that is not written yet, or None."""
        return self.calls[self.at] if self.at < len(self.calls) else None

    def update_from_reply(self, call):
        """Updates the clocks and the queries that were handed out, by a call's reply."""
        for time, *_ in call.lines("event"):
            self.clocks[1] = max(self.clocks[1], int(time) + 1)
        for number, time, *_ in call.lines("handed"):
            self.clocks[2] = max(self.clocks[2], int(time) + 1)
            self.handed[number] = len(self.handed)


def quoted_text(data):
    """Converts bytes in hex to the text in quotes that `serf-replay write` reads."""
    raw = b"" if data == "-" else bytes.fromhex(data)
    return '"' + "".join(chr(b) if 32 <= b < 127 and b not in b'"\\' else f"\\x{b:02x}" for b in raw) + '"'


def own_text(data):
    """The lines of a snapshot, in hex, that say something of clocks, minimums, events or queries, and its torn end."""
    lines, torn = own_lines(b"" if data == "-" else bytes.fromhex(data))
    return (b"".join(line + b"\n" for line in lines) + torn).hex() or "-"


class Schedule:
    """The schedule, while it is written."""

    def __init__(self, nodes, taken):
        self.nodes, self.taken = nodes, taken
        self.agent_lines, self.lines = [], []
        # The name of each packet in the schedule: a label, or a label and a number.
        self.packets = {}
        # The packets that these nodes made, and the states that one of them merged.
        self.made = {packet for node in nodes for call in node.calls for _, packet in self.made_by(node, call)}
        self.merged = {call.words[1] for node in nodes for call in node.calls if call.kind == "merge"}

    def made_by(self, node, call):
        """The packets that a call made, each with its number among those that it sent. If a record begins in the middle of a life, the
        schedule's agent may answer otherwise than the recorded one, so its acks and responses are injected."""
        if node.begins_late and call.kind not in ("fire", "query", "state"):
            return []
        return [(number, packet) for number, packet in enumerate(call.sent()) if packet not in call.words]

    def is_ready(self, call):
        """Whether the packet that the call receives was already sent, or was not sent by any of these nodes."""
        if call.kind not in ("deliver", "merge"):
            return True
        return call.words[1] in self.packets or call.words[1] not in self.made

    def write(self):
        """Writes all calls of all nodes."""
        while True:
            waiting = [node for node in self.nodes if node.next_call()]
            if not waiting:
                return "\n".join(self.agent_lines + self.lines) + "\n"
            # If all nodes wait for each other, lines are missing. Then the earliest call is next.
            ready = [node for node in waiting if self.is_ready(node.next_call())] or waiting
            node = min(ready, key=lambda node: node.next_call().moment)
            call = node.next_call()
            node.at += 1
            if call.kind == "open":
                self.begin_life(node, call)
            elif not call.is_of_members():
                self.write_action(node, call)
            node.update_from_reply(call)

    def begin_life(self, node, call):
        """Begins a life, on the lines of the text on which the agent was opened. The first one makes the agent. If the clocks are below
        those before, the file was lost: it is a new agent."""
        clocks = [int(word) for word in call.reply[0][1:]]
        if not node.agents or any(now < before for now, before in zip(clocks[1:], node.clocks[1:])):
            suffix = f" ({len(node.agents) + 1})" if node.agents else ""
            name = quoted_text((node.name + suffix.encode()).hex())
            _, _, events, queries, limit, responders, mode, per_time, *limits, _ = call.words
            packets = f" querylimit={limits[0]} responselimit={limits[1]}" if limits else ""
            mode = mode.replace("+events", " keep-events")
            self.agent_lines.append(
                f"agent {name} events={events} queries={queries} limit={limit} responders={responders} pertime={per_time} {mode}{packets}"
            )
            node.agents.append(name)
            is_new = True
        else:
            is_new = False
        node.handed, node.clocks = {}, clocks
        tail = own_text(call.words[-1])
        if not is_new or tail != "-":
            self.lines.append(f"restart {node.agents[-1]} tail {quoted_text(tail)}")

    def packet(self, data):
        """The name of a packet in the schedule. A packet that none of these nodes sent is injected."""
        if data not in self.packets:
            self.packets[data] = f"p{len(self.lines)}"
            self.lines.append(f"{self.packets[data]}: inject {data}")
        return self.packets[data]

    def write_action(self, node, call):
        """Writes an action, and names the packets that it is the first to send."""
        action_line = getattr(self, call.kind)(node.agents[-1], node, call)
        if action_line is None:
            return
        label = f"p{len(self.lines)}"
        made = self.made_by(node, call)
        for number, packet in made:
            self.packets[packet] = f"{label}/{number}"
        moment = datetime.datetime.fromtimestamp(call.moment // 1000 / 10**6, datetime.timezone.utc)
        answer = f"# {moment:%Y-%m-%dT%H:%M:%S.%f} {' '.join(call.reply[0])}"
        self.lines.append((f"{label}: " if made else "") + f"{action_line} {answer}")

    def fire(self, agent, node, call):
        _, name, payload, coalesce = call.words
        return f"fire {agent} {quoted_text(name)} {quoted_text(payload)}" + (" coalesce" if coalesce == "1" else "")

    def deliver(self, agent, node, call):
        if self.taken and call.answer == "ignored":
            return None
        return f"deliver {agent} {self.packet(call.words[1])} at {call.words[2]}"

    def merge(self, agent, node, call):
        return f"merge {agent} {self.packet(call.words[1])} {call.words[2]}"

    def state(self, agent, node, call):
        return f"state {agent}" if self.merged.intersection(call.sent()) else None

    def query(self, agent, node, call):
        _, now, number, name, payload, timeout, flags, *filters = call.words
        words = [f"query {agent} {quoted_text(name)} {quoted_text(payload)} at {now} id={number} timeout={timeout}"]
        words += ["ack"] if int(flags) & 1 else []
        words += ["quiet"] if int(flags) & 2 else []
        return " ".join(words + [f"filter={filter_hex}" for filter_hex in filters])

    def respond(self, agent, node, call):
        _, number, now, payload = call.words
        if number not in node.handed:
            return None
        return f"respond {agent} {node.handed[number]} {quoted_text(payload)} at {now}"

    def close(self, agent, node, call):
        return f"close {agent} at {call.words[1]}"

    def compact(self, agent, node, call):
        return f"compact {agent}"


def main():
    parser = argparse.ArgumentParser(description=__doc__, formatter_class=argparse.RawDescriptionHelpFormatter)
    parser.add_argument("--taken", action="store_true")
    parser.add_argument("records", nargs="+", metavar="RECORD")
    options = parser.parse_args()
    try:
        nodes = [Node(path, lambda warning: print(warning, file=sys.stderr)) for path in options.records]
        names = [node.name for node in nodes]
        if len(set(names)) < len(names):
            raise RecordError("two records are from the same node")
        schedule = Schedule(nodes, options.taken).write()
    except (OSError, ValueError, RecordError) as error:
        print(f"schedule_of_records: {error}", file=sys.stderr)
        return 1
    sys.stdout.write(schedule)
    return 0


if __name__ == "__main__":
    sys.exit(main())
