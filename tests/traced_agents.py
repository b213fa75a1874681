"""Agents that reply what a trace shows, in the words of docs/SPEC.md, or something else: for the scripts that compare them by
`conform`.

Each part of a script gets the cases that it adds to. The script ends with `sys.exit(run(PARTS, sys.argv[1:]))`. If it is called
with a word, it runs the parts over the program of that path.
"""

import json
import os
import sys
import tempfile

import checks
from piped_agents import compare

# A subject: it reads calls and answers each with the next of its replies, and then ends. It answers `look` by unsupported, or if
# a file is named for it, by the next of that file's replies.
SUBJECT = """import sys
replies = open(sys.argv[1], "rb").read().split(b"\\0")
looks = open(sys.argv[2], "rb").read().split(b"\\0") if len(sys.argv) > 2 else None
while True:
    call = sys.stdin.buffer.readline()
    if call == b"look\\n" and looks is None:
        reply = b"unsupported\\n\\n"
    else:
        given = looks if call == b"look\\n" else replies
        if not call or not given:
            sys.exit(0)
        reply = given.pop(0)
    sys.stdout.buffer.write(reply)
    sys.stdout.buffer.flush()
    if not reply.endswith((b"\\n\\n", b"\\r\\n")):
        # (half a reply: nothing follows it)
        sys.exit(0)
"""


class Packet:
    """A reader of a packet's MessagePack value."""

    def __init__(self, packet):
        self.bytes, self.at = packet, 1

    def take(self, count):
        self.at += count
        return self.bytes[self.at - count:self.at]

    def number(self, count):
        return int.from_bytes(self.take(count), "big")

    def value(self):
        head = self.number(1)
        if head < 0x80:
            return head
        if head < 0x90:
            return {bytes(self.value()): self.value() for _ in range(head & 15)}
        if head < 0xa0:
            return [self.value() for _ in range(head & 15)]
        if head < 0xc0:
            return self.take(head & 31)
        if head in (0xc0, 0xc2, 0xc3):
            return {0xc0: None, 0xc2: False, 0xc3: True}[head]
        if 0xcc <= head <= 0xcf:
            return self.number(1 << (head - 0xcc))
        if head in (0xda, 0xdb):
            return self.take(self.number(2 << (head - 0xda)))
        raise ValueError(head)


def spell(value):
    """Spells a value with wide numbers, and with a map's fields in reverse order."""
    if value is None:
        return b"\xc0"
    if isinstance(value, bool):
        return b"\xc3" if value else b"\xc2"
    if isinstance(value, int):
        return b"\xcf" + value.to_bytes(8, "big")
    if isinstance(value, bytes):
        return b"\xc6" + len(value).to_bytes(4, "big") + value
    if isinstance(value, list):
        return b"\xdd" + len(value).to_bytes(4, "big") + b"".join(map(spell, value))
    return b"\xdf" + len(value).to_bytes(4, "big") + b"".join(spell(k) + spell(v) for k, v in reversed(value.items()))


def respelled(packet):
    return packet[:1] + spell(Packet(packet).value())


def without_nils(packet):
    """A state with one more empty slot after its others."""
    value = Packet(packet).value()
    value[b"Events"] = value[b"Events"] + [None]
    return packet[:1] + spell(value)


def hexed(text):
    return text.hex() or "-"


class Turn:
    """The reply to a call: its lines, and the packet that the call passes to the agent."""

    def __init__(self, lines, given):
        self.lines, self.given = lines, given

    def text(self, change=lambda packet, given: packet):
        out = []
        for line in self.lines:
            if line.startswith("sent "):
                packet = change(bytes.fromhex(line[5:]), self.given)
                line = "sent " + packet.hex()
            out.append(line)
        return ("\n".join(out) + "\n\n").encode()


def turns_of(path):
    """The turns of each agent of a schedule, from its trace."""
    schedule, trace = checks.text_of(path + ".schedule"), checks.text_of(path + ".trace")
    actions = [line.split() for line in schedule.split("\n") if line.split() and line[0] != "#"]
    agents = sum(1 for words in actions if words[0] == "agent")
    shown = {}
    for line in trace.split("\n")[:-1]:
        number, text = line.split(" ", 1)
        shown.setdefault(int(number), []).append(text)
    turns, sent = [[Turn(["opened 1 1 1"], None)] for _ in range(agents)], []
    for number, words in enumerate(actions[agents:], 1):
        answer, *rest = shown[number]
        given = None
        if words[0] in ("deliver", "merge"):
            given = sent[int(words[2])] if int(words[2]) < len(sent) else None
        lines = [answer]
        if answer in ("ack", "response"):
            value = Packet(given).value()
            line = f"counted {answer} {value[b'LTime']} {value[b'ID']} {hexed(value[b'From'])}"
            lines.append(line + (f" {hexed(value[b'Payload'])}" if answer == "response" else ""))
        for line in rest:
            kind, *parts = line.split()
            if kind == "sent":
                sent.append(bytes.fromhex(parts[1]) if parts[1] != "-" else b"")
            lines.append(" ".join([kind] + parts[1:]))
        if words[0] == "inject" or (words[0] in ("deliver", "merge") and given is None):
            continue
        if int(words[1]) < agents:
            turns[int(words[1])].append(Turn(lines, given))
    return turns


def text_of(turns, change=lambda packet, given: packet):
    return [turn.text(change) for turn in turns]


def otherwise(packet, given):
    """Spells each packet in another way, except one that is sent on."""
    return packet if packet == given else respelled(packet)


class Cases:
    """Agents to compare, in a folder for what they need, and the checks that these comparisons add to."""

    def __init__(self, folder, count):
        self.folder, self.count = folder, count
        self.subject = os.path.join(folder, "subject.py")
        with open(self.subject, "w") as file:
            file.write(SUBJECT)

    def replying(self, replies):
        """The words that start an agent with these replies."""
        path = os.path.join(self.folder, "replies")
        with open(path, "wb") as file:
            file.write(b"\0".join(replies))
        return [sys.executable, self.subject, path]

    def told(self, replies, schedule, words):
        """The status and the report of an agent with these replies."""
        return compare([schedule, *words], self.replying(replies))

    def replies(self, name, replies, schedule, status, said, words=()):
        self.run(name, self.replying(replies), schedule, status, said, words)

    def run(self, name, agent, schedule, status, said, words=()):
        got = compare([schedule, *words], agent)
        missing = [part for part in said if part not in got[1]]
        self.count.check(name, got[0] == status and not missing, f"expected {status} and {said}, got {got}")

    def machine_report(self, name, agent, words, status, wanted):
        """Compares an agent with a report, whose lines have to have exactly these members, and be printable ASCII."""
        path = os.path.join(self.folder, "told.jsonl")
        got = compare([*words, "--report", path], agent)
        with open(path, "rb") as file:
            text = file.read()
        os.remove(path)
        lines = [json.loads(line) for line in text.decode("ascii").splitlines()]
        plain = all(32 <= byte < 127 or byte == 10 for byte in text)
        self.count.check(name, got[0] == status and plain and lines == wanted, (got, text))


def run(parts, words):
    """Runs the parts of a script over the program, or over the one that a word names. Returns the status."""

    def all_parts(count):
        with tempfile.TemporaryDirectory() as folder:
            cases = Cases(folder, count)
            for part in parts:
                part(cases)

    if words:
        checks.PROGRAM = words[0]
        return checks.run(all_parts)
    return checks.over_program(all_parts)
