"""A host in C over a file, killed at random moments, and its file torn: no event is handed out twice over all lives.

    tests/library/crashes.py [--kills N] [--seed N] [--slower N] [--library FILE] [--over-ci]

One node lives on one file. In each life a host (tests/library/crashes/host.c) gets all packets so far again, and then
new ones, whole states, firings, compactions and saves of the member clock, and SIGKILL arrives at a random moment. In
every second life the file is then cut after what was flushed at its last answer, and garbage is appended. Over all
lives no event may be handed out twice, and each firing has to be later than all that was handed out before it.

After that, without a kill, each call's bytes are cut at each position, and each kind of garbage is appended.

--library names another static library than that of crates/serf_agent_c, which is built by `rt lib` otherwise; --over-ci
builds it over those that `rt ci` left, as the gate does. --slower makes each life as many times as long, for an emulator.
"""

import argparse
import os
import random
import shutil
import subprocess
import sys
import tempfile
import threading
import time

sys.dont_write_bytecode = True
sys.path.insert(0, os.path.dirname(os.path.dirname(os.path.abspath(__file__))))
import checks
import c_library

sys.path.insert(0, os.path.join(checks.TOP, "conformance", "python"))
from serf_agent import messages

HOST = os.path.join(checks.TOP, "tests", "library", "crashes", "host.c")

# A life is killed after this many seconds at most.
LONGEST_LIFE = 0.03
# How many new calls a life has, and how many earlier packets are repeated at most.
CALLS, AGAIN = 60, 300
# How long a host that isn't killed may take.
LIMIT = 60

# What may follow a cut.
GARBAGE = [b"", b"\n", b"event-clock: ", b"\0\xff\x80", b"event-clock: 1\n", b"9", b"#", b"\nclock: 2"]


def event(time, name):
    return messages.encode_event(messages.UserEvent(time, name, b"", False))


def state(clock, slots):
    """A whole state: a slot for each time, with the names of its events."""
    listed = [messages.Slot(time, [messages.Texts(name, b"") for name in names]) for time, names in slots]
    return messages.encode_state(messages.PushPull(clock, [], [], clock, listed, 1))


class Answer:
    """What a host answered to one line: the events that it handed out, and the state of its file."""

    def __init__(self, events, words):
        self.events = events
        self.code, self.size, self.inode = map(int, words)


def answers_in(said):
    """The answers of a host, and the events after the last whole one."""
    answers, events = [], []
    for line in said.decode().split("\n")[:-1]:
        words = line.split(" ")
        if words[0] == "e":
            events.append((int(words[1]), words[2]))
        else:
            answers.append(Answer(events, words))
            events = []
    return answers, events


def live(host, path, lines, seconds):
    """A life of a host: what it printed until it ended, or was killed after so many seconds; and its status."""
    with subprocess.Popen([host, path], stdin=subprocess.PIPE, stdout=subprocess.PIPE, stderr=subprocess.PIPE) as life:
        timer = threading.Timer(seconds, life.kill)
        timer.start()
        said, faults = life.communicate("".join(line + "\n" for line in lines).encode(), timeout=LIMIT)
        timer.cancel()
    return said, faults.decode(errors="replace"), life.returncode


class Node:
    """One node over all its lives: what it was handed, and what is wrong with that."""

    def __init__(self):
        self.handed, self.largest = {}, 0
        self.lives = self.fired = 0
        self.wrong = []

    def note(self, lines, answers, rest):
        """The answers to an opening and to lines, in order; the final answer may be cut off."""
        self.lives += 1
        calls = ["open", *lines]
        for call, answer in zip(calls, answers):
            self.note_events(call, answer.events)
        if rest:
            self.note_events(calls[min(len(answers), len(calls) - 1)], rest)

    def note_events(self, call, events):
        for at, name in events:
            if (at, name) in self.handed:
                self.wrong.append(
                    f"life {self.lives}: {name} at {at} was handed out in life {self.handed[at, name]} too"
                )
            if call.startswith("f "):
                self.fired += 1
                if at <= self.largest:
                    self.wrong.append(f"life {self.lives}: fired at {at}, and {self.largest} was handed out before")
            self.handed[at, name] = self.lives
            self.largest = max(self.largest, at)


class Calls:
    """The lines that hosts get: new ones at random, and old ones again."""

    def __init__(self, chance):
        self.chance, self.sent, self.count = chance, [], 0

    def name(self):
        self.count += 1
        return b"n%d" % self.count

    def time(self, near):
        return max(1, near + self.chance.choice([-70, -5, -1, 0, 0, 1, 1, 1, 2, 3]))

    def new(self, near):
        kind = self.chance.random()
        if kind < 0.60:
            return "r " + event(self.time(near), self.name()).hex()
        if kind < 0.75:
            slots = [
                (self.time(near), [self.name() for _ in range(self.chance.randint(1, 3))])
                for _ in range(self.chance.randint(1, 4))
            ]
            return "m " + state(near, slots).hex()
        if kind < 0.90:
            return "f " + self.name().hex()
        return self.chance.choice(["c", "c", "k"])

    def of_a_life(self, largest):
        again = self.sent[-AGAIN:]
        self.chance.shuffle(again)
        lines = []
        for number in range(CALLS):
            lines.append(self.new(largest + number // 2))
            if lines[-1][0] in "rm":
                self.sent.append(lines[-1])
                if self.chance.random() < 0.2:
                    lines.append(self.chance.choice(self.sent[-50:]))
        return again + lines


def tear(chance, path, last):
    """Cuts the file after what was flushed at the last answer, appends garbage, and sometimes leaves a file next to it."""
    about = os.stat(path)
    minimum = last.size if about.st_ino == last.inode else about.st_size
    with open(path, "r+b") as file:
        file.truncate(chance.randint(minimum, about.st_size))
        file.seek(0, os.SEEK_END)
        file.write(chance.choice(GARBAGE + [chance.randbytes(chance.randint(1, 40))]))
    if chance.random() < 0.2:
        with open(path + ".new", "wb") as file:
            file.write(chance.randbytes(30))


def kills(count, host, folder, chance, wanted, slower):
    """So many lives of one node, each of them killed: one check for each life."""
    path = os.path.join(folder, "killed.snapshot")
    node, calls = Node(), Calls(chance)
    torn = killed = replaced = 0
    inode = None
    began = time.monotonic()
    while killed < wanted and count.failed < 5:
        lines = calls.of_a_life(node.largest)
        said, faults, status = live(host, path, lines, chance.uniform(0.002, LONGEST_LIFE) * slower)
        answers, rest = answers_in(said)
        wrong = len(node.wrong)
        node.note(lines, answers, rest)
        killed += status == -9
        replaced += any(answer.inode != inode for answer in answers[1:])
        if answers:
            inode = answers[-1].inode
            if node.lives % 2:
                tear(chance, path, answers[-1])
                torn += 1
        count.check(
            f"life {node.lives}",
            status in (0, -9) and not faults and node.wrong[wrong:] == [],
            f"{status} {faults} {node.wrong[wrong:][:3]}",
        )
        if status == 0:
            # (if it came to its end before the kill, that life doesn't count)
            count.passed -= 1
    said, faults, status = live(host, path, calls.sent, LIMIT)
    node.note(calls.sent, *answers_in(said))
    count.check("all packets again, unharmed", status == 0 and not node.wrong, f"{status} {faults} {node.wrong[:3]}")
    # (a node that hands out nothing, or never compacts, would pass as well)
    count.check(
        "enough was handed out",
        len(node.handed) >= 2 * wanted and node.fired >= wanted // 8 and replaced >= wanted // 20,
        f"{len(node.handed)}, {node.fired} fired, {replaced}",
    )
    print(
        f"{killed} kills in {time.monotonic() - began:.0f} seconds: "
        f"{len(node.handed)} events handed out, {node.fired} of them fired here; "
        f"{torn} files torn; a compaction succeeded in {replaced} lives; {len(calls.sent)} packets"
    )


def size_and_text(host, path, lines):
    """A host's answers to lines, and the file's bytes after that."""
    said, faults, status = live(host, path, lines, LIMIT)
    answers, _ = answers_in(said)
    if status or len(answers) != len(lines) + 1:
        raise RuntimeError(f"the host ended with {status}: {faults}")
    with open(path, "rb") as file:
        return answers, file.read()


def each_cut(count, host, folder):
    """For each kind of call: its bytes are cut at each position, each kind of garbage follows, and all packets are repeated."""
    path, torn = os.path.join(folder, "cut.snapshot"), os.path.join(folder, "torn.snapshot")
    before = ["r " + event(3, b"a").hex(), "m " + state(9, [(8, [b"b", b"c"])]).hex(), "f " + b"d".hex()]
    behind = {
        "receive": ["r " + event(1234, b"e").hex()],
        "merge": ["m " + state(99, [(98, [b"g"]), (1099, [b"h"])]).hex()],
        "fire": ["f " + b"i".hex()],
        "save": ["m " + state(1234, []).hex(), "k"],
        "compact": ["c"],
    }
    for name, calls in behind.items():
        if os.path.exists(path):
            os.remove(path)
        answers, old = size_and_text(host, path, before)
        node = Node()
        node.note(before, answers, [])
        _, new = size_and_text(host, path, calls)
        # (the call was cut short, so nobody read what it handed out; a replacement is there whole, or not at all)
        cuts = [old, new] if name == "compact" else [new[:at] for at in range(len(old), len(new))]
        wrong = []
        for cut in cuts:
            for garbage in GARBAGE:
                with open(torn, "wb") as file:
                    file.write(cut + garbage)
                again, _ = size_and_text(host, torn, before[:2] + ["f " + b"z".hex()])
                known = Node()
                known.handed, known.largest = dict(node.handed), node.largest
                known.note(before[:2] + ["f z"], again, [])
                wrong += [f"cut at {len(cut)} with {garbage}: {one}" for one in known.wrong]
        count.check(f"{name}, cut at each of {len(cuts)} places", not wrong and len(cuts) > 0, wrong[:3])


def two_at_once(count, host, folder):
    """A second host on a file that another host has locked."""
    path = os.path.join(folder, "killed.snapshot")
    with subprocess.Popen([host, path], stdin=subprocess.PIPE, stdout=subprocess.PIPE) as first:
        first.stdout.readline()
        _, faults, status = live(host, path, [], LIMIT)
        count.check("a second host", status == 3 and faults == "host: another agent has the file\n", (status, faults))
        first.kill()
    _, faults, status = live(host, path, [], LIMIT)
    count.check("a host after one that was killed", status == 0, (status, faults))


def main():
    parser = argparse.ArgumentParser(description=__doc__, formatter_class=argparse.RawDescriptionHelpFormatter)
    parser.add_argument("--kills", type=int, default=200)
    parser.add_argument("--seed", type=int, default=1)
    parser.add_argument("--slower", type=int, default=1)
    parser.add_argument("--library")
    parser.add_argument("--over-ci", action="store_true")
    options = parser.parse_args()
    count = checks.Checks()
    folder = tempfile.mkdtemp(prefix="crashes-")
    try:
        host = os.path.join(folder, "host")
        fault = None if options.library else c_library.fault_of_library(options.over_ci)
        fault = fault or c_library.fault_of_host(host, HOST, options.library or c_library.LIBRARY)
        if fault:
            count.check("the host is built", False, fault)
            return count.finish()
        kills(count, host, folder, random.Random(options.seed), options.kills, options.slower)
        each_cut(count, host, folder)
        two_at_once(count, host, folder)
    finally:
        shutil.rmtree(folder)
    return count.finish()


if __name__ == "__main__":
    sys.exit(main())
