"""By hand, since it needs Go, Serf and memberlist's sources: how fast ours and a stock agent accept events, and how soon they join.

    tests/by_hand/agent_speed.py [--events N] [--rounds N] [--starts N] [--record] [--keep-events] [--on FOLDER] [--library FOLDER]
        [--agent PROGRAM] [--other PROGRAM]

In each round a fresh agent of each kind, alone, on a fresh snapshot, gets the same new events by UDP, sixteen in a datagram
as memberlist packs them, with so many under way at once. Its hand-outs are counted on a stream of its RPC. The kinds take turns,
so that the load of the machine is the same for both. --record adds a third kind, ours with a record. --keep-events adds ours that keeps
events, with its handlers tracked and without, and says how large their snapshots are. --other adds another agent of ours, such as that of
another commit, and with --record also this agent with a record. Then each kind is started and joins a stock agent, in turns: from the start
of the process to the line that says that it joined.

The last lines have the median of each kind, its minimum and its maximum. For each kind with a record, they also have the median of each
round's ratio to the same agent without a record.
"""

import argparse
import os
import shutil
import socket
import statistics
import subprocess
import struct
import sys
import tempfile
import time

sys.path.insert(0, os.path.dirname(os.path.abspath(__file__)))
sys.dont_write_bytecode = True
import agent_cluster_kit as kit
from agent_cluster_kit import Agent

UNDER_WAY, PACKED, LIMIT = 512, 16, 120

# The end of the name of a kind with a record.
RECORDING = " with a record"

# The kinds of --keep-events, and their flags.
UNTRACKED, TRACKED = "ours that keeps events", "ours that tracks handlers"
KEEPING = {UNTRACKED: ["-keep-events", "-track-handlers=false"], TRACKED: ["-keep-events"]}


def text(word):
    return bytes([0xA0 | len(word)]) + word.encode()


def number(value):
    return bytes([value]) if value < 128 else b"\xce" + struct.pack(">I", value)


def event(time_of_it):
    """The packet of an event, as Serf spells it."""
    pairs = [
        (text("LTime"), number(time_of_it)),
        (text("Name"), text("deploy")),
        (text("Payload"), text(f"v{time_of_it}")),
        (text("CC"), b"\xc2"),
    ]
    return b"\x03\x84" + b"".join(key + value for key, value in pairs)


def datagram(times):
    """Events as memberlist packs them: a compound of user messages."""
    parts = [b"\x08" + event(one) for one in times]
    return b"\x07" + bytes([len(parts)]) + b"".join(struct.pack(">H", len(part)) for part in parts) + b"".join(parts)


class Stream:
    """A client of an agent's RPC that counts the user events which it hands out."""

    def __init__(self, agent):
        host, port = agent.rpc.split(":")
        self.conn = socket.create_connection((host, int(port)), 10)
        request = (
            lambda command, seq, key, value: b"\x82"
            + text("Command")
            + text(command)
            + text("Seq")
            + number(seq)
            + b"\x81"
            + text(key)
            + value
        )
        self.conn.sendall(request("handshake", 1, "Version", b"\x01") + request("stream", 2, "Type", text("user")))
        self.count, self.rest = 0, b""
        time.sleep(0.5)

    def read(self, wait):
        self.conn.settimeout(wait)
        try:
            data = self.rest + self.conn.recv(1 << 20)
        except TimeoutError:
            return
        self.count += data.count(b"\xa5LTime")
        # (the next chunk may end a word that this one begins)
        self.rest = data[-5:] if not data.endswith(b"\xa5LTime") else b""


def used(agent):
    """The processor seconds that an agent has used."""
    with open(f"/proc/{agent.process.pid}/stat", encoding="ascii") as file:
        words = file.read().rpartition(")")[2].split()
    return (int(words[11]) + int(words[12])) / os.sysconf("SC_CLK_TCK")


def speed(agent, events):
    """Events a second, how many arrived, and the processor's microseconds for each."""
    stream, out = Stream(agent), socket.socket(socket.AF_INET, socket.SOCK_DGRAM)
    before_all = used(agent)
    began, sent, last = time.monotonic(), 0, time.monotonic()
    while stream.count < events and time.monotonic() - began < LIMIT and time.monotonic() - last < 5:
        while sent < events and sent - stream.count < UNDER_WAY:
            several = range(sent + 1, min(sent + PACKED, events) + 1)
            out.sendto(datagram(several), (agent.addr, 7946))
            sent += len(several)
        before = stream.count
        stream.read(0.2)
        if stream.count > before:
            last = time.monotonic()
    return stream.count / (last - began), stream.count, 1e6 * (used(agent) - before_all) / max(1, stream.count)


def joined(agent, peer):
    """Seconds from the start of an agent to the line that says that it joined."""
    words = [*agent.program, "-node", agent.name, "-bind", f"{agent.addr}:7946", "-rpc-addr", agent.rpc, *agent.words, "-join", peer.addr]
    began = time.monotonic()
    with subprocess.Popen(words, stdin=subprocess.DEVNULL, stdout=subprocess.PIPE, stderr=subprocess.STDOUT, text=True) as process:
        for line in process.stdout:
            if "Join completed" in line:
                taken = time.monotonic() - began
                break
        process.kill()
    return taken


def print_row(what, found, unit):
    for kind, all_of_it in found.items():
        print(
            f"{what}, {kind}: {statistics.median(all_of_it):.4g} {unit} ({min(all_of_it):.4g} to {max(all_of_it):.4g}, {len(all_of_it)} times)"
        )


def main():
    parser = argparse.ArgumentParser(description=__doc__, formatter_class=argparse.RawDescriptionHelpFormatter)
    parser.add_argument("--events", type=int, default=10000)
    parser.add_argument("--rounds", type=int, default=5)
    parser.add_argument("--starts", type=int, default=10)
    parser.add_argument("--record", action="store_true")
    parser.add_argument("--keep-events", action="store_true")
    parser.add_argument("--on", help="the folder, and so the disk, of the snapshots")
    parser.add_argument("--library")
    parser.add_argument("--agent")
    parser.add_argument("--other")
    options = parser.parse_args()
    missing = kit.missing_command()
    if missing:
        sys.exit(f"it needs {missing}")
    folder = tempfile.mkdtemp(prefix="agent-speed-", dir=options.on)
    program = options.agent or kit.build(folder, options.library, [])
    kinds = {"stock": ["serf", "agent"], "ours": [program]} | ({f"ours{RECORDING}": [program]} if options.record else {})
    if options.other:
        kinds |= {"other": [options.other]} | ({f"other{RECORDING}": [options.other]} if options.record else {})
    kinds |= {UNTRACKED: [program], TRACKED: [program]} if options.keep_events else {}

    def agent(kind, number):
        found = Agent(folder, kinds[kind], f"{kind.split()[0]}{number}", number, net="127.0.9")
        recording = ["-record", found.record] if kind.endswith(RECORDING) else []
        found.words = ["-snapshot", found.snapshot, *recording, *KEEPING.get(kind, [])]
        return found

    speeds, costs, times = ({kind: [] for kind in kinds} for _ in range(3))
    number = 1
    try:
        for _ in range(options.rounds):
            for kind in kinds:
                number += 1
                one = agent(kind, number)
                one.words += ["-log-level", "err"]
                one.start()
                try:
                    rate, count, cost = speed(one, options.events)
                finally:
                    one.end()
                size = os.path.getsize(one.snapshot) / 1024
                print(
                    f"{kind}: {rate:.0f} events a second, {count} of {options.events}, {cost:.0f} us of the processor each, {size:.0f} KiB",
                    flush=True,
                )
                speeds[kind].append(rate)
                costs[kind].append(cost)
        peer = agent("stock", 1).start()
        try:
            for _ in range(options.starts):
                for kind in kinds:
                    number += 1
                    times[kind].append(1000 * joined(agent(kind, number), peer))
        finally:
            peer.end()
        if options.rounds:
            print_row("accepted", speeds, "events a second")
            print_row("an event", costs, "us of the processor")
            for kind in kinds:
                if kind.endswith(RECORDING):
                    ratios = [own / without for own, without in zip(speeds[kind], speeds[kind.removesuffix(RECORDING)])]
                    print(f"accepted, {kind}: {statistics.median(ratios):.3f} of the same agent without a record ({min(ratios):.3f} to {max(ratios):.3f})")
        if options.starts:
            print_row("from start to joined", times, "ms")
    finally:
        shutil.rmtree(folder)
    return 0


if __name__ == "__main__":
    sys.exit(main())
