"""By hand, since it needs Go, Serf and memberlist's sources: how much memory ours and a stock agent use among many members, and
how soon many agents on one machine know each other.

    tests/by_hand/agent_size.py [--members N] [--events N] [--nodes N] [--together N] [--library FOLDER] [--agent PROGRAM]

The members of the first part are simulated: one process answers the pings of all, each at its own loopback address, and a join
transfers their names, tags and status times. An agent of each kind is alone among them, and then gets so many events.

In the second part so many agents of one kind are started, so many at once, and join the first. The script prints how long after the
last start all agents know all others, and how long an event takes to reach all. --nodes 0 leaves the second part out, --members 0
the first.
"""
import argparse
import os
import shutil
import socket
import struct
import sys
import tempfile
import threading
import time
from concurrent.futures import ThreadPoolExecutor

sys.path.insert(0, os.path.dirname(os.path.abspath(__file__)))
sys.dont_write_bytecode = True
import agent_cluster_kit as kit
import agent_speed
from agent_cluster_kit import Agent, until
from agent_speed import number, text

# The addresses of the simulated members: 127.60.X.Y each.
PORT = 17946

# How long each part may take, in seconds.
LIMIT = 300


def of_map(pairs):
    # (the shortest spelling, as memberlist has it)
    head = bytes([0x80 | len(pairs)]) if len(pairs) < 16 else b"\xde" + struct.pack(">H", len(pairs))
    return head + b"".join(key + value for key, value in pairs)


def raw(data):
    return b"\xda" + struct.pack(">H", len(data)) + data


def address(which):
    return bytes([127, 60, which >> 8, which & 255])


class Crowd:
    """Simulated members: they answer pings, and a node that joins gets the state of all."""

    def __init__(self, count):
        self.count = count
        self.udp = socket.socket(socket.AF_INET, socket.SOCK_DGRAM)
        self.udp.bind(("0.0.0.0", PORT))
        self.tcp = socket.create_server(("0.0.0.0", PORT))
        for run in (self.answer, self.serve):
            threading.Thread(target=run, daemon=True).start()

    def state(self):
        """A push/pull as memberlist and Serf spell it."""
        tags = b"\xff" + of_map([(text("role"), text("web")), (text("dc"), text("north"))])
        names = [f"member{which}" for which in range(1, self.count + 1)]
        nodes = b"".join(
            of_map(
                [
                    (text("Name"), text(name)),
                    (text("Addr"), raw(address(which))),
                    (text("Port"), b"\xcd" + struct.pack(">H", PORT)),
                    (text("Meta"), raw(tags)),
                    (text("Incarnation"), number(1)),
                    (text("State"), number(0)),
                    (text("Vsn"), raw(bytes([1, 5, 2, 2, 5, 4]))),
                ]
            )
            for which, name in enumerate(names, 1)
        )
        own = b"\x02" + of_map(
            [
                (text("LTime"), number(5)),
                (text("StatusLTimes"), of_map([(text(name), number(2)) for name in names])),
                (text("LeftMembers"), b"\xc0"),
                (text("EventLTime"), number(1)),
                (text("Events"), b"\xc0"),
                (text("QueryLTime"), number(1)),
            ]
        )
        header = of_map(
            [
                (text("Nodes"), b"\xcd" + struct.pack(">H", self.count)),
                (text("UserStateLen"), b"\xce" + struct.pack(">I", len(own))),
                (text("Join"), b"\xc2"),
            ]
        )
        return b"\x06" + header + nodes + own

    def serve(self):
        while True:
            conn, _ = self.tcp.accept()
            with conn:
                conn.settimeout(2)
                try:
                    conn.recv(1 << 16)
                    conn.sendall(self.state())
                    while conn.recv(1 << 16):
                        pass
                except OSError:
                    pass

    def answer(self):
        while True:
            packet, peer = self.udp.recvfrom(1 << 16)
            if packet[0] == 12:
                # (a checksum is in front)
                packet = packet[5:]
            at = packet.find(b"\xa5SeqNo")
            if at < 0 or packet[0] not in (0, 7):
                continue
            rest = packet[at + 6 :]
            length = {0xCC: 2, 0xCD: 3, 0xCE: 5}.get(rest[0], 1)
            self.udp.sendto(b"\x02\x82\xa5SeqNo" + rest[:length] + b"\xa7Payload\xc0", peer)


def memory(agent, what="VmRSS"):
    """Mebibytes of memory that an agent has."""
    with open(f"/proc/{agent.process.pid}/status", encoding="ascii") as file:
        return next(int(line.split()[1]) for line in file if line.startswith(what)) / 1024


class Asker:
    """A client of an agent's RPC that requests its counts."""

    def __init__(self, agent):
        host, port = agent.rpc.split(":")
        self.conn, self.seq = socket.create_connection((host, int(port)), 10), 1
        self.request("handshake", b"\x81" + text("Version") + b"\x01")

    def request(self, command, body=b"", wanted=b""):
        """The answer, up to the expected text if there is one."""
        self.conn.sendall(b"\x82" + text("Command") + text(command) + text("Seq") + number(self.seq % 128) + body)
        self.seq += 1
        self.conn.settimeout(30)
        said = self.conn.recv(1 << 16)
        self.conn.settimeout(0.05)
        try:
            while not wanted or wanted not in said:
                said += self.conn.recv(1 << 16)
        except TimeoutError:
            pass
        return said

    def says(self, name, value):
        wanted = text(name) + text(str(value))
        return wanted in self.request("stats", wanted=wanted)


def among_members(kind, agent, crowd, events):
    """Memory of an agent alone, among the members, and after the events."""
    agent.start("-log-level", "err")
    try:
        alone = memory(agent)
        asker = Asker(agent)
        agent.serf("join", f"127.60.0.1:{PORT}")
        if not until(lambda: asker.says("members", crowd.count + 1), LIMIT):
            print(f"{kind}: it doesn't know all members")
        time.sleep(10)
        many = memory(agent)
        rate, taken, _ = agent_speed.speed(agent, events)
        time.sleep(5)
        print(
            f"{kind}: {alone:.0f} MiB alone, {many:.0f} among {crowd.count} members, {memory(agent):.0f} after {taken} events ({rate:.0f} a second), "
            f"{memory(agent, 'VmHWM'):.0f} at most; failed by then: {'none' if asker.says('failed', 0) else 'some'}",
            flush=True,
        )
    finally:
        agent.end()


def of_many(kind, agents, together):
    """How soon many agents know each other, and how soon an event is everywhere."""
    first, rest = agents[0], agents[1:]
    first.start("-log-level", "err")
    try:
        began = time.monotonic()
        for at in range(0, len(rest), together):
            starts = [
                threading.Thread(target=one.start, args=("-log-level", "err", "-retry-join", first.addr))
                for one in rest[at : at + together]
            ]
            for start in starts:
                start.start()
            for start in starts:
                start.join()
        last = time.monotonic()
        askers = {agent: Asker(agent) for agent in agents}
        lacks = set(agents)

        def all_say(name, value):
            waiting = list(lacks)
            with ThreadPoolExecutor(16) as pool:
                lacks.difference_update(
                    [agent for agent, says in zip(waiting, pool.map(lambda agent: askers[agent].says(name, value), waiting)) if says]
                )
            return not lacks

        knows = until(lambda: all_say("members", len(agents)), LIMIT)
        known = time.monotonic()
        lacks.update(agents)
        first.serf("event", "-coalesce=false", "deploy", "v1")
        hears = until(lambda: all_say("event_time", 2), LIMIT)
        heard = time.monotonic()
        print(
            f"{kind}: {len(agents)} agents started in {last - began:.1f} s, all knew all {known - last:.1f} s later ({knows}), "
            f"an event was everywhere after {heard - known:.1f} s ({hears}), {sum(memory(agent) for agent in agents) / len(agents):.0f} MiB each",
            flush=True,
        )
    finally:
        for agent in agents:
            agent.end()


def main():
    parser = argparse.ArgumentParser(description=__doc__, formatter_class=argparse.RawDescriptionHelpFormatter)
    parser.add_argument("--members", type=int, default=1000)
    parser.add_argument("--events", type=int, default=50000)
    parser.add_argument("--nodes", type=int, default=200)
    parser.add_argument("--together", type=int, default=10)
    parser.add_argument("--library")
    parser.add_argument("--agent")
    options = parser.parse_args()
    missing = kit.missing_command()
    if missing:
        sys.exit(f"it needs {missing}")
    folder = tempfile.mkdtemp(prefix="agent-size-")
    program = options.agent or kit.build(folder, options.library, [])
    plain = os.path.join(folder, "plain.json")
    with open(plain, "w", encoding="utf-8") as file:
        # (the simulated members read no compressed packets)
        file.write('{"enable_compression": false}')
    try:
        crowd = Crowd(options.members) if options.members else None
        for which, (kind, words) in enumerate({"stock": ["serf", "agent"], "ours": [program]}.items()):
            def agent(at, net):
                found = Agent(folder, words, f"{kind}{at}", at, net=net)
                found.words = ["-snapshot", found.snapshot, "-config-file", plain]
                return found

            if crowd:
                among_members(kind, agent(which + 1, "127.0.10"), crowd, options.events)
            if options.nodes:
                of_many(kind, [agent(at, f"127.0.{11 + which}") for at in range(1, options.nodes + 1)], options.together)
    finally:
        shutil.rmtree(folder)
    return 0


if __name__ == "__main__":
    sys.exit(main())
