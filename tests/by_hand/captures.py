"""By hand, since it needs root, tcpdump, iptables and stock Serf: the captures that tests/program/capture.py reads.

    unshare -n sh -c "ip link set lo up && python3 tests/by_hand/captures.py tests/program/capture"

Stock agents run on addresses of the loopback alone, in a separate network by the line above, and tcpdump reads the interface
`lo`. For each incident FOLDER gets NAME.pcap, the snapshot that the last kill left (NAME.snapshot), and the log of the handlers
(NAME.handlers). The log begins with comments that say what was done when, in seconds since the capture's first packet. More words
are the names of the incidents that are made; all of them take about two minutes.

- `addresses`: three agents at 127.0.0.1, 127.0.0.2 and 127.0.0.3. Beta is killed right after a burst, and started again.
- `ports`: the same, at the ports 7946, 7947 and 7948 of 127.0.0.1.
- `rejoin`: gamma left, was started without -rejoin, fired an event and was killed. Then the capture begins, and it is started with
  -rejoin.
- `sync`: three agents at three ports of 127.0.0.1. iptables drops each UDP packet to gamma that has an event of alpha's, so gamma
  gets the event by the states that agents exchange now and then.
"""

import os
import shutil
import signal
import struct
import subprocess
import sys
import tempfile
import time

TOP = os.path.dirname(os.path.dirname(os.path.dirname(os.path.abspath(__file__))))
HANDLER = os.path.join(TOP, "examples", "serf_log_handler.sh")

# How long a call of `serf` may take, how long an agent may take to start or to be seen, and how long all of it may take, in seconds.
CALL, KNOWN, WHOLE = 20, 60, 600


def too_long(*_):
    raise SystemExit(f"captures: it took more than {WHOLE} seconds")


class Incident:
    """Stock agents, each at its address, and a capture of what they send each other."""

    def __init__(self, folder, name, addresses):
        self.folder, self.name, self.addresses = folder, name, addresses
        self.running, self.capture, self.moments = {}, None, []
        self.own = tempfile.TemporaryDirectory()
        os.chmod(self.own.name, 0o755)

    def __enter__(self):
        return self

    def __exit__(self, *_):
        for name in list(self.running):
            self.kill(name)
        self.end_capture()
        self.own.cleanup()

    def path(self, name):
        """A file of the agents' own, which is removed."""
        return os.path.join(self.own.name, name)

    def made(self, ending):
        return os.path.join(self.folder, f"{self.name}.{ending}")

    def begin_capture(self):
        ports = sorted({address.split(":")[1] for address in self.addresses.values()})
        words = ["tcpdump", "-i", "lo", "-U", "-s", "0", "-Z", "root", "-w", self.made("pcap")]
        words.append(" or ".join(f"port {port}" for port in ports))
        self.capture = subprocess.Popen(words, stdin=subprocess.DEVNULL, stdout=subprocess.DEVNULL, stderr=subprocess.PIPE)
        self.capture.stderr.readline()
        time.sleep(0.5)

    def end_capture(self):
        if self.capture is not None:
            time.sleep(0.5)
            self.capture.send_signal(signal.SIGINT)
            self.capture.wait(timeout=CALL)
            self.capture.stderr.close()
            self.capture = None

    def rpc(self, name):
        return f"-rpc-addr=127.0.0.1:{7373 + list(self.addresses).index(name)}"

    def start(self, name, *more):
        words = ["serf", "agent", f"-node={name}", f"-bind={self.addresses[name]}", self.rpc(name)]
        words += [f"-snapshot={self.path(name)}", f"-event-handler=user={HANDLER}", *more]
        env = {**os.environ, "SERF_LOG": self.path("handlers")}
        with open(self.path(f"{name}.output"), "a", encoding="utf-8") as log:
            self.running[name] = subprocess.Popen(words, cwd=self.own.name, env=env, stdin=subprocess.DEVNULL, stdout=log, stderr=log)
        self.moments.append((time.time(), f"{name} was started"))
        until = time.monotonic() + KNOWN
        while self.call(name, "info") is None:
            if time.monotonic() > until:
                raise SystemExit(f"captures: {name} doesn't start")
            time.sleep(0.1)

    def kill(self, name):
        self.running[name].kill()
        self.running.pop(name).wait()
        self.moments.append((time.time(), f"{name} was killed"))

    def call(self, name, command, *words):
        """A command of `serf` at an agent, and what it prints; None if it fails."""
        line = ["serf", command, self.rpc(name), *words]
        result = subprocess.run(line, stdin=subprocess.DEVNULL, capture_output=True, text=True, timeout=CALL)
        return result.stdout if result.returncode == 0 else None

    def do(self, name, command, *words):
        if self.call(name, command, *words) is None:
            raise SystemExit(f"captures: {name} refused {command}")
        self.moments.append((time.time(), f"{name} did {command} {' '.join(words)}"))

    def wait_for(self, count):
        """Waits until each agent that runs sees so many alive."""
        until = time.monotonic() + KNOWN
        while any(len((self.call(name, "members", "-status=alive") or "").splitlines()) != count for name in self.running):
            if time.monotonic() > until:
                raise SystemExit(f"captures: not all agents see {count}")
            time.sleep(0.2)

    def handed(self):
        try:
            with open(self.path("handlers"), encoding="utf-8") as file:
                return file.read().splitlines()
        except FileNotFoundError:
            return []

    def wait_for_line(self, words, times=1):
        """Waits until the handlers' log has a line that ends so, as often as is said."""
        until = time.monotonic() + KNOWN
        while sum(line.endswith(words) for line in self.handed()) < times:
            if time.monotonic() > until:
                raise SystemExit(f"captures: {words} never ran")
            time.sleep(0.05)

    def keep(self, name):
        shutil.copy(self.path(name), self.made("snapshot"))

    def write_log(self):
        """The handlers' log, after comments that say what was done when."""
        with open(self.made("pcap"), "rb") as file:
            seconds, parts = struct.unpack_from("<2I", file.read(32), 24)
        with open(self.made("handlers"), "w", encoding="utf-8") as file:
            for at, what in self.moments:
                print(f"# {at - seconds - parts / 1e6:.3f} {what}", file=file)
            print(*self.handed(), sep="\n", file=file)


def killed(incident):
    """Beta's handler runs two events, beta is killed before their lines are on the disk, and runs them again."""
    incident.begin_capture()
    first = incident.addresses["alpha"]
    incident.start("alpha")
    for name in ("beta", "gamma"):
        incident.start(name, f"-join={first}")
    incident.wait_for(3)
    incident.do("alpha", "event", "-coalesce=false", "deploy", "v1")
    incident.wait_for_line("deploy v1", 3)
    time.sleep(2)
    # (within half a second of a flush Serf holds the lines of its snapshot back: here those of v3 and v4)
    for number in (2, 3, 4):
        incident.do("alpha", "event", "-coalesce=false", "deploy", f"v{number}")
    incident.wait_for_line("event beta 4 deploy v4")
    incident.kill("beta")
    incident.keep("beta")
    time.sleep(2)
    incident.start("beta", "-replay")
    incident.wait_for(3)
    incident.wait_for_line("event beta 4 deploy v4", 2)
    incident.do("gamma", "event", "-coalesce=false", "reload", "n1")
    incident.wait_for_line("reload n1", 3)
    time.sleep(1)
    incident.end_capture()


def rejoined(incident):
    """After a leave, gamma has a life with a lower clock, and is started with -rejoin: of its snapshot the last clock line counts."""
    first = incident.addresses["alpha"]
    incident.start("alpha")
    for name in ("beta", "gamma"):
        incident.start(name, f"-join={first}")
    incident.wait_for(3)
    for number in range(1, 7):
        incident.do("alpha", "event", "-coalesce=false", "first", f"p{number}")
    incident.wait_for_line("event gamma 6 first p6")
    time.sleep(2)
    incident.do("gamma", "leave")
    incident.running.pop("gamma").wait(timeout=CALL)
    time.sleep(6)
    incident.start("gamma")
    time.sleep(1)
    incident.do("gamma", "event", "-coalesce=false", "second", "q1")
    incident.wait_for_line("second q1")
    time.sleep(2)
    incident.kill("gamma")
    incident.keep("gamma")
    time.sleep(2)
    incident.begin_capture()
    time.sleep(1)
    incident.start("gamma", "-rejoin", f"-join={first}", "-replay")
    incident.wait_for_line("event gamma 6 first p6", 2)
    time.sleep(1)
    incident.end_capture()


def rule(change):
    """Adds or deletes the rule by which iptables drops the UDP packets to gamma that have the event."""
    to_gamma = ["INPUT", "-i", "lo", "-p", "udp", "--dport", "7948"]
    subprocess.run(["iptables", "-w", change, *to_gamma, "-m", "string", "--algo", "bm", "--string", "hotfix", "-j", "DROP"], check=True)


def synced(incident):
    """Gamma gets an event by the states that agents exchange now and then, and by nothing else."""
    incident.begin_capture()
    first = incident.addresses["alpha"]
    incident.start("alpha", "-profile=local")
    for name in ("beta", "gamma"):
        incident.start(name, "-profile=local", f"-join={first}")
    incident.wait_for(3)
    rule("-A")
    try:
        incident.do("alpha", "event", "-coalesce=false", "hotfix", "h1")
        incident.wait_for_line("event gamma 1 hotfix h1")
        time.sleep(1)
    finally:
        rule("-D")
    incident.end_capture()


ADDRESSES = {"alpha": "127.0.0.1:7946", "beta": "127.0.0.2:7946", "gamma": "127.0.0.3:7946"}
PORTS = {"alpha": "127.0.0.1:7946", "beta": "127.0.0.1:7947", "gamma": "127.0.0.1:7948"}
INCIDENTS = {
    "addresses": (ADDRESSES, killed),
    "ports": (PORTS, killed),
    "rejoin": (ADDRESSES, rejoined),
    "sync": (PORTS, synced),
}


def main(words):
    if not 1 <= len(words) or not set(words[1:]) <= set(INCIDENTS):
        print(__doc__.strip(), file=sys.stderr)
        return 2
    signal.signal(signal.SIGALRM, too_long)
    signal.alarm(WHOLE)
    folder = os.path.abspath(words[0])
    os.makedirs(folder, exist_ok=True)
    for name in words[1:] or INCIDENTS:
        addresses, steps = INCIDENTS[name]
        with Incident(folder, name, addresses) as incident:
            steps(incident)
            incident.write_log()
            print(f"{name}: {os.path.getsize(incident.made('pcap'))} bytes", flush=True)
    return 0


if __name__ == "__main__":
    sys.exit(main(sys.argv[1:]))
