"""`judge --kept` and `clocks` on snapshots of stock Serf, compared with what stock Serf does when it is started on them.

Two stock agents, alpha and gamma, run on loopback. Gamma runs six events of alpha's and ends by a kill or by `serf leave`. It is
started again on its snapshot, alone, with or without `-rejoin`, fires some events and is killed. Then `judge` and `clocks` read its
snapshot, and it is started once more, with or without `-rejoin`, and joins alpha with `-replay`. What its handler runs a second
time has to be exactly what is above the event clock that `clocks` printed for this start. In half of the runs the snapshot is
long enough for Serf to compact it at its next line.

Debian's package `serf` has to be installed (`tools/packages`); otherwise the script prints what is missing, and checks nothing.
"""

import itertools
import os
import re
import shutil
import signal
import socket
import subprocess
import sys
import tempfile
import time
from concurrent.futures import ThreadPoolExecutor

sys.dont_write_bytecode = True
sys.path.insert(0, os.path.dirname(os.path.dirname(os.path.abspath(__file__))))
import checks
from checks import TOP

HANDLER = os.path.join(TOP, "examples", "serf_log_handler.sh")

# How many events alpha fires at first, and how many gamma fires in its second life. Serf flushes a line with the first line that it
# writes half a second later or more, so gamma waits for longer than that between its events, in seconds. Only the last line is lost.
FIRST, SECOND, BETWEEN = 6, 3, 0.8

# How long something may take to be seen, in seconds; how long Serf may take until its snapshot is flushed; and for how long no
# event has to arrive until everything that will run again has run.
SEEN, FLUSHED, STILL = 60, 2, 3

# How many runs are made at once.
AT_ONCE = 4

# More bytes than a snapshot of Serf may have before it is compacted (`snapshot.go`), as a comment, which Serf skips.
PADDING = b"#" + b"x" * (129 * 1024) + b"\n"

EVENT = re.compile(rb"event gamma (\d+) (\S+) (\S+)$", re.M)
CLOCK_LINE = re.compile(rb"^event-clock: (\d+)$", re.M)


def until(what, holds, seconds=SEEN):
    """Waits until something holds, or raises an error that says what didn't."""
    end = time.monotonic() + seconds
    while not holds():
        if time.monotonic() > end:
            raise TimeoutError(what)
        time.sleep(0.05)


def free_ports(count):
    """As many free ports on loopback."""
    sockets = [socket.socket() for _ in range(count)]
    for one in sockets:
        one.bind(("127.0.0.1", 0))
    ports = [one.getsockname()[1] for one in sockets]
    for one in sockets:
        one.close()
    return ports


class Agent:
    """A stock agent, which may be started several times."""

    def __init__(self, folder, name, port, rpc):
        self.name, self.bind, self.rpc = name, f"127.0.0.1:{port}", f"127.0.0.1:{rpc}"
        self.snapshot = os.path.join(folder, f"{name}.snapshot")
        self.log = os.path.join(folder, f"{name}.handlers")
        self.said = open(os.path.join(folder, f"{name}.said"), "ab")
        self.process = None

    def start(self, *words):
        command = [
            "serf",
            "agent",
            f"-node={self.name}",
            f"-bind={self.bind}",
            f"-rpc-addr={self.rpc}",
            f"-snapshot={self.snapshot}",
            f"-event-handler=user={HANDLER}",
            *words,
        ]
        self.process = subprocess.Popen(
            command, env={**os.environ, "SERF_LOG": self.log}, stdin=subprocess.DEVNULL, stdout=self.said, stderr=self.said
        )
        until(f"{self.name} answers", lambda: self.call("info").returncode == 0)

    def call(self, command, *words):
        return subprocess.run(
            ["serf", command, f"-rpc-addr={self.rpc}", *words], stdin=subprocess.DEVNULL, capture_output=True, timeout=SEEN
        )

    def kill(self):
        if self.process is not None:
            self.process.send_signal(signal.SIGKILL)
            self.process.wait()
            self.process = None

    def leave(self):
        self.call("leave")
        self.process.wait(SEEN)
        self.process = None

    def events(self):
        """What its handler ran, in order: time, name and payload."""
        try:
            with open(self.log, "rb") as file:
                return [(int(time), name, payload) for time, name, payload in EVENT.findall(file.read())]
        except FileNotFoundError:
            return []


def clock_of(snapshot, rejoins):
    """The event clock that `clocks` prints for a start, or None if it printed none."""
    words = b"" if rejoins else b"without -rejoin: "
    status, out, _ = checks.run_program(["clocks", snapshot])
    clocks = dict(re.findall(rb"^(without -rejoin: )?event-clock (\d+)$", out, re.M))
    return int(clocks.get(words, clocks[b""])) if status == 0 else None


def can_come_again(agent, snapshot, rejoins):
    """What `judge` reports for a start: whether something can be handed out again. None if it reports nothing about it."""
    status, out, err = checks.run_program(["judge", agent.log, "--kept", f"gamma={snapshot}"])
    how = b"" if b"with -rejoin keeps" not in out else b" with -rejoin" if rejoins else b" without -rejoin"
    said = re.findall(rb"^gamma%s keeps event-clock \d+(.*)$" % how, out, re.M)
    return said[0].endswith(b"it can be handed out again") if len(said) == 1 else None


def one_run(case):
    """Plays a case: what `judge` and `clocks` printed, what had run before the last start, what ran after it, whether Serf compacted
    its snapshot, and the numbers of the snapshot's clock lines of events."""
    ends_by_leave, is_padded, rejoined, rejoins = case
    folder = tempfile.mkdtemp()
    ports = free_ports(4)
    alpha, gamma = Agent(folder, "alpha", *ports[:2]), Agent(folder, "gamma", *ports[2:])
    try:
        alpha.start()
        gamma.start(f"-join={alpha.bind}")
        for number in range(FIRST):
            alpha.call("event", "-coalesce=false", "first", f"p{number}")
            until("an event of alpha's arrives", lambda: len(gamma.events()) == number + 1)
        time.sleep(FLUSHED)
        (gamma.leave if ends_by_leave else gamma.kill)()
        if is_padded:
            with open(gamma.snapshot, "ab") as file:
                file.write(PADDING)
        # (without a member to rejoin, as after all have left, it is alone in this life)
        gamma.start(*(["-rejoin"] if rejoined else []))
        before = len(gamma.events())
        for number in range(SECOND):
            time.sleep(BETWEEN)
            gamma.call("event", "-coalesce=false", "second", f"q{number}")
            until("its own event arrives", lambda: [name for _, name, _ in gamma.events()[before:]].count(b"second") == number + 1)
        time.sleep(FLUSHED)
        gamma.kill()
        kept = os.path.join(folder, "kept.snapshot")
        shutil.copyfile(gamma.snapshot, kept)
        text = checks.read(kept)
        is_compacted = PADDING not in text
        had = gamma.events()
        judged, clock = can_come_again(gamma, kept, rejoins), clock_of(kept, rejoins)
        gamma.start(*(["-rejoin"] if rejoins else []), f"-join={alpha.bind}", "-replay")
        gamma.call("join", "-replay", alpha.bind)
        last = [len(gamma.events()), time.monotonic()]

        def is_still():
            if len(gamma.events()) != last[0]:
                last[:] = [len(gamma.events()), time.monotonic()]
            return time.monotonic() > last[1] + STILL

        until("all that runs again has run", is_still)
        return judged, clock, had, gamma.events()[len(had) :], is_compacted, CLOCK_LINE.findall(text)
    finally:
        for agent in (alpha, gamma):
            agent.kill()
            agent.said.close()
        shutil.rmtree(folder, ignore_errors=True)


def starts(count):
    if shutil.which("serf") is None:
        print("not run: stock Serf isn't installed")
        return
    cases = list(itertools.product((False, True), repeat=4))
    with ThreadPoolExecutor(AT_ONCE) as pool:
        runs = list(pool.map(one_run, cases))
    for case, (judged, clock, had, after, is_compacted, lines) in zip(cases, runs):
        ends_by_leave, is_padded, rejoined, rejoins = case
        words = [
            "leave" if ends_by_leave else "kill",
            "compacted" if is_padded else "as written",
            *(f"-rejoin={flag}".lower() for flag in (rejoined, rejoins)),
        ]
        name = ", ".join(words)
        again = {event for event in after if event in had}
        above = {event for event in had if clock is not None and event[0] > clock}
        # (alpha fired the first ones, so it replays only these; the second is gamma's own)
        wanted = {event for event in above if event[1] == b"first"}
        count.check(
            f"{name}: what runs again is above the clock that clocks prints",
            again & wanted == wanted and again <= above,
            (clock, had, after),
        )
        count.check(f"{name}: judge says whether something can be handed out again", judged == bool(above), (judged, clock, had, after))
        count.check(f"{name}: compacted", is_compacted or not is_padded, case)
        if ends_by_leave and not rejoined and not is_padded:
            # (Serf's clock began anew, so its last line isn't its largest)
            count.check(f"{name}: a smaller clock line is the last", int(lines[-1]) < max(map(int, lines)), lines)
    count.check(
        "some run has events that ran again, and some has none",
        len({bool(set(after) & set(had)) for _, _, had, after, *_ in runs}) == 2,
        runs,
    )


if __name__ == "__main__":
    sys.exit(checks.over_program(starts))
