"""By hand, since it needs Debian's serf: the incident of examples/leave, on real Serf.

    tests/by_hand/second_incident.py FOLDER

Four agents run on loopback addresses only. Alpha fires a burst that Serf coalesces, and a burst that it doesn't. Gamma
is killed after the second one and started again. Delta leaves, is started again without -rejoin, and joins with -replay.
FOLDER, which is made, gets handlers.log, the snapshot that the kill left (gamma_killed.snapshot) and that the leave left
(delta_left.snapshot), the snapshot of each agent as it is at the end (NAME.snapshot), and each agent's own log. It takes about
a minute, and at most five.
"""

import os
import shutil
import signal
import subprocess
import sys
import time

TOP = os.path.dirname(os.path.dirname(os.path.dirname(os.path.abspath(__file__))))
HANDLER = os.path.join(TOP, "examples", "serf_log_handler.sh")
ADDRESS = {name: f"127.77.0.{number}" for number, name in enumerate(["alpha", "beta", "gamma", "delta"], 1)}

# How many events each burst has.
BURST = 6

# How long a call of `serf` may take, how long it may take until the agents know each other, and the whole run, in seconds.
CALL, KNOWN, WHOLE = 20, 60, 300

# How long the script waits for a handler's last line, in seconds: Serf holds a coalesced event back for three seconds at most.
QUIET = 6


def too_long(*_):
    raise SystemExit(f"second_incident: it took more than {WHOLE} seconds")


class Incident:
    def __init__(self, folder):
        self.folder = os.path.abspath(folder)
        self.running = {}

    def __enter__(self):
        os.makedirs(self.folder)
        signal.signal(signal.SIGALRM, too_long)
        signal.alarm(WHOLE)
        return self

    def __exit__(self, *_):
        for name in list(self.running):
            self.kill(name)
        signal.alarm(0)

    def path(self, name):
        return os.path.join(self.folder, name)

    def start(self, name, *more):
        address = ADDRESS[name]
        words = ["serf", "agent", f"-node={name}", f"-bind={address}:7946", f"-rpc-addr={address}:7373"]
        words += [f"-snapshot={name}.snapshot", f"-event-handler=user={HANDLER}", *more]
        env = {**os.environ, "SERF_LOG": self.path("handlers.log")}
        with open(self.path(f"{name}.agent.log"), "a", encoding="utf-8") as log:
            self.running[name] = subprocess.Popen(words, cwd=self.folder, env=env, stdin=subprocess.DEVNULL, stdout=log, stderr=log)

    def kill(self, name):
        self.running[name].kill()
        self.running.pop(name).wait()

    def call(self, name, command, *words):
        """A command of `serf` at an agent, and what it prints."""
        line = ["serf", command, f"-rpc-addr={ADDRESS[name]}:7373", *words]
        result = subprocess.run(line, stdin=subprocess.DEVNULL, capture_output=True, text=True, timeout=CALL)
        return result.stdout if result.returncode == 0 else None

    def told(self, name, command, *words):
        if self.call(name, command, *words) is None:
            raise SystemExit(f"second_incident: {name} refused {command}")

    def wait_for(self, count):
        """Waits until each agent that runs sees so many alive."""
        until = time.monotonic() + KNOWN
        while any(len((self.call(name, "members", "-status=alive") or "").splitlines()) != count for name in self.running):
            if time.monotonic() > until:
                raise SystemExit(f"second_incident: not all agents see {count}")
            time.sleep(0.5)

    def wait_for_quiet(self):
        """Waits until the log of the handlers has had no new line for some seconds."""
        size, since = -1, time.monotonic()
        while time.monotonic() < since + QUIET:
            now = os.path.getsize(self.path("handlers.log")) if os.path.exists(self.path("handlers.log")) else 0
            if now != size:
                size, since = now, time.monotonic()
            time.sleep(0.2)

    def keep(self, name, kept):
        shutil.copy(self.path(f"{name}.snapshot"), self.path(f"{kept}.snapshot"))


def play(incident):
    for name in ADDRESS:
        incident.start(name, *([f"-join={ADDRESS['alpha']}"] if name != "alpha" else []))
        time.sleep(1)
    incident.wait_for(4)
    incident.told("alpha", "event", "-coalesce=false", "build", "41")
    incident.wait_for_quiet()
    for number in range(1, BURST + 1):
        incident.told("alpha", "event", "deploy", f"v{number}")
    incident.wait_for_quiet()
    for number in range(1, BURST + 1):
        incident.told("alpha", "event", "-coalesce=false", "reload", f"n{number}")
    time.sleep(2)
    incident.kill("gamma")
    incident.keep("gamma", "gamma_killed")
    incident.start("gamma")
    incident.wait_for(4)
    incident.wait_for_quiet()
    incident.told("delta", "leave")
    incident.running.pop("delta").wait(timeout=CALL)
    incident.keep("delta", "delta_left")
    incident.start("delta")
    time.sleep(2)
    incident.told("delta", "join", "-replay", ADDRESS["alpha"])
    incident.wait_for(4)
    incident.wait_for_quiet()


def main(words):
    if len(words) != 1:
        print(__doc__.strip(), file=sys.stderr)
        return 2
    with Incident(words[0]) as incident:
        play(incident)
    with open(incident.path("handlers.log"), encoding="utf-8") as file:
        print(file.read(), end="")
    return 0


if __name__ == "__main__":
    sys.exit(main(sys.argv[1:]))
