"""Runs what README, docs/AGENT.md and docs/INCIDENT.md show of agents, exactly as shown.

It runs in a folder like a release's archive, with the library in its folder lib, and for a user with an empty home. These things
differ from the pages: addresses are loopback ones of this run, /usr/local/bin and /var/lib/kitchenrue-agent are
folders of this run, and `dpkg -i` unpacks into a folder and configures nothing. If an agent's line has no address or
no name, one is appended to it.
"""

import os
import re
import shutil
import socket
import subprocess
import time

import c_library
import pages
from checks import TOP

# What agent/build and agent/package/deb read from the repository, and the handler of docs/INCIDENT.md.
PARTS = (
    "agent",
    "bindings/go/guard",
    "bindings/go/serf",
    "bindings/go/serfagent",
    "docs/AGENT.md",
    "CHANGELOG.md",
    "LICENSE",
    "PUBLISHER",
    "VERSION",
    "examples/serf_log_handler.sh",
)

# A stand-in for the reader's own handlers: it writes down which agent ran it, and what it read.
HANDLER = '#!/bin/sh\necho "$SERF_SELF_NAME $(cat)" >>"$(dirname "$0")/ran"\n'

# How long an agent may take to start, and a handler to run, in seconds.
WAIT = 60

# The names of the agents whose lines have none, in order, and the last number of the first one's address.
NAMES = ("alpha", "gamma")
PEER = 4


def until(holds):
    end = time.monotonic() + WAIT
    while time.monotonic() < end and not holds():
        time.sleep(0.1)
    return holds()


def takes_requests(address):
    try:
        socket.create_connection((address, 7373), 5).close()
    except OSError:
        return False
    return True


class Stage:
    """The place in which the pages' commands run, and the agents that they started."""

    def __init__(self, count, folder, library):
        self.count, self.top = count, os.path.join(folder, "archive")
        self.home, self.bin, self.state, self.root = (os.path.join(folder, name) for name in ("home", "bin", "state", "root"))
        self.net = f"127.{os.getpid() >> 8 & 127 | 128}.{os.getpid() & 255}"
        for path in (self.top, self.home, self.bin, self.state, os.path.join(self.top, "lib")):
            os.mkdir(path)
        for part in PARTS:
            os.makedirs(os.path.dirname(os.path.join(self.top, part)), exist_ok=True)
            (shutil.copytree if os.path.isdir(os.path.join(TOP, part)) else shutil.copy)(
                os.path.join(TOP, part), os.path.join(self.top, part)
            )
        os.symlink(os.path.join(library, "libserf_agent_c.a"), os.path.join(self.top, "lib", "libserf_agent_c.a"))
        shutil.copy(os.path.join(TOP, "examples", "serf_log_handler.sh"), self.bin)
        for name in ("deploy", "deploy.sh"):
            with open(os.path.join(self.bin, name), "w", encoding="utf-8") as file:
                file.write(HANDLER)
            os.chmod(file.name, 0o755)
        self.agents, self.names, self.rpc = [], [], None

    def env(self):
        # the package's program is first, and then the one that was built by itself
        path = [os.path.join(self.root, "usr", "bin"), os.path.join(self.home, ".local", "bin"), os.environ["PATH"]]
        cache = os.environ.get("GOCACHE") or os.path.expanduser("~/.cache/go-build")
        own = {"HOME": self.home, "PATH": os.pathsep.join(path), "GOCACHE": cache, "SERF_LOG": os.path.join(self.bin, "log")}
        return {**os.environ, **own, **({"SERF_RPC_ADDR": self.rpc} if self.rpc else {})}

    def here(self, text):
        """A page's line with the addresses and folders of this run."""
        text = text.replace("/var/lib/kitchenrue-agent", self.state).replace("/usr/local/bin", self.bin)
        return re.sub(r"\b10\.0\.0\b", self.net, text)

    def ran(self, text):
        return c_library.ran(["sh", "-ec", self.here(text)], cwd=self.top, env=self.env())

    def well(self, name, text, says=""):
        status, output = self.ran(text)
        self.count.check(name, status == 0 and re.search(says, output), (status, output[-1500:]))

    def soon_well(self, name, text, says):
        """As `well`, if the expected output may come a while later."""
        said = []

        def holds():
            said[:] = self.ran(text)
            return said[0] == 0 and re.search(says, said[1])

        self.count.check(name, until(holds), said)

    def name_of(self, text):
        """The name of the agent that a line starts. If an agent of this name runs, it is ended first."""
        named = re.search(r"-node (\S+)", text)
        name = named[1] if named else next(it for it in NAMES if it not in self.names)
        if name in self.names:
            at = self.names.index(name)
            self.agents[at].terminate()
            self.agents[at].wait()
            # (its position stays, since addresses are counted by it)
            self.names[at] = None
        self.names.append(name)
        return name

    def has_started(self, command):
        """Whether an agent of the name in this line was started before."""
        named = re.search(r"-node (\S+)", command.text)
        return named is not None and named[1] in self.names

    def start(self, command):
        """Starts an agent as its line says, and waits until it accepts requests."""
        name, address = self.name_of(command.text), f"{self.net}.{PEER + len(self.agents)}"
        self.rpc = f"{address}:7373"
        text = f"exec {command.text.removesuffix('&').strip()} -rpc-addr {self.rpc}"
        text += "" if "-node " in text else f" -node {name}"
        text += "" if "-bind " in text else f" -bind {address}"
        with open(os.path.join(self.bin, f"{name}.log"), "w+", encoding="utf-8") as log:
            how = {"cwd": self.state, "env": self.env(), "stdin": subprocess.DEVNULL, "stdout": log, "stderr": log}
            self.agents.append(subprocess.Popen(["sh", "-c", self.here(text)], **how))
        until(lambda: takes_requests(address) or self.agents[-1].poll() is not None)
        self.count.check(command.name(), self.agents[-1].poll() is None and takes_requests(address), self.text_of(log.name)[-1500:])

    @staticmethod
    def text_of(path):
        try:
            with open(path, encoding="utf-8", errors="replace") as file:
                return file.read()
        except OSError:
            return ""

    def handled(self, name="ran"):
        return self.text_of(os.path.join(self.bin, name)).splitlines()

    def end(self):
        for agent in self.agents:
            agent.kill()
            agent.wait()


def package(stage, command):
    """`dpkg -i`: dpkg unpacks the package, its scripts are parsed, and systemd checks its unit."""
    if os.geteuid() or shutil.which("dpkg") is None:
        print(f"not run: {command.name()}, since this user isn't root or dpkg is not on PATH")
        return
    for folder in ("info", "updates", "triggers"):
        os.makedirs(os.path.join(stage.root, "var", "lib", "dpkg", folder))
    with open(os.path.join(stage.root, "var", "lib", "dpkg", "status"), "w", encoding="utf-8"):
        pass
    stage.well(command.name(), command.text.replace("dpkg -i ", f"dpkg --root={stage.root} --unpack "))
    info = os.path.join(stage.root, "var", "lib", "dpkg", "info", "kitchenrue-agent")
    for script in ("postinst", "prerm"):
        stage.well(f"the package's {script} is read by sh", f"sh -n {info}.{script}")
    if shutil.which("systemd-analyze") is None:
        print("not run: systemd-analyze of the agent's unit, which is not on PATH")
        return
    unit = os.path.join(stage.root, "lib", "systemd", "system", "kitchenrue-agent.service")
    said = c_library.ran(["systemd-analyze", "verify", unit])[1]
    # the program isn't installed here
    others = [
        line for line in said.splitlines() if "kitchenrue-agent" in line and "/usr/bin/kitchenrue-agent is not executable" not in line
    ]
    stage.count.check("systemd reads the unit", os.path.isfile(unit) and not others, said[-1500:])


def serf(stage, command):
    """A request of the stock command line to the agent that was started last, or a stock agent."""
    if shutil.which("serf") is None:
        print(f"not run: {command.name()}, since serf is not on PATH")
    elif command.text.startswith("serf agent "):
        stage.start(command)
        # `judge` reads what this handler writes
        stage.well("an event for the stock agent", "serf event -coalesce=false deploy v2", "dispatched")
        # (after its date)
        lines = lambda: [line.split(" ", 1)[1] for line in stage.handled("log")]
        stage.count.check("its handler's line", until(lambda: lines() == ["event gamma 1 deploy v2"]), stage.handled("log"))
        stage.count.check("the handler next to it", until(lambda: "gamma v2" in stage.handled()), stage.handled())
    elif command.text.startswith("serf event "):
        stage.well(command.name(), command.text, "dispatched")
    else:
        stage.soon_well(command.name(), command.text, r"(?s)web1 .*alive.*alpha .*alive|alpha .*alive.*web1 .*alive")


# The events in the snapshots of three nodes, in the example of `runs`, and how their handlers ended: None is an event that waits, and an
# empty text one whose handler never began.
RUNS = {
    "web1": [(41, "v40", "0"), (43, "v41", "0"), (46, "v42", "0"), (47, "v43", "0")],
    "web2": [(41, "v40", "0"), (43, "v41", "cut-off rerun:deploy=0"), (46, "v42", "cut-off"), (47, "v43", None)],
    "web3": [(43, "v41", "3"), (47, "v43", "")],
}


def snapshot_of(events):
    """A snapshot with these events. It has no events before the first one's time."""
    lines = ["#done 0", "#ran 0", f"#least event-clock: {events[0][0]}"]
    for time_of_it, payload, status in events:
        words = f"{time_of_it} {b'deploy'.hex()} {payload.encode().hex()}"
        lines += (
            [f"#event {words}"] + ([] if status is None else [f"#done {words}"]) + ([f"#ran {words} deploy={status}"] if status else [])
        )
    return "\n".join(lines) + "\n"


def runs(stage, command):
    """`kitchenrue-agent runs`: the snapshot of the agent that is running, or those of three nodes, whose table the page shows."""
    if "=" not in command.text:
        has_serf = shutil.which("serf") is not None
        if has_serf:
            stage.well("an event without a handler", "serf event -coalesce=false other x", "dispatched")
        stage.soon_well(
            command.name(), command.text, r"^TIME +NAME +PAYLOAD +STATE +HANDLERS\n" + (r"\d+ +other +x +never began\n" if has_serf else "")
        )
        return
    for name, events in RUNS.items():
        with open(os.path.join(stage.top, f"{name}.snapshot"), "w", encoding="ascii") as file:
            file.write(snapshot_of(events))
    status, output = stage.ran(command.text)
    shown = [block for _, block in pages.blocks(command.page) if block.startswith("TIME ")]
    stage.count.check(command.name(), status == 0 and [output.strip()] == [block.strip() for block in shown], (status, output, shown))


def handled_once(stage):
    """The handlers of the events that the pages fire ran once on each agent."""
    if shutil.which("serf"):
        wanted = ["alpha v1", "alpha v1.2", "web1 v1.2"]
        ran = lambda: sorted(line for line in stage.handled() if line in wanted)
        stage.count.check("each handler ran once", until(lambda: ran() == wanted) and ran() == wanted, stage.handled())


def try_pages(count, library, folder):
    """Runs what the pages show, in their order, and checks what the handlers did."""
    stage = Stage(count, folder, library)
    try:
        for command in pages.of(pages.AGENT):
            if command.text.startswith("agent/"):
                stage.well(command.name(), command.text)
            elif command.text.startswith("dpkg "):
                package(stage, command)
            elif command.text.startswith("serf "):
                serf(stage, command)
            elif command.text.startswith("kitchenrue-agent runs "):
                runs(stage, command)
            elif command.text.startswith("kitchenrue-agent "):
                # AGENT.md's agent joins the one of README; if it is started anew, its event is spread first
                if stage.has_started(command):
                    handled_once(stage)
                stage.start(command)
                if "-record " in command.text:
                    record = os.path.join(stage.state, "record")
                    count.check("its record", until(lambda: stage.text_of(record).startswith("#")), stage.text_of(record)[:300])
        handled_once(stage)
    finally:
        stage.end()
