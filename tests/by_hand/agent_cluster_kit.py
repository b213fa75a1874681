"""What the tests by hand of the agent share: it builds the agent, and starts and ends agents on loopback addresses."""

import os
import shutil
import signal
import subprocess
import sys
import time

TOP = os.path.dirname(os.path.dirname(os.path.dirname(os.path.abspath(__file__))))
sys.path[:0] = [os.path.join(TOP, part) for part in ("tests", "tests/library", "tools")]
sys.dont_write_bytecode = True
import c_library
import serf_package

GOCODE = os.environ.get("SERF_GOPATH", "/usr/share/gocode")

# Writes the input of a handler: its event, its node, the name, the time, and what it read.
HANDLER = """#!/bin/sh
read_in=$(cat | tr '\\n' ';')
echo "$SERF_EVENT|$SERF_SELF_NAME|$SERF_SELF_ROLE|$SERF_TAG_ROLE|$SERF_USER_EVENT$SERF_QUERY_NAME|$SERF_USER_LTIME$SERF_QUERY_LTIME|$read_in" >>"$1"
"""


def build(folder, library=None, flags=("-race",)):
    """Builds the agent into a folder, as its build script does, with these flags of Go: the program's path."""
    if library is None:
        fault = c_library.fault_of_library()
        if fault:
            sys.exit(f"the library: {fault}")
        library = os.path.dirname(c_library.LIBRARY)
    path = os.path.join(folder, "kitchenrue-agent")
    words = [os.path.join(TOP, "agent", "build"), path, library, *flags]
    subprocess.run(words, check=True)
    return path


def build_serf(folder, library, flags=()):
    """Builds Serf's own program over our package into a folder, with these flags of Go: the program's path."""
    path = os.path.join(folder, "serf-over-ours")
    env = serf_package.laid(folder, os.path.join(library, "libserf_agent_c.a"))
    subprocess.run(["go", "build", *flags, "-o", path, f"{serf_package.PATH}/cmd/serf"], check=True, env=env)
    return path


class Agent:
    """An agent of a cluster: how it is started, and its process."""

    def __init__(self, folder, program, name, number, words=(), auth=None, net="127.0.7"):
        self.name, self.number, self.auth = name, number, auth
        self.addr = f"{net}.{number}"
        self.rpc = f"{self.addr}:7373"
        self.program = program if isinstance(program, list) else [program]
        self.words = list(words)
        self.handled = os.path.join(folder, f"{name}.handled")
        self.snapshot = os.path.join(folder, f"{name}.snapshot")
        self.record = os.path.join(folder, f"{name}.record")
        self.env = None
        self.log = os.path.join(folder, f"{name}.log")
        self.process = None

    def launch(self, *more):
        """Starts it, and doesn't wait until it answers."""
        words = [
            *self.program,
            "-node",
            self.name,
            "-bind",
            f"{self.addr}:7946",
            "-rpc-addr",
            self.rpc,
            "-log-level",
            "debug",
            *self.words,
            *more,
        ]
        with open(self.log, "a", encoding="utf-8") as log:
            self.process = subprocess.Popen(words, stdin=subprocess.DEVNULL, stdout=log, stderr=log, start_new_session=True, env=self.env)

    def start(self, *more):
        self.launch(*more)
        until(lambda: self.process.poll() is not None or run_serf(["serf", "members", f"-rpc-addr={self.rpc}", *self.token()])[0] == 0, 60)
        return self

    def token(self):
        return [f"-rpc-auth={self.auth}"] if self.auth else []

    def serf(self, command, *words):
        """What the stock command line prints for this agent: its status and its text."""
        return run_serf(["serf", command, f"-rpc-addr={self.rpc}", *self.token(), *words])

    def status(self, name):
        """How this agent sees another one, or an empty text."""
        for line in self.serf("members")[1].splitlines():
            words = line.split()
            if words and words[0] == name:
                return words[2]
        return ""

    def lines(self):
        try:
            with open(self.handled, encoding="utf-8", errors="replace") as file:
                return file.read().splitlines()
        except OSError:
            return []

    def ran(self, name):
        """The payloads with which the handler of a user event ran."""
        return [line.split("|")[6].rstrip(";") for line in self.lines() if line.split("|")[0] == "user" and line.split("|")[4] == name]

    def end(self, how=signal.SIGKILL, wait=20):
        """Ends it, and returns its status."""
        if self.process is None:
            return None
        if self.process.poll() is None:
            self.process.send_signal(how)
        try:
            return self.process.wait(wait)
        except subprocess.TimeoutExpired:
            self.process.kill()
            self.process.wait()
            return "it had to be killed"


def run_serf(words, wait=30):
    try:
        result = subprocess.run(
            words, stdin=subprocess.DEVNULL, stdout=subprocess.PIPE, stderr=subprocess.STDOUT, text=True, errors="replace", timeout=wait
        )
    except subprocess.TimeoutExpired as late:
        return 124, (late.stdout or b"").decode("utf-8", "replace") if isinstance(late.stdout, bytes) else late.stdout or ""
    return result.returncode, result.stdout


def until(holds, wait=15):
    """Waits until this holds, and returns whether it did in time."""
    end = time.monotonic() + wait
    while time.monotonic() < end:
        if holds():
            return True
        time.sleep(0.1)
    return bool(holds())


def missing_command(commands=("go", "serf")):
    """What is missing of what these tests need, or None."""
    missing = [name for name in commands if shutil.which(name) is None]
    missing += [
        f"{name}'s sources"
        for name in ("memberlist", "serf")
        if not os.path.isdir(os.path.join(GOCODE, "src", "github.com", "hashicorp", name))
    ]
    return ", ".join(missing) or None
