"""Programs run under strace, and the system calls that they made, in order.

Go's runtime makes its calls itself, so a library that wraps the C library would not see them. strace sees the calls of all
programs.
"""

import contextlib
import os
import re
import signal
import subprocess
import tempfile
import threading
from collections import namedtuple

# The calls that the disk simulates (disks.py), those that say which file a number is, and those that it refuses to simulate: a
# store that makes one of these needs a simulation of it first.
PLAYED = [
    "openat",
    "open",
    "creat",
    "write",
    "writev",
    "pwrite64",
    "ftruncate",
    "fsync",
    "fdatasync",
    "rename",
    "renameat",
    "renameat2",
    "unlink",
    "unlinkat",
]
NUMBERS = ["close", "dup", "dup2", "dup3", "fcntl"]
NOT_PLAYED = [
    "pwritev",
    "pwritev2",
    "truncate",
    "fallocate",
    "link",
    "linkat",
    "symlinkat",
    "sync_file_range",
    "sendfile",
    "copy_file_range",
    "splice",
    "io_uring_enter",
]
TRACED = PLAYED + NUMBERS + NOT_PLAYED

WORDS = [
    "strace", "-f", "--seccomp-bpf", "-xx", "-s", "1000000", "-e", "signal=none", "-e", "trace=" + ",".join(TRACED)
]

# A call: its name, its words as strace writes them, the texts among them, its result, and the thread that made it.
Call = namedtuple("Call", "name args texts result thread")

WHOLE = re.compile(r"^(\d+) +(\w+)\((.*)\) += (-?\d+|\?)")
TEXT = re.compile(r'"((?:\\x[0-9a-f]{2})*)"(\.\.\.)?')

# The first word of a line that hands something out or over (hosts.py).
HANDED = ("e ", "h ", "p ", "w ", "u ", "b ", "d ")

# How long a host may take, in seconds.
LIMIT = 300


class Unread(Exception):
    """The trace has something that isn't simulated here."""


def texts_of(args):
    found = []
    for text, is_cut in TEXT.findall(args):
        if is_cut:
            raise Unread(f"strace cut a text short: {args[:80]}")
        found.append(bytes.fromhex(text.replace("\\x", "")))
    return found


def call_of(line):
    found = WHOLE.match(line)
    if found is None:
        return None
    result = -1 if found[4] == "?" else int(found[4])
    return Call(found[2], found[3], texts_of(found[3]), result, found[1])


def is_said(line):
    """Whether the line begins a write to the standard output."""
    return re.match(r"^\d+ +write\(1, ", line) is not None


def calls(text):
    """The calls of a trace. A call that waited for another one is placed at its end, but a line that is printed is placed at its
    start: a reader may have it by then."""
    waiting = {}
    for line in text.splitlines():
        thread = line.partition(" ")[0]
        if line.endswith("<unfinished ...>"):
            begun = line[: -len("<unfinished ...>")].rstrip()
            waiting[thread] = begun
            if is_said(line):
                args = begun.partition("(")[2]
                yield Call("write", args, texts_of(args), len(texts_of(args)[0]), thread)
            continue
        if "<... " in line:
            begun = waiting.pop(thread)
            if is_said(begun):
                continue
            line = begun + line.partition("resumed>")[2]
        call = call_of(line)
        if call is not None:
            yield call


class Host:
    """A host that is driven by lines."""

    def __init__(self, words, env):
        self.process = subprocess.Popen(
            words, stdin=subprocess.PIPE, stdout=subprocess.PIPE, text=True, env=env, start_new_session=True
        )
        self.timer = threading.Timer(LIMIT, self.kill)
        self.timer.start()

    def kill(self):
        """Ends the host, and strace with it."""
        os.killpg(self.process.pid, signal.SIGKILL)

    def says(self, line):
        """The answer to a line: the lines that were handed out, and the final one, `ok` or an error's name."""
        with contextlib.suppress(BrokenPipeError):
            self.process.stdin.write(line + "\n")
            self.process.stdin.flush()
        handed = []
        for said in self.process.stdout:
            said = said.rstrip("\n")
            if said[:2] not in HANDED:
                return handed, said
            handed.append(said)
        raise Unread(f"the host ended at the line {line[:60]}, with {self.process.wait()}")

    def say_all(self, lines):
        """The answers to these lines, which are written all at once."""
        said, _ = self.process.communicate("".join(line + "\n" for line in lines))
        answered, handed = [], []
        for line in said.splitlines():
            if line[:2] in HANDED:
                handed.append(line)
            else:
                answered.append((handed, line))
                handed = []
        if len(answered) != len(lines):
            raise Unread(
                f"the host answered {len(answered)} lines of {len(lines)}, and ended with {self.process.returncode}"
            )
        return answered

    def __enter__(self):
        return self

    def __exit__(self, kind, *_):
        with contextlib.suppress(BrokenPipeError):
            self.process.stdin.close()
        if kind is not None and self.process.poll() is None:
            self.kill()
        self.process.stdout.close()
        self.process.wait()
        self.timer.cancel()


def traced(words, env, drive, fault=None):
    """Runs a host under strace and drives it: its calls, and the result of `drive`. `fault`: a call that has to fail, in
    strace's words."""
    with tempfile.TemporaryDirectory(prefix="trace-") as folder:
        to = os.path.join(folder, "trace")
        more = ["-e", f"inject={fault}"] if fault else []
        with Host([*WORDS, *more, "-o", to, *words], env) as host:
            driven = drive(host)
        with open(to, encoding="ascii") as file:
            return list(calls(file.read())), driven
