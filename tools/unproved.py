#!/usr/bin/env python3
"""tools/unproved.py CRATE [NOTICE]: compiles a program without its proofs, once, and prints its path.

The toolchain builds only what is proved, but its trial run compiles a program, with checks in it, and runs it. This script
copies the compiled program during a trial run, and keeps it in crates/CRATE/out/unproved until a source changes. It prints
NOTICE on standard error before it compiles. If the program can't be compiled, the status is 3, and standard error says why.
"""

import fcntl
import glob
import os
import shutil
import subprocess
import sys
import tempfile
import time

import toolchain

TOP = os.path.dirname(os.path.dirname(os.path.abspath(__file__)))

# What each program does in the run from which it is copied: something that takes a moment.
WORDS = {"serf_replay_program": ["random", "1", "--actions", "100000"]}

# The interval at which this script checks whether the program runs, in seconds.
PERIOD = 0.02


class Stopped(Exception):
    """Why there is no program."""


def sources(crate):
    """A hash of everything that the program is made from. It raises Stopped if there is no such crate."""
    ran = subprocess.run([os.path.join(TOP, "tools", "sources"), crate], stdout=subprocess.PIPE, stderr=subprocess.DEVNULL, text=True)
    if ran.returncode:
        raise Stopped(f"crates.txt has no crate {crate}")
    return ran.stdout.strip()


def running_in(room):
    """The command line of the process that runs a program which was compiled in a folder, or None."""
    for at in glob.glob("/proc/[0-9]*/cmdline"):
        try:
            with open(at, "rb") as file:
                words = file.read().decode("utf-8", "replace").split("\0")
        except OSError:
            continue
        for number, word in enumerate(words):
            if word.startswith(room) and os.path.basename(word) == "program" and "rattle-native" in word:
                return words[: number + 1]
    return None


def taken_from(room, ran, to):
    """Copies the program out of a trial run. Returns the command that starts it there."""
    while ran.poll() is None:
        # Inspecting the processes takes longer, so this begins after there is a program.
        words = running_in(room) if glob.glob(os.path.join(room, "*", "*", "program")) else None
        if words:
            try:
                shutil.copyfile(words[-1], to)
            except OSError:
                break
            return words[:-1]
        time.sleep(PERIOD)
    raise Stopped("the trial run ended before its program could be copied")


def compiled(crate, folder):
    """Compiles a crate's program. Writes the program, and the command that starts it, into a folder."""
    with tempfile.TemporaryDirectory(prefix="unproved-", ignore_cleanup_errors=True) as room:
        said = open(os.path.join(room, "said"), "w+", encoding="utf-8", errors="replace")
        # One step of the interpreter, because it can't run a program that reads its arguments.
        words = [sys.executable, os.path.join(TOP, "tools", "toolchain.py"), "try", "--steps", "1", "--", *WORDS.get(crate, [])]
        where = {"cwd": os.path.join(TOP, "crates", crate), "env": {**os.environ, "TMPDIR": room}}
        with said, subprocess.Popen(words, stdin=subprocess.DEVNULL, stdout=subprocess.DEVNULL, stderr=said, **where) as ran:
            try:
                start = taken_from(room, ran, os.path.join(folder, "program"))
            except Stopped as why:
                ran.wait()
                said.seek(0)
                raise Stopped("\n".join([*said.read().splitlines()[-20:], str(why)])) from None
    quoted = " ".join(f"'{word}'" for word in start)
    command = os.path.join(folder, crate)
    with open(command, "w", encoding="utf-8") as file:
        file.write(f'#!/bin/sh\nexec {quoted} "$(dirname "$0")/program" "$@"\n')
    for path in (command, os.path.join(folder, "program")):
        os.chmod(path, 0o755)


def is_of(folder, before):
    """Whether a folder has the program that was compiled from these sources."""
    try:
        with open(os.path.join(folder, "sources"), encoding="utf-8") as file:
            return file.read() == before
    except FileNotFoundError:
        return False


def build(crate, folder, before):
    """Compiles the program from these sources into a folder."""
    shutil.rmtree(folder, ignore_errors=True)
    os.makedirs(folder)
    compiled(crate, folder)
    if sources(crate) != before:
        raise Stopped("a source changed while the program was compiled; compile it again")
    with open(os.path.join(folder, "sources"), "w", encoding="utf-8") as file:
        file.write(before)


def built(crate, notice=""):
    """The path of the unproved program from the current sources. If it isn't there, this prints the notice and compiles it. A
    second call during the compilation waits for the first."""
    out = os.path.join(TOP, "crates", crate, "out")
    folder, before = os.path.join(out, "unproved"), sources(crate)
    if not is_of(folder, before):
        if shutil.which("rt") is None:
            raise Stopped(toolchain.MISSING)
        os.makedirs(out, exist_ok=True)
        if notice:
            print(notice, file=sys.stderr, flush=True)
        with open(os.path.join(out, "unproved.lock"), "w", encoding="utf-8") as lock:
            fcntl.flock(lock, fcntl.LOCK_EX)
            if not is_of(folder, before):
                build(crate, folder, before)
    return os.path.join(folder, crate)


if __name__ == "__main__":
    if len(sys.argv) not in (2, 3):
        print("usage: tools/unproved.py CRATE [NOTICE]", file=sys.stderr)
        sys.exit(2)
    try:
        print(built(*sys.argv[1:]))
    except Stopped as why:
        print(f"unproved: {why}", file=sys.stderr)
        sys.exit(3)
    except OSError as error:
        print(f"unproved: {error.filename}: {error.strerror}", file=sys.stderr)
        sys.exit(3)
