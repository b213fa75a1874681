"""The mark that a green gate leaves: the state of the repository that passed all of ./test here, and the program and the library
that were tested."""

import hashlib
import os
import subprocess

TOP = os.path.dirname(os.path.dirname(os.path.abspath(__file__)))

# What the gate builds and tests, and a release contains.
PROGRAM = os.path.join("crates", "serf_replay_program", "out", "serf_replay_program")
LIBRARY = os.path.join("crates", "serf_agent_c", "out", "libserf_agent_c.a")


def mark_path(top):
    """The path of the mark."""
    return os.path.join(top, "crates", "serf_replay_program", "out", "green")


def git(top, *arguments):
    """What a command of git prints."""
    return subprocess.run(
        ["git", *arguments], cwd=top, check=True, stdout=subprocess.PIPE, stderr=subprocess.DEVNULL, text=True
    ).stdout.strip()


def state(top):
    """The hash of everything that is committed, or None if something else has changed, or if this is not a repository."""
    try:
        return None if git(top, "status", "--porcelain") else git(top, "rev-parse", "HEAD^{tree}")
    except (OSError, subprocess.CalledProcessError):
        return None


def hash_of(path):
    """The hash of a file, or a word that is no hash if there is no file."""
    try:
        with open(path, "rb") as file:
            return hashlib.sha256(file.read()).hexdigest()
    except OSError:
        return "missing"


def text_of(top, of_state):
    """The mark's text: the state, and the two files that were tested."""
    return f"{of_state} {hash_of(os.path.join(top, PROGRAM))} {hash_of(os.path.join(top, LIBRARY))}\n"


def record_green(top, before):
    """Records that this state passed, if it is still the state from before the gate began."""
    if before is not None and state(top) == before:
        with open(mark_path(top), "w", encoding="utf-8") as file:
            file.write(text_of(top, before))


def is_green(top):
    """Whether the gate was green on the current state, with the current program and library."""
    try:
        with open(mark_path(top), encoding="utf-8") as file:
            return file.read() == text_of(top, state(top) or "-")
    except OSError:
        return False
