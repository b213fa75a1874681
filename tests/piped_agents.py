"""Agents on the pipe (docs/SPEC.md), compared by `conform`: for the scripts that compare one, or run what a page shows of it."""

import os
import subprocess

import checks

# The agent in Python; with `--wrong NAME` after it, one of its bodies is wrong.
PYTHON_AGENT = os.path.join(checks.TOP, "conformance", "python", "agent.py")

# How long a comparison may take, in seconds: none of our agents may hang.
LIMIT = checks.LIMIT / 2


def compare(words, agent, program=None):
    """Runs an agent and the program, each on the other's pipe. Returns the status and the report."""
    to_agent, from_program = os.pipe()
    to_program, from_agent = os.pipe()
    subject = None
    if agent is not None:
        subject = subprocess.Popen(agent, stdin=to_agent, stdout=from_agent, stderr=subprocess.DEVNULL)
    os.close(to_agent)
    os.close(from_agent)
    command = [program or checks.PROGRAM, "conform", *words]
    with subprocess.Popen(command, stdin=to_program, stdout=from_program, stderr=subprocess.PIPE) as holding:
        os.close(to_program)
        os.close(from_program)
        try:
            report = holding.communicate(timeout=LIMIT)[1]
            status = holding.returncode
        except subprocess.TimeoutExpired:
            holding.kill()
            status, report = "hangs", b""
    if subject is not None:
        subject.kill()
        subject.wait()
    return status, report.decode(errors="replace")


def folder_of_reader(path, agent=None, program=None):
    """Makes a folder as a reader of the pages has it: with the program, the files that the pages name next to it, and the
    reader's own agent if one is passed."""
    os.mkdir(path)
    for name in ("examples", "conformance"):
        os.symlink(os.path.join(checks.TOP, name), os.path.join(path, name))
    for name, to in (("serf-replay", program or checks.PROGRAM), ("my-agent", agent)):
        if to:
            with open(os.path.join(path, name), "w", encoding="utf-8") as file:
                file.write(f'#!/bin/sh\nexec "{to}" "$@"\n')
            os.chmod(os.path.join(path, name), 0o755)
    return path


def by_shell(folder, lines, **env):
    """What a shell does with lines of a page, in a folder of this kind."""
    env = {**os.environ, "PATH": f"{folder}{os.pathsep}{os.environ['PATH']}", **env}
    words = {"cwd": folder, "env": env, "stdin": subprocess.DEVNULL, "capture_output": True, "text": True}
    return subprocess.run(["bash", "-c", lines], timeout=LIMIT, **words)
