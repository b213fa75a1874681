"""Calls of ./release in a repository with stand-ins, and the names of a release's files."""

import hashlib
import os
import re
import subprocess

import checks

# Stand-ins for the program and the library: the real ones are not inspected here.
VERSION = checks.text_of("VERSION").strip()
PROGRAM = f"#!/bin/sh\necho serf-replay {VERSION}\n"
NAME = f"serf-replay-{VERSION}-x86_64-linux"
PACKAGE = f"kitchenrue-agent_{VERSION}_amd64.deb"
SDIST = f"serf_agent-{VERSION}.tar.gz"
BILL = f"kitchenrue-{VERSION}.spdx.json"
SUMS = "SHA256SUMS"


def write(path, text):
    os.makedirs(os.path.dirname(path), exist_ok=True)
    with open(path, "w", encoding="utf-8") as file:
        file.write(text)


def run_release(top, *words, **env):
    """What ./release does: its status, and what it prints."""
    how = {"stdin": subprocess.DEVNULL, "capture_output": True, "text": True, "env": {**os.environ, **env}}
    result = subprocess.run([os.path.join(top, "release"), *words], **how)
    return result.returncode, result.stdout + result.stderr


def release(top, folder, *more, **env):
    if not folder.startswith("/proc/"):
        os.makedirs(folder, exist_ok=True)
    return run_release(top, *more, folder, **env)


def replace_with_sum(folder, name, text):
    """Replaces a file of a release, and its sum."""
    with open(os.path.join(folder, name), "wb") as file:
        file.write(text)
    rows = checks.text_of(folder, SUMS)
    write(os.path.join(folder, SUMS), re.sub(rf"^\w+(?=  {re.escape(name)}$)", hashlib.sha256(text).hexdigest(), rows, flags=re.M))
