"""Makes a separate crate over copies of the repository's crates, in a temporary folder: for tests, which compile and run it
unproved, and for the bench."""

import contextlib
import os
import shutil
import subprocess
import sys
import tempfile

TOP = os.path.dirname(os.path.dirname(os.path.abspath(__file__)))
CRATES = os.path.join(TOP, "crates")

# What compiles a crate without a proof and runs it, as `rt try` does.
TRY = [sys.executable, os.path.join(TOP, "tools", "toolchain.py"), "try"]


def lines_below(uses):
    """The lines of crates.txt of these crates and of those below them, by name."""
    with open(os.path.join(TOP, "crates.txt"), encoding="utf-8") as file:
        lines = {line.split(":")[0]: line for line in file if ":" in line and not line.startswith("#")}
    crate_lines, pending = {}, list(uses)
    while pending:
        name = pending.pop()
        if name in lines and name not in crate_lines:
            crate_lines[name] = lines[name]
            pending += lines[name].split(":")[1].split()
    return crate_lines


@contextlib.contextmanager
def crate(name, uses, parts=("src", "specs")):
    """The folder src of a new crate over copies of these parts of these crates and of those below them. It is removed at the
    end."""
    with tempfile.TemporaryDirectory(prefix=name) as root:
        lines = lines_below(uses)
        for below in lines:
            for part in parts:
                if os.path.isdir(os.path.join(CRATES, below, part)):
                    shutil.copytree(os.path.join(CRATES, below, part), os.path.join(root, "crates", below, part))
        with open(os.path.join(root, "crates.txt"), "w", encoding="utf-8") as file:
            file.writelines([*lines.values(), f"{name}: {' '.join(uses)}\n"])
        source = os.path.join(root, "crates", name, "src")
        os.makedirs(source)
        yield source


def copy_sources(folder, source):
    """Copies the sources of a folder. Their names end in .rattle there, because `rt ci` accepts no .rt file outside a crate."""
    for file in sorted(os.listdir(folder)):
        name, kind = os.path.splitext(file)
        if kind == ".rattle":
            shutil.copyfile(os.path.join(folder, file), os.path.join(source, name + ".rt"))


def write(source, name, text):
    """Writes a source of the crate."""
    with open(os.path.join(source, name), "w", encoding="utf-8") as file:
        file.write(text)


def run_tests(source, *words):
    """Compiles a crate without a proof and runs its tests, each in a separate process. Returns the status and the output."""
    result = subprocess.run(
        [*TRY, "--test", "--seconds", "600", *words],
        cwd=os.path.dirname(source),
        stdin=subprocess.DEVNULL,
        stdout=subprocess.PIPE,
        stderr=subprocess.STDOUT,
        timeout=3600,
    )
    return result.returncode, result.stdout.decode("utf-8", "replace")
