"""The evidence of what refused each edit, which is kept in the repository: tests/refused/CRATE.txt.

A file's first lines name the toolchain, and a hash of the scripts that judged. Then each edit has a line: its name, a hash
of everything that its check reads (tools/reach.py), the kind of its refusal (tools/edit_checks.py) and the goal. A line is
believed only if the toolchain's logic, the scripts and the hash are still the same. Otherwise the edit is tried.

The gate also tries a share of the edits whose lines are believed, drawn by the commit's hash. Nobody knows before a commit which
these are, so a false line is found sooner or later.
"""

import hashlib
import os
import re
import subprocess

import edits
import reach
from edit_checks import Refusal

FOLDER = os.path.join(edits.TOP, "tests", "refused")

# How many of 100 crates a commit draws, and how many of 100 edits of a drawn crate are tried although their lines are believed: 2
# in 100 of all. A crate's first check reads everything below it, so the same number of edits costs half as much if they belong to
# a few crates.
CRATES, EDITS = 20, 10

# The scripts that decide how an edit is tried and judged. tools/edit_files.py, which reads the files, isn't one of them: what it
# read is in the hash of each line.
JUDGES = ["edits.py", "edit_checks.py"]

# What a toolchain reports about itself: its name, and the hash of its logic. Two toolchains with the same logic refuse an edit by
# the same goal, so the second needn't try what the first refused. The share that a commit draws covers their other differences.
TOOLCHAIN = re.compile(r"toolchain \S+ logic ([0-9a-f]+)$")

LINE = re.compile(r"(\w+) ([0-9a-f]{32}) (false|shape|twin|law|open) (.+)$")


def output_of(*command):
    """What a command prints."""
    return subprocess.run(command, cwd=edits.TOP, check=True, stdout=subprocess.PIPE, stderr=subprocess.DEVNULL, text=True).stdout.strip()


def judge():
    """A hash of the scripts that judge, without their comments and docstrings."""
    texts = []
    for name in JUDGES:
        with open(os.path.join(edits.TOP, "tools", name), encoding="utf-8") as file:
            texts.append(re.sub(r'(?ms)^\s*""".*?"""\n|^\s*#[^\n]*\n', "", file.read()))
    return reach.sha(*texts)[:32]


def header():
    """The first lines of a file: the toolchain, and the hash of the scripts that judge."""
    return f"toolchain {output_of('rt', 'version')}\njudge {judge()}"


def logic_of(first):
    """The logic that the first line of a file names, or the whole line if it names none."""
    named = TOOLCHAIN.match(first)
    return named[1] if named else first


def path_of(crate):
    return os.path.join(FOLDER, f"{crate}.txt")


class Evidence:
    """The lines of one crate, and what is wrong with its file."""

    def __init__(self, crate, now):
        self.crate = crate
        self.lines = {}
        self.faults = []
        try:
            with open(path_of(crate), encoding="utf-8", errors="replace") as file:
                text = file.read()
        except OSError:
            return
        first, second, *lines = [line for line in text.split("\n") if not line.startswith("#")] + ["", ""]
        toolchain, judged = now.split("\n")
        if logic_of(first) != logic_of(toolchain) or second != judged:
            why = "was written by other scripts" if logic_of(first) == logic_of(toolchain) else "is of a toolchain of another logic"
            self.faults.append(f"tests/refused/{crate}.txt {why}: all its edits are tried again")
            return
        for line in lines:
            match = LINE.match(line)
            if match:
                self.lines[match[1]] = (match[2], Refusal(match[3], match[4]))
            elif line:
                self.faults.append(f"tests/refused/{crate}.txt: this line isn't the line of an edit: {line[:80]}")

    def refusal(self, edit, sum_now):
        """What refused an edit, if its line has the current hash."""
        total, refusal = self.lines.get(edit.name, (None, None))
        return refusal if total == sum_now else None

    def lines_without_edit(self, names):
        """The edits of the file that the crate doesn't have any more."""
        return [f"tests/refused/{self.crate}.txt: there is no edit {name}" for name in self.lines if name not in names]

    def write(self, now, sums, refusals):
        """Replaces the file's lines by the lines of these edits, by name."""
        os.makedirs(FOLDER, exist_ok=True)
        lines = [f"{name} {sums[name]} {refusals[name].kind} {refusals[name].goal}" for name in sorted(refusals)]
        with open(f"{path_of(self.crate)}.new", "w", encoding="utf-8") as file:
            file.write(
                "\n".join(
                    [f"# What refused each edit of crates/{self.crate}/mutants. Written by tools/mutants.py --write.", now, *lines, ""]
                )
            )
        os.replace(f"{path_of(self.crate)}.new", path_of(self.crate))


def commit():
    """The hash of the current commit, or None if this is not a repository."""
    try:
        return output_of("git", "rev-parse", "HEAD")
    except (OSError, subprocess.CalledProcessError):
        return None


def drawn_number(*words):
    """A number below 100 that follows from these words, and that nobody knows before."""
    return int(hashlib.sha256(" ".join(words).encode()).hexdigest(), 16) % 100


def is_drawn(name, at_commit):
    """Whether a commit draws an edit, CRATE/EDIT, so that it is tried although its line is believed."""
    crate = name.partition("/")[0]
    return drawn_number(at_commit, crate) < CRATES and drawn_number(at_commit, name) < EDITS
