"""The subject of each commit since this check was last changed has 72 characters at most, so that no list of commits cuts it off.

A commit that others have can't be changed any more. So a change of this file starts the check anew.
"""

import os
import subprocess
import sys
import tempfile

sys.dont_write_bytecode = True
sys.path.insert(0, os.path.dirname(os.path.dirname(os.path.abspath(__file__))))
import checks
from checks import TOP

CHARACTERS = 72

# This file, by its path from the top: the commits after its latest change are checked.
OWN = os.path.join("tests", "repository", "commits.py")


def git(top, *words):
    """What git prints, or None if it fails."""
    result = subprocess.run(["git", "-C", top, *words], stdin=subprocess.DEVNULL, capture_output=True, text=True, errors="replace")
    return result.stdout if result.returncode == 0 else None


def subjects_since(top, path):
    """The commits after the latest change of a file, each with its subject; None if none did."""
    changed = (git(top, "log", "-1", "--format=%H", "--", path) or "").strip()
    if not changed:
        return None
    lines = git(top, "log", "--format=%h %s", f"{changed}..HEAD").splitlines()
    return [line.partition(" ")[::2] for line in lines]


def is_short(subject):
    return len(subject) <= CHARACTERS


def subjects(count):
    found = subjects_since(TOP, OWN)
    if found is None:
        print("not run: the subjects of commits, since this is no clone with a commit of the check")
        return
    for commit, subject in found:
        error = f"its subject has {len(subject)} characters, and {CHARACTERS} are the maximum: {subject}"
        count.check(f"commit {commit}", is_short(subject), error)


def planted(count):
    """In a repository two of whose commits change a file, the commits after them are found."""
    who = ["-c", "user.name=a", "-c", "user.email=a@localhost", "-c", "commit.gpgsign=false"]
    with tempfile.TemporaryDirectory(prefix="commits-") as top:
        git(top, "init", "-q")
        count.check("planted: no commit changes the file", subjects_since(top, "file") is None)
        made = ("l" * 80, "other"), ("Add it", "file"), ("l" * 90, "more"), ("Change it", "file")
        later = ("s" * 72, "more"), ("é" * 72, "still more"), ("l" * 73, "last")
        for subject, file in (*made, *later):
            with open(os.path.join(top, file), "w", encoding="utf-8") as text:
                text.write(subject)
            git(top, "add", "-A")
            git(top, *who, "commit", "-q", "-m", f"{subject}\n\n{'A line of the body. ' * 6}")
        found = subjects_since(top, "file") or []
    wanted = ["l" * 73, "é" * 72, "s" * 72]
    count.check("planted: the commits since", [subject for _, subject in found] == wanted, found)
    count.check("planted: which are short", [is_short(subject) for subject in wanted] == [False, True, True])


if __name__ == "__main__":
    sys.exit(checks.run(subjects, planted))
