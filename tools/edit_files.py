"""Reads the files of wrong bodies, crates/NAME/mutants/*.edits and those of the code in Go. tools/edits.py and tools/edit_checks.py decide
how an edit of a crate is tried and judged, and tests/library/go_mutants.py tries those of Go.

A file has a block of lines for each edit:

    edit: NAME      its name, which no other edit of the crate has
    why: WORDS      what the wrong body does
    turns: PATH     a function whose contract has to refuse it; there may be none, or several
    old: TEXT       a line's text that is in the source once
    new: TEXT       the text that replaces it
    twin: TEXT      the text that replaces it in the neutral twin; there may be none

In Go it has these lines too, and neither `turns:` nor `twin:`:

    test: NAME      a test that fails over the wrong body; there may be several
    slow: WHY       why such a test takes more than a few seconds to fail; usually there is none

A line `file: src/lib.rt` (or a file of specs/) names the file of the texts below it, up to the next line of this kind. An edit
may have several pairs of `old:` and `new:`. Blank lines are ignored, and a file has no other lines.
"""

import os
import re

LINE = re.compile(r"(file|edit|why|turns|old|new|twin|test|slow):(?: (.*))?$")


class BadEdit(Exception):
    """Why an edit can't be read, or can't be tried."""


class Written:
    """An edit as it is in a file: its name, what it does, its texts with their file and their twins, and the functions or the tests
    that it names."""

    def __init__(self, name):
        self.name = name
        self.why = ""
        self.pairs = []
        self.twins = []
        self.turns = []
        self.tests = []
        self.slow = ""


class Reader:
    """Reads the lines of a file, one after another."""

    def __init__(self, name):
        self.name = name
        self.file = self.old = None
        self.edits = []

    def bad_edit(self, what):
        """Returns the error of the edit that is read."""
        return BadEdit(f"{self.edits[-1].name if self.edits else self.name}: {what}")

    def read_line(self, line):
        """Reads a line: of an edit, or one that begins an edit or names a file."""
        if not line:
            return
        match = LINE.match(line)
        if not match:
            raise self.bad_edit(f"this isn't a line of an edit: {line[:80]}")
        key, text = match[1], match[2] or ""
        if key == "file":
            self.file = text.strip()
        elif key == "edit":
            self.end_edit()
            self.edits.append(Written(text.strip()))
        elif not self.edits:
            raise self.bad_edit(f"a '{key}:' line is before any 'edit:' line")
        else:
            self.read_field(self.edits[-1], key, text)

    def read_field(self, edit, key, text):
        """Reads a line of an edit."""
        if key == "why":
            edit.why = text.strip()
        elif key == "turns":
            edit.turns.append(text.strip())
        elif key == "test":
            edit.tests.append(text.strip())
        elif key == "slow":
            edit.slow = text.strip()
        elif key == "old":
            self.end_pair()
            self.old = text
        elif key == "new":
            if self.file is None or self.old is None:
                raise self.bad_edit("a 'new:' line is before any 'file:' or 'old:' line")
            edit.pairs.append((self.file, self.old, text))
            edit.twins.append(None)
            self.old = None
        elif not edit.pairs or self.old is not None:
            raise self.bad_edit("a 'twin:' line is before any 'new:' line")
        else:
            edit.twins[-1] = text

    def end_pair(self):
        """Checks that each line 'old:' has its line 'new:'."""
        if self.old is not None:
            raise self.bad_edit("an 'old:' line has no 'new:' line")

    def end_edit(self):
        """Ends the block of an edit."""
        self.end_pair()
        if self.edits and not self.edits[-1].why:
            raise self.bad_edit("it has no line 'why:' with what it does")


def read(name, text):
    """The edits of a file's text, as they are written."""
    reader = Reader(name)
    for line in text.split("\n"):
        reader.read_line(line)
    reader.end_edit()
    return reader.edits


def written_in(folder):
    """The edits of a folder's files, by name. If there is no folder, there are none."""
    found = {}
    for name in sorted(os.listdir(folder)) if os.path.isdir(folder) else []:
        if not name.endswith(".edits"):
            raise BadEdit(f"{name}: the names of files of edits end in .edits")
        with open(os.path.join(folder, name), encoding="utf-8") as file:
            for edit in read(name, file.read()):
                if edit.name in found:
                    raise BadEdit(f"{edit.name}: two edits of a crate have this name")
                found[edit.name] = edit
    return [found[name] for name in sorted(found)]
