"""The width of contracts: no line of a clause has more than 100 columns, so that a reader sees it at a glance.

A clause begins with `requires`, `ensures` or `ghost`, and may have several lines, up to the brace that closes it.
`rt fmt` keeps the breaks inside a clause and makes none. Each crate is one check, and each line that is too wide is
printed.
"""

import os
import re
import sys

sys.dont_write_bytecode = True
sys.path.insert(0, os.path.dirname(os.path.dirname(os.path.abspath(__file__))))
import checks
from checks import TOP

CRATES = os.path.join(TOP, "crates")

COLUMNS = 100

# The first line of a clause; an import isn't one.
CLAUSE = re.compile(r"\s*(?:pub )?(requires|ensures|ghost(?! use))\b")


def wide_lines(text):
    """The numbers of the lines of clauses that are too wide."""
    found, open_braces = [], 0
    for number, line in enumerate(text.split("\n"), 1):
        if open_braces or CLAUSE.match(line):
            open_braces += line.count("{") - line.count("}")
            if len(line) > COLUMNS:
                found.append(number)
    return found


def sources_of(crate):
    for folder, _, files in sorted(os.walk(os.path.join(CRATES, crate, "src"))):
        for name in sorted(files):
            if name.endswith(".rt"):
                yield os.path.join(folder, name)


def widths(count):
    for crate in sorted(os.listdir(CRATES)):
        found = []
        for path in sources_of(crate):
            found += [f"{os.path.relpath(path, TOP)}:{number}" for number in wide_lines(checks.text_of(path))]
        for place in found:
            print(f"FAILED {place}: a line of a clause has more than {COLUMNS} columns")
        count.add(not found, bool(found))


if __name__ == "__main__":
    sys.exit(checks.run(widths))
