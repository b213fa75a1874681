#!/usr/bin/env python3
"""tools/wrong_bodies.py [CRATE..]: prints each wrong body that is tried: its name, what it does, the function that it changes, and
the kind of its refusal with the goal that stays open (tests/refused).

If no crate is named, it also prints the wrong bodies of the stores that a test plants, each with the check that finds it.
"""

import os
import re
import sys

TOP = os.path.dirname(os.path.dirname(os.path.abspath(__file__)))
sys.dont_write_bytecode = True
import edit_files
import edits

sys.path.insert(0, os.path.join(TOP, "tests", "library", "store_faults"))
import planted

REFUSED = re.compile(r"^(\w+) [0-9a-f]{32} (\w+) (.*)$", re.M)


def read(*parts):
    path = os.path.join(TOP, *parts)
    if not os.path.exists(path):
        return ""
    with open(path, encoding="utf-8") as file:
        return file.read()


def crates():
    return sorted(name for name in os.listdir(os.path.join(TOP, "crates")) if os.path.isdir(os.path.join(TOP, "crates", name, "mutants")))


def lines_of(crate):
    """A line for each wrong body of a crate."""
    refused = {name: (kind, goal) for name, kind, goal in REFUSED.findall(read("tests", "refused", f"{crate}.txt"))}
    whys = {written.name: written.why for written in edit_files.written_in(os.path.join(TOP, "crates", crate, "mutants"))}
    for edit in edits.edits_of(crate):
        kind, goal = refused.get(edit.name, ("not tried yet", ""))
        yield f"{edit.name}: {whys[edit.name]} ({', '.join(edit.functions)}; {kind}{', at ' + goal if goal else ''})"


def planted_lines():
    for title, faults in (("the stores of C, Python, Go and Rust", planted.FAULTS), ("the file beneath `FileStore`", planted.FILE_FAULTS)):
        yield title
        for step, own in planted.steps(faults).items():
            yield f"  {step}: " + "; ".join(f"{fault.what} (`{fault.part}`, \"{fault.check}\")" for fault in own)


def main(words):
    unknown = [word for word in words if word not in crates()]
    if unknown:
        print(f"wrong_bodies: {unknown[0]} is not a crate with wrong bodies", file=sys.stderr)
        return 2
    for crate in words or crates():
        found = list(lines_of(crate))
        print(f"{crate}: {len(found)}")
        print("\n".join(f"  {line}" for line in found))
    if not words:
        print("\n".join(planted_lines()))
    return 0


if __name__ == "__main__":
    sys.exit(main(sys.argv[1:]))
