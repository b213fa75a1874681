"""Compares the contracts before and after a renaming.

    python3 tools/rename/contracts.py OLD      compares this tree, which is the renamed one, with OLD, the tree before

Of each crate it compares the signature and the clauses of each function that is public, or of a trait, and each definition of
specs/, which says what the clauses mean: those of OLD, renamed by the table, have to be those of this tree. It prints a line for
each crate, and has status 1 if one differs.
"""

import os
import re
import sys
from collections import Counter

sys.dont_write_bytecode = True
import carry
import rename
from table import TOP

sys.path.insert(0, os.path.join(TOP, "tools"))
import calling
import reach

PUBLIC = re.compile(r'\s*pub (?:const )?(?:unsafe )?(?:extern "C" )?fn \w')
FUNCTION = re.compile(r'\s*(?:const )?(?:unsafe )?(?:extern "C" )?fn \w')
OF_TRAIT = re.compile(r"^(?:pub(?:\([^)]*\))? )?(?:unsafe )?(?:trait\b|impl\b[^{]*\bfor\b)")
GHOST = re.compile(r"\s+ghost (?!use\b)")


def contracts(text):
    """The signature and the clauses of each function that is public or of a trait, and the ghost members of traits and impls."""
    lines, in_trait = text.split("\n"), False
    for at, line in enumerate(lines):
        if re.match(r"\S", line):
            in_trait = OF_TRAIT.match(" ".join(lines[at : at + 4])) is not None
        if PUBLIC.match(line) or (in_trait and FUNCTION.match(line)):
            yield "\n".join(calling.contract(lines[at:]))
        elif GHOST.match(line):
            end = at
            while not lines[end].rstrip().endswith(("};", "}", ",")) and end + 1 < len(lines):
                end += 1
            yield "\n".join(lines[at : end + 1])


def of_tree(top, crate, renamed):
    """A crate's contracts and definitions, counted, by the names of the new tree."""
    found, defined = Counter(), Counter()
    for part in ("src", "specs"):
        for folder, _, names in os.walk(os.path.join(top, "crates", crate, part)):
            for name in sorted(names):
                path = os.path.relpath(os.path.join(folder, name), top)
                with open(os.path.join(top, path), encoding="utf-8") as file:
                    text = file.read()
                if part == "src":
                    found.update(carry.plain(re.sub(r"\{$", "", renamed(path, one))) for one in contracts(text))
                else:
                    defined.update(renamed(path, one) for _, one in reach.definitions_of(text))
    return found, defined


def main(words):
    old = os.path.abspath(words[0])
    rename.TOP = old
    tree = rename.Tree()
    rename.TOP = TOP
    status = 0
    for crate in sorted(os.listdir(os.path.join(old, "crates"))):
        if not os.path.isdir(os.path.join(old, "crates", crate, "src")):
            continue
        new = tree.raw.get(crate, crate)
        before = of_tree(old, crate, lambda path, text: tree.code(path, text, tree.word_in))
        after = of_tree(TOP, new, lambda path, text: text)
        differ = [(a - b) + (b - a) for a, b in zip(before, after)]
        counts = [sum(counted.values()) for counted in (*before, *differ)]
        print(f"{new}: {counts[0]} contracts and {counts[1]} definitions, {counts[2] + counts[3]} differ")
        for one in [*differ[0], *differ[1]]:
            print(f"  {one[:300]}")
            status = 1
    return status


if __name__ == "__main__":
    sys.exit(main(sys.argv[1:]))
