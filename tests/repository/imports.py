"""Imports of another crate's lemmas: a proof relies on what the crates below promise, and on none of their proofs.

If a crate's proofs, specs or sources have a `use` of a lemma module of another crate of the repository, or a `using(..)` of
one, it is printed, and its crate fails. Lemmas of the toolchain's own libraries are allowed: they are part of the toolchain,
and change only with it.
"""

import os
import re
import sys

sys.dont_write_bytecode = True
sys.path.insert(0, os.path.dirname(os.path.dirname(os.path.abspath(__file__))))
import checks
from checks import TOP

CRATES = os.path.join(TOP, "crates")

USE = re.compile(r"\buse Rattle\.(\w+)\.proofs\.?([\w.+-]*)\.\{([^}]*)\}|\buse Rattle\.(\w+)\.proofs\.?([\w.+-]*)")
USING = re.compile(r"\busing\((\w+)::proofs::([\w:]+)\)")


def imports_of(crate):
    """The imports of other crates' lemmas in a crate: the file, and the crate and the module that it names."""
    found = set()
    for part in ("proofs", "specs", "src"):
        for folder, _, files in sorted(os.walk(os.path.join(CRATES, crate, part))):
            for name in sorted(files):
                path = os.path.join(folder, name)
                text = checks.text_of(path)
                found |= {(os.path.relpath(path, os.path.join(CRATES, crate)), *it) for it in named_in(text)}
    return {(file, other, module) for file, other, module in found if other != crate and other in os.listdir(CRATES)}


def named_in(text):
    for it in USE.finditer(text):
        yield it[1] or it[4], it[2] if it[1] else it[5]
    for it in USING.finditer(text):
        yield it[1], it[2].rpartition("::")[0].replace("::", ".")


def lemmas(count):
    for crate in sorted(os.listdir(CRATES)):
        found = imports_of(crate)
        for file, other, module in sorted(found):
            print(f"FAILED {crate}/{file} imports {other}'s {module}")
        count.add(not found, bool(found))


if __name__ == "__main__":
    sys.exit(checks.run(lemmas))
