"""The layout of sources: `rt fmt` would change no file of a crate. `rt ci` proves no crate with a file that it would change.

The crates are copied, and `rt fmt` runs on the copies. A file that it changes is printed, and its crate fails.
"""

import os
import re
import shutil
import subprocess
import sys
import tempfile

sys.dont_write_bytecode = True
sys.path.insert(0, os.path.dirname(os.path.dirname(os.path.abspath(__file__))))
import checks
from checks import TOP

# The folders of a crate's sources.
PARTS = ("src", "specs", "proofs", "tests")

FORMATTED = re.compile(r"^rt: formatted (.+)$", re.M)


def copied(crate, crates):
    """A copy of a crate's sources, in a folder of crates."""
    own = os.path.join(crates, crate)
    for part in PARTS:
        source = os.path.join(TOP, "crates", crate, part)
        if os.path.isdir(source):
            shutil.copytree(source, os.path.join(own, part))
    return own


def laid_out(crate):
    """The files that `rt fmt` changes in a folder, and whether it succeeded."""
    result = subprocess.run(
        ["rt", "fmt"],
        cwd=crate,
        stdin=subprocess.DEVNULL,
        stdout=subprocess.PIPE,
        stderr=subprocess.STDOUT,
        text=True,
        timeout=checks.LIMIT,
    )
    return FORMATTED.findall(result.stdout), result.returncode == 0


def layouts(count):
    with tempfile.TemporaryDirectory(prefix="layout") as top:
        shutil.copyfile(os.path.join(TOP, "crates.txt"), os.path.join(top, "crates.txt"))
        for crate in sorted(os.listdir(os.path.join(TOP, "crates"))):
            changed, went = laid_out(copied(crate, os.path.join(top, "crates")))
            for file in changed:
                print(f"FAILED {crate}/{file} is not in the layout: run rt fmt in the crate's folder")
            if not went:
                print(f"FAILED {crate}: rt fmt ended with an error")
            good = went and not changed
            count.add(good, not good)


if __name__ == "__main__":
    sys.exit(checks.run(layouts))
