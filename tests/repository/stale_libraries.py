"""Tests use only the libraries that `rt ci` left: never those of another run, and never changed ones.

The toolchain's own `rt ci` builds a small repository of two crates; then sources, libraries and notes are changed.
"""

import os
import shutil
import subprocess
import sys
import tempfile

sys.dont_write_bytecode = True
sys.path.insert(0, os.path.dirname(os.path.dirname(os.path.abspath(__file__))))
import checks
import libraries
import toolchain

SOURCE = """//! A crate that answers a number.
#![tactic(auto)]

ghost use Rattle.std.specs.Prelude.{◌≡◌};

/// The number.
pub fn number() -> u32
    ensures number { result ≡ 1 }
{
    1
}
"""

FILES = {
    "crates.txt": "stale_low:\nstale_high: stale_low\n",
    "HANDLES": "Handles allowed: none.\n",
    "crates/stale_low/src/lib.rt": SOURCE,
    "crates/stale_high/src/lib.rt": SOURCE.replace(
        "{◌≡◌};\n", "{◌≡◌};\n\nuse stale_low::number as low_number;\n", 1
    ).replace("    1\n}", "    low_number()\n}"),
}


def write(top, path, text):
    os.makedirs(os.path.dirname(os.path.join(top, path)) or top, exist_ok=True)
    with open(os.path.join(top, path), "w", encoding="utf-8") as file:
        file.write(text)


def built(count, rt, top):
    """Builds the small repository as ./test does, and returns its crates."""
    crates = rt.rtlib.crates_below(top)
    libraries.remove_libraries(crates)
    result = subprocess.run(
        ["rt", "ci"],
        cwd=top,
        stdin=subprocess.DEVNULL,
        stdout=subprocess.PIPE,
        stderr=subprocess.STDOUT,
        text=True,
        errors="replace",
    )
    count.check("rt ci passes it", result.returncode == 0, result.stdout[-1500:])
    libraries.record_hashes(crates)
    return {crate.name: crate for crate in crates}


def stale(count):
    rt = toolchain.load()
    rt.rtlib.guarded()
    with tempfile.TemporaryDirectory(prefix="libraries-") as top:
        for path, text in FILES.items():
            write(top, path, text)
        subprocess.run(["git", "init", "-q", top], check=True)
        crates = built(count, rt, top)
        low, high = crates["stale_low"], crates["stale_high"]
        fault = lambda: libraries.fault_of([high])
        count.check("what rt ci left is accepted", fault() is None, fault())
        write(top, "crates/stale_low/src/lib.rt", SOURCE.replace("≡ 1", "≡ 2").replace("    1\n", "    2\n"))
        count.check("a changed source", fault() is not None)
        write(top, "crates/stale_low/src/lib.rt", SOURCE)
        count.check("a source that is put back", fault() is None)
        library = os.path.join(libraries.folder_of(low), "stale_low.rlib")
        name = next(os.path.join(folder, it) for folder, _, names in os.walk(library) for it in sorted(names))
        with open(name, "rb+") as file:
            text = file.read()
            file.write(b"more")
        count.check("a changed library", fault() is not None)
        with open(name, "wb") as file:
            file.write(text)
        count.check("a library that is put back", fault() is None)
        os.remove(libraries.hashes_path(low))
        count.check("a library without a note", fault() is not None)
        # what an earlier run left is removed before `rt ci` runs, so that nobody can put it back afterwards
        libraries.record_hashes([low])
        libraries.remove_libraries([low])
        count.check("what is dropped is removed", not os.path.exists(libraries.folder_of(low)) and fault() is not None)
        shutil.rmtree(os.path.join(top, "crates", "stale_low", "out"))


if __name__ == "__main__":
    sys.exit(checks.run(stale))
