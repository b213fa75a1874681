"""Loads the toolchain's own library, from the folder of `rt` on PATH: its crates, its checks, and how it tries an edit.

    python3 tools/toolchain.py WORD..

does the same as `rt WORD..`, but computes each hash once, and runs `try` without a hint that doubles its processor time.
"""

import importlib.machinery
import importlib.util
import os
import shutil
import sys
import threading

# What a script prints if the toolchain isn't there.
MISSING = """rt, the command of the Rattle toolchain, is not on PATH. A release has the built program and library, and needs no toolchain:
https://kitchenrue.example/kitchenrue/releases (docs/START.md, "Where to get it", says what a clone can do without the toolchain)"""

# The path, in the crate's folder, at which `rt ci` leaves what it proved of a static library.
CHECKED = "out/checked"


def load():
    """The module of the command `rt`, or None if it isn't on PATH."""
    path = shutil.which("rt")
    if path is None:
        return None
    sys.dont_write_bytecode = True
    loader = importlib.machinery.SourceFileLoader("rt", os.path.realpath(path))
    module = importlib.util.module_from_spec(importlib.util.spec_from_loader("rt", loader))
    sys.modules["rt"] = module
    loader.exec_module(module)
    sum_once(module.rtlib.Crate)
    return module


def sum_once(kind):
    """Computes a crate's hash, which contains those of the libraries below it, so that each of these is computed once. The
    toolchain computes them again on each path through the crates below, and the program has more than 8,000 of these paths."""
    own, calls = kind.stamp, threading.local()

    def stamp(crate):
        sums = getattr(calls, "sums", None)
        if sums is None:
            # This is the outermost call. What it has read is forgotten afterwards, because a source may change.
            calls.sums = {}
            try:
                return own(crate)
            finally:
                calls.sums = None
        if crate.folder not in sums:
            sums[crate.folder] = own(crate)
        return sums[crate.folder]

    kind.stamp = stamp


def keep_checked(kind):
    """Makes `rt ci` keep what it proved of a static library, as it does for a program, so that the library isn't proved again when
    it is compiled (tools/c_library.py). The check and its verdict are the same."""
    own = kind.ci

    def ci(crate, flags, tests):
        if tests or not crate.is_static:
            return own(crate, flags, tests)
        return crate.prove(["check", *crate.words(flags, keeps=False), "-o", CHECKED])

    kind.ci = ci


def leave_out_hint(rtlib):
    """Makes `rt try` only compile and run. It would also begin a check, up to the first proof, which can only report that a proof
    will refuse a name. Everything that is tried in this repository is also proved."""
    rtlib.RATTLE = "true"


if __name__ == "__main__":
    rt = load()
    if rt is None:
        print(MISSING, file=sys.stderr)
        sys.exit(3)
    if sys.argv[1:2] == ["ci"]:
        keep_checked(rt.Crate)
    if sys.argv[1:2] == ["try"]:
        leave_out_hint(rt.rtlib)
    sys.exit(rt.main(sys.argv[1:]))
