#!/usr/bin/env python3
"""Prints where the processor seconds of a crate's proof go.

    python3 tools/profile.py CRATE [ROWS]

proves the crate from nothing with one job, over the libraries below it that are already built, into a temporary folder. So
nothing in the repository changes. The toolchain reports no times, but it writes a file for each module that it has checked.
The processor time from one file to the next is counted for the later module. The table has the most expensive rows, 40 by
default, and then the sums of kinds of rows. CONTRIBUTING.md says how to read it.

The status is 0 if the crate is proved, and 1 if it isn't (the table then ends with the last checked module). It is 2 if the command
line is refused, and 3 if the toolchain isn't there, or a library below isn't built.
"""

import bisect
import os
import re
import subprocess
import sys
import tempfile
import threading
import time

TOP = os.path.dirname(os.path.dirname(os.path.abspath(__file__)))
sys.dont_write_bytecode = True
import costs
import toolchain

# The interval at which the processor time is read.
PERIOD_SECONDS = 0.05

ROWS = 40

BEFORE = "(before the first module)"
AFTER_MODULES = "(after the last module)"
FACADE = "(the facade, once all else is proved)"
LINKS = "(links of functions)"

# The kinds of rows whose sums follow the table. A row belongs to the first kind that fits.
KINDS = [
    ("drops", r"Destruct|-drop$"),
    ("derived Debug", r"Debug"),
    ("derived PartialEq, Eq, Clone, Copy", r"PartialEq|Eq\b|Clone|Copy"),
    ("Display", r"Display"),
    ("reading, links, facade, report", r"^\("),
    ("files of specs/ and proofs/", r"^(?:specs|proofs|Rattle)"),
    ("functions", r"^fn "),
    ("other", r""),
]


class Unready(Exception):
    """Why nothing was proved."""


def crate_of(name):
    """The crate, and the words that begin a command of the toolchain. The command ends when this script ends."""
    rt = toolchain.load()
    if rt is None:
        raise Unready(toolchain.MISSING)
    folder = os.path.join(TOP, "crates", name)
    if not os.path.isdir(os.path.join(folder, "src")):
        raise Unready(f"there is no crate {name}")
    crate = rt.rtlib.Crate(folder, TOP, {})
    missing = [below.name for below in crate.below() if not os.path.isdir(below.rlib)]
    if missing:
        raise Unready(f"not built: {' '.join(missing)}; `rt check` in the crate builds the libraries below it")
    return crate, [*rt.rtlib.guarded(), rt.rtlib.RATTLE]


def children_of(pid):
    """The processes that a process has started and that have not ended yet."""
    found = []
    for task in os.listdir(f"/proc/{pid}/task"):
        try:
            with open(f"/proc/{pid}/task/{task}/children", encoding="utf-8") as file:
                found += file.read().split()
        except OSError:
            continue
    return found


def used_below(pid):
    """The processor time of a process and of everything that it started. Copies of the process check a large crate's functions."""
    _, used = costs.stat_of(pid)
    for child in children_of(pid):
        try:
            used += used_below(child)
        except (OSError, IndexError):
            # It has ended in the meantime, and the next reading counts it.
            continue
    return used


class Meter:
    """The processor time that a process and its copies had used at each moment, read repeatedly until it ends."""

    def __init__(self, process):
        self.times, self.used = [time.time()], [0.0]
        self.reader = threading.Thread(target=self.read_until_end, args=(process.pid,), daemon=True)
        self.reader.start()

    def read_until_end(self, pid):
        try:
            while True:
                used = used_below(pid)
                self.times.append(time.time())
                # If a copy ends while the processes are read, it is missing in this reading.
                self.used.append(max(used, self.used[-1]))
                time.sleep(PERIOD_SECONDS)
        except (OSError, IndexError):
            return

    def used_at(self, when):
        """The time that it had used at this moment, interpolated between two readings."""
        at = bisect.bisect(self.times, when)
        if at in (0, len(self.times)):
            return self.used[min(at, len(self.times) - 1)]
        (t0, t1), (u0, u1) = self.times[at - 1 : at + 1], self.used[at - 1 : at + 1]
        return u0 + (u1 - u0) * (when - t0) / max(t1 - t0, 1e-9)


def checked_modules(folder):
    """The moment at which each module was checked, and its name, in order of these moments."""
    found = []
    for at, _, names in os.walk(folder):
        if os.path.basename(at) != "records":
            found += [(os.stat(os.path.join(at, name)).st_mtime, name.removesuffix(".oantt")) for name in names if name.endswith(".oantt")]
    return sorted(found)


def row_of(module, crate, functions):
    """The function, or the file, that a module belongs to."""
    if module == f"Rattle-{crate}":
        return FACADE
    part, _, path = module.removeprefix(f"Rattle-{crate}-").partition(".")
    words = re.sub(r"^(?:contracts|declared)\.", "", path).split(".")
    for end in range(len(words), 0, -1):
        name = "::".join(words[:end])
        if name in functions:
            return f"fn {name}"
    if "TheLinks" in words:
        return LINKS
    return f"{part}/{words[0] if len(words) < 3 else '/'.join(words[:2])}"


class Profile:
    """The time of each row of a crate's proof, and its number of modules."""

    def __init__(self, name, meter, modules, functions):
        self.seconds, self.count = {}, {}
        before = meter.used_at(modules[0][0]) if modules else 0
        self.add(BEFORE, before, 0)
        for when, module in modules[1:]:
            used = meter.used_at(when)
            self.add(row_of(module, name, functions), used - before, 1)
            before = used
        self.add(AFTER_MODULES, meter.used[-1] - before, 0)

    def add(self, row, seconds, count):
        self.seconds[row] = self.seconds.get(row, 0) + seconds
        self.count[row] = self.count.get(row, 0) + count

    def show(self, rows):
        for row in sorted(self.seconds, key=self.seconds.get, reverse=True)[:rows]:
            print(f"{self.seconds[row]:8.1f} s {self.count[row]:5} modules  {row}")
        left = dict(self.seconds)
        for kind, pattern in KINDS:
            own = [row for row in left if re.search(pattern, row)]
            if own:
                print(f"{sum(left.pop(row) for row in own):8.1f} s  in all: {kind} ({len(own)} rows)")


def proved(crate, begin):
    """Proves a crate from nothing. Returns the process's meter, its output, its status, and the checked modules."""
    with tempfile.TemporaryDirectory() as kept, tempfile.TemporaryFile("w+") as crate.out:
        words = [*begin, "check", *crate.words(["--jobs", "1"]), "--incremental", kept]
        with subprocess.Popen(
            words, cwd=crate.folder, stdin=subprocess.DEVNULL, stdout=subprocess.PIPE, stderr=subprocess.STDOUT, text=True, errors="replace"
        ) as process:
            meter = Meter(process)
            output = process.stdout.read()
        return meter, output, process.returncode, checked_modules(kept)


def main(name, rows=ROWS):
    try:
        crate, begin = crate_of(name)
    except Unready as why:
        print(f"profile: {why}", file=sys.stderr)
        return 3
    meter, said, status, modules = proved(crate, begin)
    functions = set(re.findall(rf"^(?:fn|struct|impl) {name}::(\S+): proved", said, re.M))
    print(f"{name}: {meter.used[-1]:.0f} processor seconds, {len(modules)} modules, {len(functions)} functions")
    Profile(name, meter, modules, functions).show(rows)
    if status:
        print(f"{said[-2000:]}\nprofile: {name} is not proved; see the errors above", file=sys.stderr)
        return 1
    return 0


if __name__ == "__main__":
    if len(sys.argv) not in (2, 3) or len(sys.argv) == 3 and not sys.argv[2].isdigit():
        print("usage: python3 tools/profile.py CRATE [ROWS]", file=sys.stderr)
        sys.exit(2)
    sys.exit(main(sys.argv[1], *map(int, sys.argv[2:])))
