"""Wrong bodies of the code in Go: the packages `serf`, `guard` and `serfagent` of `bindings/go`, and the agent. Each of them makes a
test fail that it names.

    tests/library/go_mutants.py [NAME..] [--all] [--list] [--library FILE] [--over-ci]

Files `mutants/*.edits` have the wrong bodies, in the form of tools/edit_files.py. A line `test: NAME` names a test of the edited package
that has to fail, and there may be several. A line `slow: WHY` says why such a test takes more than a few seconds to fail.

All wrong bodies are planted into one copy of the sources (go_mutants/planting.py), so that each package with its tests is compiled once.
The named tests have to pass if none of the wrong bodies is on, and one of those that a wrong body names has to fail if it is on.

Without words the script tries {SHARE} in 100 of those that aren't slow, which the commit's hash selects, as the gate does. --all tries
all, and names try only those. Every run checks that each wrong body can be planted. --list prints the names, each with what it does.

Go and Debian's packages of memberlist, go-msgpack and Serf's coordinates have to be installed. --library names another static library
than that of crates/serf_agent_c, which is built otherwise; --over-ci builds it over what `rt ci` left, as the gate does.
"""

import argparse
import os
import re
import secrets
import shutil
import sys
import tempfile
import time
from concurrent.futures import ThreadPoolExecutor

sys.dont_write_bytecode = True
sys.path.insert(0, os.path.dirname(os.path.dirname(os.path.abspath(__file__))))
import checks
import c_library
import edit_files
import evidence
from checks import TOP

sys.path.insert(0, os.path.join(TOP, "tests", "library", "go_mutants"))
import planting

GOCODE = os.environ.get("SERF_GOPATH", "/usr/share/gocode")

# The folders with wrong bodies, by the paths that Go has for them.
FOLDERS = {"serf": "bindings/go/serf", "guard": "bindings/go/guard", "serfagent": "bindings/go/serfagent", "agent": "agent"}

# How many of 100 wrong bodies the gate tries.
SHARE = 4

# How long the tests of one wrong body may take: most of it is for a busy machine.
LIMIT = "8m"

# How many wrong bodies are tried in parallel. Their tests mostly wait.
LANES = 3


class Body:
    """A wrong body: its edit, and the package whose tests it names."""

    def __init__(self, folder, edit):
        self.folder, self.edit, self.name = folder, edit, edit.name
        self.pairs = [(os.path.join(folder, path), old, new) for path, old, new in edit.pairs]
        self.package = os.path.dirname(self.pairs[0][0]) if self.pairs else folder


def all_bodies():
    return [Body(folder, edit) for folder, path in FOLDERS.items() for edit in edit_files.written_in(os.path.join(TOP, path, "mutants"))]


def drawn_bodies(bodies):
    """The wrong bodies that the commit selects, or a random number if there is no commit."""
    commit = evidence.commit() or secrets.token_hex(20)
    return [body for body in bodies if not body.edit.slow and evidence.drawn_number(commit, body.folder, body.name) < SHARE]


class Place:
    """A folder of Go's with a copy of the sources, and the programs of its tests."""

    def __init__(self, folder, library):
        self.folder, self.source = folder, os.path.join(folder, "src", "kitchenrue.example")
        for name, path in FOLDERS.items():
            shutil.copytree(os.path.join(TOP, path), os.path.join(self.source, name), ignore=shutil.ignore_patterns("mutants", "*.a"))
        c_library.put_beside(os.path.join(self.source, "serfagent"), library)
        self.env = c_library.go_env(folder, GOCODE)

    def compiled(self, package):
        """Compiles the tests of a package. Returns the compiler's output if it failed, or None."""
        words = ["go", "test", "-c", "-vet=off", "-o", self.program(package), f"kitchenrue.example/{package}"]
        status, output = c_library.ran(words, env=self.env)
        return output or "go test failed" if status else None

    def program(self, package):
        return os.path.join(self.folder, package.replace("/", "_") + ".test")

    def names(self, package):
        """The names of the tests of a package."""
        return set(c_library.ran([self.program(package), "-test.list", "."], cwd=self.folder)[1].split())

    def ran(self, package, tests, planted):
        """Runs tests of a package with a wrong body on, or with none. Returns the names of those that failed, and the output."""
        words = [self.program(package), "-test.v", "-test.timeout", LIMIT, "-test.run", f"^({'|'.join(tests)})$"]
        env = {**os.environ, planting.VARIABLE: planted}
        status, output = c_library.ran(words, cwd=os.path.join(self.source, package), env=env)
        failed = re.findall(r"^--- FAIL: (\w+)", output, re.M)
        if status and not failed:
            # (a test that panics, or that is cut off, ends the others too: it is the one that began last)
            failed = re.findall(r"^=== RUN   (\w+)$", output, re.M)[-1:]
        return failed, output


def check_bodies(count, bodies):
    """Each wrong body names its tests, and no two have the same name."""
    names = [body.name for body in bodies]
    for body in bodies:
        good = body.edit.tests and not body.edit.turns and not any(body.edit.twins) and names.count(body.name) == 1
        count.check(f"{body.folder}: {body.name} names its tests, and has no other lines", good)


def try_package(count, place, package, bodies):
    """Tries the wrong bodies of a package."""
    fault = place.compiled(package)
    count.check(f"{package}: the tests are compiled", fault is None, fault)
    if fault:
        return
    wanted, known = sorted({test for body in bodies for test in body.edit.tests}), place.names(package)
    count.check(f"{package}: the tests exist", set(wanted) <= known, set(wanted) - known)
    failed, said = place.ran(package, wanted, "")
    count.check(f"{package}: the tests pass without a wrong body", not failed, f"{failed}: {said}")

    def tried(body):
        began = time.monotonic()
        failed, said = place.ran(package, body.edit.tests, body.name)
        return body, set(failed) & set(body.edit.tests), said, time.monotonic() - began

    with ThreadPoolExecutor(LANES) as lanes:
        for body, found, said, took in lanes.map(tried, bodies):
            count.check(f"{package}: {body.name} is found ({body.edit.why})", found, said)
            print(f"{package}: {body.name}: {', '.join(sorted(found)) or 'not found'}, {took:.1f} s", flush=True)


def try_bodies(count, bodies, chosen, library):
    with tempfile.TemporaryDirectory(prefix="go-mutants-") as folder:
        place = Place(folder, library)
        try:
            planting.plant(place.source, bodies)
        except planting.NotPlanted as fault:
            count.check("the wrong bodies can be planted", False, fault)
            return
        packages = sorted({body.package for body in chosen})
        for package in packages:
            try_package(count, place, package, [body for body in chosen if body.package == package])


def fault_of_machine(words):
    if shutil.which("go") is None:
        return "go is not on PATH"
    if not os.path.isdir(os.path.join(GOCODE, "src", "github.com", "hashicorp", "memberlist")):
        return f"memberlist is not in {GOCODE}"
    return None if words.library else c_library.fault_of_library(words.over_ci)


def main():
    parser = argparse.ArgumentParser(description=__doc__.format(SHARE=SHARE), formatter_class=argparse.RawDescriptionHelpFormatter)
    parser.add_argument("names", nargs="*", metavar="NAME")
    parser.add_argument("--all", action="store_true")
    parser.add_argument("--list", action="store_true")
    parser.add_argument("--library")
    parser.add_argument("--over-ci", action="store_true")
    words, count = parser.parse_args(), checks.Checks()
    try:
        bodies = all_bodies()
    except edit_files.BadEdit as fault:
        count.check("the wrong bodies can be read", False, fault)
        return count.finish()
    if words.list:
        for body in bodies:
            print(f"{body.package}: {body.name}: {body.edit.why}")
        return 0
    check_bodies(count, bodies)
    missing = set(words.names) - {body.name for body in bodies}
    fault = f"no wrong body has the name {', '.join(sorted(missing))}" if missing else fault_of_machine(words)
    if fault:
        count.check("everything that it needs is there", False, fault)
        return count.finish()
    chosen = bodies if words.all else [body for body in bodies if body.name in words.names] if words.names else drawn_bodies(bodies)
    try_bodies(count, bodies, chosen, os.path.abspath(words.library or c_library.LIBRARY))
    return count.finish()


if __name__ == "__main__":
    sys.exit(main())
