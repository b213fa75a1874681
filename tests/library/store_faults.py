"""Wrong bodies of the five stores: at least two for each step, each found by the check that is named for it.

    tests/library/store_faults.py [--only LANGUAGE] [--library FILE] [--over-ci]

They are planted into a copy of each store (store_faults/planted.py), which the drivers of tests/library/embed run. The
copy passes every check if none is on. If one is on, the check that is named for it fails. Failing system calls
are injected by strace. The wrong bodies of `FileStore` are in its file of the system, which no contract describes, and
its driver is compiled without a proof. --library and --over-ci are those of tests/library/embed.py. A language that isn't
installed is left out, and the script prints that.
"""

import argparse
import os
import shutil
import sys
import tempfile

sys.dont_write_bytecode = True
sys.path.insert(0, os.path.dirname(os.path.dirname(os.path.abspath(__file__))))
import checks
import c_library

LIBRARY = os.path.join(checks.TOP, "tests", "library")
sys.path[:0] = [os.path.join(LIBRARY, name) for name in ("store_faults", "embed", "power_cuts")]
import failing
import faults
import file_store
import filled
import languages
import planted
import stores
import system_file

BINDINGS = os.path.join(checks.TOP, "bindings")
EMBED = os.path.join(LIBRARY, "embed")


class NotBuilt(Exception):
    """A driver could not be built; the text says why."""


class Failures:
    """The names of the checks that failed."""

    def __init__(self):
        self.names = []

    def check(self, name, holds, _=""):
        if not holds:
            self.names.append(name)


class Places:
    """The places of what is built and run here."""

    def __init__(self, folder, library):
        self.folder, self.library = folder, library

    def of(self, *names):
        return os.path.join(self.folder, *names)

    def copy(self, source, *to):
        """A copy of a folder of the bindings."""
        not_taken = shutil.ignore_patterns("target", "__pycache__")
        return shutil.copytree(os.path.join(BINDINGS, source), self.of(*to), ignore=not_taken)

    def fresh(self, name):
        """A new and empty folder that everybody may read."""
        path = tempfile.mkdtemp(prefix=name, dir=self.folder)
        os.chmod(path, 0o755)
        return path


def build_or_raise(words, **more):
    status, output = c_library.ran(words, **more)
    if status:
        raise NotBuilt(f"{' '.join(words)[:200]}: {output[-1500:]}")


def in_c(places):
    copy, path = places.copy("c", "c"), places.of("c_driver")
    faults.edit(copy, languages.C)
    sources = [os.path.join(copy, name) for name in ("serf_agent_store.c", "serf_agent_heap.c")]
    cc = os.environ.get("CC", "cc")
    build_or_raise([cc, *c_library.STRICT, "-O1", "-o", path, os.path.join(EMBED, "store_driver.c"), *sources, places.library])
    return [path]


def in_python(places):
    faults.edit(places.copy("python", "bindings", "python"), languages.PYTHON)
    # (the driver finds the package from its own place)
    driver = places.of("tests", "library", "embed", "store_driver.py")
    os.makedirs(os.path.dirname(driver))
    return [sys.executable, shutil.copyfile(os.path.join(EMBED, "store_driver.py"), driver)]


def in_go(places):
    module, path = places.copy("go", "go"), places.of("go_driver")
    faults.edit(module, languages.GO)
    c_library.put_beside(os.path.join(module, "serfagent"), places.library)
    env = dict(os.environ, GOFLAGS="-mod=mod", GOPROXY="off", GO111MODULE="on", **c_library.LEAN_GO)
    build_or_raise(["go", "build", "-o", path, "./store_driver"], cwd=module, env=env)
    return [path]


def in_rust(places):
    crate, target = places.copy("rust", "rust"), places.of("target")
    faults.edit(crate, languages.RUST)
    env = dict(os.environ, SERF_AGENT_LIBRARY=places.library, CARGO_TARGET_DIR=target)
    build_or_raise(["cargo", "build", "--quiet", "--offline", "--example", "store_driver"], cwd=crate, env=env)
    return [os.path.join(target, "debug", "examples", "store_driver")]


def in_rattle(places):
    return system_file.driver(places.of("file_store"))


class Language:
    """A store: how its driver is built, the command that has to be installed for that, and what is tried over it."""

    parts, faults, cases = failing.PARTS, planted.FAULTS, stores.Cases

    def __init__(self, build, command):
        self.build, self.command = build, command

    def words(self, built, fault):
        """The words of the driver with this wrong body on: in these languages the environment selects it."""
        return built


class OfC(Language):
    faults = planted.C_FAULTS


class OfGo(Language):
    parts, faults = filled.FILLED_PARTS, planted.FILLED_FAULTS


class OfRattle(Language):
    parts, faults, cases = system_file.PARTS, planted.FILE_FAULTS, system_file.Cases

    def words(self, built, fault):
        return [*built, fault]


LANGUAGES = {
    "C": OfC(in_c, None),
    "Python": Language(in_python, None),
    "Go": OfGo(in_go, "go"),
    "Rust": Language(in_rust, "cargo"),
    "FileStore": OfRattle(in_rattle, "rt"),
}


def found(language, places, built, name, fault):
    """The checks that fail in a wrong body's part while it is on."""
    failures, of = Failures(), LANGUAGES[language]
    os.environ[planted.FAULT_NAME] = name
    try:
        of.parts[fault.part](of.cases(failures, language, places, of.words(built, name)))
    except OSError as error:
        # (a file that a part reads doesn't exist)
        failures.names.append(str(error))
    finally:
        del os.environ[planted.FAULT_NAME]
    return failures.names


def try_language(count, language, places):
    of = LANGUAGES[language]
    if of.command and shutil.which(of.command) is None:
        print(f"not run: {language}, since {of.command} isn't on PATH")
        return
    try:
        words = of.build(places)
    except (NotBuilt, faults.NotThere, file_store.NotCompiled) as fault:
        count.check(f"{language}'s store, with wrong bodies, is built", False, fault)
        return
    for part in of.parts.values():
        part(of.cases(count, language, places, of.words(words, "none")))
    for name, fault in of.faults.items():
        failed = found(language, places, words, name, fault)
        wanted = f"{language}'s store: {fault.check}"
        said = f"{language}, planted: {fault.what}, is found by {fault.part}, {fault.check}"
        count.check(said, wanted in failed, failed)


def main():
    parser = argparse.ArgumentParser(description=__doc__, formatter_class=argparse.RawDescriptionHelpFormatter)
    parser.add_argument("--only", choices=LANGUAGES, action="append")
    parser.add_argument("--library")
    parser.add_argument("--over-ci", action="store_true")
    options = parser.parse_args()
    count = checks.Checks()
    os.environ.pop(planted.FAULT_NAME, None)
    fault = None if shutil.which("strace") else "strace isn't on PATH, and no call can be made to fail without it"
    if not fault and not options.library:
        fault = c_library.fault_of_library(options.over_ci)
    if fault:
        count.check("everything that it needs is installed", False, fault)
        return count.finish()
    library = os.path.abspath(options.library or c_library.LIBRARY)
    for language in options.only or LANGUAGES:
        with tempfile.TemporaryDirectory(prefix="store-faults-") as folder:
            os.chmod(folder, 0o755)
            try_language(count, language, Places(folder, library))
    return count.finish()


if __name__ == "__main__":
    sys.exit(main())
