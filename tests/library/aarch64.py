"""aarch64.py [--library FILE] [--over-ci]: runs hosts of the library for C on aarch64, under QEMU's emulator.

The library is the one that --library names. Otherwise the script proves the crate for aarch64 (tools/targets.py) over what
`rt ci` left, and compiles it. It runs the hosts in C, with the tests of the store, the example in Go with the tests of serfagent,
a host that is killed (crashes.py), and the agent for operators next to one for x86-64 in one cluster. If a stock clang from version
15 on is there, it also compiles the texts that a release has for one (bindings/source), and runs the example over them.

It needs aarch64-linux-gnu-gcc and qemu-aarch64, which are in Debian's packages gcc-aarch64-linux-gnu and qemu-user. What they don't
emulate is a processor that reorders memory: the library has no threads, and the stores lock their files by the system.
"""

import argparse
import os
import shutil
import subprocess
import sys
import tempfile
import time

sys.dont_write_bytecode = True
sys.path.insert(0, os.path.dirname(os.path.dirname(os.path.abspath(__file__))))
import checks
import c_library
import targets
from checks import TOP

sys.path[:0] = [os.path.join(TOP, "tests", "library"), os.path.join(TOP, "tests", "library", "embed")]
import embed

COMPILER, EMULATOR = "aarch64-linux-gnu-gcc", "qemu-aarch64"
# The folder of the emulated system's C library.
ROOT = "/usr/aarch64-linux-gnu"
EMULATED = [EMULATOR, "-L", ROOT]

# A compiler for aarch64 that leaves a script in place of a program. The script runs the program under the emulator, so a test that
# compiles a host and runs it doesn't have to know of the emulator.
COMPILER_SCRIPT = """#!/bin/sh
to=
for word; do
    [ "$before" = -o ] && to=$word
    before=$word
done
{compiler} "$@" || exit
case " $* " in
*" -c "* | *" -shared "* | *" -r "*) exit ;;
esac
[ -n "$to" ] && mv "$to" "$to.aarch64" && printf '#!/bin/sh\\nexec {emulated} "%s.aarch64" "$@"\\n' "$to" >"$to" && chmod +x "$to"
"""

# How long an agent may take for something, in seconds.
PATIENCE = 120

# How often the host is killed, and how many times as slow it is under the emulator.
KILLS, SLOWER = 20, 20

# The versions of clang that are tried.
CLANGS = ["clang-16", "clang-19", "clang-15"]


def in_c(count, places):
    """The hosts of embed.py, compiled for aarch64."""
    for name in ("bad_input", "limits", "burst", "keep", "forget"):
        path = embed.compile_c(count, places, name, os.path.join(embed.SOURCES, f"{name}.c"))
        if path:
            embed.count_output(count, name, [path])
    wrapped = ["-Wl,--wrap=malloc,--wrap=realloc"]
    for name, more in (("memory", ["-Wl,--wrap=free"]), ("members", []), ("open_events", [])):
        path = embed.compile_c(count, places, name, os.path.join(embed.SOURCES, f"{name}.c"), [*wrapped, *more])
        if path:
            embed.count_output(count, name, [path])
    driver = embed.compile_c(count, places, "store_driver", os.path.join(embed.SOURCES, "store_driver.c"))
    if driver:
        embed.stores.try_store(count, "C", places, [driver])
    run = embed.compile_c(count, places, "example", os.path.join(embed.BINDINGS, "c", "example.c"))
    if run:
        embed.example(count, "C", places, [run])
    # (the compiler's own name, because make links the shared library with it)
    tools = [
        f"{name}={COMPILER.replace('gcc', tool)}" for name, tool in (("CC", "gcc"), ("LD", "ld"), ("AR", "ar"), ("OBJCOPY", "objcopy"))
    ]
    made = c_library.ran(
        ["make", "-s", "-C", os.path.join(embed.BINDINGS, "c"), f"OUT={places.of('made')}", f"LIBRARY={places.library}", *tools]
    )
    count.check("the Makefile", made[0] == 0, made[1])
    shared = places.of("made", "libserf_agent.so")
    kind = c_library.ran(["readelf", "-h", shared])
    count.check("the shared library is for aarch64", "AArch64" in kind[1], kind[1])


def in_go(count, places):
    """The example in Go and the tests of serfagent."""
    module = places.of("go")
    shutil.copytree(os.path.join(embed.BINDINGS, "go"), module)
    os.symlink(places.library, os.path.join(module, "serfagent", "libserf_agent_c_arm64.a"))
    env = {
        **os.environ,
        "GOFLAGS": "-mod=mod -trimpath",
        "GOPROXY": "off",
        "GO111MODULE": "on",
        "GOARCH": "arm64",
        "CGO_ENABLED": "1",
        "CC": COMPILER,
        "TEST_EXEC": " ".join(EMULATED),
        **c_library.LEAN_GO,
    }
    path = places.of("go_example")
    status, output = c_library.ran(["go", "build", "-o", path, "./example"], env=env, cwd=module)
    count.check("the example in Go compiles", status == 0, output[-2000:])
    if status == 0:
        embed.example(count, "Go", places, [*EMULATED, path])
    words = ["go", "test", "-v", "-exec", " ".join(EMULATED), "."]
    line = r"^--- (?P<end>PASS|FAIL): (?P<name>\w+)"
    embed.counted_tests(count, "serfagent", line, words, env=env, cwd=os.path.join(module, "serfagent"))


def crashes(count, places):
    """The host that is killed, with the script of the same name."""
    words = [
        sys.executable,
        os.path.join(TOP, "tests", "library", "crashes.py"),
        "--kills",
        str(KILLS),
        "--slower",
        str(SLOWER),
        "--library",
        places.library,
    ]
    embed.count_output(count, "crashes.py", words)


class Agent:
    """A running agent for operators, with a handler that appends each event to a file."""

    def __init__(self, places, name, program, *more):
        self.name, self.ran = name, places.of(f"{name}.ran")
        self.log = open(places.of(f"{name}.log"), "w+", encoding="utf-8")
        own = ["-node", name, "-snapshot", places.of(f"{name}.snapshot"), "-event-handler", f"user:deploy=cat >>{self.ran}"]
        self.process = subprocess.Popen([*program, *own, *more], stdin=subprocess.DEVNULL, stdout=self.log, stderr=subprocess.STDOUT)

    def has_run(self):
        """What its handler wrote."""
        try:
            with open(self.ran, encoding="utf-8") as file:
                return file.read()
        except OSError:
            return ""

    def said(self):
        self.log.seek(0)
        return self.log.read()[-1500:]

    def end(self):
        self.process.terminate()
        self.process.wait()
        self.log.close()


def eventually(condition):
    """Waits until a condition holds. Returns whether it did."""
    end = time.monotonic() + PATIENCE
    while time.monotonic() < end:
        if condition():
            return True
        time.sleep(0.2)
    return False


def agents(count, places):
    """The agent for aarch64 and the one for x86-64 in one cluster: an event that either fires runs once at both."""
    emulated, own = places.of("agent64"), places.of("agent")
    build = os.path.join(TOP, "agent", "build")
    status, output = c_library.ran(
        [build, emulated, os.path.dirname(places.library)], env={**os.environ, "GOARCH": "arm64", "CC": COMPILER}
    )
    count.check("the agent for aarch64 compiles", status == 0, output[-1500:])
    status = (
        status
        or c_library.ran(
            [build, own, os.path.dirname(c_library.LIBRARY)], env={name: value for name, value in os.environ.items() if name != "CC"}
        )[0]
    )
    count.check("the agent for x86-64 compiles", status == 0)
    if status:
        return
    places_of = {"a": ("127.0.0.141", [*EMULATED, emulated]), "b": ("127.0.0.142", [own])}
    running = []
    try:
        for name, (address, program) in places_of.items():
            join = ["-join", f"{places_of['a'][0]}:7946"] if running else []
            running.append(Agent(places, name, program, "-bind", f"{address}:7946", "-rpc-addr", f"{address}:7373", *join))
            up = eventually(lambda one=running[-1]: "Log data will now stream" in one.said())
            count.check(f"{name} starts", up, running[-1].said())
        for name, (address, _) in places_of.items():
            fired = c_library.ran(["serf", "event", f"-rpc-addr={address}:7373", "-coalesce=false", "deploy", f"of {name}"])
            count.check(f"{name} fires", fired[0] == 0, fired[1])
        for one in running:
            ran = eventually(lambda one=one: "of a" in one.has_run() and "of b" in one.has_run())
            count.check(
                f"{one.name} ran both, each once",
                ran and sorted(one.has_run().splitlines()) == ["of a", "of b"],
                (one.has_run(), one.said()),
            )
    finally:
        for one in running:
            one.end()


def from_source(count, places, folders):
    """The library for each processor, compiled from its text by a stock clang: the example prints the same over it."""
    clang = next((name for name in CLANGS if shutil.which(name)), None)
    if clang is None:
        raise embed.NotRun(f"none of {', '.join(CLANGS)} is on PATH")
    for target, folder in folders.items():
        source = places.of("source", target)
        shutil.copytree(os.path.join(TOP, "bindings", "source"), places.of("source"), dirs_exist_ok=True)
        shutil.copytree(folder, source)
        library = places.of(f"source_{target}.a")
        status, output = c_library.ran([places.of("source", "build"), library, target], env={**os.environ, "CLANG": clang})
        count.check(f"{clang} compiles the text for {target}", status == 0, output[-1500:])
        path = places.of(f"example_{target}")
        own = {"aarch64": os.environ["CC"], "x86_64": "cc"}[target]
        words = [
            own,
            *c_library.STRICT,
            "-O2",
            "-o",
            path,
            os.path.join(embed.BINDINGS, "c", "example.c"),
            c_library.STORE,
            c_library.HEAP,
            library,
        ]
        status, output = c_library.ran(words)
        count.check(f"the example over it compiles for {target}", status == 0, output[-1500:])
        if status == 0:
            embed.example(count, f"from source for {target}", places, [path])
    refused = c_library.ran([places.of("source", "build"), places.of("none.a"), "x86_64"], env={**os.environ, "CLANG": "no-clang"})
    count.check("without clang", refused[0] == 3 and "no-clang is not on PATH" in refused[1], refused)


def parts(places, folders):
    found = [("c", in_c), ("crashes", crashes)]
    if shutil.which("go"):
        found.append(("go", in_go))
        if shutil.which("serf") and os.path.isdir(embed.NEEDED[0]) and os.path.exists(c_library.LIBRARY):
            found.append(("agents", agents))
    if folders:
        found.append(("source", lambda count, places: from_source(count, places, folders)))
    return found


def main():
    parser = argparse.ArgumentParser(description=__doc__, formatter_class=argparse.RawDescriptionHelpFormatter)
    parser.add_argument("--library")
    parser.add_argument("--over-ci", action="store_true")
    options = parser.parse_args()
    total = checks.Checks()
    missing = [name for name in (COMPILER, EMULATOR) if shutil.which(name) is None]
    if missing:
        print(f"aarch64: not run, since {' and '.join(missing)} aren't on PATH")
        return total.finish()
    with tempfile.TemporaryDirectory(prefix="aarch64-") as folder:
        os.chmod(folder, 0o755)
        library, folders = options.library, {}
        if library is None:
            fault = c_library.fault_of_library(options.over_ci)
            total.check("the library for x86-64 is proved and compiled", fault is None, fault)
            try:
                folders = {target: targets.made(target) for target in targets.TRIPLES}
            except targets.Stopped as why:
                total.check("the library for aarch64 is proved and compiled", False, why)
                return total.finish()
            library = os.path.join(folders["aarch64"], "libserf_agent_c.a")
        compiler = os.path.join(folder, "cc")
        with open(compiler, "w", encoding="utf-8") as file:
            file.write(COMPILER_SCRIPT.format(compiler=COMPILER, emulated=" ".join(EMULATED)))
        os.chmod(compiler, 0o755)
        os.environ["CC"] = compiler
        places = embed.Places(folder, os.path.abspath(library))
        for name, part in parts(places, folders):
            embed.run(total, name, part, places)
    return total.finish()


if __name__ == "__main__":
    sys.exit(main())
