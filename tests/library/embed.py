"""Hosts of the agent in C: header and library match, bad input has a code, and the bindings' stores and examples work.

    tests/library/embed.py [--library FILE] [--program FILE] [--over-ci]

C and Python have to be installed. Rust and Go are built and run if `cargo` and `go` are on PATH, and without the
network. Of the package serf in Go, whose own tests `agent.py` runs, a node that runs out of memory is tried, if memberlist and Serf's
coordinates are installed as well (Debian's packages). Each part has a line such as `python: N passed, M failed` or `go: not run, since
go is not on PATH`, and the last line is their sum. --library names another static library than that of crates/serf_agent_c, which
is built by `rt lib` otherwise; then no declaration of Rattle is compared. --program names another program than the proved one, with
which conformance/c is compared. --over-ci builds the library over those that `rt ci` left, as the gate does.
"""

import argparse
import glob
import os
import re
import shutil
import sys
import tempfile

sys.dont_write_bytecode = True
sys.path.insert(0, os.path.dirname(os.path.dirname(os.path.abspath(__file__))))
import checks
import c_library
import pages
import piped_agents
import programs
from checks import TOP

sys.path[:0] = [os.path.join(TOP, "tests", "library", part) for part in ("embed", "packages")]
import bursts
import declarations
import host_lines
import starved
import stores

HEADER = os.path.join(c_library.INCLUDE, "serf_agent.h")
SOURCES = os.path.join(TOP, "tests", "library", "embed")
BINDINGS = os.path.join(TOP, "bindings")

# How many bytes the library may have.
LARGEST = 400_000

# The random schedules on which conformance/c is compared: so many seeds of each kind.
SEEDS = 40

# In how many rounds a node in Go has to report no failed allocation until no more rounds are made.
UNTOLD = 16

# The folder of Debian's Go packages, and those that a node in Go needs.
GO_CODE = os.environ.get("SERF_GOPATH", "/usr/share/gocode")
NEEDED = [os.path.join(GO_CODE, "src", "github.com", "hashicorp", name) for name in ("memberlist", "serf/coordinate")]


class NotRun(Exception):
    """A part can't be run here, for this reason."""


class Places:
    """The places of what is built and run here. `starved` is a library whose calls run out of memory."""

    def __init__(self, folder, library):
        self.folder, self.library = folder, library
        self.shared = os.path.join(folder, "libserf_agent.so")
        self.starved = os.path.join(self.fresh("starved"), "libserf_agent_c.a")

    def of(self, *names):
        return os.path.join(self.folder, *names)

    def fresh(self, name):
        """A new and empty folder that everybody may read."""
        path = tempfile.mkdtemp(prefix=name, dir=self.folder)
        os.chmod(path, 0o755)
        return path


def compile_c(count, places, name, source, more=(), library=None):
    """Compiles a host; its path, or None."""
    path = places.of(name)
    fault = c_library.fault_of_host(path, source, library or places.library, more)
    count.check(f"{name} compiles", fault is None, fault)
    return path if fault is None else None


def count_output(count, name, words, **more):
    """Runs a program that ends with 'N passed, M failed', and counts what it reports."""
    status, output = c_library.ran(words, **more)
    found = re.search(r"^(\d+) passed, (\d+) failed$", output, re.M)
    count.check(f"{name} ends", found is not None and status == (int(found[2]) > 0), f"{status}: {output[-1500:]}")
    if found:
        count.add(int(found[1]), int(found[2]))
        print("".join(line + "\n" for line in output.split("\n") if line.startswith("FAILED")), end="")


def counted_tests(count, name, line, words, ran=c_library.ran, **more):
    """Runs the tests of a language; `line` finds each test's name and end."""
    status, output = ran(words, **more)
    found = list(re.finditer(line, output, re.M))
    for one in found:
        count.check(f"{name}: {one['name']}", one["end"].lower() in ("pass", "ok"), output[-2000:])
    count.check(f"{name} end well", status == 0 and found and "warning" not in output, f"{status}: {output[-2000:]}")


def bad_input(count, places):
    """Bad input in C, in bursts too: plain, under the address and undefined-behaviour sanitizers, and under valgrind."""
    sanitized = ["-g", "-fsanitize=address,undefined", "-fno-sanitize-recover=all"]
    can_sanitize = (
        c_library.ran(
            ["cc", "-x", "c", "-fsanitize=address,undefined", "-o", places.of("none"), os.path.join(SOURCES, "nothing.c")]
        )[0]
        == 0
    )
    hosts = (
        ("bad_input", "bad input"),
        ("limits", "the limits of packets"),
        ("burst", "bursts"),
        ("keep", "events that are kept"),
        ("forget", "queries that are forgotten"),
    )
    for name, what in hosts:
        source = os.path.join(SOURCES, f"{name}.c")
        plain = compile_c(count, places, name, source)
        if plain:
            count_output(count, what, [plain])
        watched = compile_c(count, places, f"{name}_sanitized", source, sanitized) if can_sanitize else None
        if watched:
            count_output(count, f"{what}, sanitized", [watched])
        if plain and shutil.which("valgrind"):
            count_output(count, f"{what}, under valgrind", ["valgrind", "-q", "--error-exitcode=9", "--leak-check=full", plain, "500"])
    if not can_sanitize:
        print("not run: the sanitizers, which this C compiler lacks")
    if not shutil.which("valgrind"):
        print("not run: valgrind, which isn't on PATH")


def memory(count, places):
    """Each call while its allocations fail, under valgrind too: its requests for memory are counted. And the library for hosts
    whose calls run out of memory."""
    wrapped = ["-g", "-Wl,--wrap=malloc,--wrap=realloc"]
    path = compile_c(count, places, "memory", os.path.join(SOURCES, "memory.c"), [*wrapped, "-Wl,--wrap=free"])
    if path:
        count_output(count, "out of memory", [path])
        if shutil.which("valgrind"):
            count_output(
                count,
                "out of memory, under valgrind",
                ["valgrind", "-q", "--error-exitcode=9", "--leak-check=full", path],
            )
    members = compile_c(count, places, "members", os.path.join(SOURCES, "members.c"), wrapped)
    if members:
        count_output(count, "what a host of members asks", [members])
    open_events = compile_c(count, places, "open_events", os.path.join(SOURCES, "open_events.c"), wrapped)
    if open_events:
        count_output(count, "open events and lines about handlers", [open_events])
    fault = starved.make(places)
    count.check("a library whose calls run out of memory", fault is None, fault)


def example(count, name, places, words, **more):
    """Runs an example twice in a folder: it prints the text that every language prints, and hands out nothing twice over both runs."""
    folder = places.fresh(name)
    with open(os.path.join(BINDINGS, "example.out"), encoding="utf-8") as file:
        wanted = file.read()
    status, output = c_library.ran([*words, folder], **more)
    count.check(f"{name}: the example", (status, output) == (0, wanted), f"{status}: {output}")
    status, again = c_library.ran([*words, folder], **more)
    handed = [line for line in (output + again).split("\n") if "handed out" in line]
    count.check(
        f"{name}: the example once more", status == 0 and len(set(handed)) == len(handed) == 8, f"{status}: {again}"
    )


def in_c(count, places):
    driver = compile_c(count, places, "store_driver", os.path.join(SOURCES, "store_driver.c"))
    if driver:
        stores.try_store(count, "C", places, [driver])
    settle = compile_c(count, places, "settle", os.path.join(SOURCES, "settle.c"), ["-Wl,--wrap=malloc,--wrap=pread"])
    if settle:
        count_output(count, "what isn't on the disk", [settle, places.fresh("settle")])
    texts = compile_c(count, places, "texts", os.path.join(SOURCES, "texts.c"), [os.path.join(BINDINGS, "c", "serf_agent_text.c")])
    if texts:
        count_output(count, "sentences and the version", [texts, checks.text_of("VERSION").strip()])
    run = compile_c(count, places, "example", os.path.join(BINDINGS, "c", "example.c"))
    if run:
        example(count, "C", places, [run])
        if shutil.which("valgrind"):
            example(
                count, "C under valgrind", places, ["valgrind", "-q", "--error-exitcode=9", "--leak-check=full", run]
            )
    made = c_library.ran(
        ["make", "-s", "-C", os.path.join(BINDINGS, "c"), f"OUT={places.of('made')}", f"LIBRARY={places.library}"]
    )
    count.check("the Makefile", made[0] == 0, made[1])
    driver = compile_c(
        count, places, "starved_driver", os.path.join(SOURCES, "starved_driver.c"), library=places.starved
    )
    if driver:
        starved.try_calls(count, "C", places, [driver])
    source = os.path.join(SOURCES, "burst_driver.c")
    plain, hungry = compile_c(count, places, "burst_driver", source), compile_c(
        count, places, "starved_bursts", source, library=places.starved
    )
    if plain and hungry:
        bursts.try_bursts(count, "C", places, [plain])
        bursts.try_starved(count, "C", places, [hungry])


def in_python(count, places):
    more = {"env": dict(os.environ, SERF_AGENT_LIBRARY=places.shared, PYTHONDONTWRITEBYTECODE="1")}
    stores.try_store(count, "Python", places, [sys.executable, os.path.join(SOURCES, "store_driver.py")])
    more["env"]["PYTHONPATH"] = os.path.join(BINDINGS, "python")
    example(count, "Python", places, [sys.executable, "-m", "serf_agent"], **more)
    for name in ("bad_input", "members", "misuse", "keep", "handlers", "with_asyncio", "typed_host"):
        count_output(
            count,
            f"{name} in Python",
            [sys.executable, os.path.join(SOURCES, f"{name}.py"), places.fresh(name)],
            **more,
        )
    driver = [sys.executable, os.path.join(SOURCES, "burst_driver.py")]
    bursts.try_bursts(count, "Python", places, driver, **more)
    more["env"]["SERF_AGENT_LIBRARY"] = starved.shared(places.starved)
    starved.try_calls(count, "Python", places, [sys.executable, os.path.join(SOURCES, "starved_driver.py")], **more)
    bursts.try_starved(count, "Python", places, driver, **more)


def in_rust(count, places):
    if shutil.which("cargo") is None:
        raise NotRun("cargo is not on PATH")
    target = places.of("target")
    more = {
        "env": dict(os.environ, SERF_AGENT_LIBRARY=places.library, CARGO_TARGET_DIR=target),
        "cwd": os.path.join(BINDINGS, "rust"),
    }
    status, output = c_library.ran(["cargo", "build", "--offline", "--examples"], **more)
    count.check("Rust builds, with no warning", status == 0 and "warning" not in output, output[-2000:])
    if status:
        return
    stores.try_store(count, "Rust", places, [os.path.join(target, "debug", "examples", "store_driver")])
    example(count, "Rust", places, [os.path.join(target, "debug", "examples", "two_agents")])
    driver = [os.path.join(target, "debug", "examples", "burst_driver")]
    missing = places.of("missing")
    sentence = f"Error: {missing}/one.snapshot: the folder of the file doesn't exist: No such file or directory (os error 2)\n"
    ended = c_library.ran([*driver, missing])
    count.check("Rust: an error that main returns is a sentence", ended == (1, sentence), ended)
    counted_tests(
        count,
        "Rust's tests",
        r"^test (?P<name>\S+) \.\.\. (?P<end>\w+)$",
        ["cargo", "test", "--offline", "--tests"],
        **more,
    )
    bursts.try_bursts(count, "Rust", places, driver)
    more["env"]["SERF_AGENT_LIBRARY"] = places.starved
    status, output = c_library.ran(["cargo", "build", "--offline", "--example", "starved_driver", "--example", "burst_driver"], **more)
    count.check("Rust: the starved drivers build", status == 0, output[-2000:])
    if status == 0:
        starved.try_calls(count, "Rust", places, [os.path.join(target, "debug", "examples", "starved_driver")])
        bursts.try_starved(count, "Rust", places, driver)


def in_go(count, places):
    if shutil.which("go") is None:
        raise NotRun("go is not on PATH")
    # (with -trimpath, as agent/test: what one of them has compiled for the race detector, the other takes from Go's cache)
    env = dict(os.environ, GOFLAGS="-mod=mod -trimpath", GOPROXY="off", GO111MODULE="on", **c_library.go_flags(places.library))
    more = {"env": env, "cwd": os.path.join(BINDINGS, "go")}
    starved_module(places)
    programs_in_go = {"store_driver": places.library, "example": places.library, "burst_driver": places.library}
    programs_in_go |= {"starved_driver": places.starved, "starved_bursts": places.starved}
    for name, library in programs_in_go.items():
        own = {"env": {**env, **c_library.LEAN_GO}, "cwd": more["cwd"]}
        if library == places.starved:
            own = {"env": {**env_of_starved(env), **c_library.LEAN_GO}, "cwd": places.of("go_starved")}
        source = "burst_driver" if name == "starved_bursts" else name
        status, said = c_library.ran(["go", "build", "-o", places.of(f"go_{name}"), f"./{source}"], **own)
        count.check(f"Go: {name} builds", status == 0, said[-2000:])
        if status:
            return
    stores.try_store(count, "Go", places, [places.of("go_store_driver")])
    example(count, "Go", places, [places.of("go_example")])
    starved.try_calls(count, "Go", places, [places.of("go_starved_driver")])
    bursts.try_bursts(count, "Go", places, [places.of("go_burst_driver")])
    bursts.try_starved(count, "Go", places, [places.of("go_starved_bursts")])
    said = c_library.ran(["gofmt", "-l", "."], cwd=more["cwd"])
    count.check("Go is formatted", said == (0, ""), said)
    more["cwd"] = os.path.join(BINDINGS, "go", "serfagent")
    tests_in_go(count, places, more)
    node_in_go(count, places, env)


def starved_module(places):
    """A copy of the module in Go, over the library whose calls run out of memory."""
    shutil.copytree(os.path.join(BINDINGS, "go"), places.of("go_starved"))
    c_library.put_beside(places.of("go_starved", "serfagent"), places.starved)


def env_of_starved(env):
    """The environment of that copy, which finds its library by itself."""
    return {name: value for name, value in env.items() if name != "CGO_LDFLAGS"}


def tests_in_go(count, places, more):
    """The tests of serfagent, watched for races if the detector is there, and what `go vet` reports about it. They are compiled once,
    and run in the package's folder with the words that `go test` has for them."""
    lean, path = {**more, "env": {**more["env"], **c_library.LEAN_GO}}, places.of("serfagent.test")
    status, output = c_library.ran(["go", "vet", "."], **lean)
    count.check("Go: vet of serfagent", status == 0, output[-2000:])
    compiled = ["go", "test", "-c", "-vet=off", "-o", path]
    status, built = c_library.ran([*compiled, "-race", "."], **lean)
    if status or c_library.ran([path, "-test.run", "NONE"], **more)[0]:
        print("not run: serfagent under Go's race detector, which isn't here")
        status, built = c_library.ran([*compiled, "."], **lean)
        count.check("Go: the tests of serfagent compile", status == 0, built[-2000:])
        if status:
            return

    def ran(words, **own):
        # (what the compilers and the linker printed is checked too)
        status, output = c_library.ran(words, **own)
        return status, built + output

    counted_tests(
        count,
        "Go's tests of serfagent",
        r"^--- (?P<end>PASS|FAIL): (?P<name>\S+)",
        [path, "-test.v", "-test.paniconexit0", "-test.timeout=10m0s"],
        ran,
        **more,
    )


def node_in_go(count, places, env):
    """The package serf, with its dependencies as Debian has them: a node that runs out of memory, HOST's lines, and
    the programs of `beside`."""
    missing = [path for path in NEEDED if not os.path.isdir(path)]
    if missing:
        print(f"not run: the package serf in Go, since {missing[0]} isn't there")
        return
    starved_node(count, places, env)
    path = go_path(places, os.path.join(BINDINGS, "go"))
    lines = os.path.join(path, "src", "lines")
    os.mkdir(lines)
    with open(os.path.join(lines, "main.go"), "w", encoding="utf-8") as file:
        file.write(host_lines.program("go"))
    beside = [f"kitchenrue.example/beside_serf/{name}" for name in ("node", "speed")]
    for what, packages in (("HOST's lines", ["lines"]), ("the programs of `beside`", beside)):
        status, output = c_library.ran(["go", "vet", *packages], env=c_library.go_env(path, GO_CODE, own=env))
        count.check(f"Go: vet of {what}", status == 0, output[-2000:])


def go_path(places, bindings):
    """A folder in which Go finds our packages by their paths, which are in a folder of bindings."""
    return c_library.linked_packages(places.fresh("go_path"), bindings=bindings)


def starved_node(count, places, env):
    """A node whose first burst, and whose first merge, run out of memory one request later each time. If the allocation fails only
    while the result is read, no error is reported: so some more rounds are made after the first one without a report."""
    path = places.of("serf.test")
    env = c_library.go_env(go_path(places, places.of("go_starved")), GO_CODE, own=env_of_starved(env))
    status, output = c_library.ran(["go", "test", "-c", "-vet=off", "-o", path, "kitchenrue.example/serf"], env=env)
    count.check("Go: the starved node builds", status == 0, output[-2000:])
    granted, untold, is_well = 0, 0, status == 0
    while is_well and untold < UNTOLD and granted < starved.MAX_GRANTED:
        words = [path, "-test.run", "^TestABurstOfMoreThanMemoryHas$"]
        status, output = c_library.ran(words, env=dict(os.environ, SERF_AGENT_GRANTED=str(granted)))
        is_well = status == 0 and "no tests to run" not in output
        count.check(f"Go: a node with {granted} requests for memory", is_well, output[-900:])
        untold += "nothing ran out of memory" in output
        granted += 1
    count.check("Go: finally, a node with enough memory", 10 + UNTOLD < granted < starved.MAX_GRANTED, granted)


def in_pipe(count, places, program):
    """The library on the pipe, compared with the reference on each example, each row and random schedules."""
    fault = None if program else programs.fault_of_build("serf_replay_program")
    agent = compile_c(count, places, "pipe_agent", os.path.join(TOP, "conformance", "c", "agent.c"))
    count.check("the program is built", fault is None, fault)
    if fault or agent is None:
        return
    for schedule in sorted(
        glob.glob(os.path.join(checks.EXAMPLES, "*.schedule")) + glob.glob(os.path.join(checks.ROWS, "*.schedule"))
    ):
        status, report = piped_agents.compare([schedule], [agent], program)
        name = os.path.basename(schedule)
        # (a row can be a schedule that is refused, or one without agents or actions)
        count.check(
            f"conform on {name}",
            status == 0
            or "bad line" in report
            or "too long" in report
            or report.endswith("no call but open was compared\n")
            and "wanted" not in report,
            f"{status}: {report[-600:]}",
        )
    for kind in checks.KINDS:
        status, report = piped_agents.compare(["--random", f"1-{SEEDS}", "--kind", kind], [agent], program)
        count.check(
            f"conform on random schedules, {kind}",
            status == 0 and f"{SEEDS} seeds and" in report,
            f"{status}: {report[-600:]}",
        )
    shown(count, places, agent, program)


def shown(count, places, agent, program):
    """What the pages show of a reader's agent, with the one in C in its place. Each page's pipe is made separately."""
    folder = piped_agents.folder_of_reader(places.of("reader"), agent, program)
    replies = os.path.join(folder, "replies")
    for command in pages.of(pages.EMBED):
        if command.text.startswith("mkfifo") and os.path.exists(replies):
            os.remove(replies)
        ran = piped_agents.by_shell(folder, command.text)
        says = "calls agree" in ran.stderr or command.text == "mkfifo replies"
        count.check(command.name(), ran.returncode == 0 and says, (ran.returncode, ran.stderr[-600:]))


def declared(count, places, crate):
    """Header and library match, and the library is small."""
    size = os.path.getsize(places.library)
    count.check("the library's size", size <= LARGEST, f"{size} bytes")
    declarations.compare(count, places, HEADER, crate)


def run(total, name, part, *words):
    """Runs a part, prints its line, and adds it up."""
    count = checks.Checks()
    try:
        part(count, *words)
        print(f"{name}: {count.passed} passed, {count.failed} failed", flush=True)
    except NotRun as why:
        print(f"{name}: not run, since {why}", flush=True)
    total.add(count.passed, count.failed)


def main():
    parser = argparse.ArgumentParser(description=__doc__, formatter_class=argparse.RawDescriptionHelpFormatter)
    parser.add_argument("--library")
    parser.add_argument("--over-ci", action="store_true")
    parser.add_argument("--program")
    options = parser.parse_args()
    total = checks.Checks()
    folder = tempfile.mkdtemp(prefix="embed-")
    os.chmod(folder, 0o755)
    try:
        places = Places(folder, os.path.abspath(options.library or c_library.LIBRARY))
        fault = None if options.library else c_library.fault_of_library(options.over_ci)
        fault = fault or c_library.fault_of_shared(places.shared, places.library)
        if fault:
            total.check("the library is built", False, fault)
            return total.finish()
        crate = None if options.library else c_library.CRATE
        run(total, "declarations", declared, places, crate)
        run(total, "bad input", bad_input, places)
        run(total, "memory", memory, places)
        run(total, "c", in_c, places)
        run(total, "python", in_python, places)
        run(total, "rust", in_rust, places)
        run(total, "go", in_go, places)
        run(total, "pipe", in_pipe, places, options.program and os.path.abspath(options.program))
    finally:
        shutil.rmtree(folder)
    return total.finish()


if __name__ == "__main__":
    sys.exit(main())
