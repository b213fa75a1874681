"""The first calls of a fresh clone: ./serf-replay answers at once, and never runs a program that isn't current.

One call is real: it runs over a copy of what git tracks. CONTRIBUTING's command then runs over the program that it compiled. All
other calls go through a stand-in for the toolchain's command, in tests/repository/first_call, so that a build takes no time. They
try error lines and statuses of an unproved program, a program that can't be compiled, two calls at once, a program that
SERF_UNPROVED requests, a changed source, a removed source, a source that changes during the build, an interrupted build, a
failed proof, a missing toolchain, and a folder that can't be written.
"""

import os
import re
import shutil
import signal
import subprocess
import sys
import tempfile
import time
from concurrent.futures import ThreadPoolExecutor

sys.dont_write_bytecode = True
sys.path.insert(0, os.path.dirname(os.path.dirname(os.path.abspath(__file__))))
import checks
import publisher
import pages
from checks import TOP

EXAMPLE = os.path.join("examples", "deploy_gossiped_twice")

# How many processor seconds the first call of a fresh clone may take. It should answer within two minutes on an idle machine. The
# gate allows twice that, since a machine may be slow, and prints what it took.
MAX_SECONDS = 240

UNPROVED = "compiling the program without its proofs, once"

# How many processor seconds a second call may take, over what the first one compiled.
SECOND_SECONDS = 10

# `./test --quick` has compiled the program already, for the scripts that run it. (Its variables must not reach the clones.)
IS_COMPILED = bool(os.environ.pop("SERF_UNPROVED", None))


class Clone:
    """A repository of one program over one library, with the scripts of this repository and the stand-in."""

    def __init__(self, root):
        self.top = os.path.join(root, "clone")
        self.bin = os.path.join(root, "bin")
        self.source = os.path.join(self.top, "crates", "serf_replay_program", "src", "main.rt")
        for crate in ("low", "serf_replay_program"):
            os.makedirs(os.path.join(self.top, "crates", crate, "src"))
        self.write(self.source, "one\n")
        self.write(os.path.join(self.top, "crates", "low", "src", "lib.rt"), "low\n")
        self.write(os.path.join(self.top, "crates.txt"), "low:\nserf_replay_program: low\n")
        shutil.copytree(os.path.join(TOP, "tools"), os.path.join(self.top, "tools"))
        os.mkdir(os.path.join(self.top, "bench"))
        for name in ("serf-replay", "prove", "test", os.path.join("bench", "run")):
            shutil.copy(os.path.join(TOP, name), os.path.join(self.top, name))
        shutil.copytree(os.path.join(TOP, "tests", "repository", "first_call"), self.bin)

    @staticmethod
    def write(path, text):
        with open(path, "w", encoding="utf-8") as file:
            file.write(text)

    def order(self, *words):
        self.write(os.path.join(self.bin, "orders"), " ".join(words))

    def environment(self, has_rt=True, **more):
        path = [self.bin] if has_rt else []
        path = os.pathsep.join([*path, os.path.dirname(sys.executable), "/usr/bin", "/bin"])
        return {**os.environ, "PATH": path, **more}

    def run(self, *words, has_rt=True, given="", **more):
        result = subprocess.run(
            [os.path.join(self.top, words[0]), *words[1:]],
            env=self.environment(has_rt, **more),
            input=given,
            capture_output=True,
            text=True,
            timeout=120,
        )
        return result.returncode, result.stdout, result.stderr

    def is_unproved(self, text, is_compiled=False):
        """Whether a call runs the program without its proofs, of this source, and prints a sentence first, unless it is compiled."""
        status, out, err = self.run("serf-replay", "x")
        is_said = err == "" if is_compiled else err.count("\n") == 1 and UNPROVED in err and "./prove" in err
        return (status, out) == (0, f"unproved {text} x\n") and is_said

    def is_proved(self, text):
        return self.run("serf-replay", "x") == (0, f"proved {text} x\n", "")


def unproved(count, clone):
    """An unproved program has its own error lines and status. It is compiled once; if it can't be, the call reports why."""
    clone.order("refuses")
    schedule = os.path.join(clone.top, "schedule")
    clone.write(schedule, "of a file\n")
    for name, words, given, said, sentences in (
        ("on standard input", ["replay"], "given\n", "given", 1), ("in a file", ["replay", schedule], "", "of a file", 0)
    ):
        status, out, err = clone.run("serf-replay", *words, given=given)
        first, rest = err.splitlines()[:sentences], err.splitlines()[sentences:]
        well = (status, out, rest) == (1, "", ["a fault", f"bad line: {said}"]) and all(UNPROVED in line for line in first)
        count.check(f"a refused schedule {name}", well, (status, out, err))
    clone.order("uncompiled")
    count.check("a later call compiles nothing, and prints no sentence", clone.is_unproved("one", is_compiled=True))
    clone.write(clone.source, "none\n")
    status, out, err = clone.run("serf-replay", "x")
    count.check(
        "a program that can't be compiled",
        (status, out) == (3, "") and "compilation failed" in err and "src/main.rt is not" in err,
        (status, out, err),
    )
    clone.write(clone.source, "one\n")
    clone.order()


def at_once(count, clone):
    """Two calls at once after a source has changed compile it once, and both run it."""
    tries = os.path.join(clone.bin, "tries")
    clone.write(clone.source, "both\n")
    clone.write(tries, "")
    with ThreadPoolExecutor(2) as pool:
        ran = list(pool.map(lambda _: clone.run("serf-replay", "x")[:2], range(2)))
    count.check("two calls at once", ran == [(0, "unproved both x\n")] * 2, ran)
    with open(tries, encoding="utf-8") as file:
        count.check("they compile once", file.read() == "one more\n")
    clone.write(clone.source, "one\n")


def builds(count, clone):
    count.check("nothing is built yet", clone.is_unproved("one"), clone.run("serf-replay", "x"))
    status, out, err = clone.run("prove")
    count.check(
        "a build", status == 0 and out == "" and "proving low" in err and "low is proved" in err, (status, out, err)
    )
    count.check("the proved program runs", clone.is_proved("one"), clone.run("serf-replay", "x"))
    count.check("nothing to build", clone.run("prove")[0] == 0)
    status, out, err = clone.run("prove", "--help")
    count.check("the help of prove", (status, err) == (0, "") and out.startswith("prove [PROGRAM..]: "), (status, out, err))
    status, out, err = clone.run("prove", "--none")
    count.check("an option that prove doesn't have", (status, out) == (2, "") and err.startswith("prove [PROGRAM..]: "), (status, out, err))
    status, out, err = clone.run("prove", "none")
    count.check("a program that isn't there", (status, out) == (3, "") and "prove: there is no program none" in err, (status, out, err))


def asked_for(count, clone):
    """SERF_UNPROVED requests the program without its proofs, even if the proved one exists. It is compiled first, as by a
    call without the variable, and prints no sentence from then on."""
    shutil.rmtree(os.path.join(clone.top, "crates", "serf_replay_program", "out", "unproved"))
    call = lambda: clone.run("serf-replay", "x", SERF_UNPROVED="1")
    status, out, err = call()
    count.check("it is requested", (status, out) == (0, "unproved one x\n") and UNPROVED in err, (status, out, err))
    clone.order("uncompiled")
    count.check("it is requested again", call() == (0, "unproved one x\n", ""), call())
    clone.write(clone.source, "none\n")
    status, out, err = call()
    said = (status, out) == (3, "") and "compilation failed" in err
    count.check("it is requested, and can't be compiled", said, (status, out, err))
    clone.order()
    status, out, _ = call()
    count.check("it is requested after a source changed", (status, out) == (0, "unproved none x\n"), (status, out))
    clone.write(clone.source, "one\n")
    count.check("without the variable the proved program runs", clone.is_proved("one"), clone.run("serf-replay", "x"))


def sources(count, clone):
    old = os.stat(clone.source)
    clone.write(clone.source, "two\n")
    os.utime(clone.source, ns=(old.st_atime_ns, old.st_mtime_ns))
    count.check("a changed source of the same age", clone.is_unproved("two"), clone.run("serf-replay", "x"))
    clone.write(clone.source, "one\n")
    count.check("a source that is put back", clone.is_proved("one"), clone.run("serf-replay", "x"))
    library = os.path.join(clone.top, "crates", "low", "src", "lib.rt")
    os.rename(library, library + ".gone")
    clone.write(library + ".gone", "low\n")
    count.check("a source that was renamed", clone.is_unproved("one"), clone.run("serf-replay", "x"))
    os.remove(library + ".gone")
    count.check("a source that was removed", clone.is_unproved("one"), clone.run("serf-replay", "x"))
    clone.write(library, "low\n")
    program = os.path.join(clone.top, "crates", "serf_replay_program", "out", "serf_replay_program")
    count.check("the program that was built", clone.is_proved("one"), clone.run("serf-replay", "x"))
    clone.order("newer")
    count.check("a program of another toolchain", clone.is_unproved("one"), clone.run("serf-replay", "x"))
    clone.order()
    with open(program, "a", encoding="utf-8") as file:
        file.write("echo another\n")
    count.check("another program in its place", clone.is_unproved("one", is_compiled=True), clone.run("serf-replay", "x"))


def changing(count, clone):
    clone.order("changes")
    status, _, err = clone.run("prove")
    count.check("a source that changes during the build", status == 3 and "a source changed" in err, (status, err))
    count.check("what it built is not current", clone.is_unproved("one\nmore"), clone.run("serf-replay", "x"))
    clone.order()
    clone.write(clone.source, "three\n")
    count.check("the next build", clone.run("prove")[0] == 0 and clone.is_proved("three"))


def broken_off(count, clone):
    clone.write(clone.source, "four\n")
    clone.order("hangs")
    process = subprocess.Popen(
        [os.path.join(clone.top, "prove")],
        env=clone.environment(),
        stdin=subprocess.DEVNULL,
        stdout=subprocess.DEVNULL,
        stderr=subprocess.DEVNULL,
        start_new_session=True,
    )
    for _ in range(600):
        if os.path.exists(os.path.join(clone.bin, "hanging")):
            break
        time.sleep(0.05)
    os.killpg(process.pid, signal.SIGINT)
    count.check("an interrupted build ends", process.wait(timeout=60) != 0)
    clone.order()
    count.check("what it left is not current", clone.is_unproved("four"), clone.run("serf-replay", "x"))
    count.check("the next build begins anew", clone.run("prove")[0] == 0 and clone.is_proved("four"))


def refused(count, clone):
    clone.write(clone.source, "five\n")
    shutil.rmtree(os.path.join(clone.top, "crates", "low", "out"))
    clone.order("unproved")
    status, _, err = clone.run("prove")
    count.check(
        "a failed proof", status == 3 and "low: not proved" in err and "low is not proved" in err, (status, err)
    )
    clone.order("false")
    status, _, err = clone.run("prove")
    count.check(
        "a failed proof of the program",
        status == 3 and "main: not proved" in err and "serf_replay_program was not built" in err,
        (status, err),
    )
    count.check("nothing is built from it", clone.is_unproved("five"), clone.run("serf-replay", "x"))
    clone.order()
    shutil.rmtree(os.path.join(clone.top, "crates", "serf_replay_program", "out", "unproved"))
    for name in ("serf-replay", "prove", "test", os.path.join("bench", "run")):
        status, out, err = clone.run(name, has_rt=False)
        # (a release has no bench, so this script doesn't name one)
        says_where = name.startswith("bench") or publisher.values()["releases"] in err
        count.check(f"{name} without the toolchain", (status, out) == (3, "") and "not on PATH" in err and says_where, (status, out, err))
    out = os.path.join(clone.top, "crates", "serf_replay_program", "out")
    shutil.rmtree(out)
    clone.write(out, "a file\n")
    status, _, err = clone.run("prove")
    count.check(
        "a folder that can't be written", status == 3 and "prove: " in err and "Traceback" not in err, (status, err)
    )
    status, _, err = clone.run("serf-replay", "x")
    said = re.search(r"^unproved: \S+: [A-Z][a-z ]+$", err, re.M)
    count.check("a folder that can't be written, for the program without its proofs", status == 3 and said, (status, err))


def fresh_clone(count, root):
    """The first call, over a copy of what git tracks."""
    top = os.path.join(root, "fresh")
    listed = subprocess.run(
        ["git", "ls-files", "-z"], cwd=TOP, stdout=subprocess.PIPE, check=True
    ).stdout.decode().split("\0")
    for name in filter(None, listed):
        if os.path.isfile(os.path.join(TOP, name)):
            os.makedirs(os.path.dirname(os.path.join(top, name)), exist_ok=True)
            shutil.copy(os.path.join(TOP, name), os.path.join(top, name))
    began = checks.processor_seconds()
    result = subprocess.run(
        ["./serf-replay", "replay", EXAMPLE + ".schedule"], cwd=top, capture_output=True, text=True, timeout=checks.LIMIT
    )
    took = checks.processor_seconds() - began
    print(f"the first call of a fresh clone took {took:.0f} processor seconds")
    trace = checks.text_of(EXAMPLE + ".trace")
    count.check("the first call's trace", (result.returncode, result.stdout) == (0, trace), result)
    count.check(
        "its sentence", result.stderr.count("\n") == 1 and UNPROVED in result.stderr and "./prove" in result.stderr, result.stderr
    )
    count.check(f"it takes at most {MAX_SECONDS} processor seconds", took <= MAX_SECONDS, took)
    began = checks.processor_seconds()
    again = subprocess.run(
        ["./serf-replay", "replay", EXAMPLE + ".schedule"], cwd=top, capture_output=True, text=True, timeout=checks.LIMIT
    )
    took = checks.processor_seconds() - began
    count.check(
        "a second call, at once",
        (again.returncode, again.stdout, again.stderr) == (0, result.stdout, "") and took <= SECOND_SECONDS,
        (took, again),
    )
    for command in pages.of(pages.FIRST_CALL):
        result = subprocess.run(["bash", "-c", command.text], cwd=top, capture_output=True, text=True, timeout=checks.LIMIT)
        count.check(command.name(), result.returncode == 0 and result.stdout.endswith(" 0 failed\n"), result)


def one_figure(count):
    """One page and two scripts state how long a build takes, in the same words, and how long a compilation takes."""
    figure = "about 45 minutes on four processors"
    for name in ("README.md", "serf-replay", os.path.join("bench", "run")):
        count.check(f"the build's time in {name}", figure in checks.text_of(name))
    for name in ("README.md", "serf-replay"):
        count.check(f"the compilation's time in {name}", "two minutes" in checks.text_of(name))


def first_calls(count):
    with tempfile.TemporaryDirectory(prefix="first-call-") as root:
        clone = Clone(root)
        for part in (unproved, at_once, builds, asked_for, sources, changing, broken_off, refused):
            part(count, clone)
        if IS_COMPILED:
            print("not run: the first call of a fresh clone, which compiles the program once more")
        else:
            fresh_clone(count, root)


if __name__ == "__main__":
    sys.exit(checks.run(first_calls, one_figure))
