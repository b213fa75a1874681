"""What the scripts of tests/ share: checks and their count, the program that they run, and the files that they read.

A script begins with these lines. It ends with `run`, or with `over_program` if it runs the program:

    sys.dont_write_bytecode = True
    sys.path.insert(0, os.path.dirname(os.path.dirname(os.path.abspath(__file__))))
    import checks
"""

import importlib.machinery
import importlib.util
import os
import re
import resource
import subprocess
import sys

TOP = os.path.dirname(os.path.dirname(os.path.abspath(__file__)))
sys.path.insert(0, os.path.join(TOP, "tools"))
import programs

# The program itself. ./serf-replay sums all its sources at each call; `over_program` does so once, before any call.
PROGRAM = programs.path_of("serf_replay_program")

# What a user calls.
COMMAND = os.path.join(TOP, "serf-replay")

EXAMPLES = os.path.join(TOP, "examples")
ROWS = os.path.join(TOP, "tests", "rows")

# The end of a worked row: the expected result of its schedule, each line as a comment.
WANTED = re.compile(r"^# (trace|fault|lines):\n((?:# .*\n)*)\Z", re.M)

# The kinds of random schedules.
KINDS = (
    *("mixed", "tiny", "merges", "restarts", "devices", "injections"),
    *("queries", "limits", "exhaustion", "per-time", "compactions", "gossip", "spellings", "kept", "rounds"),
)

# How many bytes a schedule, a packet or a line of a stream may have.
LONGEST = 16_777_216

# How long one call of the program may take by the clock, in seconds. `./test --quick` has to work on any machine, a busy one too,
# so there the limit that matters is in processor seconds.
PROCESSOR_LIMIT = 600
LIMIT = 6 * PROCESSOR_LIMIT if programs.IS_UNPROVED else PROCESSOR_LIMIT

# How much of what a failed check saw is printed, in characters.
SHOWN = 1500


def read(*parts):
    """The bytes of a file, named from the repository's top."""
    with open(os.path.join(TOP, *parts), "rb") as file:
        return file.read()


def text_of(*parts):
    """The text of a file, named from the repository's top."""
    return read(*parts).decode("utf-8")


def names_in(folder, ending=".schedule"):
    """The names of a folder's files with this ending, without it, sorted."""
    return sorted(name[: -len(ending)] for name in os.listdir(folder) if name.endswith(ending))


def row_of(name):
    """A worked row: its schedule, the kind of result that it expects, and the expected text. A row that expects none has None as kind."""
    text = text_of(ROWS, name + ".schedule")
    expected = WANTED.search(text)
    if not expected:
        return text, None, ""
    return text[: expected.start()], expected[1], expected[2].replace("# ", "", 1).replace("\n# ", "\n")


def gate_script():
    """./test, as a module."""
    loader = importlib.machinery.SourceFileLoader("gate_script", os.path.join(TOP, "test"))
    module = importlib.util.module_from_spec(importlib.util.spec_from_loader("gate_script", loader))
    loader.exec_module(module)
    return module


def run_program(words, given=b""):
    """The program on these words and this input: its status, its standard output, and its standard error."""
    result = subprocess.run([PROGRAM, *words], input=given, capture_output=True, timeout=LIMIT)
    return result.returncode, result.stdout, result.stderr


def processor_seconds():
    """The processor time of all programs that this script has run to their end. The load of the machine doesn't change it."""
    used = resource.getrusage(resource.RUSAGE_CHILDREN)
    return used.ru_utime + used.ru_stime


class Checks:
    """How many checks passed, and how many failed. Each failed check is printed."""

    def __init__(self):
        self.passed = self.failed = 0

    def check(self, name, holds, seen=""):
        """Counts a check. If it doesn't hold, prints what was seen instead."""
        if holds:
            self.passed += 1
            return
        self.failed += 1
        seen = str(seen)
        if len(seen) > SHOWN:
            seen = f"{seen[: SHOWN // 2]} .. {seen[-SHOWN // 2 :]}"
        print(f"FAILED {name}: {seen}", flush=True)

    def exactly(self, name, words, status, out, err, given=b""):
        """Checks the status and all output of the program for these words and this input. Returns what it wrote on standard output."""
        result = run_program(words, given)
        expected = (status, out[:300], err[:300])
        self.check(name, result == (status, out, err), f"expected {expected}, got {(result[0], result[1][:300], result[2][:300])}")
        return result[1]

    def add(self, passed, failed):
        self.passed += passed
        self.failed += failed

    def finish(self):
        """Prints the count, and returns the status."""
        print(f"{self.passed} passed, {self.failed} failed")
        return 1 if self.failed else 0


def run(*parts):
    """Runs the parts of a script, each of which adds to the checks that it is passed. Returns the status."""
    if programs.IS_UNPROVED:
        # a part that uses more is ended by SIGXCPU; on a busy machine the limit by the clock is longer
        resource.setrlimit(resource.RLIMIT_CPU, (PROCESSOR_LIMIT, resource.RLIM_INFINITY))
    count = Checks()
    for part in parts:
        try:
            part(count)
        except subprocess.TimeoutExpired as late:
            words = " ".join(map(str, late.cmd))[:200]
            count.check(part.__name__, False, f"took longer than {late.timeout:.0f} seconds by the clock: {words}")
    return count.finish()


def by_speed(proved_alone, parts):
    """Runs the parts of a script over the program. Before them it runs the parts that measure time or memory, or that have much
    work for the program. They are left out if the program was compiled unproved, since it then has run-time checks."""
    if programs.IS_UNPROVED:
        for part in proved_alone:
            print(f"not run: {part.__name__}, since the program was compiled with checks")
        return over_program(*parts)
    return over_program(*proved_alone, *parts)


def over_program(*parts):
    """Runs the parts of a script over the program, which is built first if the sources have changed."""
    fault = programs.fault_of_build("serf_replay_program")
    if fault:
        count = Checks()
        count.check("the program is built", False, fault)
        return count.finish()
    return run(*parts)
