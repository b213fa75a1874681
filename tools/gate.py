"""The parts of the gate: what each ran and took, the progress of the whole, and the rows of tools/gate.rows."""

import os
import re
import subprocess
import threading
import time

import costs

TOP = os.path.dirname(os.path.dirname(os.path.abspath(__file__)))
ROWS = os.path.join(TOP, "tools", "gate.rows")

COUNT = re.compile(r"^(\d+) passed, (\d+) failed$", re.M)

# What `rt ci` prints about a crate that is proved, in this run or in an earlier one on this machine.
PROVED = re.compile(r"^rt: (\w+) (proved$|is kept: an earlier run on this machine proved the same files)", re.M)
REFUSED = re.compile(r"^rt: must-fail \S+: refused", re.M)

# What `rt ci` prints if all is well. Before any other of its lines, the toolchain's own lines are shown.
WELL = re.compile(r"^rt: (\w+ proved$|\w+ is kept|\w+: trying its must-fail|must-fail \S+: refused|\w+: its tests are proved|chose|ok)")

# How long a gate for which no proof was kept may take by the clock, in seconds, with two processors or more. CI ends it after 180
# minutes.
LONGEST = 150 * 60

# The parts of the whole, as the rows name them.
PROOFS, EDITS, MUTANTS, SCRIPTS = PARTS = ("proofs and programs", "must-fail edits", "tools/mutants.py", "other scripts")

# The assumed cost of a crate without a row, in processor seconds.
UNKNOWN = 60

# Only one part prints at a time.
PRINTING = threading.Lock()


class Part:
    """A part of the gate: how much of it passed and failed, and what it took."""

    def __init__(self, name, on_line=None):
        self.name = name
        self.on_line = on_line
        self.passed = self.failed = 0
        self.output = ""
        self.crates = {}
        self.seconds = self.processor = 0.0
        # The checks that failed in an earlier run of the same command, if this is its second run.
        self.first_failures = []

    def run(self, words, env=None):
        """Runs a command, and adds the counts of its last line. Its lines go to `on_line`, or are shown after it ends."""
        began = time.monotonic()
        watch = costs.Costs()
        lines = []
        settings = {
            "cwd": TOP,
            "stdin": subprocess.DEVNULL,
            "stdout": subprocess.PIPE,
            "stderr": subprocess.STDOUT,
            "text": True,
            "errors": "replace",
        }
        with subprocess.Popen(words, env=env, **settings) as process:
            watch.watch(process.pid)
            for line in process.stdout:
                lines.append(line)
                if self.on_line:
                    self.on_line(line)
            # What the command and all its children used.
            _, status, usage = os.wait4(process.pid, 0)
            process.returncode = os.waitstatus_to_exitcode(status)
        self.crates = watch.end()
        self.output = "".join(lines)
        counts = COUNT.findall(self.output)
        self.passed, self.failed = map(int, counts[-1]) if counts else (0, 1)
        if process.returncode and not self.failed:
            self.failed = 1
        self.seconds, self.processor = time.monotonic() - began, usage.ru_utime + usage.ru_stime
        with PRINTING:
            if not self.on_line:
                print(self.output, end="")
            print(f"-- {self.name}: {self.seconds:.0f} seconds, {self.processor:.0f} processor seconds", flush=True)
        return self

    def seconds_of(self, kind):
        """The processor seconds of all checks of a kind."""
        return sum(used for (_, kind_of_check), used in self.crates.items() if kind_of_check == kind)


class Progress:
    """Shows the progress of `rt ci`: a line for each crate, and its whole output if something is not well."""

    def __init__(self, crates):
        self.left = dict.fromkeys(crates)
        self.count = len(crates)
        self.costs = crate_costs()
        self.began = time.monotonic()
        self.buffer = []

    def on_line(self, line):
        """Prints a line of `rt ci`, and how far the proofs are."""
        if not line.startswith("rt:"):
            self.buffer.append(line)
            return
        if not WELL.match(line):
            print("".join(self.buffer), end="")
        self.buffer = []
        print(line, end="", flush=True)
        proved = PROVED.match(line)
        if proved and proved[1] in self.left:
            del self.left[proved[1]]
            print(
                f"-- {self.count - len(self.left)} of {self.count} crates, {self.share():.0f} % of the proofs' cost, after {(time.monotonic() - self.began) / 60:.0f} minutes",
                flush=True,
            )

    def share(self):
        """How many percent of the proofs' cost are done, by the rows."""
        total = sum(self.costs.values()) or 1
        return 100 * (1 - sum(self.costs.get(name, 0) for name in self.left) / total)


def rows():
    """What has to run, by its name: the minimum number, and the processor seconds, or None if a row has none."""
    with open(ROWS, encoding="utf-8") as file:
        lines = [line.split(None, 2) for line in file if not line.startswith("#")]
    return {name.strip(): [None if number == "-" else int(number) for number in numbers] for *numbers, name in lines}


def crate_costs():
    """The processor seconds of each crate's proof, from the rows."""
    return {name: seconds for name, (_, seconds) in rows().items() if name.startswith("serf_")}


def chain_costs(crates):
    """What each of these crates costs together with the most expensive chain of crates that waits for it, by the rows. Without
    rows, all crates cost the same."""
    chain_cost = {}
    try:
        costs = crate_costs()
    except OSError:
        costs = {}
    # The crates above a crate are before it in this order, so their costs are known.
    for crate in sorted(crates, key=lambda it: -len(it.below())):
        costs_above = [
            chain_cost[it.folder] for it in crates if it.folder in chain_cost and any(below.folder == crate.folder for below in it.below())
        ]
        chain_cost[crate.folder] = costs.get(crate.name, UNKNOWN) + max(costs_above, default=0)
    return chain_cost


def minimum_counts():
    """The minimum number that has to run, by its name."""
    return {name: minimum for name, (minimum, _) in rows().items() if minimum is not None}


def all_seconds():
    """The processor seconds of the last cold run."""
    return sum(seconds for name, (_, seconds) in rows().items() if name in PARTS)


def kept_nothing(output):
    """Whether `rt ci` proved each crate in this run, by its output."""
    verbs = [verb for _, verb in PROVED.findall(output)]
    return bool(verbs) and all(verb == "proved" for verb in verbs)


def too_long(output, seconds, processors):
    """Why the whole took too long by the clock, or None. The limit is for a run without kept proofs on two processors or more."""
    if processors < 2 or seconds <= LONGEST or not kept_nothing(output):
        return None
    return f"the gate, for which no proof was kept, took {seconds / 60:.0f} minutes by the clock; the limit is {LONGEST // 60}"
