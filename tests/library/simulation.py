"""Clusters of real nodes of the package `serf` in Go, in one process and in virtual time, under failures that a seed determines.

    tests/library/simulation.py [--library FILE] [--over-ci] [--seed N] [--new N] [--planted NAME | --all]
    tests/library/simulation.py --seed N --log FILE [--nodes N] [--length D]
    tests/library/simulation.py --hours H [--length D] [--jobs N]

Without options it plays the fixed seeds and some new ones, plays one seed twice and compares the logs, and plays wrong bodies of the node,
each of which has to break a promise. A seed that breaks a promise is played again without some of its steps and nodes, as long as it
still breaks the same promise; what remains is printed. If there is a built program, the nodes record, and their records have to be attested
(`tests/attestation.py`). docs/SIMULATION.md says what is simulated and what is checked.

--seed plays one seed, with --log FILE for the full log. --new N adds N new seeds, which the commit's hash selects (the gate: 4).
--planted NAME plays one wrong body from the first seed on, and --all all of them; without these options they begin with the seeds that
found them, and those that take long are left out.
--hours H plays new seeds until the clusters have lived so many hours together.

Go 1.19 and the sources of memberlist and of Serf have to be installed (`tools/packages`); otherwise the script prints what is missing, and
checks nothing. --library names another static library than that of crates/serf_agent_c, which is built otherwise; --over-ci builds it over
what `rt ci` left, as the gate does.
"""

import argparse
import hashlib
import os
import random
import resource
import shutil
import subprocess
import sys
import tempfile
import time
from concurrent.futures import ThreadPoolExecutor

sys.dont_write_bytecode = True
sys.path.insert(0, os.path.dirname(os.path.dirname(os.path.abspath(__file__))))
import attestation
import checks
import c_library
import evidence

sys.path.insert(0, os.path.join(checks.TOP, "tests", "library", "simulation"))
import build
import planted
import runtime_edits

# The seeds that the gate always plays, how many new ones it adds, and the seed that it plays twice.
FIXED, NEW, TWICE = range(1, 13), 4, 4

# For how long there are failures in a run.
LENGTH = "4m"

# The end of the name of the log of what was handed out on a node.
LOGS = ".handlers"

# What attest.py says of a life that the program can't read.
TOO_LONG = "and the program reads at most"

# A wrong body whose records attest.py has to refuse.
NOT_ATTESTED = "last-line"

# A wrong body has to be found within so many seeds.
MAX_SEEDS = 20

# How many runs may be used to make the plan of a failing seed smaller.
SHRINKING = 60

# How much processor time one run may take, in seconds, and how long it may take by the clock.
PROCESSOR_LIMIT, LIMIT = 240, 3600

# What a run needs in addition to Go.
SOURCES = ("github.com/hashicorp/memberlist", "github.com/hashicorp/serf/coordinate")


class Run:
    """What a run of a seed found: the broken promises, the counts of its last line, and what it printed if it ended otherwise."""

    def __init__(self, violations, counts, crash):
        self.violations, self.counts, self.crash = violations, counts, crash

    @property
    def is_broken(self):
        return bool(self.violations or self.crash)

    @property
    def promise(self):
        """The name of the first promise that was broken."""
        return self.violations[0].split(" s: ")[1].split(":")[0] if self.violations else "crash"

    @property
    def said(self):
        return "\n".join([*self.violations, self.crash][:6])


def limit_processor():
    """Ends a run by SIGXCPU if it hangs. The load of the machine doesn't change how much processor time it takes."""
    resource.setrlimit(resource.RLIMIT_CPU, (PROCESSOR_LIMIT, resource.RLIM_INFINITY))


class Simulator:
    """The program, and a folder for what it writes."""

    def __init__(self, folder, program):
        self.folder, self.program, self.calls = folder, program, 0
        # (one processor, and no thread that is taken away from a goroutine by measured time)
        self.env = dict(os.environ, GOMAXPROCS="1", GODEBUG="asyncpreemptoff=1", GOTRACEBACK="all")

    def run(self, seed, *words):
        """Plays a seed."""
        handle, out = tempfile.mkstemp(dir=self.folder)
        os.close(handle)
        crash = ""
        try:
            result = subprocess.run(
                [self.program, "-seed", str(seed), "-out", out, *words], env=self.env, stdin=subprocess.DEVNULL,
                stdout=subprocess.DEVNULL, stderr=subprocess.PIPE, timeout=LIMIT, preexec_fn=limit_processor,
            )
            if result.returncode not in (0, 1):
                crash = f"the program ended with status {result.returncode}: {without_headers(result.stderr)}"
        except subprocess.TimeoutExpired:
            crash = f"the program ran for more than {LIMIT} seconds"
        with open(out, encoding="utf-8", errors="replace") as file:
            lines = file.read().splitlines()
        os.remove(out)
        ends = [line.split()[1:] for line in lines if line.startswith("end ")]
        counts = dict(zip(ends[0][::2], ends[0][1::2])) if ends else {}
        violations = [line.split(" ", 1)[1] for line in lines if line.startswith("violation ")]
        return Run(violations, counts, crash or ("" if ends or violations else "the run has no end"))

    def steps(self, seed, *words):
        """The steps of a seed, each as a line."""
        out = os.path.join(self.folder, "steps")
        subprocess.run([self.program, "-seed", str(seed), "-out", out, "-steps", *words], env=self.env, check=True)
        with open(out, encoding="utf-8") as file:
            return [line.split(" ", 1)[1] for line in file.read().splitlines()]


def without_headers(text):
    """What a program in virtual time wrote to standard error. Each write has a header of 16 bytes."""
    parts = text.split(b"\0\0PB")
    return b"".join(part[12:] if at else part for at, part in enumerate(parts)).decode("utf-8", "replace")[:3000]


class Smaller:
    """A failing seed that is made smaller: fewer nodes and fewer steps that break the same promise."""

    def __init__(self, simulator, seed, words, promise):
        self.simulator, self.seed, self.words, self.promise, self.left = simulator, seed, words, promise, SHRINKING
        self.steps, self.without, self.first = simulator.steps(seed, *words), set(), 0

    def options(self, without, first):
        found = ["-without", ",".join(map(str, sorted(without)))] if without else []
        return found + (["-first", str(first)] if first else [])

    def still_breaks(self, without, first):
        if self.left == 0:
            return False
        self.left -= 1
        run = self.simulator.run(self.seed, *self.words, "-stop", *self.options(without, first))
        return run.is_broken and run.promise == self.promise

    def shrink(self):
        """Drops nodes, and then steps: first half of them at once, and less and less."""
        for first in (2, 3, 4):
            if self.still_breaks(self.without, first):
                self.first = first
                break
        kept = [int(step.split()[0]) for step in self.steps]
        size = (len(kept) + 1) // 2
        while size and self.left:
            for at in range(0, len(kept), size):
                dropped = set(kept[at : at + size])
                if dropped and not dropped <= self.without and self.still_breaks(self.without | dropped, self.first):
                    self.without |= dropped
            kept = [number for number in kept if number not in self.without]
            size = size // 2 if size < len(kept) else (len(kept) + 1) // 2 if size > 1 else 0
        return self

    def __str__(self):
        left = [step for step in self.steps if int(step.split()[0]) not in self.without]
        words = " ".join([*self.words, *self.options(self.without, self.first)])
        return f"cluster -seed {self.seed} {words}\n" + "\n".join(left[:40])


def recorded_run(count, simulator, seed, *words):
    """Plays a seed, and checks that its records are attested if it breaks no promise. (In a run of an hour, a life may be too long for that.)"""
    with tempfile.TemporaryDirectory(dir=simulator.folder) as records:
        run = simulator.run(seed, *words, "-record", records)
        if run.is_broken or not os.path.exists(checks.PROGRAM):
            return run
        status, output = attestation.attest(records, LOGS)
        if TOO_LONG in output:
            print(f"seed {seed}: {output.strip()}", flush=True)
        else:
            count.check(f"the records of seed {seed} are attested", status == 0, output)
    return run


def check_seed(count, simulator, seed, words, log=()):
    """Plays a seed. If it breaks a promise, it is made smaller, and what remains is printed."""
    run = recorded_run(count, simulator, seed, *words, *log)
    seen = run.said
    if run.is_broken:
        seen = f"{seen}\nsmaller: {Smaller(simulator, seed, words, run.promise).shrink()}"
    count.check(f"seed {seed} breaks no promise", not run.is_broken, seen)
    return run


def check_records(count, simulator):
    """A run with records writes the same log as one without. Its records are attested, and those of a wrong body aren't."""
    words = ["-length", "1m"]
    with tempfile.TemporaryDirectory(dir=simulator.folder) as records:
        runs = [simulator.run(TWICE, *words, *more) for more in ([], ["-record", records])]
        count.check("records change nothing in a run", runs[0].counts == runs[1].counts, [run.counts for run in runs])
        attestation.check_attested(count, records, LOGS)
    if not os.path.exists(checks.PROGRAM):
        return
    with tempfile.TemporaryDirectory(dir=simulator.folder) as records:
        simulator.run(1, "-planted", NOT_ATTESTED, *words, "-record", records)
        status, output = attestation.attest(records)
        count.check(f"the records of {NOT_ATTESTED} aren't attested", status == 1 and output.startswith("not attested: "), output)


def check_log(count, simulator, seed):
    """Two runs of one seed write the same log."""
    logs = [os.path.join(simulator.folder, f"log{number}") for number in (1, 2)]
    for log in logs:
        simulator.run(seed, "-length", LENGTH, "-log", log)
    texts = []
    for log in logs:
        with open(log, "rb") as file:
            texts.append(file.read())
    count.check(f"two runs of seed {seed} write the same log", texts[0] == texts[1] and len(texts[0]) > 100_000, list(map(len, texts)))


def seeds_for(name, from_first):
    """The seeds with which a wrong body is played: the one that found it, and then the others."""
    every = range(1, MAX_SEEDS + 1)
    first = planted.SEEDS.get(name, 1)
    return every if from_first else [first, *(seed for seed in every if seed != first)]


def found(simulator, name, seeds):
    """The number of seeds until a wrong body breaks a promise, that seed, and the run; or None."""
    for number, seed in enumerate(seeds, 1):
        run = simulator.run(seed, "-length", planted.FAULTS[name].length, "-planted", name, "-stop")
        if run.is_broken:
            return number, seed, run
    return None


def check_planted(count, simulator, names, from_first):
    """Each wrong body breaks a promise within so many seeds."""

    def play(name):
        return name, found(simulator, name, seeds_for(name, from_first))

    with ThreadPoolExecutor(jobs()) as pool:
        for name, seen in pool.map(play, names):
            count.check(f"planted: {planted.FAULTS[name].what} It is found within {MAX_SEEDS} seeds", seen is not None)
            if from_first and seen:
                number, seed, run = seen
                print(f"| {name} | {planted.FAULTS[name].what} | `{run.promise}` | {number} |", flush=True)


def jobs():
    return len(os.sched_getaffinity(0))


def play_hours(count, simulator, hours, length, workers):
    """Plays new seeds until the clusters have lived so many hours together, and prints the sums."""
    sums, began, first = {}, time.time(), random.SystemRandom().randrange(1 << 32)
    lived, next_seed = 0.0, first

    def play(seed):
        return seed, recorded_run(count, simulator, seed, "-length", length)

    with ThreadPoolExecutor(workers) as pool:
        while lived < hours:
            for seed, run in pool.map(play, range(next_seed, next_seed + workers)):
                count.check(f"seed {seed} breaks no promise", not run.is_broken, run.said)
                for name in ("nodes", "lives", "failures", "accepted", "handed", "packets", "seconds"):
                    sums[name] = sums.get(name, 0) + int(run.counts.get(name, 0))
                sums["node hours"] = sums.get("node hours", 0) + int(run.counts.get("nodes", 0)) * int(run.counts.get("seconds", 0)) / 3600
            next_seed += workers
            lived = sums["seconds"] / 3600
    print(f"{next_seed - first} seeds from {first}, {lived:.1f} hours of clusters, {sums}; "
          f"{checks.processor_seconds():.0f} processor seconds, {time.time() - began:.0f} seconds")


def missing():
    """What the simulation needs and this machine doesn't have, or None."""
    if shutil.which("go") is None:
        return "go is not on PATH"
    for source in SOURCES:
        if not os.path.isdir(os.path.join(build.GOCODE, "src", source)):
            return f"{source} is missing"
    return None


def new_seeds(count):
    """Seeds that the commit's hash selects, so that a run of the same commit plays the same ones; without a commit, random ones."""
    commit = evidence.commit()
    if commit is None:
        return [random.SystemRandom().randrange(1 << 32) for _ in range(count)]
    return [int(hashlib.sha256(f"{commit} {number}".encode()).hexdigest()[:8], 16) for number in range(count)]


def play(count, simulator, asked):
    if asked.hours:
        play_hours(count, simulator, asked.hours, asked.length, asked.jobs)
    elif asked.planted:
        check_planted(count, simulator, [asked.planted], True)
    elif asked.all:
        check_planted(count, simulator, planted.FAULTS, True)
    elif asked.seed is not None:
        words = ["-length", asked.length] + (["-nodes", str(asked.nodes)] if asked.nodes else [])
        log = ["-log", os.path.abspath(asked.log)] if asked.log else []
        print(check_seed(count, simulator, asked.seed, words, log).counts)
    else:
        new = new_seeds(asked.new)
        with ThreadPoolExecutor(jobs()) as pool:
            list(pool.map(lambda seed: check_seed(count, simulator, seed, ["-length", LENGTH]), [*FIXED, *new]))
        check_log(count, simulator, TWICE)
        check_records(count, simulator)
        check_planted(count, simulator, [name for name in planted.FAULTS if name not in planted.SLOW], False)


def main():
    parser = argparse.ArgumentParser(description=__doc__, formatter_class=argparse.RawDescriptionHelpFormatter)
    parser.add_argument("--library")
    parser.add_argument("--over-ci", action="store_true")
    parser.add_argument("--seed", type=int)
    parser.add_argument("--log")
    parser.add_argument("--nodes", type=int)
    parser.add_argument("--length", default=LENGTH)
    parser.add_argument("--new", type=int, default=NEW)
    parser.add_argument("--planted", choices=planted.FAULTS)
    parser.add_argument("--all", action="store_true")
    parser.add_argument("--hours", type=float)
    parser.add_argument("--jobs", type=int, default=jobs())
    options = parser.parse_args()
    count = checks.Checks()
    lacks = missing()
    if lacks:
        print(f"not run: {lacks}")
        return count.finish()
    fault = None if options.library else c_library.fault_of_library(options.over_ci)
    if fault:
        count.check("the library is built", False, fault)
        return count.finish()
    with tempfile.TemporaryDirectory(prefix="simulation-") as folder:
        try:
            program, fault = build.build(folder, os.path.abspath(options.library or c_library.LIBRARY))
        except runtime_edits.OtherRelease as other:
            print(f"not run: {other}")
            return count.finish()
        count.check("the simulation is built", not fault, fault)
        if not fault:
            play(count, Simulator(folder, program), options)
    return count.finish()


if __name__ == "__main__":
    sys.exit(main())
