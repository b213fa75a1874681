"""beside_rust.py PROGRAM: replays schedules with the program and with `same_duties`, which is plain Rust that proves nothing.

Both run alternately on the same schedule, and have to write the same trace. It prints a line for each schedule: the minimum time of
both in nanoseconds per action, including the start of the process, and the ratio of the program's time to the other. It needs
`rustc`.

Then it measures merges of a state whose events were all seen, in microseconds each: for the program, as the difference between a
schedule with the merges and one without; and for `same_duties/merge.rs`, on the same state, in its own process.
"""

import os
import subprocess
import sys
import tempfile
import time

BENCH = os.path.dirname(os.path.abspath(__file__))
sys.path.insert(0, BENCH)
sys.dont_write_bytecode = True
import schedules

ROUNDS = 7

SCHEDULES = {
    "100 agents get 100 events again and again": ("deliveries", 6_000_000),
    "firings, each delivered once": ("run", 200_000),
    "events of ever newer times": ("newer_times", 200_000),
}


# The number of merges, by the number of events of one time in each of the 512 slots.
MERGES = {1: 4000, 32: 200}


def filling(per_time):
    """Two agents. One of them receives the events of 512 times, and then sends its state."""
    yield "".join(f"agent {0x61 + n:02x} 512 512 512 8 keep\n" for n in range(2))
    for n in range(512 * per_time):
        packet = schedules.event(1 + n // per_time, b"v%d" % (n % per_time))
        yield f"inject {packet.hex()}\ndeliver 0 {2 * n} 0\n"
    yield "state 0\n"


def run(words):
    """Runs a command. Returns the nanoseconds that it took, and its output."""
    start = time.perf_counter_ns()
    ran = subprocess.run(words, stdout=subprocess.PIPE, check=True)
    return time.perf_counter_ns() - start, ran.stdout


def minimum(commands):
    """Runs the commands alternately. Returns the minimum time of each."""
    times = [[] for _ in commands]
    for _ in range(ROUNDS):
        traces = set()
        for command, took in zip(commands, times):
            nanoseconds, trace = run(command)
            took.append(nanoseconds)
            traces.add(trace)
        if len(traces) != 1:
            sys.exit("beside_rust.py: the traces differ")
    return map(min, times)


def built(work, name):
    """Compiles a program of `same_duties`. Returns its path."""
    path = os.path.join(work, name)
    source = os.path.join(BENCH, "same_duties", f"{name}.rs")
    subprocess.run(["rustc", "--edition", "2021", "-O", "-C", "codegen-units=1", "-o", path, source], check=True)
    return path


def write(work, name, lines):
    path = os.path.join(work, name)
    with open(path, "w", encoding="utf-8") as file:
        file.writelines(lines)
    return path


def state_of(program, schedule):
    """The last packet, in hex, that is sent in the trace of a run."""
    trace = subprocess.run([program, "replay", schedule], stdout=subprocess.PIPE, check=True).stdout.decode()
    return [line.split()[3] for line in trace.splitlines() if " sent " in line][-1]


def compare_merges(program, work, per_time, count):
    """The microseconds of a merge by the program and in plain Rust: the minimum of each, from alternate runs."""
    lines = list(filling(per_time))
    before = write(work, "before", lines)
    after = write(work, "after", [*lines, f"merge 1 {1024 * per_time} sync\n" * (count + 1)])
    once = write(work, "once", [*lines, f"merge 1 {1024 * per_time} sync\n"])
    plain = [built(work, "merge"), str(count), write(work, "packet", [state_of(program, before)])]
    with_all, with_one, theirs = [], [], []
    for _ in range(ROUNDS):
        with_all.append(run([program, "replay", after])[0])
        with_one.append(run([program, "replay", once])[0])
        theirs.append(int(run(plain)[1].split()[0]))
    return (min(with_all) - min(with_one)) / count / 1000, min(theirs) / 1000


def main():
    program = os.path.abspath(sys.argv[1])
    with tempfile.TemporaryDirectory() as work:
        plain = built(work, "main")
        for name, (kind, size) in SCHEDULES.items():
            lines = list(schedules.KINDS[kind](size))
            schedule = write(work, "schedule", lines)
            actions = sum(not line.startswith("agent") for line in lines)
            ours, theirs = minimum([[program, "replay", schedule], [plain, schedule]])
            print(f"{name}: {ours / actions:.0f} ns an action, plain Rust {theirs / actions:.0f}: {ours / theirs:.2f} times", flush=True)
        for per_time, count in MERGES.items():
            ours, theirs = compare_merges(program, work, per_time, count)
            print(
                f"a merge of 512 slots that were seen, {per_time} events of a time: {ours:.1f} microseconds, plain Rust {theirs:.1f}: {ours / theirs:.2f} times",
                flush=True,
            )


main()
