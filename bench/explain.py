"""explain.py PROGRAM: compares `explain` and `explain --stream` with `replay`, on schedules of deliveries, firings and merges.

It runs them alternately. For each schedule it prints the minimum processor seconds of five runs, the peak of the resident set in MB
of 1,000,000 bytes, and the ratios of these to the figures of `replay`. `explain` writes a line for each event of a merged state, so
the ratio of the bytes that it writes is also printed.
"""

import os
import sys
import tempfile

sys.path.insert(0, os.path.dirname(os.path.abspath(__file__)))
sys.dont_write_bytecode = True
from schedules import event

RUNS = 5


def agents(count):
    return "".join(f"agent {0x61 + n:02x} 512 512 512 8 keep\n" for n in range(count))


def fire(n):
    return f"fire 0 6465706c6f79 {(b'v%d' % (n % 32)).hex()} 0\n"


def fresh(count, per_time):
    """`count` new events, `per_time` of each time, each delivered once. Each is also sent on, so the numbers of the injected packets
    are even."""
    for n in range(count):
        yield f"inject {event(1 + n // per_time, b'v%d' % (n % per_time)).hex()}\ndeliver 0 {2 * n} 0\n"


def new(per_time):
    yield agents(1)
    yield from fresh(100_000, per_time)


def seen(per_time):
    """Deliveries of events of 512 times that were all seen before."""
    count = 512 * per_time
    yield agents(1)
    yield from fresh(count, per_time)
    yield from (f"deliver 0 {2 * (n % count)} 0\n" for n in range(400_000))


def spread():
    """2,000 firings, each delivered ten times to each of ten agents."""
    yield agents(10)
    for n in range(2000):
        yield fire(n)
        yield from (f"deliver {agent} {10 * n} 0\n" for _ in range(10) for agent in range(10))


def firings():
    yield agents(1)
    yield from map(fire, range(200_000))


def merges():
    """2,000 merges of a state of 512 slots."""
    yield agents(2)
    yield from fresh(512, 1)
    yield "state 0\n"
    yield from ["merge 1 1024 sync\n"] * 2000


SCHEDULES = {
    "2,000 events, each delivered ten times to ten agents": spread(),
    "400,000 seen events, 1 a time": seen(1),
    "400,000 seen events, 32 a time": seen(32),
    "100,000 new events, 1 a time": new(1),
    "100,000 new events, 32 a time": new(32),
    "200,000 firings": firings(),
    "2,000 merges of 512 slots": merges(),
}


# The commands that run alternately.
WAYS = (["replay"], ["explain"], ["explain", "--stream"])


def cost(program, words, given):
    """The processor seconds, the peak of the resident set and the bytes written of a run."""
    with tempfile.TemporaryFile() as out:
        given.seek(0)
        actions = [(os.POSIX_SPAWN_DUP2, given.fileno(), 0), (os.POSIX_SPAWN_DUP2, out.fileno(), 1)]
        child = os.posix_spawn(program, [program, *words, "-"], os.environ, file_actions=actions)
        _, status, usage = os.wait4(child, 0)
        if status != 0:
            sys.exit(f"explain.py: {words} ended with status {os.waitstatus_to_exitcode(status)}")
        return usage.ru_utime + usage.ru_stime, usage.ru_maxrss * 1024, os.fstat(out.fileno()).st_size


def main():
    program = sys.argv[1]
    for name, lines in SCHEDULES.items():
        with tempfile.TemporaryFile() as given:
            given.writelines(line.encode() for line in lines)
            given.flush()
            runs = [[cost(program, words, given) for words in WAYS] for _ in range(RUNS)]
        (plain, small, short), *told = ([min(of) for of in zip(*way)] for way in zip(*runs))
        line = f"{name}: replay {plain:.2f} s, {small / 1e6:.1f} MB"
        for words, (time, large, long) in zip(WAYS[1:], told):
            line += f"; {' '.join(words)} {time:.2f} s, {large / 1e6:.1f} MB, {time / plain:.1f} times the time, {large / small:.1f} times the memory"
        print(f"{line}; {long / short:.1f} times the bytes", flush=True)


main()
