"""By hand: how many wrong bodies of the Python agent the random schedules find, and how few calls show them.

    tests/by_hand/switches.py [SEEDS]

`conform --random SEEDS --shrink` (1-200 if left out) tries each switch of conformance/python. The script prints the seed that
finds each and how many calls are left of it, the names of those that no seed finds, how many are found, and the median of
the calls. It fails if fewer than 97 of 100 are found, if the median is above 6, or if a shortened schedule
doesn't show the switch again.
"""

import os
import re
import statistics
import sys
import tempfile
from concurrent.futures import ThreadPoolExecutor

sys.dont_write_bytecode = True
sys.path.insert(0, os.path.dirname(os.path.dirname(os.path.abspath(__file__))))
import checks
from piped_agents import PYTHON_AGENT, compare

sys.path.insert(0, os.path.dirname(PYTHON_AGENT))
from serf_agent import switches

# At least so many of 100 switches have to be found.
FOUND = 97

# The median of the calls that are left may be at most this.
CALLS = 6


class Found:
    """The result for a switch: the seed that finds it, or None; the report; how many calls are left, or None."""

    def __init__(self, name, seeds, path):
        agent = [sys.executable, PYTHON_AGENT, "--wrong", name]
        status, self.report = compare(["--random", seeds, "--shrink", "--save", path], agent, checks.COMMAND)
        seed = re.match(r"seed (\d+): ", self.report)
        self.seed = int(seed.group(1)) if status in (1, 3) and seed else None
        left = re.search(r"^shrunk to (\d+) of ", self.report, re.M)
        self.calls = int(left.group(1)) if left else None
        self.again = left is None or compare([path], agent, checks.COMMAND)[0] == 1

    def said(self):
        if self.seed is None:
            return "not found: " + self.report.strip()
        left = "not shrunk" if self.calls is None else f"{self.calls} calls"
        return f"seed {self.seed}, {left}" + ("" if self.again else ", WHICH DON'T SHOW IT AGAIN")


def main(words):
    seeds = words[0] if words else "1-200"
    elsewhere = (*switches.ONLY_BY_LIMITS, *switches.ONLY_BY_KEEPING, *switches.ONLY_BY_HANDLER_LINES)
    names = [name for name in switches.SWITCHES if name not in elsewhere]
    with tempfile.TemporaryDirectory() as folder, ThreadPoolExecutor(os.cpu_count() or 1) as pool:
        founds = list(pool.map(lambda name: Found(name, seeds, os.path.join(folder, name)), names))
    for name, one in zip(names, founds):
        print(f"{name}: {one.said()}")
    count = sum(one.seed is not None for one in founds)
    print(
        f"{count} of {len(names)} switches are found by seeds {seeds}; not {', '.join(name for name, one in zip(names, founds) if one.seed is None) or 'one is missed'}"
    )
    calls = sorted(one.calls for one in founds if one.calls is not None)
    median = statistics.median(calls) if calls else 0
    print(f"of {len(calls)} shrunk schedules the median has {median} calls, the longest {max(calls, default=0)}")
    holds = 100 * count >= FOUND * len(names) and calls and median <= CALLS and all(one.again for one in founds)
    print(f"{int(bool(holds))} passed, {int(not holds)} failed")
    return 0 if holds else 1


if __name__ == "__main__":
    sys.exit(main(sys.argv[1:]))
