"""The tests of tests/library/units: the libraries' calls with values from outside, and what no clause says.

They make a scratch crate outside the repository, over its crates' sources. `rt try --test` compiles it once, without a
proof, and runs each test in a separate process.
"""

import os
import re
import sys

sys.dont_write_bytecode = True
sys.path.insert(0, os.path.dirname(os.path.dirname(os.path.abspath(__file__))))
import checks
import scratch

UNITS = os.path.join(checks.TOP, "tests", "library", "units")

USES = [
    "serf_lamport",
    "serf_pack",
    "serf_wire",
    "serf_snapshot",
    "serf_store",
    "serf_text",
    "serf_window",
    "serf_agent",
    "serf_model",
    "serf_world",
    "serf_schedule",
    "serf_explain",
    "serf_replay",
    "serf_judge",
]

TEST = re.compile(r"^test (\S+) \.\.\. (.+)$")


def written():
    """How many tests the sources have."""
    count = 0
    for file in os.listdir(UNITS):
        with open(os.path.join(UNITS, file), encoding="utf-8") as text:
            count += len(re.findall(r"^\s*#\[test\]$", text.read(), re.M))
    return count


def outcomes(said):
    """Each test that ran, its result, and the lines after that."""
    ran, own = {}, []
    for line in said.splitlines():
        found = TEST.match(line)
        if found:
            own = []
            ran[found[1]] = found[2], own
        elif line.startswith("test result: "):
            own = []
        else:
            own.append(line)
    return ran


def units(count):
    with scratch.crate("units", USES) as source:
        scratch.copy_sources(UNITS, source)
        status, output = scratch.run_tests(source)
    ran = outcomes(output)
    for name, (how, lines) in ran.items():
        count.check(name, how == "ok", "\n".join(lines))
    if len(ran) != written():
        count.check("each test of the sources ran", False, f"{len(ran)} tests ran, and the sources have {written()}")
    if status != 0 and not count.failed:
        count.check("rt try", False, f"it ended with status {status}: {output[-1400:]}")


if __name__ == "__main__":
    sys.exit(checks.run(units))
