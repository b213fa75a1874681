"""By hand, since it needs Go and Serf's sources: how many events a second reach a node of the package `serf` through memberlist, with the
guard and without it.

    tests/by_hand/guard_speed.py [--rounds N] [--minutes M] [--events N] [--on FOLDER] [--library FOLDER]

`bindings/go/beside_serf/speed` runs in turns with the guard and with memberlist's own transport, so that the load of the machine is the
same for both, for so many rounds or minutes. Events a second are by the clock, and events per processor second by what sender and node
used together, on which the load has less influence. It fails if the median of either with the guard is below 95 in 100 of the one without.
"""

import argparse
import os
import resource
import statistics
import subprocess
import sys
import tempfile
import time

sys.path.insert(0, os.path.dirname(os.path.abspath(__file__)))
sys.dont_write_bytecode = True
import agent_cluster_kit as kit
import c_library
import serf_package

SPEED = os.path.join(kit.TOP, "bindings", "go", "beside_serf", "speed", "main.go")

# The minimum share of the speed without the guard.
MIN_RATIO = 0.95

KINDS = {"with the guard": {}, "without": {"SPEED_PLAIN": "1"}}


def arguments():
    parser = argparse.ArgumentParser(description=__doc__, formatter_class=argparse.RawDescriptionHelpFormatter)
    parser.add_argument("--rounds", type=int, default=60)
    parser.add_argument("--minutes", type=float, default=3)
    parser.add_argument("--events", type=int, default=100000)
    parser.add_argument("--on", default=".")
    parser.add_argument("--library")
    return parser.parse_args()


def run_events(program, own, events, more):
    """Events a second by the clock, and events per processor second."""
    before = resource.getrusage(resource.RUSAGE_CHILDREN)
    said = subprocess.run([program, own, str(events)], check=True, stdout=subprocess.PIPE, text=True, env={**os.environ, **more}).stdout
    after = resource.getrusage(resource.RUSAGE_CHILDREN)
    return float(said.split()[2]), events / (after.ru_utime + after.ru_stime - before.ru_utime - before.ru_stime)


def main():
    asked = arguments()
    missing = kit.missing_command(["go"])
    if missing:
        sys.exit(f"it needs {missing}")
    fault = None if asked.library else c_library.fault_of_library()
    if fault:
        sys.exit(f"the library: {fault}")
    found = {what: {kind: [] for kind in KINDS} for what in ("by the clock", "of the processor")}
    with tempfile.TemporaryDirectory(dir=asked.on) as own, tempfile.TemporaryDirectory() as folder:
        program = os.path.join(folder, "speed")
        library = os.path.join(asked.library or os.path.dirname(c_library.LIBRARY), "libserf_agent_c.a")
        subprocess.run(
            ["go", "build", "-o", program, SPEED], check=True, env=serf_package.laid(folder, os.path.abspath(library)), cwd=folder
        )
        end = time.monotonic() + 60 * asked.minutes
        for number in range(asked.rounds):
            if time.monotonic() > end:
                break
            for kind in list(KINDS)[:: 1 if number % 2 else -1]:
                for of_what, one in zip(found.values(), run_events(program, own, asked.events, KINDS[kind])):
                    of_what[kind].append(one)
            print(
                f"load {os.getloadavg()[0]:.0f}: "
                + "; ".join(
                    f"{what} {', '.join(f'{kind} {all_of_kind[-1]:,.0f}' for kind, all_of_kind in of_what.items())}"
                    for what, of_what in found.items()
                ),
                flush=True,
            )
    good = [print_comparison(what, *of_what.values()) >= MIN_RATIO for what, of_what in found.items()]
    print("passed" if all(good) else "FAILED")
    return 0 if all(good) else 1


def print_comparison(what, guarded, plain):
    """Prints events a second with the guard and without: returns the share of the medians."""
    for kind, all_of_kind in zip(KINDS, (guarded, plain)):
        print(
            f"{what}, {kind}: {statistics.median(all_of_kind):,.0f} events a second, the median of {len(all_of_kind)}; {min(all_of_kind):,.0f} to {max(all_of_kind):,.0f}"
        )
    share = statistics.median(guarded) / statistics.median(plain)
    print(f"{what}: of the medians {share:.3f}; of the rounds the median {statistics.median(a / b for a, b in zip(guarded, plain)):.3f}")
    return share


if __name__ == "__main__":
    sys.exit(main())
