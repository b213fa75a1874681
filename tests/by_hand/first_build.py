"""By hand, since it takes as long as the build: the first call of a fresh clone, ./prove, and that the proved program
runs after that.

    tests/by_hand/first_build.py [SECONDS]

It fails if the build takes more than so many seconds (900 if left out, on four processors), or the first call more
than 120.
"""

import os
import subprocess
import sys
import tempfile
import time

TOP = os.path.dirname(os.path.dirname(os.path.dirname(os.path.abspath(__file__))))
EXAMPLE = os.path.join("examples", "deploy_gossiped_twice")


def main(words):
    maximum = int(words[0]) if words else 900
    with tempfile.TemporaryDirectory(prefix="first-build-") as root:
        top = os.path.join(root, "clone")
        subprocess.run(["git", "clone", "--quiet", TOP, top], check=True)
        began = time.monotonic()
        subprocess.run(["./serf-replay", "replay", EXAMPLE + ".schedule"], cwd=top, capture_output=True)
        first = time.monotonic() - began
        print(f"the first call took {first:.0f} seconds", flush=True)
        began = time.monotonic()
        built = subprocess.run(["./prove"], cwd=top).returncode
        took = time.monotonic() - began
        result = subprocess.run(["./serf-replay", "replay", EXAMPLE + ".schedule"], cwd=top, capture_output=True)
        with open(os.path.join(top, EXAMPLE + ".trace"), "rb") as trace:
            runs = (result.returncode, result.stdout, result.stderr) == (0, trace.read(), b"")
    results = [
        ("the program is built", built == 0),
        ("the proved program runs", runs),
        ("the first call within 120 seconds", first <= 120),
        (f"within {maximum} seconds", took <= maximum),
    ]
    for name, holds in results:
        if not holds:
            print(f"FAILED {name}")
    print(f"./prove took {took:.0f} seconds on {os.cpu_count()} processors")
    failed = sum(not holds for _, holds in results)
    print(f"{len(results) - failed} passed, {failed} failed")
    return 1 if failed else 0


if __name__ == "__main__":
    sys.exit(main(sys.argv[1:]))
