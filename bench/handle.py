"""handle.py BENCH [ROUNDS] [FOLDER..]: prints what a call through C's handle costs, compared with the same call in a Rattle program.

BENCH is serf_bench. It runs alternately with bench/embedding.c, which measures the same calls in the same way. After ROUNDS rounds
the script prints the minimum time of each line, and the ratio of the call through the handle to the other. In Rattle a call ends
when the agent has answered. Through the handle, the host has also read what the call left for the file, and the event. In each
FOLDER lines are flushed to a file. The library of crates/serf_agent_c has to be built.
"""

import os
import re
import sys
import tempfile

TOP = os.path.dirname(os.path.dirname(os.path.abspath(__file__)))
sys.path.insert(0, os.path.join(TOP, "tools"))
sys.dont_write_bytecode = True
import c_library

LINE = re.compile(r"^(.*): ([\d.]+) ns$", re.M)


def main():
    bench, rounds, folders = sys.argv[1], int((sys.argv[2:] or ["5"])[0]), sys.argv[3:]
    minimum = {}
    with tempfile.TemporaryDirectory() as folder:
        host = os.path.join(folder, "embedding")
        cc = os.environ.get("CC", "cc")
        status, said = c_library.ran(
            [cc, *c_library.STRICT, "-O2", "-o", host, os.path.join(TOP, "bench", "embedding.c"), c_library.STORE, c_library.LIBRARY]
        )
        for _ in range(rounds if status == 0 else 0):
            for words in ([bench, "agents"], [host, *folders]):
                status, said = c_library.ran(words)
                if status:
                    break
                for name, time in LINE.findall(said):
                    minimum[name] = min(float(time), minimum.get(name, float("inf")))
    if status:
        sys.exit(f"handle.py: {said[-500:]}")
    print(re.search(r"^handle: memory taken .*$", said, re.M)[0])
    for name, time in minimum.items():
        if name.startswith("handle: "):
            own = minimum.get(name[len("handle: ") :])
            print(f"{name}: {time:.1f} ns" + (f", and {own:.1f} ns from Rattle: {time / own:.2f} times" if own else ""))


main()
