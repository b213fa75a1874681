#!/usr/bin/env python3
"""An agent behind the pipe: it reads calls on standard input and writes replies to standard output (docs/SPEC.md).

    agent.py [--wrong NAME].. [--list]

--wrong makes one of its bodies wrong, and --list prints the names of these bodies, each with what is then wrong.
"""

import argparse
import os
import sys

sys.dont_write_bytecode = True
sys.path.insert(0, os.path.dirname(os.path.abspath(__file__)))

from serf_agent import pipe, switches


def main():
    words = argparse.ArgumentParser(description=__doc__, formatter_class=argparse.RawDescriptionHelpFormatter)
    words.add_argument("--wrong", action="append", default=[], metavar="NAME")
    words.add_argument("--list", action="store_true")
    asked = words.parse_args()
    if asked.list:
        for name, meaning in switches.SWITCHES.items():
            print(f"{name}: {meaning}")
        return 0
    for name in asked.wrong:
        switches.choose(name)
    pipe.serve(sys.stdin.buffer, sys.stdout.buffer)
    return 0


if __name__ == "__main__":
    sys.exit(main())
