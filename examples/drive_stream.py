#!/usr/bin/env python3
"""drive_stream.py [PROGRAM]: drives `serf-replay replay --stream` from a program, and reads the result of each line.

A trace doesn't mark the end of a turn. So the program sends, after each action, another one that is refused because it names an
agent that doesn't exist. The lines before its `refused NoAgent` belong to the action. The refused one counts as an action too, so
the program's own actions have the odd numbers.
"""

import argparse
import subprocess
import sys

# An action that is always refused, because no agent has this number.
REFUSED_ACTION = b"deliver 18446744073709551615 0 0\n"


class Stream:
    def __init__(self, program, agents):
        self.process = subprocess.Popen([program, "replay", "--stream"], stdin=subprocess.PIPE, stdout=subprocess.PIPE)
        self.process.stdin.write(agents)
        self.actions = 0

    def send_action(self, line):
        """Sends the line of an action, and returns the trace's lines for it."""
        self.process.stdin.write(line + b"\n" + REFUSED_ACTION)
        self.process.stdin.flush()
        self.actions += 2
        trace_lines = []
        while (trace_line := self.process.stdout.readline()) != b"%d refused NoAgent\n" % self.actions:
            if not trace_line:
                raise EOFError("the stream ended because a line was bad; see standard error")
            trace_lines.append(trace_line)
        return trace_lines


def main():
    words = argparse.ArgumentParser(description=__doc__, formatter_class=argparse.RawDescriptionHelpFormatter)
    words.add_argument("program", nargs="?", default="serf-replay", metavar="PROGRAM", help="the program to drive (default: serf-replay)")
    stream = Stream(words.parse_args().program, b"agent 61 4 4 512 8 keep\nagent 62 4 4 512 8 keep\n")
    for line in (b"fire 0 6465706c6f79 7631 0", b"deliver 1 0 0", b"deliver 1 0 0"):
        sys.stdout.buffer.writelines(stream.send_action(line))
    stream.process.stdin.close()
    return stream.process.wait()


if __name__ == "__main__":
    sys.exit(main())
