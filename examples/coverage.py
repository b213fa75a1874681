#!/usr/bin/env python3
"""coverage.py [--every NANOSECONDS | --events] [SCHEDULE [PROGRAM]]: prints, as CSV, the progress of a schedule's run at each mark.
With --events it prints how far each event spread.

Without SCHEDULE, or if it is `-`, the schedule is read from standard input. A mark is a comment in it, a line `# mark TEXT`, which
`serf-replay` ignores. With --every there is also a mark before the first `deliver` of each interval of this length: 200000000 is a
round of `serf-replay random --kind rounds`.

A row has the numbers before its mark: the actions, the events handed out, the different events among these, those that every
agent was handed, and the packets that were ignored for each reason. The last row, `end`, is for the whole run.
"""

import argparse
import csv
import subprocess
import sys
import tempfile

REASONS = (
    *("Oversize", "BelowMinimum", "TooOld", "Seen", "TimeFull"),
    *("NotOpen", "OtherId", "Closed", "AckNotAsked", "AckTwice", "ResponseTwice"),
)

OF_EVENTS = ["time", "name", "payload", "agents", "first", "half", "nine_tenths", "last"]


def marks_of(schedule, every):
    """The number of agents in a schedule; its marks, each with the number of actions before it and its text; and the actions' moments."""
    agents, actions, span, marks, moments = 0, 0, -1, [], [0]
    for line in schedule.decode(errors="replace").split("\n"):
        words = line.split()
        if line.startswith("# mark "):
            marks.append((actions, line.removeprefix("# mark ").strip()))
        if not words or line.startswith("#"):
            continue
        if words[0] == "agent":
            agents += 1
            continue
        if every and words[0] == "deliver" and int(words[3]) // every > span:
            span = int(words[3]) // every
            marks.append((actions, str(span * every)))
        actions += 1
        has_moment = words[0] == "deliver" and len(words) == 4 and words[3].isdigit()
        moments.append(int(words[3]) if has_moment else moments[-1])
    return agents, [*marks, (actions, "end")], moments


def read(path):
    """The bytes of a schedule in a file, or on standard input."""
    if path == "-":
        return sys.stdin.buffer.read()
    with open(path, "rb") as file:
        return file.read()


class Run:
    """The state of a run, from the lines of its trace so far."""

    def __init__(self, agents):
        self.agents = agents
        self.handed = {}
        self.ignored = dict.fromkeys(REASONS, 0)

    def add_line(self, words):
        """Counts a line of the trace."""
        if words[1] == "event":
            self.handed.setdefault(tuple(words[3:6]), {}).setdefault(words[2], int(words[0]))
        elif words[1] == "ignored":
            self.ignored[words[2]] += 1

    def row(self, mark, actions):
        """The row of a mark, after so many actions."""
        everywhere = sum(len(hand_outs) == self.agents for hand_outs in self.handed.values())
        return [mark, actions, sum(map(len, self.handed.values())), len(self.handed), everywhere, *self.ignored.values()]

    def events(self, moments):
        """The row of each event: when the first agent, half of the agents and so on had it."""
        for event, hand_outs in self.handed.items():
            times = sorted(moments[action] for action in hand_outs.values())
            shares = [times[0], *(times[-(-len(times) * tenths // 10) - 1] for tenths in (5, 9)), times[-1]]
            yield [*event, len(hand_outs), *shares]


def main():
    parser = argparse.ArgumentParser(description=__doc__, formatter_class=argparse.RawDescriptionHelpFormatter)
    output_kind = parser.add_mutually_exclusive_group()
    output_kind.add_argument("--every", type=int, metavar="NANOSECONDS")
    output_kind.add_argument("--events", action="store_true")
    parser.add_argument("schedule", nargs="?", default="-")
    parser.add_argument("program", nargs="?", default="serf-replay")
    options = parser.parse_args()
    schedule = read(options.schedule)
    agents, marks, moments = marks_of(schedule, options.every)
    if options.events:
        marks = []
    writer, run = csv.writer(sys.stdout, lineterminator="\n"), Run(agents)
    writer.writerow(OF_EVENTS if options.events else ["mark", "actions", "handed_out", "events", "everywhere", *REASONS])
    with tempfile.TemporaryFile() as input_file:
        # The program reads a file, not a pipe, so that the two processes can't wait for each other.
        input_file.write(schedule)
        input_file.seek(0)
        with subprocess.Popen([options.program, "replay", "--stream"], stdin=input_file, stdout=subprocess.PIPE, text=True) as replay:
            for line in replay.stdout:
                words = line.split()
                while marks and marks[0][0] < int(words[0]):
                    writer.writerow(run.row(marks[0][1], marks[0][0]))
                    del marks[0]
                run.add_line(words)
    if replay.returncode == 0:
        writer.writerows(run.row(text, actions) for actions, text in marks)
        writer.writerows(run.events(moments) if options.events else [])
    return replay.returncode


if __name__ == "__main__":
    sys.exit(main())
