"""The order of errors that docs/SPEC.md has, checked on the program: for each pair of errors that one action can have at
once, a schedule whose last action has both.
"""

import os
import re
import sys

sys.dont_write_bytecode = True
sys.path.insert(0, os.path.dirname(os.path.dirname(os.path.abspath(__file__))))
import checks
from one_agent import AGENT, ASK, BREAK, FIRE, MAX_UINT64, answers, deliver, event, merge, query, rows_of, state

EXHAUSTED = deliver(event(MAX_UINT64 - 1))
EXHAUSTED_QUERIES = deliver(query(MAX_UINT64 - 1))
LARGE = "fire 78 " + "00" * 600 + " 0"

# For each pair of errors that one action can have at once, the calls, the last of which has both.
STOP = [BREAK, FIRE]
PAIRS = {
    ("fire", "Stopped", "TooLarge"): [*STOP, LARGE],
    ("fire", "TooLarge", "Exhausted"): [EXHAUSTED, LARGE],
    ("fire", "Exhausted", "SinkFault"): [EXHAUSTED, BREAK, FIRE],
    ("query", "Stopped", "TooLarge"): [*STOP, "query 0 1 71 " + "00" * 1024 + " 50 0"],
    ("query", "TooLarge", "ZeroTimeout"): ["query 0 1 71 " + "00" * 1024 + " 0 0"],
    ("query", "ZeroTimeout", "Exhausted"): [EXHAUSTED_QUERIES, "query 0 1 71 - 0 0"],
    ("query", "Exhausted", "SinkFault"): [EXHAUSTED_QUERIES, BREAK, ASK],
    ("deliver", "Stopped", "Wire"): [*STOP, deliver(b"")],
    ("deliver", "NoMessage", "Stopped"): [*STOP, "deliver 99 0"],
    ("merge", "Stopped", "Wire"): [*STOP, merge(b"")],
    ("merge", "NoMessage", "Stopped"): [*STOP, "merge 99 sync"],
    ("respond", "NoQuery", "PastDeadline"): [ASK, "respond 0 100 -", "respond 0 151 -"],
    ("respond", "PastDeadline", "TooLarge"): [ASK, "respond 0 151 " + "00" * 1024],
    ("save", "Stopped", "SinkFault"): [merge(state(member=7)), *STOP, BREAK, "save"],
    ("compact", "Stopped", "SinkFault"): [*STOP, "break replace-old 1", "compact"],
}

# No schedule has a list or a text of 2^32 items or bytes.
OUT_OF_REACH = {("state", "Stopped", "TooLong")}

# Each action of an agent that doesn't exist.
NOBODY = {
    "fire": "fire 9 78 - 0",
    "query": "query 9 0 1 71 - 0 0",
    "deliver": "deliver 9 99 0",
    "merge": "merge 9 99 sync",
    "state": "state 9",
    "respond": "respond 9 0 0 -",
    "save": "save 9",
    "compact": "compact 9",
    "close": "close 9 0",
    "break": "break 9 append 1",
    "restart": "restart 9 -",
}


def orders():
    """The errors of each action, in the order that SPEC has."""
    page = checks.text_of("docs", "SPEC.md").partition("| Action | Its errors")[2].partition("\n\n")[0]
    for cells in rows_of(page):
        if cells[0].startswith("`"):
            for action in re.findall(r"`(\w+)`", cells[0]):
                yield action, re.findall(r"`(\w+)`", cells[1].partition(";")[0])


def order_of_faults(count):
    wanted = set(PAIRS) | OUT_OF_REACH
    for action, faults in orders():
        out = checks.run_program(["replay"], f"{AGENT}\n{NOBODY[action]}\n".encode())[1]
        count.check(f"{action}: {faults[0]} is first", out == b"1 refused NoAgent\n" and faults[0] == "NoAgent", out)
        for first, second in zip(faults[1:], faults[2:]):
            pair = (action, first, second)
            count.check(f"{pair}: has its case", pair in wanted, "none")
            wanted.discard(pair)
    count.check("each case has its pair on the page", not wanted, wanted)
    for (action, first, _), calls in PAIRS.items():
        said = answers(calls)[-1]
        count.check(f"{action}: {first} first", said.startswith(f"refused {first}"), said)


if __name__ == "__main__":
    sys.exit(checks.over_program(order_of_faults))
