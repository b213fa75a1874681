"""The worked rows: runs each schedule of tests/rows by `replay`, and its trace, and those of the examples, by `judge`.

    tests/program/rows.py [NAME..]

With names, it runs only those rows, as ./serf-replay runs them, proved or not.

A row's schedule ends with the expected result, as comments. After `# trace:` this is the whole trace; after `# fault:`, the line
on standard error of a schedule that is refused; after `# lines:`, facts about the trace: `N WORDS` is a line of it,
`!N WORD` says that action N has no line with this second word, and `=N COUNT` that action N has so many lines.

No schedule hands an agent one event or one query twice: the trace of each row and each example is judged too
(`judge`). It is proved that `replay` writes the trace of the run, what `judge` reads in it, and that it finds the first
repeat there. To show that `judge` reads the trace's events as events, one of their lines is repeated: that is a repeat.
"""

import os
import re
import subprocess
import sys

sys.dont_write_bytecode = True
sys.path.insert(0, os.path.dirname(os.path.dirname(os.path.abspath(__file__))))
import checks

# How the line begins that ./serf-replay prints if the program isn't proved.
UNPROVED = "serf-replay: this program is compiled without its proofs"

# What a fact may be, and the second words that `!` may have.
FACT = re.compile(r"(?P<line>\d+) .+|!(?P<absent>\d+) (?P<word>\S+)|=(?P<counted>\d+) \d+")
ABSENT = ("sent", "event", "handed")

# What `judge` prints for a trace without a repeat, with events and queries or without. A trace has no lines of firings.
NO_REPEAT = re.compile(
    r"read: (\d+) events, (\d+) queries, \d+ nodes\n"
    r"Once: (holds|not asked: no event lines)\nQueryOnce: (holds|not asked: no query lines)\n"
    r"Fired: not asked: no fired lines\nLater: not asked: no fired lines\n"
)


def is_no_repeat(trace, text):
    """Whether this text is for a trace without a repeat, with as many events and queries as it has."""
    found = NO_REPEAT.fullmatch(text)
    second = [line.split(" ")[1] for line in trace.splitlines()]
    counts = [str(second.count(word)) for word in ("event", "handed")]
    return (
        bool(found) and [found[1], found[2]] == counts and [found[3] == "holds", found[4] == "holds"] == [count != "0" for count in counts]
    )


def actions_in(schedule):
    """How many actions a schedule has: its lines, without agents, comments and empty ones."""
    lines = [line.split() for line in schedule.split("\n") if not line.startswith("#")]
    return sum(words[0] != "agent" for words in lines if words)


def misshapen(fact, actions):
    """What is wrong with a fact of a schedule with so many actions, or None."""
    found = FACT.fullmatch(fact)
    if not found:
        return f"{fact!r} is no fact"
    number = int(found["line"] or found["absent"] or found["counted"])
    if not 1 <= number <= actions:
        return f"{fact!r} names action {number} of {actions}"
    if found["absent"] and found["word"] not in ABSENT:
        return f"{fact!r}: the word has to be one of {', '.join(ABSENT)}"
    return None


def is_kept(fact, lines):
    if fact.startswith("="):
        number, count = fact[1:].split()
        return sum(line.split(" ")[0] == number for line in lines) == int(count)
    if fact.startswith("!"):
        return fact[1:].split() not in [line.split(" ")[:2] for line in lines]
    return fact in lines


def wrong_facts(schedule, facts, trace):
    """What is wrong with the facts of a row, or None."""
    if not facts:
        return "there are no facts"
    actions = actions_in(schedule)
    shapes = [misshapen(fact, actions) for fact in facts]
    missing = [f"{fact!r} does not hold" for fact in facts if not is_kept(fact, trace.splitlines())]
    return "; ".join([*filter(None, shapes), *missing][:3])[:300] or None


def said_by(command, given, program=checks.PROGRAM):
    """The status of a command on a text, and what it writes on standard output and on standard error."""
    result = subprocess.run([program, command], input=given.encode("ascii"), capture_output=True, timeout=checks.LIMIT)
    lines = result.stderr.decode("ascii", "replace").splitlines(True)
    err = "".join(line for line in lines if not line.startswith(UNPROVED))
    return result.returncode, result.stdout.decode("ascii", "replace"), err


def wrong(name, said):
    """What differs in a row for whose schedule `replay` answered this, or None."""
    schedule, kind, wanted = checks.row_of(name)
    status, out, err = said
    if kind is None:
        return "its schedule doesn't end with an expected result"
    if kind == "fault":
        refused = (1, "", wanted)
        return None if said == refused else f"expected {refused}, got {(status, out[:200], err)}"
    if status != 0 or err:
        return f"status {status}: {err}"
    if kind == "trace":
        return None if out == wanted else "the trace differs"
    return wrong_facts(schedule, wanted.splitlines(), out)


def repeats(is_refused, said):
    """What is wrong with the report of `judge` on a trace, or None. A refused schedule has no trace."""
    status, trace, _ = said
    if is_refused:
        return None if (status, trace) == (1, "") else f"expected no trace, got {(status, trace[:200])}"
    got = said_by("judge", trace)
    if not trace:
        return None if got == (1, "", "standard input: no line of a log\n") else f"expected no line of a log, got {got}"
    if got[0] != 0 or got[2] or not is_no_repeat(trace, got[1]):
        return f"expected no repeat, got {got}"
    events = [line for line in trace.splitlines(True) if line.split(" ")[1:2] == ["event"]]
    status, out, err = said_by("judge", trace + events[-1]) if events else (1, "\nOnce: line", "")
    if status == 1 and "\nOnce: line" in out and not err:
        return None
    return f"repeated: {events[-1]!r}, got {(status, out, err)}"


def by_name(names):
    """Only these rows, as ./serf-replay runs them."""
    count, rows = checks.Checks(), checks.names_in(checks.ROWS)
    for name in names:
        fault = "there is no such row"
        if name in rows:
            fault = wrong(name, said_by("replay", checks.row_of(name)[0], checks.COMMAND))
        count.check(name, not fault, fault)
    return count.finish()


def all_rows(count):
    """Compares each row with its expected result; and checks for each row and each example that nothing is repeated."""
    rows, examples = checks.names_in(checks.ROWS), checks.names_in(checks.EXAMPLES)
    count.check("there are rows and examples", rows and examples)
    for name in rows:
        schedule, kind, _ = checks.row_of(name)
        said = said_by("replay", schedule)
        for what, fault in ((name, wrong(name, said)), (f"{name}, and repeats", repeats(kind == "fault", said))):
            count.check(what, not fault, fault)
    for name in examples:
        # (replay.py checks that `replay` writes the traces of the examples)
        path = os.path.join(checks.EXAMPLES, name)
        fault = repeats(False, (0, checks.text_of(path + ".trace"), ""))
        count.check(f"{name}, and repeats", not fault, fault)
    others = [name for name in os.listdir(checks.ROWS) if name.rpartition(".")[0] not in rows]
    count.check("files without a schedule", not others, others)


def main(names):
    return by_name(names) if names else checks.over_program(all_rows)


if __name__ == "__main__":
    sys.exit(main(sys.argv[1:]))
