"""What a reader of schedules decides, as data: conformance/schedules/cases.jsonl, compared with `replay`.

The cases are made from a schedule that has each kind of line, by changing one word, one space or one line of it. A reader in this
script decides what is expected of each, by docs/SPEC.md. The program has to refuse the same line for the same
cause, or to replay the schedule as the plain one that the case names.

    tests/program/schedule_cases.py [--write]

--write makes the file anew.
"""

import json
import os
import re
import sys

sys.dont_write_bytecode = True
sys.path.insert(0, os.path.dirname(os.path.dirname(os.path.abspath(__file__))))
import checks

CASES = os.path.join(checks.TOP, "conformance", "schedules", "cases.jsonl")

PLAIN = """agent 61 4 4 512 8 keep 1024
agent 62 4 4 512 8 ignore 3
agent 63 4 4 512 8 keep 1024 2000 9216
fire 0 6465706c6f79 7631 0
deliver 1 0 7
state 0
merge 1 1 join
query 1 5 7 6c6f6164 - 1000 1 009161
respond 1 0 9 302e31
inject 0384
deliver 0 2 1
restart 0 6576
break 1 flush 2
close 1 2000
save 0
compact 1
"""


class Kind:
    """How a word is read: as it is in a plain schedule, or not at all; and what it may be changed into."""

    def __init__(self, read, shapes):
        self.read, self.shapes = read, shapes


def number(below, minimum=0):
    def read(word):
        return str(int(word)) if re.fullmatch("[0-9]+", word) and minimum <= int(word) < below else None

    return Kind(read, "NUMBERS")


def one_of(*words, shapes="CHOICES"):
    return Kind(lambda word: word if word in words else None, shapes)


DATA = Kind(lambda word: word.lower() if word == "-" or re.fullmatch("([0-9a-fA-F]{2})+", word) else None, "BYTES")


COUNT = number(1 << 64)
MODE = one_of("ignore", "keep", "ignore+events", "keep+events", shapes="MODES")
AGENT = [DATA, COUNT, COUNT, COUNT, COUNT, MODE]

# The words after each command, without those that may be left out.
LINES = {
    "agent": AGENT,
    "fire": [COUNT, DATA, DATA, one_of("0", "1")],
    "deliver": [COUNT, COUNT, COUNT],
    "state": [COUNT],
    "merge": [COUNT, COUNT, one_of("join", "sync")],
    "query": [COUNT, COUNT, number(1 << 32), DATA, DATA, number(1 << 63), number(4)],
    "respond": [COUNT, COUNT, COUNT, DATA],
    "restart": [COUNT, DATA],
    "break": [COUNT, one_of("append", "flush", "replace-old", "replace-new"), number(1 << 64, 1)],
    "inject": [DATA],
    "close": [COUNT, COUNT],
    "save": [COUNT],
    "compact": [COUNT],
}

# The ranges of an agent's numbers, from the second word on and after the mode.
RANGES = [(1, 65_536), (1, 65_536), (0, 9_216), (1, 65_536)]
MORE_RANGES = [(1, 65_536), (0, 9_216), (0, 9_216)]


def kinds_of(words):
    """What the words after a command have to be, or None if their count is wrong."""
    kinds = LINES[words[0]]
    if words[0] == "query":
        return kinds + [DATA] * (len(words) - 8) if len(words) >= 8 else None
    if words[0] == "agent" and len(words) in (8, 10):
        return kinds + [COUNT] * (len(words) - 7)
    return kinds if len(words) == len(kinds) + 1 else None


def is_config(words):
    """Whether the words of an agent, as they are read, are in their ranges."""
    numbers = [*words[1:5], *words[6:]]
    name = b"" if words[0] == "-" else bytes.fromhex(words[0])
    return 1 <= len(name) <= 128 and all(low <= int(n) <= high for n, (low, high) in zip(numbers, RANGES + MORE_RANGES))


def cause_of(words, names, acted):
    """Why a line is refused, or the plain words of the line."""
    if words[0] not in LINES:
        return "UnknownWord", None
    if words[0] == "agent" and acted:
        return "LateAgent", None
    kinds = kinds_of(words)
    if kinds is None:
        return "WordCount", None
    read = [kind.read(word) for kind, word in zip(kinds, words[1:])]
    if None in read:
        return f"BadWord {read.index(None) + 2}", None
    if words[0] == "agent" and not is_config(read):
        return "BadConfig", None
    if words[0] == "agent" and read[0] in names:
        return "NameTwice", None
    return None, [words[0], *read]


def read(schedule):
    """The line on standard error if a schedule is refused, or else its plain schedule."""
    names, acted, plain = set(), False, []
    for place, line in enumerate(schedule.replace("\r", " ").split("\n"), 1):
        words = [word for word in line.split(" ") if word]
        if not words or line.startswith("#"):
            continue
        cause, said = cause_of(words, names, acted)
        if cause:
            return f"bad line {place} {cause}", None
        if said[0] == "agent":
            names.add(said[1])
        acted = acted or said[0] != "agent"
        plain.append(" ".join(said) + "\n")
    return None, "".join(plain)


# What a word of each kind may be changed into, `{}` is the word itself.
NUMBERS = (
    *("0{}", "000{}", "+{}", "-{}", "{}x", "{}\t", "{}.0", "0x{}", "-", "a", "{},", "0", "4", "65536", "65537", "9217"),
    *("4294967295", "4294967296", "9223372036854775807", "9223372036854775808", "18446744073709551615", "18446744073709551616"),
)
BYTES = ("-", "--", "{}-", "6", "{}6", "6g", "6A", "0x{}", "\t{}", "{}\r", "61" * 128, "61" * 129, "62", "\u00a0", "{}\u00e9")
CHOICES = ("{}x", "0{}", "00", "01", "2", "-", "keep", "Keep", "join", "SYNC", "replace", "replace-old", "{}\t", "#{}")

MODES = (
    *CHOICES,
    *("ignore", "{}+events", "{}+", "{}+event", "{}events", "{}-events", "{}+Events", "{}+events+events", "{} +events", "{}+ events"),
    *("+events", "events", "Keep+events", "keep+ignore", "events+{}"),
)

SHAPES = {"NUMBERS": NUMBERS, "BYTES": BYTES, "CHOICES": CHOICES, "MODES": MODES}

# What a command may be changed into.
COMMANDS = ("{}x", "{}\t", "\t{}", "{}{}", "x", "0", "#{}", "agent", "fire")

# What a line may be changed into.
ROWS = (
    *("{}\r", " {}", "   {}  ", "\t{}", "{} ", "{}\t", "{} x", "{} 0", "{} -", "{} #", "{} # words", "#{}", " #{}", "# {}", "##"),
    *("", " ", "   ", "\t", "\r", "{}\n{}", "\n{}", "{}\n\n", "{}\x0b", "{}\x00", "{};", "{} 00 00"),
)


# The lines whose command, spaces and whole text are changed.
TURNED = ("agent", "fire", "query", "restart", "compact")


def turned(line):
    """A line with one change."""
    words = line.split(" ")
    yield " ".join(words[:-1])
    yield line + " 0"
    kinds = kinds_of(words)
    for place, word in enumerate(words):
        shapes = SHAPES[kinds[place - 1].shapes] if place else COMMANDS * (words[0] in TURNED)
        for shape in shapes:
            yield " ".join([*words[:place], shape.replace("{}", word), *words[place + 1 :]])
    if words[0] in TURNED:
        yield from (row.replace("{}", line) for row in ROWS)


def schedules():
    """The schedules of the cases, each once."""
    lines = PLAIN.splitlines()
    made = [PLAIN, "", "\n", PLAIN[:-1], PLAIN.replace(" ", "  "), PLAIN.replace(" ", "\t"), PLAIN.replace("\n", "\r\n"), PLAIN.upper()]
    for at, line in enumerate(lines):
        # (of the other lines the agents stay before an action, and one line after it, so that a case is short)
        first = [] if line.startswith("agent") else lines[:3]
        made += ["\n".join([*first, row, *lines[at + 1 : at + 2], ""]) for row in turned(line)]
        made.append("\n".join([*lines[at:], *lines[:at], ""]))
    return list(dict.fromkeys(made))


def cases():
    """Each case: its schedule, and the expected error or the plain schedule."""
    for schedule in schedules():
        fault, plain = read(schedule)
        yield {"schedule": schedule, "fault": fault, "plain": plain}


def differs(case, traces):
    """What is different in the program's result for a case, or None."""
    status, out, said = checks.run_program(["replay"], case["schedule"].encode("latin-1"))
    if case["fault"]:
        return None if (status, out, said) == (1, b"", case["fault"].encode() + b"\n") else (status, said)
    if case["plain"] not in traces:
        traces[case["plain"]] = checks.run_program(["replay"], case["plain"].encode("latin-1"))
    return None if (status, out, said) == traces[case["plain"]] and status == 0 else (status, said)


def held(count):
    traces, given = {}, []
    for line in checks.text_of(CASES).splitlines():
        case = json.loads(line)
        given.append(case)
        fault = differs(case, traces)
        count.check(f"{case['schedule']!r} expects {case['fault']}", fault is None, fault)
    count.check("the cases are those of this script", given == list(cases()), "run --write")


def main(words):
    if words == ["--write"]:
        with open(CASES, "w", encoding="ascii") as file:
            file.writelines(json.dumps(case) + "\n" for case in cases())
        return 0
    return checks.over_program(held)


if __name__ == "__main__":
    sys.exit(main(sys.argv[1:]))
