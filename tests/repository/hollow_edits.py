"""Must-fail edits that no goal of a contract refuses: ./test names each of them, and doesn't record the state as green.

The toolchain's own command makes the text about an edit, over checks that this script plays. So this script fails if the wording
changes. Some toolchains don't pass an edit that only a limit refused: then `rt ci` itself fails.
"""

import contextlib
import io
import os
import sys
from types import SimpleNamespace

sys.dont_write_bytecode = True
sys.path.insert(0, os.path.dirname(os.path.dirname(os.path.abspath(__file__))))
import checks
import gate
import green
import toolchain

GOAL = "note: src/lib.rt:9:5: what the function ensures holds (`returns-clause-sum`)"
GONE = "./proofs/add/Answers.antt:3:4: error: `returns`: the record has no field `clear`"
LIMIT = "src/lib.rt:9:5: error: antt ran out of stack"
NOT_PROVED = "logic=not-proved"

# What a check prints and its status, by what refuses the edit; and whether that says nothing about a contract.
CHECKS = {
    "a_goal": (1, [GOAL, NOT_PROVED], False),
    "names_and_a_goal": (1, [GONE, GOAL, NOT_PROVED], False),
    "names_alone": (1, [GONE, NOT_PROVED], True),
    "names_of_two_files": (1, [GONE, GONE.replace("add", "sum"), NOT_PROVED], True),
    "a_limit": (3, [LIMIT, "logic=unknown"], True),
    "a_limit_with_no_line": (3, ["the check outgrew the memory limit (2 GB)", "logic=unknown"], True),
}


def said_of(rt, name):
    """Whether `rt ci` passes the edit with the check of this name, and its line."""
    status, lines, _ = CHECKS[name]
    rt.read_edit = lambda edit, folder: ({}, None)
    rt.checked = lambda *_: SimpleNamespace(returncode=status, stdout="\n".join(lines) + "\n")
    verdict, line = rt.must_fail(SimpleNamespace(name="serf_low", folder=""), f"{name}.edit", [])
    # (some toolchains return a truth value, others a word; of the words, these two pass)
    passes = verdict if isinstance(verdict, bool) else verdict in (rt.REFUSED, rt.AT_LIMIT)
    return passes, "rt: " + line


def named(count, script, said):
    hollow = [name for name, (_, _, is_hollow) in CHECKS.items() if is_hollow]
    for name, (passes, line) in said.items():
        found = script.hollow(line)
        count.check(f"{name}: it counts as refused if it passes", len(gate.REFUSED.findall(line)) == passes, line)
        wanted = [f"must-fail serf_low/{name}.edit: refused by no goal of a contract"] if passes and name in hollow else []
        count.check(f"{name}: hollow, {name in hollow}", found == wanted and (passes or name in hollow), (line, found))
    of_all = script.hollow("".join(f"{line}\nrt: serf_low proved\n" for _, line in said.values()))
    count.check("each that passes is named", len(of_all) == sum(said[name][0] for name in hollow), of_all)


def whole_gate(script, said, failed):
    """What ./test makes of a run in which nothing fails but what `rt ci` printed, and which has so many failures itself: its
    counts, and how often it recorded that the gate is green."""
    part = gate.Part("rt ci")
    part.output, part.passed, part.failed = said, 1, failed
    marks = []
    script.run_ci = lambda crates: part
    script.run_scripts = lambda *_: []
    script.say_first = script.show_costs = lambda *_: None
    script.too_few = lambda parts: []
    green.state, green.record_green = lambda top: "a state", lambda *state: marks.append(state)
    with contextlib.redirect_stdout(io.StringIO()):
        counts = script.whole(False)
    return counts, len(marks)


def of_the_gate(count, script, said):
    goal = said["a_goal"][1]
    got = whole_gate(script, goal, 0)
    count.check("an edit that a goal refuses: the gate is green", got == ((1, 0), 1), got)
    for name in ("names_alone", "a_limit"):
        passes, line = said[name]
        got = whole_gate(script, f"{goal}\n{line}\n", 0 if passes else 1)
        count.check(f"{name}: the gate is not green", got == ((1, 1), 0), got)


def hollow_edits(count):
    rt, script = toolchain.load(), checks.gate_script()
    said = {name: said_of(rt, name) for name in CHECKS}
    named(count, script, said)
    of_the_gate(count, script, said)


if __name__ == "__main__":
    sys.exit(checks.run(hollow_edits))
