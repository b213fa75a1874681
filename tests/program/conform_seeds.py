"""`conform` on seeds: of one kind and of all kinds, up to one disagreement or more, the progress of a search, and the calls that
`--shrink` keeps.

    tests/program/conform_seeds.py [PROGRAM]

The agents are conformance/python/agent.py and its wrong bodies, and one that ends in the middle.
"""

import json
import os
import re
import subprocess
import sys

sys.dont_write_bytecode = True
sys.path.insert(0, os.path.dirname(os.path.dirname(os.path.abspath(__file__))))
import checks
import traced_agents
from piped_agents import LIMIT, PYTHON_AGENT, compare
from traced_agents import turns_of

# A subject that has a clock of 2 after `open`, and ends at the second call.
ENDS = """import sys
call = sys.stdin.readline()
sys.stdout.write("opened 1 1 2\\n\\n")
sys.stdout.flush()
sys.stdin.readline()
"""

# Passes each call on, a little later; with a number, only so many calls.
DELAY = """import sys, time
for number, line in enumerate(sys.stdin.buffer):
    if [str(number)] == sys.argv[1:]:
        break
    time.sleep(0.015)
    sys.stdout.buffer.write(line)
    sys.stdout.buffer.flush()
"""

# Runs the program with a terminal as its standard error, and passes on what it writes there.
ON_A_TERMINAL = """import os, pty, subprocess, sys
ours, theirs = pty.openpty()
ran = subprocess.Popen(sys.argv[1:], stderr=theirs)
os.close(theirs)
try:
    while some := os.read(ours, 1000):
        os.write(2, some)
except OSError:
    pass
sys.exit(ran.wait())
"""


def seeds(cases):
    """Random schedules: an agent that agrees, one that doesn't, one that ends, and words that are refused."""
    good = [sys.executable, PYTHON_AGENT]
    for kind in ("mixed", "merges", "restarts", "queries", "devices", "gossip", "kept"):
        said = ["2 seeds and ", " calls agree"]
        cases.run(f"seeds, {kind}", good, "--random", 0, said, ["1-2", "--kind", kind, "--actions", "80"])
    cases.run("one seed", good, "--random", 0, ["1 seeds and "], ["7", "--agents", "2", "--actions", "20"])
    cases.run("Serf's rules on a seed", good, "--random", 0, ["1 seeds and "], ["9", "--rules", "serf"])
    cases.run(
        "a wrong agent",
        [*good, "--wrong", "never_seen"],
        "--random",
        1,
        ["seed ", " seeds and ", "agent ", "  wanted: ", "  got: "],
        ["1-20"],
    )
    cases.run("no agent for a seed", ["false"], "--random", 3, ["the agent ended before its first reply\n"], ["1-2"])
    for word in ("x", "3-1", "1-", "-1", "1-2-3", "0-18446744073709551615"):
        said = ["--random accepts seeds as A-B, from the smaller to the larger\n"]
        cases.run(f"seeds {word}", ["cat"], f"--random={word}", 2, said)
    cases.run("seeds of no kind", ["cat"], "--random", 2, ["--kind"], ["1-2", "--kind", "mixd"])
    cases.run("one agent of seeds", ["cat"], "--random", 2, ["--agent"], ["1-2", "--agent", "0"])
    cases.run(
        "seeds and a file",
        ["cat"],
        os.path.join(checks.EXAMPLES, "deploy_gossiped_twice.schedule"),
        2,
        ["error: both a schedule and --random are given: give only one of them\n"],
        ["--random", "1"],
    )
    result = subprocess.run([checks.PROGRAM, "conform"], stdin=subprocess.DEVNULL, capture_output=True, timeout=LIMIT)
    said = b"error: no schedule: give a file, or seeds as --random A-B\n"
    cases.count.check("neither", (result.returncode, result.stdout, result.stderr) == (2, b"", said), result)


def found_in(report):
    """The kind and the seed of each disagreement in a report, and the lines about its agent. The last line of a report has the
    sums of the whole run."""
    report = re.sub(r"(?m)^compared: .*\n", "", report)
    parts = re.split(r"(?m)^(?:kind (\S+): )?seed (\d+): .* agree before\n", report)
    return [(parts[at], int(parts[at + 1]), parts[at + 2]) for at in range(1, len(parts), 3)]


def kinds(cases):
    """All kinds, one after another: the report of each, and which kind and seed find a wrong agent."""
    good, words = [sys.executable, PYTHON_AGENT], ["--random", "3-4", "--kind", "all", "--actions", "30"]
    status, output = compare(words, good)
    told = re.findall(r"(?m)^kind (\S+): 2 seeds and (\d+) calls agree$", output)
    cases.count.check("all kinds", status == 0 and [kind for kind, _ in told] == list(checks.KINDS), (status, output))
    sums = {"report": "end", "schedules": 2 * len(told), "calls": sum(int(calls) for _, calls in told)}
    sums |= {"disagreements": 0, "status": 0}
    cases.machine_report("all kinds, for machines", good, words, 0, [sums])
    wrong, path = [*good, "--wrong", "ack_counts_twice"], os.path.join(cases.folder, "kinds.jsonl")
    status, output = compare(["--random", "1-2", "--kind", "all", "--report", path], wrong)
    (kind, seed, lines), *more = found_in(output)
    with open(path) as file:
        told = [json.loads(line) for line in file]
    holds = (status, more) == (1, []) and kind in checks.KINDS and told[0]["kind"] == kind and told[0]["seed"] == seed
    cases.count.check("a wrong agent, by all kinds", holds and list(told[0])[:3] == ["report", "seed", "kind"], (status, output, told))
    again = compare(["--random", str(seed), "--kind", kind], wrong)
    cases.count.check("once more, by its kind", again[0] == 1 and found_in(again[1])[-1][2] == lines, (output, again))
    cases.run("a kind that isn't there", ["cat"], "--random", 2, ["--kind accepts mixed", " or all\n"], ["1", "--kind", "al"])


def goes_on(cases):
    """More than one disagreement: each is reported as a run of its seed alone reports it, up to the requested number."""
    wrong, path = [sys.executable, PYTHON_AGENT, "--wrong", "never_seen"], os.path.join(cases.folder, "on.jsonl")
    words = ["--random", "1-12", "--actions", "60"]
    alone = {seed: compare(["--random", str(seed), *words[2:]], wrong) for seed in range(1, 13)}
    others = [seed for seed, (status, _) in alone.items() if status == 1]
    cases.count.check("some seeds differ, and some don't", 3 <= len(others) < 12, alone)
    for maximum in (1, 2, len(others), 100):
        status, output = compare([*words, "--go-on", str(maximum), "--report", path], wrong)
        found = found_in(output)
        wanted = others[:maximum]
        end = f"{12 - len(others)} seeds and "
        if maximum == 100:
            tail = f" calls agree, and {len(others)} seeds don't"
            sums = output.splitlines()[-2]
            cases.count.check("the sums of seeds", sums.endswith(tail) and end in sums, output)
            found = found_in(output.replace(sums + "\n", ""))
        lines = [found_in(alone[seed][1])[0] for seed in wanted]
        cases.count.check(f"it continues, {maximum}", (status, found) == (1, lines), (status, output))
        with open(path) as file:
            *told, sums = [json.loads(line) for line in file]
        held = 12 if maximum == 100 else wanted[-1]
        holds = [one["seed"] for one in told] == wanted and "kind" not in told[0]
        holds = holds and (sums["schedules"], sums["disagreements"]) == (held - len(wanted), len(wanted))
        cases.count.check(f"it continues, {maximum}, for machines", holds, (told, sums))
    status, output = compare(["--random", "1-3", "--kind", "all", "--actions", "60", "--go-on", "4"], wrong)
    found = [(checks.KINDS.index(kind), seed) for kind, seed, _ in found_in(output)]
    cases.count.check("over kinds", status == 1 and len(found) == 4 and found == sorted(found), output)
    status, output = compare(["--random", "1-12", "--go-on", "9"], [sys.executable, "-c", ENDS])
    cases.count.check(
        "ends in the middle", status == 3 and "\n  got: opened 1 1 2\n" in output and "\n  got: the agent ended\n" in output, output
    )
    example = os.path.join(checks.EXAMPLES, "deploy_gossiped_twice.schedule")
    for name, more in (("none", ["--random", "1", "--go-on", "0"]), ("a schedule", [example, "--go-on", "2"])):
        cases.run(f"refused: --go-on, {name}", ["cat"], more[0], 2, ["--go-on"], more[1:])
    cases.run("refused: --go-on with fewer calls", ["cat"], "--random", 2, ["--go-on"], ["1", "--go-on", "2", "--shrink"])


def progress(cases):
    """How far a search is, and how many trials of fewer calls it made: once a second on a terminal, and nowhere else."""
    delay, program = os.path.join(cases.folder, "delay.py"), os.path.join(cases.folder, "on_a_terminal")
    with open(delay, "w") as file:
        file.write(DELAY)
    with open(program + ".py", "w") as file:
        file.write(ON_A_TERMINAL)
    with open(program, "w") as file:
        file.write(f'#!/bin/sh\nexec "{sys.executable}" "{program}.py" "{checks.PROGRAM}" "$@"\n')
    os.chmod(program, 0o755)
    for words, wrong, line in (
        (["--random", "3-6", "--actions", "60"], "", r"[1-3] of 4 seeds"),
        (["--random", "3-6", "--actions", "60", "--kind", "all"], "", r"kind mixed: [1-3] of 4 seeds"),
        (["--random", "2", "--shrink"], " --wrong never_seen", r"(?:\d|1[0-7]) of 18 calls left out"),
    ):
        agent = ["sh", "-c", f'"{sys.executable}" "{delay}" | "{sys.executable}" "{PYTHON_AGENT}"{wrong}']
        if "all" in words:
            agent[2] = agent[2].replace(" |", " 200 |", 1)
        status, output = compare(words, agent, program)
        shown = re.findall(rf"(?m)^{line}\r?$", output)
        grows = shown == sorted(shown, key=lambda row: int(re.search(r"\d+", row)[0]))
        cases.count.check(f"on a terminal: {' '.join(words)}", shown and (grows or "all" in words), (status, output))
        if "all" not in words:
            quiet = re.sub(rf"(?m)^{line}\r?\n", "", output).replace("\r\n", "\n")
            cases.count.check(f"on no terminal: {' '.join(words)}", compare(words, agent) == (status, quiet), (status, output))


def shrinks(cases):
    """Fewer calls: where they are written, that they fail again, that no single one can be left out, and agents that end."""
    saved = os.path.join(cases.folder, "saved.schedule")
    for name, kind in (
        ("never_seen", "mixed"), ("merge_takes_first_of_slot", "merges"), ("ack_counts_twice", "queries")
    ):
        agent = [sys.executable, PYTHON_AGENT, "--wrong", name]
        cases.run(
            f"fewer calls, {name}",
            agent,
            "--random",
            1,
            ["shrunk to "],
            ["1-60", "--kind", kind, "--shrink", "--save", saved],
        )
        cases.run(f"once more, {name}", agent, saved, 1, ["agent 0: action "])
        cases.run(f"the right agent, {name}", [sys.executable, PYTHON_AGENT], saved, 0, ["calls agree"])
        cases.count.check(
            f"none too many, {name}", not fails_without_one(cases, agent, saved), "a call can be left out"
        )
    agent = [sys.executable, PYTHON_AGENT, "--wrong", "never_seen"]
    cases.run(
        "to standard error",
        agent,
        "--random",
        1,
        ["shrunk to ", "\nagent ", "\ninject ", "\ndeliver 0 0 "],
        ["1-60", "--shrink"],
    )
    example = os.path.join(checks.EXAMPLES, "deploy_gossiped_twice.schedule")
    cases.run("of a schedule", agent, example, 1, ["shrunk to "], ["--shrink"])
    cases.run("of an agent that agrees", [sys.executable, PYTHON_AGENT], example, 0, ["calls agree"], ["--shrink"])
    cases.run("a folder", agent, example, 3, ["write failed: Is a directory (os error 21)"], ["--shrink", "--save", cases.folder])
    cases.run("a file alone", agent, example, 2, ["--save"], ["--save", saved])
    turns = turns_of(example[: -len(".schedule")])[1]
    bad = [turns[0].text(), b"seen\n\n"]
    cases.replies(
        "ends at the first trial", bad, example, 1, ["don't fail by themselves"], ["--agent", "1", "--shrink"]
    )
    cases.replies(
        "ends after it",
        bad * 2,
        example,
        1,
        ["shrunk to 1 of 1 calls; then the agent ended"],
        ["--agent", "1", "--shrink"],
    )


def fails_without_one(cases, agent, path):
    """Whether a schedule still shows a wrong agent if some call is left out."""
    with open(path) as file:
        lines = file.read().splitlines(keepends=True)
    less = os.path.join(cases.folder, "less.schedule")
    for number, line in enumerate(lines):
        if line.split()[0] in ("agent", "inject"):
            continue
        with open(less, "w") as file:
            file.writelines(lines[:number] + lines[number + 1:])
        if "\n  wanted: " in compare([less], agent)[1]:
            return True
    return False


def seed_told(cases):
    """The report of a seed that finds a wrong agent has what standard error has."""
    path = os.path.join(cases.folder, "told.jsonl")
    agent = [sys.executable, PYTHON_AGENT, "--wrong", "never_seen"]
    status, output = compare(["--random", "1-60", "--shrink", "--report", path], agent)
    with open(path) as file:
        found, sums = [json.loads(line) for line in file]
    place = f"agent {found['agent']}: action {found['action']}, line {found['line']}: {found['call'][:60]}"
    begins = f"seed {found['seed']}: {sums['schedules']} seeds and {sums['calls']} calls agree before"
    holds = status == 1 == sums["disagreements"] == sums["status"] and begins in output and place in output
    cases.count.check("a report of a seed's find", holds and found["report"] == "differs", (status, output, found, sums))


PARTS = (seeds, kinds, goes_on, progress, shrinks, seed_told)


if __name__ == "__main__":
    sys.exit(traced_agents.run(PARTS, sys.argv[1:]))
