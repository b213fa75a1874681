"""`conform` on schedules: agents that reply as they should, agents that reply something else, and agents that don't reply at all.

    tests/program/conform.py [PROGRAM]

The subject is made from a trace: for each call it replies what the trace shows, in the words of docs/SPEC.md, "The pipe". Each
case changes one thing of that. If conformance/python/agent.py exists, it is compared on all examples too. What
docs/CONFORMANCE.md and docs/SPEC.md show of agents is compared with the real output.
"""

import os
import re
import subprocess
import sys

sys.dont_write_bytecode = True
sys.path.insert(0, os.path.dirname(os.path.dirname(os.path.abspath(__file__))))
import checks
import pages
import programs
import traced_agents
from piped_agents import LIMIT, PYTHON_AGENT, by_shell, compare, folder_of_reader
from traced_agents import otherwise, respelled, text_of, turns_of, without_nils

sys.path.insert(0, os.path.dirname(PYTHON_AGENT))
from serf_agent import switches


def examples(cases):
    for name in checks.names_in(checks.EXAMPLES):
        path = os.path.join(checks.EXAMPLES, name)
        turns = turns_of(path)
        replies = [reply for agent in turns for reply in text_of(agent)]
        agree = [f"agent {a}: {len(agent)} calls agree" for a, agent in enumerate(turns)]
        cases.replies(name, replies, path + ".schedule", 0, agree)
        replies = [reply for agent in turns for reply in text_of(agent, otherwise)]
        cases.replies(name + ", spelled otherwise", replies, path + ".schedule", 0, agree)
        if os.path.exists(PYTHON_AGENT):
            cases.run(name + ", the agent in Python", [sys.executable, PYTHON_AGENT], path + ".schedule", 0, agree)


def by_meaning(cases):
    path = os.path.join(checks.EXAMPLES, "deploy_gossiped_twice")
    turns = turns_of(path)[1]
    words, schedule = ["--agent", "1"], path + ".schedule"
    good = text_of(turns)
    for word in ("1", "b", "62"):
        cases.replies(f"one agent, {word}", good, schedule, 0, ["agent 1: 3 calls agree"], ["--agent", word])
    cases.replies(
        "a respelled rebroadcast", text_of(turns, lambda p, g: respelled(p)), schedule, 1, ["action 2, line 9"], words
    )
    changes = {
        "another answer": good[:2] + [good[2].replace(b"Seen", b"TooOld")],
        "another payload": [good[0], good[1].replace(b"7631 0", b"7632 0"), good[2]],
        "another time": [good[0], good[1].replace(b"event 1 ", b"event 2 "), good[2]],
        "a line more": [good[0], good[1][:-1] + b"event 1 61 - 0\n\n", good[2]],
        "a line less": [good[0], b"new\n" + good[1].split(b"\n")[1] + b"\n\n", good[2]],
        "no answer": [good[0], b"\n", good[2]],
        "a bad word": [good[0], good[1].replace(b"event 1", b"event x"), good[2]],
        "any bytes": [good[0], bytes(range(11, 256)) + b"\n\n", good[2]],
        "a carriage return": [good[0], good[1].replace(b"\n", b"\r\n", 1), good[2]],
    }
    for name, replies in changes.items():
        number = 3 if name == "another answer" else 2
        got = [] if name == "no answer" else ["  got: "]
        cases.replies(
            name, replies, schedule, 1, [f"action {number}, line {number + 7}: deliver ", "  wanted: ", *got], words
        )
    returns = ["agent 1: open ", "  got: opened 1 1 1?\n", "  a carriage return: lines end with a newline alone\n"]
    crlf = [reply.replace(b"\n", b"\r\n") for reply in good]
    cases.replies("carriage returns", crlf, schedule, 1, returns, words)
    returns[0] = "action 2, line 9: deliver "
    returns[1] = "event 1 6465706c6f79 7631 0\n       ?\n"
    lone = [good[0], good[1][:-1] + b"\r\n", good[2]]
    cases.replies("a carriage return alone", lone, schedule, 1, returns, words)
    cases.replies("no more than that", [b"\r\n"], schedule, 1, ["  got: ?\n", *returns[2:]], words)
    leading = good[1].replace(b"event 1 ", b"event  0001 ").replace(b"7631 0", b"7631  0")
    cases.replies("zeros and spaces", [good[0], leading, good[2]], schedule, 0, ["agent 1: 3 calls agree"], words)
    cases.replies(
        "unsupported",
        [good[0], b"unsupported\n\n"],
        schedule,
        1,
        ["agent 1: 1 calls agree; action 2 is unsupported", "of 1 agents 1 ended at an unsupported call", "no call but open was compared"],
        words,
    )
    cases.replies("not even open", [b"unsupported\n\n"], schedule, 1, ["no call but open was compared"], words)
    cases.replies(
        "unsupported after a call",
        [*good[:2], b"unsupported\n\n"],
        schedule,
        0,
        ["agent 1: 2 calls agree; action 3 is unsupported", "of 1 agents 1 ended at an unsupported call"],
        words,
    )
    ends = {
        "no reply": [],
        "no reply to the last call": good[:2],
        "half a reply": [good[0], good[1][:40]],
        "a reply without its empty line": good[:2] + [good[2][:-1]],
    }
    for name, replies in ends.items():
        said = "the agent ended before its first reply\n" if name == "no reply" else "the agent ended\n"
        cases.replies(name, replies, schedule, 3, [said], words)
    cases.run("an agent that isn't there", ["false"], schedule, 3, ["the agent ended before its first reply\n"], words)
    cases.run("no agent", None, schedule, 3, [], words)
    if programs.IS_UNPROVED:
        print("not run: a reply that is too long, since the program was compiled with checks")
    else:
        cases.replies(
            "a reply that is too long", [good[0], b"a" * 67_200_000], schedule, 1, ["the reply is too long"], words
        )


# Two agents without any calls.
TWO = "agent 62 4 4 512 8 keep\nagent 61 4 4 512 8 keep\n"


def compared(cases):
    """The end of a report says how many calls were compared. If they are only `open`, the status is 1."""
    path, hollow = os.path.join(cases.folder, "compared.schedule"), "\nno call but open was compared\n"
    good, fired = [sys.executable, PYTHON_AGENT], "fire 1 6465706c6f79 7631 0\n"
    for actions, said, status in (
        ("", "compared: 2 calls of 2 agents" + hollow, 1),
        (fired, "compared: 3 calls of 2 agents\n", 0),
        (fired + "state 0\n", "compared: 4 calls of 2 agents\n", 0),
    ):
        with open(path, "w") as file:
            file.write(TWO + actions)
        got = compare([path], good)
        cases.count.check(f"compared: {actions!r}", got[0] == status and got[1].endswith(said), got)
    with open(path, "w") as file:
        file.write(TWO + fired)
    replies = [b"unsupported\n\n", *text_of(turns_of(os.path.join(checks.EXAMPLES, "deploy_gossiped_twice"))[0])]
    got = cases.told(replies, path, [])
    cases.count.check("one of two agents is opened", got[0] == 0 and got[1].endswith("\ncompared: 2 calls of 2 agents\n"), got)
    got = compare([os.path.join(checks.EXAMPLES, "deploy_gossiped_twice.schedule")], [*good, "--wrong", "never_seen"])
    holds = got[0] == 1 and "\n  before: 2 calls agree\n" in got[1] and got[1].endswith("\ncompared: 5 calls of 2 agents\n")
    cases.count.check("compared: a reply that differs", holds, got)
    got = compare(["--random", "1-2", "--actions", "0"], good)
    cases.count.check("compared: seeds without actions", got[0] == 1 and got[1].endswith(hollow), got)


def ends_between_calls(cases):
    """An agent that accepts no more calls has ended by the next one, and the reports have that call."""
    schedule = os.path.join(checks.EXAMPLES, "deploy_gossiped_twice.schedule")
    agent = ["sh", "-c", r"read call; exec 0<&-; printf 'opened 1 1 1\n\n'; sleep 0.5"]
    said = [": look\n", "  wanted: looked 1 1 1 1 1\n", "the agent ended\n", "\ncompared: 1 calls of 1 agents\n"]
    cases.run("it ends between two calls", agent, schedule, 3, ["agent 1", *said], ["--agent", "1"])
    cases.run("on a seed", agent, "--random", 3, ["seed 1: 0 seeds and 1 calls agree before\n", "agent 0", *said], ["1-3"])
    found = {"report": "ended", "seed": None, "agent": 1, "agreed": 1, "action": 0, "line": 0, "call": "look"}
    found |= {"wanted": "looked 1 1 1 1 1\nkept -", "got": ""}
    sums = {"report": "end", "schedules": 1, "calls": 1, "disagreements": 1, "status": 3}
    cases.machine_report("a report of that", agent, [schedule, "--agent", "1"], 3, [found, sums])


def states(cases):
    path = os.path.join(checks.EXAMPLES, "a_partition_healed_by_push_pull")
    turns = turns_of(path)
    replies = [
        reply for agent in turns for reply in text_of(agent, lambda p, g: without_nils(p) if p[:1] == b"\x02" else p)
    ]
    cases.replies("an empty slot more", replies, path + ".schedule", 0, ["calls agree"])


def whole_reports(cases):
    """Reports have whole calls and replies. Of packets that differ, they have the lines of `decode` that differ."""
    path = os.path.join(checks.EXAMPLES, "deploy_gossiped_twice")
    words, schedule = ["--agent", "1"], path + ".schedule"
    good = text_of(turns_of(path)[1])
    sent = good[1].split(b"\n")[1]
    another = ["wanted userEvent", "wanted LTime 1", "wanted Name 6465706c6f79", "wanted Payload 7631", "wanted CC 0", "got foreign 6"]
    for name, line, told in (
        ("another time", sent.replace(b"6d6501", b"6d6502"), ["LTime: wanted 1, got 2"]),
        ("another message", b"sent 06", another),
        ("no message", b"sent 03", []),
        ("no hex", b"sent 0", []),
    ):
        replies = [good[0], good[1].replace(sent, line), good[2]]
        last = "       event 1 6465706c6f79 7631 0\n" + "".join(f"  {one}\n" for one in told)
        status, report = cases.told(replies, schedule, words)
        cases.count.check(
            f"what differs in a packet: {name}", status == 1 and last in report and not report.rpartition(last)[2].startswith("  "), report
        )
    long = "x" * 100_000
    cases.replies("a long line", [good[0], long.encode() + b"\n\n"], schedule, 1, [f"  got: {long}\n"], words)


def reasons(cases):
    """A report has the reasons that `explain` writes for the action, on a schedule and on a seed."""
    saved = os.path.join(cases.folder, "explained.schedule")
    for name, kind in (("never_seen", "mixed"), ("merge_takes_first_of_slot", "merges"), ("ack_counts_twice", "queries")):
        status, said = compare(["--random", "1-60", "--kind", kind], [sys.executable, PYTHON_AGENT, "--wrong", name])
        seed, agent, number = re.search(r"(?m)^seed (\d+): .*\nagent (\d+): action (\d+), ", said).groups()
        with open(saved, "wb") as file:
            file.write(checks.run_program(["random", seed, "--kind", kind])[1])
        trace = checks.run_program(["explain", saved, "--agent", agent, "--from", number, "--to", number])[1].decode()
        wanted = re.findall(rf"(?m)^{number} because (.*)$", trace)
        found = re.findall(r"(?m)^  reason: (.*)$", said)
        cases.count.check(f"the reasons of {name}", status == 1 and found == wanted and found, (said, trace))
        again = compare([saved, "--agent", agent], [sys.executable, PYTHON_AGENT, "--wrong", name])[1]
        cases.count.check(f"the reasons of {name}, of a file", re.findall(r"(?m)^  reason: (.*)$", again) == wanted, again)
    example = os.path.join(checks.EXAMPLES, "deploy_gossiped_twice.schedule")
    said = cases.told([b"opened 1 1 2\n\n"], example, ["--agent", "1"])[1]
    cases.count.check("no reason of the opening", "  wanted: opened 1 1 1\n  got: opened 1 1 2\n" in said, said)


def refused(cases):
    path = os.path.join(cases.folder, "bad.schedule")
    with open(path, "w") as file:
        file.write("agent 61 4 4 512 8 keep\nfire 0 61 - 2\n")
    cases.run("a bad line", ["cat"], path, 1, ["bad line 2 BadWord 5"])
    result = subprocess.run(
        [checks.PROGRAM, "conform", path], stdin=subprocess.DEVNULL, capture_output=True, timeout=LIMIT
    )
    cases.count.check("nothing is written before that", result.stdout == b"", result.stdout)
    cases.run("no file", ["cat"], os.path.join(cases.folder, "none"), 3, ["none: no such file"])
    with open(path, "w") as file:
        file.write("# no agents\n")
    nothing = ["the schedule has no agents\n", "compared: 0 calls of 0 agents\nno call but open was compared\n"]
    cases.run("no agents", ["cat"], path, 1, nothing)
    good = os.path.join(checks.EXAMPLES, "deploy_gossiped_twice.schedule")
    named = "error: --agent x: no agent of the schedule has this name, as it is or in hex\n"
    cases.run("a bad agent", ["cat"], good, 2, [named], ["--agent", "x"])
    cases.run("an agent of seeds", ["cat"], "--random", 2, ["--agent"], ["1-2", "--agent", "0"])
    cases.run("bad rules", ["cat"], good, 2, ["--rules"], ["--rules", "mine"])
    counted = "error: --agent 7: the schedule has 2 agents, counted from 0\n"
    cases.run("no such agent", ["cat"], good, 2, [counted], ["--agent", "7"])


# The reply to `look` after the opening.
NEW = b"looked 1 1 1 1 1\nkept -\n\n"


def looked(cases, name, looks, status, said, words=()):
    """Agent 1 of the example replies well, and to each `look` by one of these: after the opening, and after its last call."""
    path = os.path.join(checks.EXAMPLES, "deploy_gossiped_twice")
    replies, given = os.path.join(cases.folder, "replies"), os.path.join(cases.folder, "looks")
    for file_name, parts in ((replies, text_of(turns_of(path)[1])), (given, looks)):
        with open(file_name, "wb") as file:
            file.write(b"\0".join(parts))
    agent = [sys.executable, cases.subject, replies, given]
    cases.run(name, agent, path + ".schedule", status, said, ["--agent", "1", *words])


def looks(cases):
    """What an agent holds after its calls: agents that hold it, agents that hold something else, and agents that end at a `look`."""
    last = b"looked 1 2 1 1 1\nkept 6576656e742d636c6f636b3a20310a\n\n"
    agrees, serf = ["agent 1: 3 calls agree"], ["--rules", "serf"]
    looked(cases, "looks that agree", [NEW, last], 0, agrees)
    looked(cases, "no looks", [b"unsupported\n\n"] * 2, 0, [*agrees, "2 looks are unsupported"])
    looked(cases, "one look", [NEW, b"unsupported\n\n"], 0, [*agrees, "1 looks are unsupported"])
    opened = ["agent 1: look\n", "  wanted: looked 1 1 1 1 1\n", "kept -\n", "  got: "]
    after_last_call = ["agent 1: after its last call: look\n", "  wanted: looked 1 2 1 1 1\n", "  got: "]
    changes = {
        "another clock": last.replace(b"1 2 1", b"1 3 1"),
        "another least time": last.replace(b"1 1 1\n", b"1 2 1\n"),
        "another text": last.replace(b"310a", b"320a"),
        "no text": last.split(b"\n")[0] + b"\n\n",
        "two texts": last[:-1] + last.split(b"\n")[1] + b"\n\n",
        "an answer of another call": b"saved\n\n",
    }
    for name, reply in changes.items():
        looked(cases, f"a look: {name}", [NEW, reply], 1, after_last_call)
        looked(cases, f"a look by Serf's rules: {name}", [NEW, reply], 1, after_last_call, serf)
        looked(cases, f"the first look: {name}", [reply, last], 1, opened)
    same = last.replace(b"kept ", b"kept 636c6f636b3a20300a")
    looked(cases, "a text of the same clocks", [NEW, same], 1, after_last_call)
    looked(cases, "a text of the same clocks, by Serf's rules", [NEW, same], 0, agrees, serf)
    looked(cases, "it ends at a look", [NEW], 3, ["agent 1: after its last call: look\n", "the agent ended"])
    for name in switches.ONLY_BY_LOOK:
        agent = [sys.executable, PYTHON_AGENT, "--wrong", name]
        saved = os.path.join(cases.folder, f"{name}.schedule")
        cases.run(name, agent, "--random", 1, [": look\n", "shrunk to "], ["1-200", "--shrink", "--save", saved])
        cases.run(f"once more, {name}", agent, saved, 1, [": look\n"])
        cases.run(f"the right agent, {name}", [sys.executable, PYTHON_AGENT], saved, 0, ["calls agree"])


def rules(cases):
    path = os.path.join(checks.EXAMPLES, "a_disk_that_fails_in_a_merge")
    turns = turns_of(path)
    replies = text_of(turns[1])
    said = ["agent 1: 1 calls agree; action 5 rests on an own rule", "\nno call but open was compared\n"]
    cases.replies("Serf's rules", replies, path + ".schedule", 1, said, ["--agent", "1", "--rules", "serf"])
    said = [f"agent 1: {len(turns[1])} calls agree"]
    cases.replies("all rules", replies, path + ".schedule", 0, said, ["--agent", "1", "--rules", "own"])


# Two agents. The second one is restarted, and gets an event again whose time is below its file's clock.
RESTARTED = "agent 61 4 4 512 8 keep\nagent 62 8 4 512 8 keep%s\nfire 0 78 - 0\nfire 0 79 - 0\ndeliver 1 1 0\nrestart 1 -\ndeliver 1 0 0\n"


def rules_of_keeping(cases):
    """By Serf's rules, an agent that keeps no events is blamed for no turn of one that does, and is compared up to its restart."""
    plain = ["sh", "-c", f"sed -u s/+events// | {sys.executable} {PYTHON_AGENT}"]
    path = os.path.join(cases.folder, "restarted.schedule")
    own = "agent 1: 2 calls agree; action 4 rests on an own rule\n"
    for setting, said, differs in (("", "agent 1: 4 calls agree\n", None), ("+events", own, "agent 1: after action 4, line 6: look\n")):
        with open(path, "w") as file:
            file.write(RESTARTED % setting)
        cases.run(f"Serf's rules and keep{setting}", plain, path, 0, ["agent 0: 3 calls agree\n", said], ["--rules", "serf"])
        cases.run(f"all rules and keep{setting}", plain, path, 1 if differs else 0, [differs or said])


# The words of an agent's line after its name, and those of `open`, which has the limits of packets only if one isn't 1,024.
OPENED = {
    "4 4 512 8 keep": "4 4 512 8 keep 1024",
    "4 4 512 8 keep 7": "4 4 512 8 keep 7",
    "4 4 512 8 keep 7 1024 1024": "4 4 512 8 keep 7",
    "4 4 512 8 ignore 7 1025 1024": "4 4 512 8 ignore 7 1025 1024",
    "4 4 512 8 keep 1024 1024 1023": "4 4 512 8 keep 1024 1024 1023",
    "4 4 512 8 keep 01024 0 09216": "4 4 512 8 keep 1024 0 9216",
    "4 4 512 8 keep+events": "4 4 512 8 keep+events 1024",
    "4 4 512 8 ignore+events 7 1025 1024": "4 4 512 8 ignore+events 7 1025 1024",
}


def limits(cases):
    """The call that opens an agent, and agents with their own limits of packets."""
    path = os.path.join(cases.folder, "opened.schedule")
    for said, call in OPENED.items():
        with open(path, "w") as file:
            file.write(f"agent 61 {said}\n")
        result = subprocess.run([checks.PROGRAM, "conform", path], stdin=subprocess.DEVNULL, capture_output=True, timeout=LIMIT)
        cases.count.check(f"{said} is opened", result.stdout == f"open 61 {call} -\n".encode(), result)
    row = os.path.join(checks.ROWS, "packet_limits.schedule")
    agree = [f"agent {a}: {count} calls agree" for a, count in enumerate((5, 6, 4))]
    cases.run("limits of packets", [sys.executable, PYTHON_AGENT], row, 0, agree)
    for name in switches.ONLY_BY_LIMITS:
        cases.run(f"limits of packets, {name}", [sys.executable, PYTHON_AGENT, "--wrong", name], row, 1, ["agent 0: action "])


def machine_reports(cases):
    """A report for machines: if replies differ, if an agent ends, for seeds, and if all agree."""
    path = os.path.join(checks.EXAMPLES, "deploy_gossiped_twice")
    schedule, turns = path + ".schedule", turns_of(path)
    call = f"deliver {turns[1][1].given.hex()} 0"
    end = {"report": "end", "schedules": 1, "calls": 3, "disagreements": 0, "status": 0}
    good = [sys.executable, PYTHON_AGENT]
    cases.machine_report("a report of what agrees", good, [schedule, "--agent", "1"], 0, [end])
    strange = bytes(byte for byte in range(1, 256) if byte != 10)
    replies = os.path.join(cases.folder, "told")
    for name, last, more in (("any bytes", strange + b"\n\n", "differs"), ("no more", b"", "ended")):
        with open(replies, "wb") as file:
            file.write(b"\0".join([turns[1][0].text(), last] if last else [turns[1][0].text()]))
        found = {"report": more, "seed": None, "agent": 1, "agreed": 1, "action": 2, "line": 9, "call": call}
        found |= {"wanted": "\n".join(turns[1][1].lines), "got": strange.decode("latin-1") + "\n" if last else ""}
        status = 1 if last else 3
        sums = end | {"calls": 1, "disagreements": 1, "status": status}
        words = [schedule, "--agent", "1"]
        cases.machine_report(f"a report, {name}", [sys.executable, cases.subject, replies], words, status, [found, sums])
    sums = end | {"schedules": 2, "calls": 0, "status": 0}
    agreed = compare(["--random", "1-2", "--actions", "40"], good)[1].split()
    cases.machine_report(
        "a report of seeds",
        good,
        ["--random", "1-2", "--actions", "40"],
        0,
        [sums | {"calls": int(agreed[3])}],
    )
    cases.run("a report to a folder", good, schedule, 3, ["write failed: Is a directory (os error 21)"], ["--report", cases.folder])


def listings(page):
    """The blocks of a page that are no commands."""
    return [block for _, block in pages.blocks(page) if not pages.COMMAND.match(block)]


def reports(cases):
    """The reports of docs/CONFORMANCE.md, and one of its examples from start to end."""
    page, wrong = os.path.join("docs", "CONFORMANCE.md"), [sys.executable, PYTHON_AGENT, "--wrong"]
    report, of_seeds, of_find, saved = listings(page)
    example = os.path.join(checks.EXAMPLES, "deploy_gossiped_twice.schedule")
    got = compare([example], [*wrong, "never_seen"])
    cases.count.check(f"{page}: the report", got == (1, report), got)
    got = compare(["--random", "1-200"], [*wrong, "max_time_accepted"])
    cases.count.check(f"{page}: the report of seeds", got == (1, of_seeds), got)
    again = os.path.join(cases.folder, "again.schedule")
    with open(again, "wb") as file:
        file.write(checks.run_program(["random", "2"])[1])
    got = compare([again, "--agent", "2"], [*wrong, "max_time_accepted"])
    lines, found, _ = of_seeds.partition("\n")[2].partition("compared: ")
    cases.count.check(f"{page}: the same calls again", found and got == (1, lines + "compared: 21 calls of 1 agents\n"), got)
    folder = folder_of_reader(os.path.join(cases.folder, "reader"))
    for command in pages.of(pages.CONFORM, page):
        if "conform " in command.text:
            ran = by_shell(folder, "mkfifo replies\n" + command.text)
            cases.count.check(command.name(), ran.stderr.startswith(of_find) and "shrunk to 2 of 18 calls" in ran.stderr, ran)
            cases.count.check(f"{page}: what is saved", checks.read(folder, "found.schedule").decode() == saved, saved)


def shares(cases):
    """How the commands share the seeds: `hold` is the reader's script, which here prints the seeds that it gets."""
    with open(os.path.join(cases.folder, "hold"), "w") as file:
        file.write('echo "$1"\n')
    for command in pages.of(pages.CONFORM):
        if "hold " in command.text:
            tasks = range(50) if "SLURM_ARRAY_TASK_ID" in command.text else [0]
            output = "".join(by_shell(cases.folder, command.text, SLURM_ARRAY_TASK_ID=str(task)).stdout for task in tasks)
            shares = sorted(tuple(map(int, share.split("-"))) for share in output.split())
            seeds = [seed for first, last in shares for seed in range(first, last + 1)]
            cases.count.check(command.name(), seeds == list(range(1, 2001)), output)


def calls_of(text):
    """The calls of docs/SPEC.md's examples, and the reply to each."""
    found, is_call = [], True
    for line in text.split("\n")[:-1]:
        if is_call:
            found.append((line, []))
        elif line != ".":
            found[-1][1].append(line)
        is_call = line == "."
    return [call for call, _ in found], [reply for _, reply in found]


def pipe(cases):
    """The calls of docs/SPEC.md, and that the agent in Python replies as it shows."""
    page = os.path.join("docs", "SPEC.md")
    (shown,) = listings(page)
    calls, wanted = calls_of(shown)
    cases.count.check(f"{page}: calls", len(calls) == 20 and all(wanted), (calls, wanted))
    said = "".join("".join(line + "\n" for line in reply) + "\n" for reply in wanted)
    result = subprocess.run([sys.executable, PYTHON_AGENT], input="\n".join(calls) + "\n", capture_output=True, text=True, timeout=LIMIT)
    cases.count.check(f"{page}: its examples", result.stdout == said, result)


PARTS = (
    examples,
    by_meaning,
    compared,
    ends_between_calls,
    states,
    whole_reports,
    reasons,
    refused,
    looks,
    rules,
    rules_of_keeping,
    limits,
    machine_reports,
    reports,
    shares,
    pipe,
)


if __name__ == "__main__":
    sys.exit(traced_agents.run(PARTS, sys.argv[1:]))
