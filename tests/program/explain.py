"""`explain`: parses each trace with its reasons again, and compares what the reasons say with the other lines of the trace. Also the
incident's last lines, ranges, bytes that could break out of their place, what is refused, and the same line by line.

The parser of a trace is in `explain/stories.py`, and the checks of single reasons are in `explain/particular.py`.
"""

import os
import re
import subprocess
import sys
import tempfile

sys.dont_write_bytecode = True
sys.path.insert(0, os.path.dirname(os.path.dirname(os.path.abspath(__file__))))
import checks
from checks import run_program, read

sys.path.insert(0, os.path.join(checks.TOP, "tests", "program", "explain"))
from particular import AGENTS, any_bytes, kept, minimum_times, of_earlier_actions, said_rows
from stories import ACTIONS, actions_of, taken_apart, what_is_said

SEEDS = (1, 2, 3)
STREAM = ["explain", "--stream"]


def examples(count):
    names = checks.names_in(checks.EXAMPLES)
    count.check("ten examples", len(names) >= 10)
    for name in names:
        story = taken_apart(count, name, read("examples", name + ".schedule"))
        if story:
            what_is_said(count, name, story)


def random_schedules(count):
    total = (0, 0, 0)
    for kind in checks.KINDS:
        for seed in SEEDS:
            schedule = run_program(["random", str(seed), "--kind", kind, "--actions", ACTIONS])[1]
            story = taken_apart(count, f"{kind} {seed}", schedule)
            if story:
                some = what_is_said(count, f"{kind} {seed}", story)
                total = tuple(a + b for a, b in zip(total, some))
    seen, merges, raised = total
    count.check("some were seen, some merged, and some raised", seen >= 30 and merges >= 30 and raised >= 10, total)


def incident(count):
    """The page of the incident has the last lines exactly, and so has a file; its pictures are the program's."""
    page = read("examples", "incident", "README.md").decode()
    for name in ("as_flushed", "as_serf_kept"):
        schedule = run_program(["write"], read("examples", "incident", name + ".written"))[1]
        story = taken_apart(count, name, schedule)
        if story:
            what_is_said(count, name, story)
        at = 1 + next(place for place, words in enumerate(actions_of(schedule)[0]) if words[0] == b"restart")
        status, text, said = run_program(["explain", "--agent", "1", "--from", str(at)], schedule)
        count.check(
            f"{name}: the last lines are in a file", text == read("examples", "incident", name + ".reasons"), text
        )
        shown = "".join("    " + line + "\n" for line in text.decode().split("\n")[:-1])
        count.check(f"{name}: its picture", run_program(["draw"], schedule)[1] == read("examples", "incident", name + ".svg"))
        count.check(
            f"{name}: the last lines are on the page", (status, said) == (0, b"") and shown and shown in page, text
        )


def partition(count):
    """The schedule of the other incident hands out what its log has; its picture is what the program draws."""
    schedule = run_program(["write"], read("examples", "partition", "as_it_ran.written"))[1]
    story = taken_apart(count, "partition", schedule)
    if story:
        what_is_said(count, "partition", story)
    count.check("partition: its picture", run_program(["draw"], schedule)[1] == read("examples", "partition", "as_it_ran.svg"))
    names = [bytes.fromhex(line.split()[1].decode()) for line in schedule.split(b"\n") if line.startswith(b"agent ")]
    handed = re.findall(rb"^\d+ event (\d+) (\d+) (\w+) (\w+) 0$", run_program(["replay"], schedule)[1], re.M)
    said = sorted(
        b"event %s %s %s %s" % (names[int(agent)], time, *(bytes.fromhex(word.decode()) for word in (name, payload)))
        for agent, time, name, payload in handed
    )
    log = sorted(read("examples", "partition", "handlers.log").split(b"\n")[:-1])
    count.check("partition: the schedule hands out what the log has", said == log, said)


def ranges(count):
    schedule = read("examples", "deploy_gossiped_twice.schedule")
    status, whole, _ = run_program(["explain"], schedule)
    actions = actions_of(schedule)[0]
    actor = {number: words[1] if words[0] != b"inject" else None for number, words in enumerate(actions, 1)}
    cases = [
        (["--from", "2"], lambda n: n >= 2),
        (["--to", "2"], lambda n: n <= 2),
        (["--from", "2", "--to", "2"], lambda n: n == 2),
    ]
    cases += [
        (["--agent", "1"], lambda n: actor[n] == b"1"),
        (["--agent", "1", "--from", "3"], lambda n: actor[n] == b"1" and n >= 3),
    ]
    # (an agent by its name, as it is and in hex of either case)
    cases += [(["--agent", word], lambda n: actor[n] == b"1") for word in ("b", "62")]
    for words, is_shown in cases:
        wanted = b"".join(line + b"\n" for line in whole.split(b"\n")[:-1] if is_shown(int(line.split()[0])))
        count.check(f"range {words}", run_program(["explain", *words], schedule) == (0, wanted, b""))
    said = b"nothing to explain: the schedule has %d actions\n" % len(actions)
    count.check("a range after the end", run_program(["explain", "--from", "100"], schedule) == (0, b"", said))
    for words, said in (
        (["--from", "3", "--to", "2"], b"nothing to explain: action 2 is before action 3\n"),
    ):
        count.exactly(f"a range of nothing: {words}", ["explain", *words], 0, b"", said, schedule)
    # (for agents `1`, `beta`, `J` and a name of two bytes that are no text: the number is tried first, then the name as it is)
    names = b"".join(b"agent %s 4 4 512 2 keep\n" % name for name in (b"31", b"62657461", b"4a", b"fffe"))
    names += b"".join(b"fire %d 61 - 0\n" % agent for agent in range(4))
    for word, agent in (("1", 1), ("31", 0), ("0", 0), ("beta", 1), ("62657461", 1), ("J", 2), ("4a", 2), ("4A", 2), ("FFfe", 3)):
        text = run_program(["explain", "--agent", word], names)[1]
        count.check(f"an agent {word}", text.startswith(b"%d fired 1\n" % (agent + 1)) and text.count(b" fired 1\n") == 1, text)
    for word, said in (
        ("9", b"the schedule has 2 agents, counted from 0"),
        ("gamma", b"no agent of the schedule has this name, as it is or in hex"),
        ("B", b"no agent of the schedule has this name, as it is or in hex"),
        ("", b"no agent of the schedule has this name, as it is or in hex"),
    ):
        told = b"error: --agent %s: %s\n" % (word.encode(), said)
        count.exactly(f"no agent {word!r}", ["explain", "--agent", word], 2, b"", told, schedule)
    for words in (["--agent", "x"], ["--from", "-1"], ["--from", "0"], ["--to", "0"], ["--to", "18446744073709551616"]):
        status, text, _ = run_program(["explain", *words], schedule)
        count.check(f"bad words {words}", (status, text) == (2, b""))


def refusals(count):
    for schedule in (AGENTS + b"deliver 0\n", b"fire\n", AGENTS + b"agent 61 4 4 512 2 keep\n"):
        wanted = run_program(["replay"], schedule)
        count.check(f"refused {schedule[-20:]}", run_program(["explain"], schedule) == wanted and wanted[0] == 1, wanted)
    count.check("a file that is not there", run_program(["explain", "/nowhere/at/all"]) == (3, b"", b"/nowhere/at/all: no such file\n"))


def streamed(count, name, schedule):
    """Line by line the text is the same; for a refused schedule it is the text of the lines before the bad one."""
    wanted, got = run_program(["explain"], schedule), run_program(STREAM, schedule)
    if wanted[0] == 0:
        count.check(f"{name}, line by line", got == wanted, str((wanted, got))[:400])
        return
    line = int(wanted[2].split()[2])
    front = run_program(["explain"], b"\n".join(schedule.split(b"\n")[: line - 1]))
    count.check(f"{name}, line by line", front[0] == 0 and got == (wanted[0], front[1], wanted[2]), str((wanted, got))[:400])


def streams(count):
    fire = b"fire 0 61 - 0\n"
    for folder in (checks.EXAMPLES, checks.ROWS):
        for name in checks.names_in(folder):
            streamed(count, name, read(folder, name + ".schedule"))
    for kind in checks.KINDS:
        streamed(count, f"{kind} 4", run_program(["random", "4", "--kind", kind, "--actions", ACTIONS])[1])
    for name, schedule in {
        "nothing": b"",
        "agents alone": AGENTS,
        "no newline": AGENTS + b"state 0",
        "no agents": fire * 2,
        "comments": b"# a\n\n" + AGENTS + b"# b\n" + fire + b"\n# c",
        "a late agent": AGENTS + fire + b"agent 63 4 4 512 8 keep\n" + fire,
        "a name twice": AGENTS + AGENTS + fire,
        "a bad first line": b"fires 0\n" + AGENTS,
        "a bad line in the middle": AGENTS + fire + b"deliver 1 0 0\ndeliver 1 x 0\n" + fire,
        "a bad last line": AGENTS + fire + b"deliver 1 0",
        "seen at the first action": AGENTS + fire + b"deliver 0 0 0\ndeliver 1 0 0\ndeliver 1 0 0\n",
    }.items():
        streamed(count, name, schedule)
    said = b"error: --stream explains all actions: leave out --agent, --from and --to\n"
    for words in (["--agent", "0"], ["--from", "2"], ["--to", "2"]):
        count.exactly(f"a part of a stream: {words}", [*STREAM, *words], 2, b"", said, AGENTS + fire)
    count.exactly("a stream of a file that isn't there", [*STREAM, "/nowhere"], 3, b"", b"/nowhere: no such file\n")


def while_it_runs(count):
    """An action's reasons are written before more is read, and a reader that closes the pipe ends the run."""
    with subprocess.Popen([checks.PROGRAM, *STREAM], stdin=subprocess.PIPE, stdout=subprocess.PIPE) as process:
        process.stdin.write(AGENTS + b"save 1\n")
        process.stdin.flush()
        output = [process.stdout.readline(), process.stdout.readline()]
        count.check("the first action's reason", output[0] == b"1 saved\n" and output[1].startswith(b"1 because "), output)
        process.stdin.write(b"save 0\n" * 100)
        process.stdin.flush()
        process.stdout.readline()
        process.stdout.close()
        try:
            process.stdin.write(b"save 0\n" * 100_000)
            process.stdin.close()
        except BrokenPipeError:
            pass
        count.check("a reader that closes the pipe", process.wait(60) == 3)


def to_full_device(count):
    """A write that fails ends the run."""
    with open("/dev/full", "wb") as full:
        run = subprocess.run(
            [checks.PROGRAM, *STREAM], input=AGENTS + b"state 0\n", stdout=full, stderr=subprocess.PIPE, timeout=checks.LIMIT
        )
        count.check("a full device", (run.returncode, run.stderr) == (3, b"write failed: No space left on device (os error 28)\n"), run)


def memory_of(lines):
    """The status of a run over these lines, the peak of its memory in units of 1,024 bytes, and the bytes it wrote."""
    with tempfile.TemporaryDirectory() as folder:
        path, to = os.path.join(folder, "schedule"), os.path.join(folder, "text")
        with open(path, "wb") as file:
            file.writelines(lines)
        with open(to, "wb") as out:
            process = subprocess.Popen([checks.PROGRAM, *STREAM, path], stdout=out)
            _, status, used = os.wait4(process.pid, 0)
        return status, used.ru_maxrss, os.path.getsize(to)


def long_runs(count):
    """2,000 merges of 512 slots are explained in little memory, no more than 200 need; and more than 16 MiB of lines too."""
    front = [b"agent 61 512 512 512 8 keep\nagent 62 512 512 512 8 keep\n"]
    front += [b"fire 0 6465706c6f79 76 0\n"] * 512 + [b"state 0\n"]
    few, many = (memory_of(front + [b"merge 1 512 sync\n"] * merges) for merges in (200, 2000))
    count.check("2,000 merges", few[0] == many[0] == 0 and many[2] > 2000 * 512 * 40, (few, many))
    count.check("their memory", many[1] < 62_500, many)
    count.check("it doesn't grow", many[1] < few[1] + 2048, (few, many))
    seen = AGENTS + b"fire 0 61 - 0\n" + b"deliver 1 0 0\n" * 1_300_000
    status, text, said = run_program(STREAM, seen)
    wanted = b'\n1300001 because "b" was handed event 1 "a" "" at action 2\n'
    count.check("more than 16 MiB", (status, said) == (0, b"") and text.endswith(wanted), (status, said, text[-200:]))


if __name__ == "__main__":
    parts = [
        examples,
        random_schedules,
        incident,
        partition,
        ranges,
        any_bytes,
        said_rows,
        kept,
        of_earlier_actions,
        minimum_times,
        refusals,
    ]
    sys.exit(checks.by_speed([long_runs], [*parts, streams, while_it_runs, to_full_device]))
