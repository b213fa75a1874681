"""`replay`: each example is compared with its trace. Also refused schedules, long ones, progress on a terminal, memory, and summaries.

The worked rows are in rows.py, and `replay --stream` in stream.py.
"""

import csv
import os
import pty
import re
import resource
import subprocess
import sys
import tempfile
import threading
import time

sys.dont_write_bytecode = True
sys.path.insert(0, os.path.dirname(os.path.dirname(os.path.abspath(__file__))))
import checks
import programs

TOO_LONG = b"the input is too long: it has more than 16777216 bytes\n"

# Schedules, the number of the first bad line, and what is wrong with it.
BAD_LINES = (
    # (nothing is written before a bad line)
    (b"agent 61 4 4 512 8 keep\nfire 0 78 - 0\nfirst\n", 3, b"UnknownWord"),
    (b"# four words\nagent 61 x 4 512 8 keep\n", 2, b"BadWord 3"),
    (b"agent 61 0 4 512 8 keep\n", 1, b"BadConfig"),
    (b"agent 61 4 4 9217 8 keep\n", 1, b"BadConfig"),
    (b"agent 61 4 4 512 8 keep 0\n", 1, b"BadConfig"),
    (b"agent - 4 4 512 8 keep\n", 1, b"BadConfig"),
    (b"agent 61 4 4 512 8 keep x\n", 1, b"BadWord 8"),
    (b"agent 61 4 4 512 8 keep 2 2\n", 1, b"WordCount"),
    (b"agent 61 4 4 512 8 both\n", 1, b"BadWord 7"),
    (b"agent 6 x 4 512 8 keep\n", 1, b"BadWord 2"),
    (b"agent 4a 4 4 512 8 keep\nagent 4A 4 4 512 8 ignore\n", 2, b"NameTwice"),
    (b"compact 0\nagent 61\n", 2, b"LateAgent"),
    (b"fire 0 78\r- 0 0\r\n", 1, b"WordCount"),
    (b"\n\xef\xbb\xbffire 0 78 - 0\n", 2, b"UnknownWord"),
    (b"\xef\xbbfire 0 78 - 0\n", 1, b"UnknownWord"),
    (b"\xef\xbb\xbf\xef\xbb\xbffire 0 78 - 0\n", 1, b"UnknownWord"),
    (b" # x\n", 1, b"UnknownWord"),
    (b"fire 0 78 - 0 # x\n", 1, b"WordCount"),
    (b"fire 0 78 - 00\n", 1, b"BadWord 5"),
    (b"fire +0 78 - 0\n", 1, b"BadWord 2"),
    (b"fire 18446744073709551616 78 - 0\n", 1, b"BadWord 2"),
    (b"fire 0 786 - 0\n", 1, b"BadWord 3"),
    (b"fire\t0 78 - 0\n", 1, b"UnknownWord"),
    (b"Fire 0 78 - 0\n", 1, b"UnknownWord"),
    (b"deliver 0 0\n", 1, b"WordCount"),
    (b"\n# fire\n\n  \ndeliver 0 0 -1", 5, b"BadWord 4"),
    (b"deliver 0 0 0\n\xff\xfe", 2, b"UnknownWord"),
    (b"state\n", 1, b"WordCount"),
    (b"state a\n", 1, b"BadWord 2"),
    (b"merge 0 0 Join\n", 1, b"BadWord 4"),
    (b"merge 0 0\n", 1, b"WordCount"),
    (b"query 0 0 1 78 - 5\n", 1, b"WordCount"),
    (b"query 0 0 4294967296 78 - 5 0\n", 1, b"BadWord 4"),
    (b"query 0 0 1 78 x 5 0\n", 1, b"BadWord 6"),
    (b"query 0 0 1 78 - 9223372036854775808 0\n", 1, b"BadWord 7"),
    (b"query 0 0 1 78 - 5 4\n", 1, b"BadWord 8"),
    (b"query 0 0 1 78 - 5 0 00 0\n", 1, b"BadWord 10"),
    (b"query 0 0 1 78 - 5 4 0\n", 1, b"BadWord 8"),
    (b"respond 0 0 0\n", 1, b"WordCount"),
    (b"respond 0 0 x -\n", 1, b"BadWord 4"),
    (b"restart 0\n", 1, b"WordCount"),
    (b"restart 0 0\n", 1, b"BadWord 3"),
    (b"break 0 append 0\n", 1, b"BadWord 4"),
    (b"break 0 replace 1\n", 1, b"BadWord 3"),
    (b"break 0 flush\n", 1, b"WordCount"),
    (b"inject\n", 1, b"WordCount"),
    (b"inject 0g\n", 1, b"BadWord 2"),
    (b"close 0\n", 1, b"WordCount"),
    (b"close 0 -\n", 1, b"BadWord 3"),
    (b"save 0 0\n", 1, b"WordCount"),
    (b"save -\n", 1, b"BadWord 2"),
    (b"compact\n", 1, b"WordCount"),
    (b"compact 00x\n", 1, b"BadWord 2"),
)


def examples(count):
    names = checks.names_in(checks.EXAMPLES)
    count.check("ten examples", len(names) >= 10)
    for name in names:
        path = os.path.join(checks.EXAMPLES, name)
        trace, schedule = checks.read(path + ".trace"), checks.read(path + ".schedule")
        count.exactly(name, ["replay", path + ".schedule"], 0, trace, b"")
        count.exactly(name + " on standard input", ["replay"], 0, trace, b"", schedule)
        count.exactly(name + " as `-`", ["replay", "-"], 0, trace, b"", schedule)


def bad_lines(count):
    for given, line, cause in BAD_LINES:
        said = b"bad line %d %s\n" % (line, cause)
        count.exactly(f"the schedule {given}", ["replay"], 1, b"", said, given)


def of_editors(count):
    """A byte order mark before a schedule and carriage returns at the ends of its lines change no command's answer."""
    schedule, mark = checks.read("examples", "deploy_gossiped_twice.schedule"), b"\xef\xbb\xbf"
    crlf = schedule.replace(b"\n", b"\r\n")
    with tempfile.NamedTemporaryFile() as file:
        file.write(mark + crlf)
        file.flush()
        for words in (
            ["replay"],
            ["replay", "--stream"],
            ["replay", "--summary"],
            ["replay", "--summary", "--stream"],
            ["explain"],
            ["explain", "--stream"],
            ["explain", "--agent", "0"],
            ["draw"],
            ["conform"],
        ):
            plain = os.path.join(checks.EXAMPLES, "deploy_gossiped_twice.schedule")
            got, wanted = checks.run_program([*words, file.name]), checks.run_program([*words, plain])
            count.check(f"a file of an editor: {words}", got == wanted and wanted[1], got)
            for name, text in (
                ("carriage returns", crlf),
                ("a mark", mark + schedule),
                ("a mark and a comment", mark + b"# x\r\n\r\n" + crlf),
            ):
                if words[0] != "conform":
                    got = checks.run_program(words, text)
                    count.check(f"{name}: {words}", got == wanted, got)
    for name, text in (("a mark alone", mark), ("a mark and a carriage return", mark + b"\r\n")):
        count.exactly(name, ["replay"], 0, b"", b"", text)
    with subprocess.Popen([checks.PROGRAM, "replay", "--stream"], stdin=subprocess.PIPE, stdout=subprocess.PIPE) as process:
        for part in (mark[:1], mark[1:2], mark[2:] + b"# x\r", b"\n" + schedule):
            process.stdin.write(part)
            process.stdin.flush()
            time.sleep(0.1)
        process.stdin.close()
        count.check("a mark that arrives by itself", process.stdout.read() == checks.read("examples", "deploy_gossiped_twice.trace"))


def faults(count):
    longest = checks.LONGEST
    count.exactly("an empty schedule", ["replay"], 0, b"", b"")
    count.exactly("the longest text", ["replay"], 0, b"", b"", b"\n" * longest)
    count.exactly("the longest line", ["replay"], 1, b"", b"bad line 1 UnknownWord\n", b"x" * longest)
    count.exactly("the longest comment", ["replay"], 0, b"", b"", b"#" + b"x" * (longest - 1))
    count.exactly("one byte more", ["replay"], 1, b"", TOO_LONG, b"\n" * (longest + 1))
    count.exactly("one byte more, after a bad line", ["replay"], 1, b"", TOO_LONG, b"!" + b"\n" * longest)
    path = os.path.join(checks.TOP, "no_such_file")
    count.exactly("a missing file", ["replay", path], 3, b"", os.fsencode(path) + b": no such file\n")
    count.exactly("a folder", ["replay", checks.TOP], 3, b"", os.fsencode(checks.TOP) + b": read failed: Is a directory (os error 21)\n")
    path = os.path.join(checks.EXAMPLES, "deploy_gossiped_twice.written")
    hint = b"if this is a written schedule, run: serf-replay write %s | serf-replay replay\n" % os.fsencode(path)
    for words in (
        ["replay"],
        ["replay", "--stream"],
        ["replay", "--summary"],
        ["explain"],
        ["explain", "--agent", "alpha"],
        ["draw"],
        ["conform"],
    ):
        got = checks.run_program([*words, path])
        count.check(
            f"a written schedule: {words}", got[:2] == (1, b"") and got[2].startswith(b"bad line ") and got[2].endswith(b"\n" + hint), got
        )


def on_a_terminal(words, given=b""):
    """The status and the output of a run whose standard error is a terminal, and what that shows."""
    ours, theirs = pty.openpty()
    shown = []

    def show():
        try:
            while some := os.read(ours, 1000):
                shown.append(some)
        except OSError:
            pass

    reader = threading.Thread(target=show)
    reader.start()
    result = subprocess.run([checks.PROGRAM, *words], input=given, stdout=subprocess.PIPE, stderr=theirs, timeout=checks.LIMIT)
    os.close(theirs)
    reader.join(60)
    os.close(ours)
    return result.returncode, result.stdout, b"".join(shown)


# What a cause of a bad line means, as a terminal shows it.
UNKNOWN = b"a line begins with agent, fire, deliver, state, merge, query, respond, restart, break, inject, close, save or compact; if the text has labels, convert it with serf-replay write first"
WORD = b"the command doesn't accept this word, counted with the command as word 1 (docs/SPEC.md, Schedules); if the text has names, convert it with serf-replay write first"
COUNT = b"the line has more or fewer words than its command accepts; if the text has names, convert it with serf-replay write first"
BOUNDS = b"a name must have 1 to 128 bytes, the limit can be at most 9216, and the other numbers of an agent must be 1 to 65536"
MEANINGS = (
    (["replay"], b"fires 0\n", b"1 UnknownWord", UNKNOWN),
    (["replay"], b"save 0\nagent 61 4 4 512 2 keep\n", b"2 LateAgent", b"the lines of all agents must be before the first action"),
    (["explain"], b"save\n", b"1 WordCount", COUNT),
    (["explain", "--agent", "0"], b"save x\n", b"1 BadWord 2", WORD),
    (["draw"], b"agent 61 0 4 512 2 keep\n", b"1 BadConfig", BOUNDS),
    (["replay", "--summary"], b"agent 61 4 4 512 2 keep\n" * 2, b"2 NameTwice", b"an agent on an earlier line has this name"),
    (["replay", "--stream"], b"\nsave 0 0\n", b"2 WordCount", COUNT),
    (["decode"], b"0\n", b"1 BadHex", b"a packet must be in hex digits, two for each byte"),
    (["encode"], b"x" * (checks.LONGEST + 1), b"1 TooLong", b"a line can have at most 16777216 bytes"),
)


def sentences_on_a_terminal(count):
    """A terminal shows what the cause means, after the line with the cause; otherwise there is only the line."""
    for words, given, cause, meaning in MEANINGS:
        status, out, shown = on_a_terminal(words, given)
        lines = shown.replace(b"\r\n", b"\n")
        if programs.IS_UNPROVED:
            # (a slow program, with checks in it, may print how far it is)
            lines = re.sub(rb"(?m)^\d+ bytes read\n", b"", lines)
        count.check(f"{words} {cause} on a terminal", (status, out, lines) == (1, b"", b"bad line %s\n%s\n" % (cause, meaning)), shown)
        count.exactly(f"{words} {cause}", words, 1, b"", b"bad line %s\n" % cause, given)


def short_run_on_a_terminal(count):
    """A run of less than a second shows no progress, not even on a terminal."""
    path = os.path.join(checks.EXAMPLES, "deploy_gossiped_twice.schedule")
    trace = checks.read("examples", "deploy_gossiped_twice.trace")
    got = on_a_terminal(["replay", path])
    count.check("a short run on a terminal", got == (0, trace, b""), f"got {got}")


def long_schedule(actions):
    """A schedule of so many actions, most of which merge a state of many slots."""
    slots = 20_000
    state = b"\x02\x81\xa6Events\xdc" + slots.to_bytes(2, "big") + b"\xc0" * slots
    return b"agent 61 4 4 512 8 keep\ninject " + state.hex().encode() + b"\n" + b"merge 0 0 sync\n" * (actions - 1)


def long_run_on_a_terminal(count):
    """A longer run prints once a second how many actions are done, only on a terminal, and writes the same trace."""
    actions, took = 4096, 0
    while took < 3 and actions < 1_000_000:
        actions *= 2
        schedule = long_schedule(actions)
        before = time.monotonic()
        piped = checks.run_program(["replay"], schedule)
        took = time.monotonic() - before
    count.check("a long run", piped[::2] == (0, b""), piped[::2])
    count.check("its trace", piped[1].endswith(b"\n%d merged\n" % actions), piped[1][-100:])
    with tempfile.NamedTemporaryFile() as file:
        file.write(schedule)
        file.flush()
        status, out, shown = on_a_terminal(["replay", file.name])
    lines = shown.decode("ascii", "replace").splitlines()
    told = [re.fullmatch(r"(\d+) of (\d+) actions", line) for line in lines]
    done = [int(line[1]) for line in told if line]
    well = all(told) and all(int(line[2]) == actions for line in told) and all(number % 1024 == 0 for number in done)
    count.check(
        "its progress on a terminal",
        lines and well and done == sorted(set(done)),
        f"{actions} actions, shown {lines[:5]}",
    )
    count.check(
        "its trace on a terminal", (status, out) == (0, piped[1]), f"{status}, {len(out)} bytes of {len(piped[1])}"
    )


def peak_kib(schedule):
    """The peak of the resident set of a run that passes, in KiB, or what was wrong with it."""
    with tempfile.TemporaryFile() as given:
        given.write(schedule)
        given.seek(0)
        child = subprocess.Popen([checks.PROGRAM, "replay"], stdin=given, stdout=subprocess.DEVNULL)
        _, status, usage = os.wait4(child.pid, 0)
    child.returncode = os.waitstatus_to_exitcode(status)
    return usage.ru_maxrss if status == 0 else f"status {status}"


def jobs_on_a_terminal(count):
    """The other commands do the same: they print how much is made or read, once a second, only on a terminal."""
    jobs = {
        "random": (lambda many: (["random", "1", "--agents", "4", "--actions", str(many)], b""), r"\d+ of {all} actions"),
        "draw": (lambda many: (["draw", "--from", str(many)], long_schedule(many)), r"\d+ of {all} actions"),
        "write": (lambda many: (["write"], b"agent a\n" + b'fire a "x" "y"\n' * many), r"\d+ of \d+ bytes read"),
    }
    for name, (job, line) in jobs.items():
        many, took = 4096, 0
        while took < 3 and many < 1_000_000:
            many *= 2
            before = time.monotonic()
            piped = checks.run_program(*job(many))
            took = time.monotonic() - before
        status, out, shown = on_a_terminal(*job(many))
        lines = shown.decode("ascii", "replace").splitlines()
        told = [row for row in lines if re.fullmatch(line.format(all=many), row)]
        other = [row for row in lines if row not in told and not re.fullmatch(r"\d+ bytes read", row)]
        # (what `random` writes is at most 16 MiB, which a quick machine reaches in less than a second)
        count.check(f"{name}: its progress on a terminal", (told or took < 2) and not other, f"{many}, shown {lines[:5]}")
        count.check(f"{name}: nothing else changes", (status, out, b"") == piped == (0, out, b""), piped[::2])


def slow_input_on_a_terminal(count):
    """While slow input arrives, the number of bytes is printed."""
    for words in (["judge"], ["decode"], ["replay", "--stream"]):
        ours, theirs = pty.openpty()
        with subprocess.Popen([checks.PROGRAM, *words], stdin=subprocess.PIPE, stdout=subprocess.DEVNULL, stderr=theirs) as process:
            for _ in range(3):
                process.stdin.write(b"# 4\n" if words[0] != "decode" else b"00\n\n")
                process.stdin.flush()
                time.sleep(1.2)
            process.stdin.close()
            process.wait(60)
        os.close(theirs)
        shown = b""
        try:
            while some := os.read(ours, 1000):
                shown += some
        except OSError:
            pass
        os.close(ours)
        lines = [row for row in shown.decode("ascii", "replace").splitlines() if re.fullmatch(r"(?:4|8|12) bytes read", row)]
        count.check(f"{words}: how much is read", lines and lines == sorted(lines, key=lambda row: int(row.split()[0])), shown)


def memory_of_agents(count):
    """Agents of 512 slots that do nothing use at most 1 KiB each, including their lines and the program.

    There are so many that the peak which the system reports is not that of this interpreter, as it is for a small run. This part
    runs before those that fill it.
    """
    agents = 50_000
    peak = peak_kib(b"".join(b"agent %08x 512 512 512 8 keep\n" % number for number in range(agents)))
    count.check(f"{agents} agents that do nothing", isinstance(peak, int) and peak <= agents, f"{peak} KiB")


def no_memory(count):
    """If memory is short, only the error is written."""
    schedule = b"agent 61 4 4 512 8 keep\n" + b"fire 0 78 - 0\n" * 100_000
    some = 12 * 1024 * 1024
    result = subprocess.run(
        [checks.PROGRAM, "replay"],
        input=schedule,
        capture_output=True,
        timeout=checks.LIMIT,
        preexec_fn=lambda: resource.setrlimit(resource.RLIMIT_AS, (some, some)),
    )
    count.check(
        "a run without memory", (result.returncode, result.stdout, result.stderr) == (3, b"", b"out of memory\n"), str(result)[-300:]
    )
    status, out, err = checks.run_program(["replay"], schedule)
    count.check(
        "the same run with memory", (status, err) == (0, b"") and out.count(b" fired ") == 100_000, (status, err)
    )


def summaries(count):
    """What `--summary` writes in place of a trace."""
    schedule = os.path.join(checks.EXAMPLES, "deploy_gossiped_twice.schedule")
    said = (
        b"actions 3\n"
        b"answered fired: 1, last at action 1\n"
        b"answered new: 1, last at action 2\n"
        b"answered ignored Seen: 1, last at action 3\n"
        b"agent 0 was handed: 1, last at action 1\n"
        b"agent 1 was handed: 1, last at action 2\n"
        b"event 1 6465706c6f79 7631 was handed out: 2, last at action 2\n"
    )
    count.exactly("a summary", ["replay", "--summary", schedule], 0, said, b"")
    count.exactly("and on standard input", ["replay", "--summary", "-"], 0, said, b"", checks.read(schedule))
    count.exactly("of nothing", ["replay", "--summary"], 0, b"actions 0\n", b"")
    count.exactly("of a bad line", ["replay", "--summary"], 1, b"", b"bad line 1 UnknownWord\n", b"fires 0\n")


# A schedule whose third agent is handed nothing, and what its summary has for machines.
ROWS_SCHEDULE = b"agent 61 2 2 512 8 ignore 1\nagent 62 2 2 512 8 ignore 1\nagent 63 2 2 512 8 ignore 1\n"
ROWS_SCHEDULE += b"fire 0 646570 - 0\ndeliver 1 0 0\ndeliver 1 0 0\n"
ROWS = [
    {"what": "actions", "times": 3},
    {"what": "answer", "answer": "fired", "times": 1, "last": 1},
    {"what": "answer", "answer": "new", "times": 1, "last": 2},
    {"what": "answer", "answer": "ignored Seen", "times": 1, "last": 3},
    {"what": "agent", "agent": 0, "times": 1, "last": 1},
    {"what": "agent", "agent": 1, "times": 1, "last": 2},
    {"what": "agent", "agent": 2, "times": 0},
    {"what": "event", "time": 1, "name": "646570", "payload": "-", "times": 2, "last": 2},
]


def summaries_for_machines(count):
    """The rows of a summary, as CSV, and words that are refused. JSON is in json_output.py."""
    status, out, err = checks.run_program(["replay", "--summary", "--format", "csv"], ROWS_SCHEDULE)
    rows = [{name: value for name, value in row.items() if value} for row in csv.DictReader(out.decode().splitlines())]
    wanted = [{name: str(value) for name, value in row.items()} for row in ROWS]
    count.check("as CSV", (status, rows, err) == (0, wanted, b""), out)
    said = b"error: --format accepts text, csv or json with --summary\n"
    count.exactly("another form of a summary", ["replay", "--summary", "--format", "trace"], 2, b"", said, ROWS_SCHEDULE)
    for words in (["--format", "csv"], ["--stream", "--format", "xml"]):
        said = b"error: --format accepts trace, text or json without --summary\n"
        count.exactly(" ".join(words), ["replay", *words], 2, b"", said, ROWS_SCHEDULE)


# The run of the schedule above, for people.
PEOPLE = b"""1 "a" fire "dep" "": fired 1
1 sends packet 0: event 1 "dep" ""
1 "a" is handed event 1 "dep" ""
2 "b" deliver packet 0: new
2 sends packet 1: event 1 "dep" ""
2 "b" is handed event 1 "dep" ""
3 "b" deliver packet 0: ignored Seen
"""


def for_people(count):
    """The text of a run has the names of agents and packets in words; it has no hex, even of a large state."""
    for words in ([], ["--stream"]):
        count.exactly(f"for people {words}", ["replay", *words, "--format", "text"], 0, PEOPLE, b"", ROWS_SCHEDULE)
    state = b"agent 61 512 512 512 8 ignore\nstate 0\n"
    said = b'1 "a" state: state\n1 sends packet 0: a state with event clock 1, events: 0\n'
    count.exactly("a state in words", ["replay", "--format", "text"], 0, said, b"", state)


PARTS = (
    examples,
    bad_lines,
    of_editors,
    faults,
    slow_input_on_a_terminal,
    sentences_on_a_terminal,
    summaries,
    summaries_for_machines,
    for_people,
)

# The parts that measure time and memory: a program that is compiled unproved has checks in it.
PROVED_ALONE = (long_run_on_a_terminal, memory_of_agents, no_memory, jobs_on_a_terminal, short_run_on_a_terminal)


if __name__ == "__main__":
    # (the part that measures memory is first, while this interpreter is small: the system never reports less memory for a run
    # than for its parent)
    sys.exit(checks.by_speed(PROVED_ALONE, PARTS))
