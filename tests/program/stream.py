"""`replay --stream`: compares it with `replay`. Also errors after a prefix, long runs, a pipe, a program that drives
it, and summaries."""

import importlib.util
import os
import subprocess
import sys
import tempfile

sys.dont_write_bytecode = True
sys.path.insert(0, os.path.dirname(os.path.dirname(os.path.abspath(__file__))))
import checks
from checks import run_program

STREAM = ["replay", "--stream"]
AGENTS = b"agent 61 4 4 512 8 keep\nagent 62 4 4 512 8 keep\n"


def same(count, name, text):
    """A schedule that `replay` accepts, or one that it refuses: then the stream writes the text of the lines before. Returns
    the stream's answer."""
    wanted, got = run_program(["replay"], text), run_program(STREAM, text)
    if wanted[0] == 0:
        count.check(name, got == wanted, str((wanted, got))[:400])
        return got
    line = int(wanted[2].split()[2])
    prefix = run_program(["replay"], b"\n".join(text.split(b"\n")[: line - 1]))
    count.check(name, prefix[0] == 0 and got == (wanted[0], prefix[1], wanted[2]), str((wanted, prefix, got))[:400])
    return got


def like_replay(count):
    for folder in (checks.EXAMPLES, checks.ROWS):
        for name in checks.names_in(folder):
            path = os.path.join(folder, name + ".schedule")
            status, out, err = same(count, name, checks.read(path))
            count.exactly(name + " by its path", [*STREAM, path], status, out, err)
    for seed in range(1, 13):
        same(count, f"random {seed}", run_program(["random", str(seed)])[1])


def small(count):
    fire = b"fire 0 61 - 0\n"
    texts = {
        "nothing": b"",
        "no newline": AGENTS + b"state 0",
        "comments alone": b"# a\n\n   \n#b",
        "agents alone": AGENTS,
        "a late agent": AGENTS + fire + b"agent 63 4 4 512 8 keep\n" + fire,
        "a late agent with too few words": AGENTS + fire + b"agent 63\n",
        "a comment after an action": AGENTS + fire + b"# a\n\n" + fire,
        "a bad first line": b"fires 0\n" + AGENTS,
        "a bad last line": AGENTS + fire + b"deliver 1 0",
        "a bad word": AGENTS + fire + b"deliver 1 x 0\n" + fire,
        "no agents": fire * 3,
        "a name twice": AGENTS + AGENTS + fire,
        "bad settings": AGENTS + b"agent 63 0 4 512 8 keep\n" + fire,
        "a carriage return": AGENTS + fire + b"state 0\r\n",
        "any bytes": AGENTS + fire + bytes(range(256)),
        "many filters": AGENTS + b"query 0 1 7 61 - 5 1" + b" 0091a162" * 40 + b"\ndeliver 1 0 2\n",
    }
    for name, text in texts.items():
        same(count, name, text)


def same_summary(count, name, form, text):
    words = ["--summary", "--format", form]
    wanted, got = run_program(["replay", *words], text), run_program([*STREAM, *words], text)
    count.check(f"the summary of {name} as {form}", got == wanted, str((wanted, got))[:400])


def summed_up(count):
    """`--stream --summary` prints what `--summary` prints, and for a bad schedule only the same error."""
    fire = b"fire 0 61 - 0\n"
    texts = {
        "nothing": b"",
        "agents alone": AGENTS,
        "no agents": fire * 2,
        "no newline": AGENTS + fire + b"deliver 1 0 0",
        "a late agent": AGENTS + fire + b"agent 63 4 4 512 8 keep\n" + fire,
        "a bad first line": b"fires 0\n" + AGENTS,
        "a bad last line": AGENTS + fire + b"deliver 1 0",
        "a name twice": AGENTS + AGENTS + fire,
        "agents without a last newline": AGENTS[:-1],
        "comments and carriage returns": b"\xef\xbb\xbf# a\r\n\r\n" + AGENTS.replace(b"\n", b"\r\n# b\n") + fire,
        "agents beyond one read": b"#" + b" " * 70_000 + b"\n" + b"".join(b"agent %04x 4 4 512 8 keep\n" % n for n in range(4_096)) + fire,
    }
    for name in checks.names_in(checks.EXAMPLES):
        texts[name] = checks.read("examples", name + ".schedule")
    for name, text in texts.items():
        for form in ("text", "csv", "json"):
            same_summary(count, name, form, text)
    for name in checks.names_in(checks.ROWS):
        same_summary(count, name, "csv", checks.read(checks.ROWS, name + ".schedule"))
    for seed in range(1, 7):
        same_summary(count, f"random {seed}", "json", run_program(["random", str(seed)])[1])


def long_ones_summed_up(count):
    """An input of more than 16 MiB has a summary line by line, and it is that of the lines one after another."""
    fire = b"fire 0 61 - 0\n"
    lines = AGENTS + fire + b"deliver 1 0 0\n" * 1_300_000
    said = (
        b"actions 1300001\n"
        b"answered fired: 1, last at action 1\n"
        b"answered new: 1, last at action 2\n"
        b"answered ignored Seen: 1299999, last at action 1300001\n"
        b"agent 0 was handed: 1, last at action 1\n"
        b"agent 1 was handed: 1, last at action 2\n"
        b"event 1 61 - was handed out: 2, last at action 2\n"
    )
    count.exactly("a long summary", [*STREAM, "--summary"], 0, said, b"", lines)
    count.exactly("too long for one", ["replay", "--summary"], 1, b"", b"the input is too long: it has more than 16777216 bytes\n", lines)
    comment, too_long = b"#" + b" " * (checks.LONGEST - 1), b"bad line 4 TooLong\n"
    count.exactly("a line that is too long", [*STREAM, "--summary"], 1, b"", too_long, AGENTS + fire + b" " + comment)
    bad = b"bad line 10004 UnknownWord\n"
    many = AGENTS + fire + b"deliver 1 0 0\n" * 10_000 + b"fires\n"
    count.exactly("a bad line after many", [*STREAM, "--summary"], 1, b"", bad, many)


def long_ones(count):
    fire = b"fire 0 61 - 0\n"
    lines = AGENTS + fire + b"deliver 1 0 0\n" * 1_300_000
    text = b"1 fired 1\n1 sent 0 " + run_program(["replay"], AGENTS + fire)[1].split(b" ")[5].split(b"\n")[0] + b"\n"
    got = run_program(STREAM, lines)
    count.check(
        "more than 16 MiB are too long for replay",
        run_program(["replay"], lines)[::2] == (1, b"the input is too long: it has more than 16777216 bytes\n"),
    )
    count.check(
        "and not for a stream",
        got[0] == 0 and got[2] == b"" and got[1].startswith(text) and got[1].count(b" ignored Seen\n") == 1_299_999,
        str(got)[:300],
    )
    prefix = run_program(["replay"], AGENTS + fire)[1]
    comment, too_long = b"#" + b" " * (checks.LONGEST - 1), b"bad line 4 TooLong\n"
    count.exactly("the longest line", STREAM, 0, prefix, b"", comment + b"\n" + AGENTS + fire)
    count.exactly("one byte more", STREAM, 1, prefix, too_long, AGENTS + fire + b" " + comment + b"\n" + fire)
    count.exactly("and no end", STREAM, 1, prefix, too_long, AGENTS + fire + comment * 2)


def while_it_runs(count):
    """A turn's text is written before more is read."""
    with subprocess.Popen([checks.PROGRAM, *STREAM], stdin=subprocess.PIPE, stdout=subprocess.PIPE) as process:
        process.stdin.write(AGENTS + b"state 0\n")
        process.stdin.flush()
        count.check("the first turn's text", process.stdout.readline() == b"1 state\n")
        process.stdin.write(b"save 1\nsave")
        process.stdin.flush()
        process.stdout.readline()
        count.check("the text of the next turn", process.stdout.readline() == b"2 saved\n")
        process.stdin.write(b" 0")
        process.stdin.close()
        count.check(
            "the text of the last line, which has no newline", process.stdout.read() == b"3 saved\n" and process.wait(60) == 0
        )


def driven(count):
    """A program that writes and reads in turns: examples/drive_stream.py."""
    script = os.path.join(checks.EXAMPLES, "drive_stream.py")
    result = subprocess.run([sys.executable, script, checks.PROGRAM], capture_output=True, timeout=checks.LIMIT)
    fired = b"0 0384a54c54696d6501a44e616d65a66465706c6f79a75061796c6f6164a27631a24343c2\n"
    said = b"1 fired 1\n1 sent " + fired + b"1 event 0 1 6465706c6f79 7631 0\n"
    said += b"3 new\n3 sent 1" + fired[1:] + b"3 event 1 1 6465706c6f79 7631 0\n5 ignored Seen\n"
    count.check("the example", (result.returncode, result.stdout, result.stderr) == (0, said, b""), str(result)[:400])
    module = importlib.util.module_from_spec(importlib.util.spec_from_file_location("drive_stream", script))
    module.__spec__.loader.exec_module(module)
    stream = module.Stream(checks.PROGRAM, AGENTS)
    got = [stream.send_action(b"state 0"), stream.send_action(b"state 7"), stream.send_action(b"fire 0 61 - 0")]
    count.check("an agent that isn't there", got[1] == [b"3 refused NoAgent\n"] and got[2][0] == b"5 fired 1\n", got)
    long = b"inject " + b"00" * 40_000
    turns = [stream.send_action(long) for _ in range(20)]
    count.check("turns longer than a pipe", [turn[0] for turn in turns] == [b"%d injected\n" % n for n in range(7, 47, 2)])
    try:
        stream.send_action(b"fires 0")
        count.check("a bad line", False)
    except EOFError:
        stream.process.stdin.close()
        count.check("a bad line", stream.process.wait(60) == 1)
    stream.process.stdout.close()


def marks(count):
    """How far a run has come at each mark, and at each round: examples/coverage.py."""
    script = os.path.join(checks.EXAMPLES, "coverage.py")
    head = "mark,actions,handed_out,events,everywhere,Oversize,BelowMinimum,TooOld,Seen,TimeFull,NotOpen,OtherId,Closed,AckNotAsked,AckTwice,ResponseTwice"
    with tempfile.TemporaryDirectory() as folder:
        path = os.path.join(folder, "marked.schedule")
        with open(path, "wb") as file:
            file.write(
                b"# mark begin\n"
                + AGENTS
                + b"fire 0 61 - 0\n# mark one has it\n\ndeliver 1 0 0\ndeliver 1 0 0\n# mark, both\n# mark both\nfire 1 62 - 0\n"
            )
        result = subprocess.run([sys.executable, script, path, checks.PROGRAM], capture_output=True, text=True, timeout=checks.LIMIT)
        rows = ["begin,0,0,0,0", "one has it,1,1,1,0", "both,3,2,1,1", "end,4,3,2,1"]
        wanted = [head, *(f"{row},0,0,0,{int(at > 1)},0,0,0,0,0,0,0" for at, row in enumerate(rows))]
        count.check("marks", (result.returncode, result.stdout.splitlines()) == (0, wanted), str(result)[:800])
        with open(path, "wb") as file:
            file.write(AGENTS + b"# mark here\nfires 0\n")
        result = subprocess.run([sys.executable, script, path, checks.PROGRAM], capture_output=True, text=True, timeout=checks.LIMIT)
        count.check(
            "marks before a bad line",
            (result.returncode, result.stdout, result.stderr) == (1, head + "\n", "bad line 4 UnknownWord\n"),
            str(result)[:800],
        )
        with open(path, "wb") as file:
            file.write(AGENTS + b"fire 0 61 - 0\ndeliver 1 0 7\nfire 1 62 - 0\ndeliver 0 2 9\ndeliver 0 2 11\n")
        result = subprocess.run(
            [sys.executable, script, "--events", path, checks.PROGRAM], capture_output=True, text=True, timeout=checks.LIMIT
        )
        wanted = "time,name,payload,agents,first,half,nine_tenths,last\n1,61,-,2,0,0,7,7\n2,62,-,2,7,7,9,9\n"
        count.check("a row for each event", (result.returncode, result.stdout) == (0, wanted), result)
        with open(path, "wb") as file:
            file.write(checks.run_program(["random", "3", "--kind", "rounds", "--agents", "40"])[1])
        result = subprocess.run(
            [sys.executable, script, "--every", "200000000", path, checks.PROGRAM], capture_output=True, text=True, timeout=checks.LIMIT
        )
        rows = [[int(word) for word in row.split(",")[1:]] for row in result.stdout.splitlines()[1:]]
        grows = all(one[0] < more[0] and all(a <= b for a, b in zip(one, more)) for one, more in zip(rows, rows[1:]))
        summary = [row.split(",") for row in checks.run_program(["replay", "--summary", "--format", "csv", path])[1].decode().splitlines()]
        handed = sum(int(row[6]) for row in summary if row[0] == "agent")
        count.check("rounds", len(rows) == 10 and grows and rows[-1][1] == handed > 100, str(result)[:800])


def devices(count):
    for words in (STREAM, [*STREAM, "--summary"]):
        count.exactly("a file that isn't there", [*words, "/nowhere"], 3, b"", b"/nowhere: no such file\n")
    count.exactly("a folder", [*STREAM, checks.TOP], 3, b"", os.fsencode(checks.TOP) + b": read failed: Is a directory (os error 21)\n")
    with open("/dev/full", "wb") as full:
        result = subprocess.run(
            [checks.PROGRAM, *STREAM],
            input=AGENTS + b"state 0\n",
            stdout=full,
            stderr=subprocess.PIPE,
            timeout=checks.LIMIT,
        )
    count.check("a full device", (result.returncode, result.stderr) == (3, b"write failed: No space left on device (os error 28)\n"))


if __name__ == "__main__":
    sys.exit(checks.by_speed([long_ones, long_ones_summed_up], [like_replay, small, summed_up, while_it_runs, driven, marks, devices]))
