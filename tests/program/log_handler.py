"""`examples/serf_log_handler.sh`: it writes a date, and a word for each text, whatever its bytes; it runs a command as the handler, between
two lines; and what `judge` makes of the lines.

Each shell runs it: dash, whose `echo` interprets backslashes, and bash.
"""

import datetime
import os
import subprocess
import sys
import tempfile

sys.dont_write_bytecode = True
sys.path.insert(0, os.path.dirname(os.path.dirname(os.path.abspath(__file__))))
import checks

HANDLER = os.path.join(checks.EXAMPLES, "serf_log_handler.sh")
SHELLS = ("dash", "bash")

# Names and payloads, and their words. Serf appends a newline to a payload that has none and isn't empty.
TEXTS = (
    (b"deploy", b"v2\n", b"deploy v2"),
    (b"cfg", b'{"m":"a\\nb\\tc"}\n', b'cfg {"m":"a\\nb\\tc"}'),
    (b"stop\\c", b"\\c\n", b"stop\\c \\c"),
    (b"\\0101", b"\\0101\n", b"\\0101 \\0101"),
    (b"none", b"", b"none -"),
    (b"dash", b"-\n", b"dash %2D"),
    (b"-", b"--\n", b"%2D --"),
    (b"", b"v\n", b"- v"),
    (b"a b", b" two  words \n", b"a%20b %20two%20%20words%20"),
    (b"100%", b"%0A\n", b"100%25 %250A"),
    (b"lines", b"one\ntwo\n", b"lines one%0Atwo"),
    (b"-n", b"-e\n", b"-n -e"),
    (b"%s", b"%d$HOME`id`*\n", b"%25s %25d$HOME`id`*"),
    (b"bytes", b"\xff\xc3\x28\t\r\n", b"bytes \xff\xc3\x28\t%0D"),
)


def run_handler(shell, given, **variables):
    """The line that the handler writes for a payload, without its date, its status, and what it prints elsewhere."""
    with tempfile.TemporaryDirectory() as folder:
        log = os.path.join(folder, "log")
        held = {os.fsencode(name): value for name, value in variables.items()}
        held.update({b"PATH": os.fsencode(os.environ["PATH"]), b"SERF_LOG": os.fsencode(log)})
        result = subprocess.run([shell, HANDLER], input=given, env=held, capture_output=True, timeout=checks.LIMIT)
        text = checks.read(log) if os.path.exists(log) else None
        if text is not None:
            date, text = text.split(b" ", 1)
            at = datetime.datetime.strptime(date.decode(), "%Y-%m-%dT%H:%M:%SZ").replace(tzinfo=datetime.timezone.utc)
            if abs(datetime.datetime.now(datetime.timezone.utc) - at) > datetime.timedelta(hours=1):
                raise ValueError(f"the line's date is {date}")
        return text, result.returncode, result.stdout + result.stderr


def event(shell, name, given, node=b"alpha", time=b"7"):
    return run_handler(shell, given, SERF_EVENT=b"user", SERF_SELF_NAME=node, SERF_USER_LTIME=time, SERF_USER_EVENT=name)


def query(shell, name, given, time=b"7"):
    return run_handler(shell, given, SERF_EVENT=b"query", SERF_SELF_NAME=b"alpha", SERF_QUERY_LTIME=time, SERF_QUERY_NAME=name)


def words(count):
    for shell in SHELLS:
        for name, given, wanted in TEXTS:
            got = event(shell, name, given)
            count.check(f"{shell}: {name} {given}", got == (b"event alpha 7 " + wanted + b"\n", 0, b""), got)
        got = event(shell, b"x", b"", node=b"my node")
        count.check(f"{shell}: a node's name", got == (b"event my%20node 7 x -\n", 0, b""), got)


def queries(count):
    """POSIX's checksum isn't that of zlib, so the check is only that it is a number, and that it differs for different texts."""
    for shell in SHELLS:
        lines = [query(shell, *texts)[0] for texts in ((b"load", b""), (b"load", b"-\n"), (b"loads", b""))]
        count.check(f"{shell}: queries", len(set(lines)) == 3 and all(is_query(line) for line in lines), lines)
        got = query(shell, b"load", b"")
        count.check(f"{shell}: a query has no answer", got == (lines[0], 0, b""), got)


def is_query(line):
    parts = line.split(b" ")
    return parts[:3] == [b"query", b"alpha", b"7"] and parts[3].strip().isdigit() and int(parts[3]) < 2**32


def members(count):
    for shell in SHELLS:
        got = run_handler(shell, b"beta\t10.0.0.2\t\t\n", SERF_EVENT=b"member-join", SERF_SELF_NAME=b"alpha")
        count.check(f"{shell}: a member that joins", got == (None, 0, b""), got)


def run_wrapped_handler(shell, given, *command, kind=b"user"):
    """What the log says of an event or a query whose handler is this command, without the dates, the status, and what it prints."""
    with tempfile.TemporaryDirectory() as folder:
        log = os.path.join(folder, "log")
        held = {
            b"PATH": os.environb[b"PATH"],
            b"TMPDIR": os.fsencode(folder),
            b"LC_ALL": b"C.UTF-8",
            b"SERF_EVENT": kind,
            b"SERF_SELF_NAME": b"my node",
        }
        held |= {b"SERF_USER_LTIME": b"7", b"SERF_USER_EVENT": b"deploy", b"SERF_QUERY_LTIME": b"8", b"SERF_QUERY_NAME": b"load"}
        result = subprocess.run([shell, HANDLER, log, *command], input=given, env=held, capture_output=True, timeout=checks.LIMIT)
        lines = checks.read(log).splitlines(keepends=True) if os.path.exists(log) else []
        return b"".join(line.split(b" ", 1)[1] for line in lines), result.returncode, result.stdout + result.stderr, os.listdir(folder)


def commands(count):
    """The script runs a command between two lines: the command has the same input and environment, and its status is passed on."""
    for shell in SHELLS:
        for given, word in (
            (b"v2\n", b"v2"),
            (b"", b"-"),
            (b"a b\0c\n", b"a%20bc"),
            (b"two\nlines\n", b"two%0Alines"),
            (bytes(range(256)) * 36, None),
        ):
            log, status, printed, left = run_wrapped_handler(
                shell, given, "sh", "-c", 'cat; printf %s "$SERF_USER_EVENT $LC_ALL" >&2; exit 3'
            )
            count.check(
                f"{shell}: a command's input {given[:9]}",
                (status, printed, left) == (3, given + b"deploy C.UTF-8", ["log"]),
                (status, printed, left),
            )
            lines = b"begun my%20node 7 deploy " + (word or b"") + b"\nended my%20node 7 deploy " + (word or b"") + b" 3\n"
            count.check(f"{shell}: a command's lines {given[:9]}", word is None or log == lines, log)
        for command, status, ended in (("true", 0, b"0"), ("false", 1, b"1"), ("kill -9 $$", 137, b"137"), ("exit 255", 255, b"255")):
            got = run_wrapped_handler(shell, b"v2\n", "sh", "-c", command)
            lines = b"begun my%20node 7 deploy v2\nended my%20node 7 deploy v2 " + ended + b"\n"
            count.check(f"{shell}: {command}", got[:2] == (lines, status), got)
        got = run_wrapped_handler(shell, b"v2\n", "./there-is-none")
        count.check(f"{shell}: no command of this name", got[1] == 127 and got[0].endswith(b" 127\n"), got)
        log, status, printed, _ = run_wrapped_handler(shell, b"x\n", "sh", "-c", "cat; exit 4", kind=b"query")
        is_line = log.startswith(b"query my%20node 8 ") and log.count(b"\n") == 1
        count.check(f"{shell}: a query's command answers it", is_line and (status, printed) == (4, b"x\n"), (log, status, printed))
        got = run_wrapped_handler(shell, b"x\n", "sh", "-c", "cat; exit 5", kind=b"member-join")
        count.check(f"{shell}: a member's command", got == (b"", 5, b"x\n", []), got)
        got = run_wrapped_handler(shell, b"v2\n")
        count.check(f"{shell}: a log without a command", got == (b"event my%20node 7 deploy v2\n", 0, b"", ["log"]), got)


def cut_off(count):
    """A script that is killed while its command runs leaves a line of an event that began."""
    for shell in SHELLS:
        log, status, _, _ = run_wrapped_handler(shell, b"v2\n", "sh", "-c", "kill -9 $PPID")
        got = checks.run_program(["judge"], log)
        said = b'Handlers: line 1 began and never ended: my%20node 7 "deploy" "v2"\nHandlers: 1 began, 1 never ended, 0 failed\n'
        count.check(f"{shell}: a handler that is cut off", status == -9 and got[0] == 0 and got[1].endswith(said), (log, status, got))


def judged(count):
    """`judge` accepts each line, finds no repeat among different texts, and finds a text that is repeated."""
    for shell in SHELLS:
        log = b"".join(event(shell, name, given)[0] for name, given, _ in TEXTS)
        log += query(shell, b"load", b"")[0] + query(shell, b"load", b"-\n")[0]
        got = checks.run_program(["judge"], log)
        count.check(f"{shell}: a log of all of these", got[0] == 0 and b"\nOnce: holds\nQueryOnce: holds\n" in got[1], got)
        got = checks.run_program(["judge"], log + event(shell, b"none", b"")[0] + query(shell, b"load", b"")[0])
        both = got[1].count(b"repeats line")
        count.check(f"{shell}: an event and a query again", got[0] == 1 and both == 2, got)


if __name__ == "__main__":
    sys.exit(checks.over_program(words, queries, members, commands, cut_off, judged))
