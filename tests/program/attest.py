"""`examples/records/attest.py`: which days it attests. The days are those of Python agents (attest/days.py).

Besides whole days, it tries disks that lost a line, handlers that ran again or for nothing, packets from outside, agents that do something
wrong, records that are no records, and records with one change: a byte, or a line that is dropped, doubled or swapped. Of the changed
records, attest.py has to attest those that the Python agent takes for records of an agent (attest/readers.py).
"""

import contextlib
import io
import os
import random
import shlex
import subprocess
import sys
import tempfile

sys.dont_write_bytecode = True
sys.path.insert(0, os.path.dirname(os.path.dirname(os.path.abspath(__file__))))
import checks
import pages
import programs

sys.path[:0] = [os.path.join(checks.TOP, "tests", "program", "attest"), os.path.join(checks.EXAMPLES, "records")]
import attest
import days
import lives
import readers
from serf_agent import switches

# How many changed records are tried. The unproved program takes some hundred times longer.
CHANGED = 30 if programs.IS_UNPROVED else 300

# Wrong bodies of the Python agent that a day of 150 steps shows.
WRONG = ("witness_without_one", "cc_is_always_false", "state_clock_is_witnessed", "no_query_lines", "compaction_writes_nothing")


class Remembering(lives.Program):
    """The program. It runs once for each schedule."""

    def __init__(self):
        super().__init__(checks.PROGRAM)
        self.found = {}

    def first_disagreement(self, schedule, replies):
        replies = [tuple(lines) for lines in replies]
        key = schedule, tuple(replies)
        if key not in self.found:
            self.found[key] = super().first_disagreement(schedule, iter(replies))
        return self.found[key]

    def flushed(self, schedule, is_compacting):
        key = schedule, is_compacting
        if key not in self.found:
            self.found[key] = super().flushed(schedule, is_compacting)
        return self.found[key]


def run_script(*words):
    """Runs the script, and returns its status and what it prints."""
    out = io.StringIO()
    argv, sys.argv = sys.argv, ["attest.py", "--program", checks.PROGRAM, *words]
    try:
        with contextlib.redirect_stdout(out), contextlib.redirect_stderr(out):
            status = attest.main()
    except SystemExit as end:
        status = end.code
    finally:
        sys.argv = argv
    return status, out.getvalue()


def whole_days(count):
    for seed in range(2 if programs.IS_UNPROVED else 8):
        with tempfile.TemporaryDirectory() as folder:
            day = days.Day(seed)
            paths = day.write(folder)
            snapshots = [word for name in "abc" for word in ("--snapshot", f"{name}={folder}/{name}.snapshot")]
            status, output = run_script(*paths, "--handlers", f"{folder}/handlers.log", *snapshots, "--whole")
            count.check(f"day {seed}: attested", status == 0 and output.startswith("attested: 3 nodes, "), output)
            count.check(f"day {seed}: each run is counted", f"\n  {len(day.log)} runs of handlers" in output, output)
            count.check(
                f"day {seed}: it has kills and events", len(day.log) > 10 and sum(len(node.opened_on) for node in day.nodes) > 3, output
            )


def lost_lines(count):
    """A disk that loses a line that was flushed, between two lives or after the newest one."""
    for seed, kind in ((20, b"event-clock: "), (21, b"#event "), (22, b"query-clock: "), (23, b"clock: ")):
        with tempfile.TemporaryDirectory() as folder:
            day = days.Day(seed, 60)
            node = day.nodes[1]
            node.call("fire 61 62 0")
            node.call(f"query 1 1 {b'load'.hex()} - 1000 0", days.with_address)
            node.call("merge 0281a54c54696d65cf0000000000000005 sync")
            node.call("save")
            node.kill()
            path = day.write(folder)[1]
            status, output = run_script(path)
            count.check(f"{kind}: attested while it is there", status == 0, output)
            lines = node.kept().splitlines(True)
            last = max(at for at, line in enumerate(lines) if line.startswith(kind))
            file = os.path.join(folder, "file")
            with open(file, "wb") as it:
                it.write(b"".join(lines[:last] + lines[last + 1 :]))
            status, output = run_script(path, "--snapshot", f"b={file}")
            count.check(
                f"{kind}: a file without it", status == 1 and "the snapshot of b lost what was flushed" in output and file in output, output
            )
            node.text = b"".join(lines[:last] + lines[last + 1 :])
            node.open()
            path = day.write(folder)[1]
            status, output = run_script(path)
            at = max(number for number, line in enumerate(node.record.splitlines(), 1) if line.startswith("open "))
            named = f"the snapshot of b lost what was flushed before the life that begins at {path}:{at}"
            count.check(f"{kind}: a life without it", status == 1 and named in output, output)


def handlers(count):
    with tempfile.TemporaryDirectory() as folder:
        day = days.Day(31, 60)
        paths, log = day.write(folder), os.path.join(folder, "log")
        for name, lines, says in (
            ("a run again", [*day.log, day.log[2]], f"{log}:{len(day.log) + 1}: a handler of"),
            ("a run for nothing", [*day.log, "event a 99 deploy v1"], "which its agent didn't hand out"),
            ("another payload", [day.log[0] + "x", *day.log[1:]], "which its agent didn't hand out"),
        ):
            with open(log, "w", encoding="ascii") as file:
                file.write("\n".join(lines) + "\n")
            status, output = run_script(*paths, "--handlers", log)
            count.check(name, status == 1 and says in output, output)
        # (a kill came after the line was flushed and before the call was recorded, so the next life ran the handler)
        node = day.nodes[1]
        node.text = node.kept() + b"event-clock: 90\n#event 90 6465706c6f79 7631\n"
        node.open()
        paths = day.write(folder)
        with open(log, "w", encoding="ascii") as file:
            file.write("\n".join([*day.log, "event b 90 deploy v1"]) + "\n")
        status, output = run_script(*paths, "--handlers", log)
        count.check("a run of what the file had", status == 0, output)
        with open(log, "w", encoding="ascii") as file:
            file.write("\n".join(["event z 1 deploy v1", *day.log[1:]]) + "\n")
        status, output = run_script(*paths, "--handlers", log)
        count.check("a node without a record, and a run that is missing", status == 0 and "; 1 lines of other nodes" in output, output)


# Names and payloads of events, most of which examples/serf_log_handler.sh can't write as they are.
TEXTS = (
    (b"re load", b"50% of it"),
    (b"-", b"-"),
    (b"x", b""),
    (b"two", b"lines\nand\r\n\n"),
    (b"\xc3\xbc", b"\xff\xfe \t"),
    (b"zero", b"a\0b"),
    (b"%20", b"%0A\n"),
)


def texts_of_handlers(count):
    """The log that examples/serf_log_handler.sh writes for events with any texts."""
    with tempfile.TemporaryDirectory() as folder:
        day, log = days.Day(32, 10), os.path.join(folder, "log")
        node = day.nodes[1]
        for name, payload in TEXTS:
            time = node.call(f"fire {name.hex()} {payload.hex() or '-'} 0")[0].split(" ")[1]
            env = {**os.environb, b"SERF_LOG": log.encode(), b"SERF_EVENT": b"user", b"SERF_SELF_NAME": b"b"}
            env |= {b"SERF_USER_EVENT": name, b"SERF_USER_LTIME": time.encode()}
            handed = payload if payload.endswith(b"\n") else payload + b"\n"
            subprocess.run([os.path.join(checks.EXAMPLES, "serf_log_handler.sh")], input=handed, env=env, check=True)
        path = day.write(folder)[1]
        status, output = run_script(path, "--handlers", log)
        count.check("texts of events", status == 0 and f"\n  {len(TEXTS)} runs of handlers" in output, output)
        with open(log, "rb") as file:
            lines = file.read().splitlines(True)
        for number, line in enumerate(lines):
            for what, changed, says in (
                ("again", line, "a handler of b ran again for the event "),
                ("with another payload", line[:-1] + b"%20\n", "which its agent didn't hand out"),
            ):
                with open(log, "wb") as file:
                    rest = lines[number:] if what == "again" else lines[number + 1 :]
                    file.write(b"".join([*lines[:number], *rest, changed] if what == "again" else [*lines[:number], changed, *rest]))
                status, output = run_script(path, "--handlers", log)
                count.check(f"{line!r} {what}", status == 1 and says in output, output)


def packets_from_outside(count):
    with tempfile.TemporaryDirectory() as folder:
        day = days.Day(41, 60)
        day.nodes[0].call("deliver 0384a54c54696d6563a44e616d65a161a75061796c6f6164a0a24343c2 0")
        paths = day.write(folder)
        status, output = run_script(*paths)
        count.check("a stranger's packet is counted", status == 0 and "\n  1 packets were made by none of these nodes" in output, output)
        status, output = run_script(*paths, "--whole")
        count.check(
            "with --whole it is refused", status == 1 and "a received a packet that no recorded node made: 0384a5" in output, output
        )


def filters_of_tags(count):
    """A query with a filter of tags, at nodes whose tags pass it and at one whose tags don't."""
    with tempfile.TemporaryDirectory() as folder:
        day = days.Day(45, 30)
        first, second, third = day.nodes
        query = first.call_with_tags(f"query 31000 7 {b'load'.hex()} - 100000 1")
        bare = query.replace(days.TAG_FILTERS, days.NO_FILTER)
        second.call_with_tags(f"deliver {bare} 31000")
        third.call(f"deliver {query} 31000")
        paths = day.write(folder)
        status, output = run_script(*paths, "--whole")
        count.check("a filter of tags", status == 0, output)
        handed = [node.record.count(f"handed {node.handed - 1} ") for node in (first, second)]
        held_back = third.record.endswith(f"sent {query}\n\n")
        count.check("two nodes were handed the query, and one wasn't", handed == [1, 1] and held_back, third.record[-400:])
        for what, number, old, new, says in (
            ("its note is missing", 1, "# tags pass\n", "", "b replied to `deliver"),
            ("another packet is sent on", 1, f"sent {query}", f"sent {bare}", "b replied to `deliver"),
            ("there is a note, and it isn't handed out", 2, f"deliver {query}", f"# tags pass\ndeliver {query}", "c replied to `deliver"),
            ("the packet lacks the filter of the call", 0, f"sent {query}", f"sent {bare}", "a replied to `query"),
            ("the call lacks the filter of the packet", 0, f" {days.TAG_FILTER}\n", "\n", "a replied to `query"),
            ("a note is before another call", 0, "\nfire ", "\n# tags pass\nfire ", "this is no call of a query with tag filters"),
            ("a note is before a query without filters", 1, f"deliver {query}", f"deliver {bare}", "b replied to `deliver"),
        ):
            text = day.nodes[number].record
            with open(paths[number], "w", encoding="ascii") as file:
                file.write(text.replace(old, new))
            status, output = run_script(paths[number])
            count.check(f"a filter of tags: {what}", text.replace(old, new) != text and status == 1 and says in output, output)


def kills_within_a_call(count):
    """A kill that cuts off the last call of a life, at the end of a line or within one. Then the next life begins."""
    program = Remembering()
    with tempfile.TemporaryDirectory() as folder:
        day = days.Day(46, 30)
        node = day.nodes[0]
        before = len(node.record)
        node.call("fire 61 62 0")
        call = node.record[before:]
        node.kill()
        path, text = day.write(folder)[0], node.record
        lines = [at + 1 for at, byte in enumerate(call) if byte == "\n"]
        for cut in sorted({*lines, *(at - 3 for at in lines if at > 4)}):
            with open(path, "w", encoding="ascii") as file:
                file.write(text[: before + cut] + text[before + len(call) :])
            found = attest.Node(path)
            found.check(program)
            whole = attest.Node(day.write(folder)[0]).lives[-2].calls
            count.check(f"a call that was cut off at {cut}", len(found.lives[-2].calls) == len(whole) - (cut < len(call)), call)


def wrong_agents(count):
    for name in WRONG:
        switches.choose(name)
        try:
            day = days.Day(51, 150)
        finally:
            switches.chosen.discard(name)
        with tempfile.TemporaryDirectory() as folder:
            status, output = run_script(*day.write(folder))
        count.check(f"an agent with {name}", status == 1 and output.startswith("not attested: "), output)


def no_records(count):
    with tempfile.TemporaryDirectory() as folder:
        path = os.path.join(folder, "record")
        begin = days.HEADING + "at 1\nopen 61 4 4 512 8 keep 1024 -\nopened 1 1 1\n\n"
        for name, text, says in (
            ("an empty file", "", "this is not the record of an agent"),
            ("another file", "event-clock: 3\n", "the record doesn't begin with"),
            ("no opening", days.HEADING + "fire 61 62 0\nfired 1\n\n", "the record doesn't begin with the opening"),
            ("a life that began before", days.HEADING + "# goes on\n" + begin[len(days.HEADING) :], "begins in the middle of a life"),
            ("an unknown call", begin + "fly 1\nflown\n\n", f"{path}:6: this is no call of an agent: `fly 1`"),
            ("a word that is none", begin + "fire 6 62 0\nfired 1\n\n", f"{path}:6: this is no call of an agent"),
            ("a comment in a schedule", begin + "fire 61 # 0\nfired 1\n\n", f"{path}:6: this is no call of an agent"),
            ("a number out of range", begin + "deliver 00 99999999999999999999\nforeign 0\n\n", "conform ended with status"),
        ):
            with open(path, "w", encoding="ascii") as file:
                file.write(text)
            status, output = run_script(path)
            count.check(name, status in (1, 3) and says in output, output)
        for cut in range(len(begin)):
            with open(path, "w", encoding="ascii") as file:
                file.write(begin[:cut])
            status, output = run_script(path)
            count.check(f"cut at {cut}", status == 1 and "not the record of an agent" in output, output)
        status, output = run_script(os.path.join(folder, "none"))
        count.check("no file", status == 1 and "No such file" in output, output)
        status, output = run_script(path, "--snapshot", "a")
        count.check("a word that is no NODE=FILE", status == 2, output)


def pages_run(count):
    """The commands of examples/records/README.md, run exactly as shown."""
    with tempfile.TemporaryDirectory() as folder:
        # (the page calls the installed program)
        with open(os.path.join(folder, "serf-replay"), "w", encoding="utf-8") as file:
            file.write(f'#!/bin/sh\nexec {shlex.quote(checks.COMMAND)} "$@"\n')
        os.chmod(file.name, 0o755)
        env = {**os.environ, "PATH": os.pathsep.join([folder, os.environ["PATH"]])}
        for command in pages.of(pages.ATTEST, "examples/records/README.md"):
            result = subprocess.run(["sh", "-ec", command.text], cwd=checks.TOP, env=env, capture_output=True, text=True)
            count.check(command.name(), result.returncode == 0 and result.stdout, result.stdout + result.stderr)
            says = "attested: 2 nodes, 3 lives, " if "attest.py" in command.text else '"b" is handed event 3 "deploy" "v3"\n'
            count.check(f"{command.name()}: what it prints", says in result.stdout, result.stdout)


def compactions(count):
    """A kill during a compaction leaves either text."""
    day = days.Day(61, 60)
    node = day.nodes[1]
    node.call("fire 61 62 0")
    record, before = node.record, node.kept()
    node.call("compact")
    after = node.kept()
    count.check("the compaction changes the text", not after.startswith(before), after)
    for name, text, note, status_of in (
        ("the old text", before, "# compacting\n", 0),
        ("the new text", after, "# compacting\n", 0),
        ("the new text, of a compaction that failed", after, "# compacting\ncompact\n# not done: disk\n", 0),
        ("the new text, and no compaction", after, "", 1),
        ("neither", before[:-9], "# compacting\n", 1),
    ):
        node.record, node.text = record + note, text
        node.open()
        with tempfile.TemporaryDirectory() as folder:
            status, output = run_script(day.write(folder)[1])
        count.check(name, status == status_of, output)


def changed_records(count):
    """Each changed record is attested if and only if the Python agent takes it for the record of an agent."""
    chance, program, accepted, refused = random.Random(71), Remembering(), [], 0
    with tempfile.TemporaryDirectory() as folder:
        day = days.Day(72, 40)
        path = day.write(folder)[1]
        with open(path, encoding="ascii") as file:
            text = file.read()
        for number in range(CHANGED):
            changed, what = readers.change(chance, text)
            with open(path, "w", encoding="ascii") as file:
                file.write(changed)
            try:
                attest.Node(path).check(program)
                fault = None
            except (attest.Refused, attest.RecordError, lives.ProgramError) as why:
                fault = str(why)
            wanted = readers.fault_of(path)
            count.check(f"change {number}, {what}", (fault is None) == (wanted is None), f"attest: {fault}; the reader: {wanted}")
            refused += fault is not None
            accepted += [what] if fault is None else []
    count.check("most changes are refused", refused * 2 > CHANGED, (refused, accepted))


if __name__ == "__main__":
    parts = [whole_days, lost_lines, handlers, texts_of_handlers, packets_from_outside, filters_of_tags, kills_within_a_call]
    sys.exit(checks.over_program(*parts, wrong_agents, no_records, compactions, pages_run, changed_records))
