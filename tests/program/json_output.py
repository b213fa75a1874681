"""JSON: reads what the commands write with Python's parser, and compares it with their plain text, for all examples and all rows.

- `replay`: the objects have the trace, byte for byte, and the words of the schedule. `explain`: its sentences, and states that follow
  one another. `judge`: the verdicts. `decode`, `clocks` and `replay --summary`: their lines.
- Names with a quote, a backslash, a newline, `</script>` or bytes that aren't ASCII: the output is printable ASCII, without `<`.
- A value that is changed in an object is seen.
"""

import csv
import json
import os
import re
import sys

sys.dont_write_bytecode = True
sys.path.insert(0, os.path.dirname(os.path.dirname(os.path.abspath(__file__))))
import checks
from checks import run_program, read

JSON = ["--format", "json"]
INCIDENT = os.path.join(checks.EXAMPLES, "incident")

# What a line of output may have: printable ASCII without `<`, `>` and `&`.
PLAIN = re.compile(rb"(?:\{[ -%'-;=?-~]*\}\n)*")

# Names and payloads that could break out of their place.
BYTES = (b'"', b"\\", b"a\nb", b"</script><script>", b"\xff\xfe", "é".encode(), b"", b"\x00\x1f\x7f", b"&lt;", b"'")


def objects_of(text):
    """The objects of an output, one a line. Each has its version and its kind first, and no key twice."""

    def pairs(found):
        assert len({name for name, _ in found}) == len(found), found
        return dict(found)

    assert PLAIN.fullmatch(text), text[:200]
    objects = [json.loads(line, object_pairs_hook=pairs) for line in text.splitlines()]
    for each in objects:
        assert list(each)[:2] == ["version", "kind"] and each["version"] == 1, each
        for name, value in each.items():
            if name.endswith("_hex") and name != "packet_hex":
                same = bytes.fromhex(value)
                assert each.get(name[:-4]) == (same.decode("ascii") if same.isascii() else None), each
    return objects


def hexed(text):
    return text or "-"


def numbers_of(action):
    """The numbers of an answer, as a trace has them after the answer's words."""
    keys = {
        "fired": ["time"],
        "queried": ["time"],
        "foreign": ["type"],
        "restarted": ["clock", "event_clock", "query_clock"],
        "closed": ["closed"],
    }
    return [str(action[key]) for key in keys.get(action["answer"], [])]


def trace_line(each):
    """The line of a trace that an object stands for, or None."""
    number = each.get("action")
    if each["kind"] == "action":
        words = [each["answer"], each.get("code"), *numbers_of(each), each.get("error")]
        return " ".join([str(number), *filter(None, words)])
    if each["kind"] == "sent":
        return f"{number} sent {each['packet']} {hexed(each['packet_hex'])}"
    texts = [hexed(each.get("name_hex", "")), hexed(each.get("payload_hex", ""))]
    if each["kind"] == "event":
        return " ".join([str(number), "event", str(each["agent"]), str(each["time"]), *texts, str(int(each["coalesce"]))])
    if each["kind"] == "query":
        numbers = [str(each[key]) for key in ("agent", "handed", "time", "id")]
        return " ".join([str(number), "handed", *numbers, *texts])
    if each["kind"] == "reason":
        return f"{number} because {each['text']}"
    return None


def schedule_words(each):
    """The words of a schedule's line that the object of an action stands for. Of a query, only the first ones."""
    call, agent = each["call"], str(each.get("agent"))
    if call == "fire":
        return ["fire", agent, hexed(each["name_hex"]), hexed(each["payload_hex"]), str(int(each["coalesce"]))]
    if call == "deliver":
        return ["deliver", agent, str(each["packet"]), str(each["now"])]
    if call == "merge":
        return ["merge", agent, str(each["packet"]), "join" if each["join"] else "sync"]
    if call == "respond":
        return ["respond", agent, str(each["handed"]), str(each["now"]), hexed(each["payload_hex"])]
    if call == "close":
        return ["close", agent, str(each["now"])]
    if call == "query":
        return ["query", agent, str(each["now"])]
    return [call, agent] if call in ("state", "save", "compact") else [call]


def same_words(schedule, objects):
    """Whether the actions' objects have the words of the schedule's lines."""
    lines = [line.split() for line in schedule.decode("utf-8", "replace").splitlines()]
    lines = [words for words in lines if words and not words[0].startswith("#") and words[0] != "agent"]
    actions = [schedule_words(each) for each in objects if each["kind"] == "action"]
    return len(lines) == len(actions) and all(line[: len(words)] == words for line, words in zip(lines, actions))


def told(objects):
    """The plain text that these objects stand for."""
    lines = [trace_line(each) for each in objects]
    return "".join(line + "\n" for line in lines if line is not None).encode()


def named(schedule, objects):
    """Whether each agent has its name of the schedule, wherever it is named."""
    lines = [line.split() for line in schedule.splitlines()]
    names = [bytes.fromhex(words[1].decode()).hex() for words in lines if words and words[0] == b"agent"]
    return all(each["agent_name_hex"] == names[each["agent"]] for each in objects if "agent_name_hex" in each)


def states_follow(objects):
    """Whether each state begins with the numbers and the text with which the agent's last one ended."""
    last = {}
    for each in objects:
        if each["kind"] != "state":
            continue
        before, text = last.get(each["agent"], (None, ""))
        keys = [key for key in each if key.endswith("_before")]
        if before and any(each[key] != before[key[: -len("_before")]] for key in keys):
            return False
        text = text[: 2 * each["snapshot_from"]] + each["snapshot_hex"]
        clocks = re.findall(r"^(event|query)-clock: (\d+)$", bytes.fromhex(text).decode("utf-8", "replace"), re.M)
        for kind, clock in clocks:
            # (a line of 2^64 - 1 has no time)
            if each[f"{kind}_clock"] <= int(clock) < 2**64 - 1:
                return False
        last[each["agent"]] = each, text
    return True


def earlier_ones(objects):
    """Whether each action that a reason names handed this event to this agent."""
    keys = ("agent", "time", "name_hex", "payload_hex")
    handed = {(each["action"], *(each[key] for key in keys)) for each in objects if each["kind"] == "event"}
    seen = [each for each in objects if each["kind"] == "reason" and "earlier" in each and "id" not in each]
    return all((each["earlier"], *(each[key] for key in keys)) in handed for each in seen)


def open_ones(objects):
    """Whether each query that was fired is open in the next state of its agent."""
    fired = {each["action"]: each["time"] for each in objects if each["kind"] == "action" and each["answer"] == "queried"}
    states = {each["action"]: each["open_queries"] for each in objects if each["kind"] == "state"}
    return all(time in states[action] for action, time in fired.items())


def schedules():
    """All examples and rows, by their names."""
    for folder in ("examples", os.path.join("tests", "rows")):
        for name in checks.names_in(os.path.join(checks.TOP, folder)):
            yield name, read(folder, name + ".schedule")


def one_run(count, name, schedule):
    """A schedule's objects have its trace and its reasons, or it is refused as without JSON. Returns its objects."""
    plain, made = run_program(["replay"], schedule), run_program(["replay", *JSON], schedule)
    count.check(f"{name}: the same status", (made[0], made[2]) == (plain[0], plain[2]), made)
    if plain[0]:
        count.check(f"{name}: nothing is written", made[1] == b"", made[1])
        return []
    objects = objects_of(made[1])
    count.check(f"{name}: the trace", told(objects) == plain[1], made[1])
    count.check(f"{name}: the schedule's words", same_words(schedule, objects) and named(schedule, objects), made[1])
    status, text, said = run_program(["explain", *JSON], schedule)
    explained = objects_of(text)
    count.check(f"{name}: the reasons", (status, told(explained), said) == run_program(["explain"], schedule), text)
    count.check(f"{name}: the states", states_follow(explained) and open_ones(explained), text)
    count.check(f"{name}: earlier actions", earlier_ones(explained), text)
    count.check(
        f"{name}: explain has what replay has",
        [each for each in explained if each["kind"] not in ("reason", "state")] == objects,
        text,
    )
    streamed = run_program(["explain", "--stream", *JSON], schedule)
    count.check(f"{name}: line by line", streamed[:2] == (0, text), streamed)
    return explained


def runs(count):
    codes = set()
    for name, schedule in schedules():
        objects = one_run(count, name, schedule)
        codes |= {each["code"] for each in objects if each["kind"] == "reason"}
    wanted = {"Seen", "TooOld", "BelowMinimum", "SinkFault", "TimeFull", "new", "fired", "raised", "restarted", "Wire"}
    count.check("reasons of these kinds", wanted <= codes, sorted(codes))


def random_runs(count):
    for kind in checks.KINDS:
        schedule = run_program(["random", "5", "--kind", kind, "--actions", "120"])[1]
        one_run(count, f"random {kind}", schedule)


def any_bytes(count):
    """Bytes of any kind in names and payloads: of agents, events, queries and answers."""
    for text in BYTES:
        name, value = (text or b"x").hex(), text.hex() or "-"
        lines = [f"agent {name} 4 4 512 1024 8 keep 4", "agent 62 4 4 512 1024 8 keep 4"]
        lines = [line.replace(" 512 1024 8 keep 4", " 512 8 keep 4") for line in lines]
        lines += [f"fire 0 {value} {value} 0", "deliver 1 0 0", "deliver 1 0 5", "state 0", "merge 1 2 join", f"inject {value}"]
        schedule = "\n".join(lines).encode() + b"\n"
        one_run(count, f"the bytes {text!r}", schedule)
        log = b"event a 1 %s x\n" % (b"".join(b"%%%02x" % byte for byte in text) or b"-")
        status, out, _ = run_program(["judge", *JSON], log)
        events = [each for each in objects_of(out) if each["kind"] == "event"]
        count.check(f"the bytes {text!r} in a log", (status, [each["name_hex"] for each in events]) == (0, [text.hex()]), out)


def planted(count):
    """An object that has another value, or lacks one, is seen."""
    schedule = read("examples", "a_partition_healed_by_push_pull.schedule")
    plain, objects = run_program(["explain"], schedule)[1], objects_of(run_program(["explain", *JSON], schedule)[1])
    count.check(
        "as it is", told(objects) == plain and same_words(schedule, objects) and named(schedule, objects) and states_follow(objects)
    )
    changed = {
        "action": ("answer", "call", "agent_name_hex"),
        "sent": ("packet", "packet_hex"),
        "event": ("agent", "time", "name_hex", "payload_hex", "coalesce"),
        "reason": ("text",),
        "state": ("event_clock", "clock_before"),
    }
    for kind, keys in changed.items():
        for key in keys:
            place = [at for at, each in enumerate(objects) if each["kind"] == kind and key in each][-1]
            value = objects[place][key]
            other = value + 1 if isinstance(value, int) else value + "00"
            some = [*objects[:place], {**objects[place], key: other}, *objects[place + 1 :]]
            if key in ("event_clock", "clock_before"):
                some = [*some, {**objects[place], **{name: value for name, value in objects[place].items()}}]
            holds = told(some) == plain and same_words(schedule, some) and named(schedule, some) and states_follow(some)
            count.check(f"another {key} of kind {kind} is seen", not holds)
    for text in (b'{"version":1,"kind":"x","name":"a"b"}\n', b'{"version":1,"kind":"x","name":"\x01"}\n', b'{"kind":"x"}\n'):
        try:
            objects_of(text)
            count.check(f"{text!r} is refused", False)
        except (AssertionError, ValueError):
            count.check(f"{text!r} is refused", True)


def verdict_lines(objects):
    """The verdicts of `judge`, as far as plain text has them: what is read, which promise holds, and how often something came again."""
    lines = []
    for each in objects:
        if each["kind"] == "read":
            lines.append(f"read: {each['events']} events, {each['queries']} queries, {each['nodes']} nodes")
        if each["kind"] == "verdict" and each["verdict"] == "holds":
            lines.append(f"{each['promise']}: holds")
        if each["kind"] == "verdict" and each["verdict"] == "not-asked":
            lines.append(f"{each['promise']}: not asked: no {each['lines']} lines")
        if each["kind"] == "verdict" and each["verdict"] == "broken":
            lines.append(each["promise"])
        if each["kind"] == "tally":
            lines.append(f"{each['node']} was handed a{'n' * (each['of'] == 'event')} {each['of']} again on {each['count']} line")
    return lines


def plain_verdicts(text):
    lines = []
    for line in text.decode().splitlines():
        broken = re.match(r"(Once|QueryOnce|Fired|Later): (?:line|\S+:\d+) ", line)
        again = re.match(r".* again on \d+ line", line)
        if line.startswith("read: ") or re.search(r": holds$|: not asked: ", line):
            lines.append(line)
        elif broken:
            lines.append(broken[1])
        elif again:
            lines.append(again[0])
    return lines


LOGS = (
    b"fired a 1 x y\nevent a 1 x y\nevent b 1 x y\nevent b 1 x y\nevent b 2 z -\nquery b 4 7\nquery b 4 7\n",
    b"2026-11-26T10:00:00Z fired a 3 x y\nevent a 5 x%20z y\nfired a 4 x y\nevent a 4 x y\nnonsense\nevent a x\n",
    b"event a 1 x y\nevent b 2 x y\nevent c 3 x y\n",
    b"query a 1 -\nquery a 1 -\n",
    b"begun a 1 x y\n2026-11-26 begun a 1 x y\nended a 1 x y 0\nended a 2 x%20z y 3\nbegun b 1 x y\nended b 1 x y signal-9\nevent b 4 x y\n",
)


def judged(count):
    """The objects of `judge` have the verdicts of its text, the same status, and each line of the log."""
    logs = [(f"log {place}", log) for place, log in enumerate(LOGS)]
    for name in ("incident", "partition", "capture", "leave"):
        logs.append((name, read("examples", name, "handlers.log")))
    for name, log in logs:
        plain, made = run_program(["judge"], log), run_program(["judge", *JSON], log)
        objects = objects_of(made[1])
        count.check(f"{name}: the status", made[0] == plain[0] == objects[-1]["status"], made)
        count.check(f"{name}: the verdicts", verdict_lines(objects) == plain_verdicts(plain[1]), made[1])
        # What begins was also handed out, so it has two objects.
        kinds = [each["kind"] for each in objects if each["kind"] in ("fired", "event", "query", "bad", "ended")]
        lines = [line for line in log.splitlines() if line and not line.startswith((b"#", b"restarted"))]
        count.check(f"{name}: each line", len(kinds) == len(lines), made[1])
        missed = [line for line in run_program(["judge", "--missed"], log)[1].decode().splitlines() if " never came to " in line]
        nodes = sum(line.rsplit(" never came to ", 1)[1].count(",") + 1 for line in missed)
        count.check(f"{name}: what was missed", nodes == sum(each["kind"] == "missed" for each in objects), made[1])
        count.check(
            f"{name}: handlers",
            handlers_text(objects) == [line for line in plain[1].decode().splitlines() if line.startswith("Handlers: ")],
            made[1],
        )


def dated(each):
    """The place of a handler's line, in plain text."""
    return f"line {each['line']}" + (f" ({each['date']})" if "date" in each else "")


def about(each):
    """The event of a handler, in plain text, which has the words of the log."""
    return f'{each["node"]} {each["time"]} "{each["name"]}" "{each["payload"]}"'.replace("x z", "x%20z")


def handlers_text(objects):
    """The lines of plain text about handlers."""
    begun, ended, unended = ([each for each in objects if each["kind"] == kind] for kind in ("begun", "ended", "cut-off"))
    failed = [each for each in ended if each["status"] != "0"]
    lines = [f"Handlers: {dated(each)} began and never ended: {about(each)}" for each in unended]
    lines += [f"Handlers: {dated(each)} ended with status {each['status']}: {about(each)}" for each in failed]
    return [*lines, f"Handlers: {len(begun)} began, {len(unended)} never ended, {len(failed)} failed"] if begun or ended else []


def repeated(count):
    """Each repeat names the first line that it repeats, over several logs."""
    log = os.path.join(INCIDENT, "handlers.log")
    kept = f"beta={os.path.join(INCIDENT, 'beta.snapshot')}"
    status, text, _ = run_program(["judge", log, "--kept", kept, *JSON])
    objects = objects_of(text)
    repeats = [(each["log"], each["line"], each["earlier_log"], each["earlier_line"]) for each in objects if each["kind"] == "repeat"]
    count.check("the incident's repeat", (status, repeats) == (1, [(log, 7, log, 6)]), text)
    found = [each for each in objects if each["kind"] == "kept"]
    count.check(
        "what can come again",
        [(each["node"], each["clock"], each["again"], each["line"]) for each in found] == [("beta", 2, True, 6)],
        text,
    )
    status, text, _ = run_program(["judge", log, log, *JSON])
    repeats = [(each["line"], each["earlier_line"]) for each in objects_of(text) if each["kind"] == "repeat"]
    count.check("a log twice: every line again", repeats == [(7, 6)] + [(line, 6 if line == 7 else line) for line in range(1, 8)], text)
    status, _, said = run_program(["judge", *JSON])
    count.check("a log without a line", (status, said) == (1, b"standard input: no line of a log\n"), said)


def kept_line(each):
    """The plain line of an object about a snapshot."""
    how = {True: " with -rejoin", False: " without -rejoin", None: ""}[each.get("rejoin")]
    keeps = each["reader"] == "own-kept"
    what = {"event": "its events up to ", "query": "its queries up to "}[each["of"]] if keeps else ""
    rest = ": nothing can be handed out again" if keeps else ": nothing was handed out above it"
    if each["again"]:
        date = f" ({each['date']})" if "date" in each else ""
        rest = f", and line {each['line']}{date} was handed out at {each['time']}: it can be handed out again"
    return f"{each['node']}{how} keeps {what}{each['of']}-clock {each['clock']}{rest}"


def kept_snapshots(count):
    """The objects about snapshots have the plain lines, whoever is started on them."""
    seen = set()
    for name in ("incident", "leave"):
        log = os.path.join(checks.EXAMPLES, name, "handlers.log")
        snapshots = [file for file in os.listdir(os.path.dirname(log)) if file.endswith(".snapshot")]
        count.check(f"{name} has a snapshot", snapshots)
        for file in snapshots:
            for more in ([], ["--own"], ["--serf"]):
                words = ["judge", log, "--kept", f"{re.split('[._]', file)[0]}={os.path.join(os.path.dirname(log), file)}", *more]
                plain, made = run_program(words), run_program([*words, *JSON])
                lines = [line for line in plain[1].decode().splitlines() if " keeps " in line]
                found = [kept_line(each) for each in objects_of(made[1]) if each["kind"] == "kept"]
                count.check(f"{file} {more}", (made[0], found) == (plain[0], lines) and lines, (lines, made))
                seen |= {(each.get("rejoin"), each["again"]) for each in objects_of(made[1]) if each["kind"] == "kept"}
    count.check("with and without -rejoin", {None, True, False} <= {rejoin for rejoin, _ in seen}, seen)


def packets(count):
    """The objects of `decode` have the text of the plain form, and the fields of the message."""
    lines = read("examples", "packets.hex")
    _, plain, _ = run_program(["decode"], lines)
    status, text, _ = run_program(["decode", *JSON], lines)
    objects = objects_of(text)
    said = "".join((each["text"] if each["kind"] == "message" else f"refused {each['error']}\n") + "\n" for each in objects)
    count.check("packets: the text", said.encode() == plain, text)
    words = [line for line in lines.decode().splitlines()]
    count.check("packets: their bytes", all(each["packet_hex"] == words[each["line"] - 1].lower() for each in objects), text)
    for each in objects:
        found = dict(line.split(" ", 1) for line in each.get("text", "").splitlines() if " " in line)
        if each.get("type") == "userEvent":
            same = (str(each["time"]), hexed(each["name_hex"]), str(int(each["coalesce"]))) == (found["LTime"], found["Name"], found["CC"])
            count.check("packets: an event's fields", same, each)
    status, text, _ = run_program(["decode", "03", *JSON])
    count.check("a refused packet", (status, [each["kind"] for each in objects_of(text)]) == (1, ["refused"]), text)


def clocks(count):
    for folder, _, names in os.walk(checks.EXAMPLES):
        for name in names:
            if not name.endswith(".snapshot"):
                continue
            path = os.path.join(folder, name)
            plain, made = run_program(["clocks", path])[1].decode(), run_program(["clocks", path, *JSON])[1]
            lines = []
            for each in objects_of(made):
                front = "without -rejoin: " if each.get("rejoin") is False else ""
                lines += [
                    f"{front}clock {each['clock']}",
                    f"{front}event-clock {each['event_clock']}",
                    f"{front}query-clock {each['query_clock']}",
                ]
            count.check(f"{name}: the clocks", lines == plain.splitlines(), made)


def summaries(count):
    """The objects of a summary have the rows of its CSV."""
    for name, schedule in schedules():
        status, text, _ = run_program(["replay", "--summary", "--format", "csv"], schedule)
        if status:
            continue
        rows = [[value for value in row] for row in csv.reader(text.decode().splitlines())][1:]
        made = []
        for each in objects_of(run_program(["replay", "--summary", *JSON], schedule)[1]):
            what = each["kind"].removesuffix("-total").replace("action", "actions")
            answer = " ".join(filter(None, [each.get("answer"), each.get("code")]))
            texts = [hexed(each[key]) if key in each else "" for key in ("name_hex", "payload_hex")]
            made.append(
                [what, answer, str(each.get("agent", "")), str(each.get("time", "")), *texts, str(each["times"]), str(each.get("last", ""))]
            )
        count.check(f"{name}: the summary", made == rows, made)


if __name__ == "__main__":
    checks.over_program(runs, random_runs, any_bytes, planted, judged, repeated, kept_snapshots, packets, clocks, summaries)
