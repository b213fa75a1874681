"""`draw`: each example is compared with its stored picture. Also any bytes in names and payloads, the options that leave actions
out, what a merge handed out, the name of the place left of all lanes, and that no labels overlap and none covers an arrow.

A label's box is an estimate: 45 units a character, which is 0.6 of the size of the font. Mermaid itself is not run
here: its text is compared with the part of its grammar of sequence diagrams that is used, as Mermaid's documents have
it. `tests/by_hand/mermaid.py` passes these texts to Mermaid's own parser.
"""

import os
import re
import subprocess
import sys
import xml.etree.ElementTree as tree

sys.dont_write_bytecode = True
sys.path.insert(0, os.path.dirname(os.path.dirname(os.path.abspath(__file__))))
import checks

SVG = "{http://www.w3.org/2000/svg}"
GLYPH = 45
NAMED_ROWS = 40

# The place of what has no lane.
OUTSIDE = "-500"
PLACE = re.compile(r"translate\((-?\d+) (\d+)\)")

# A participant with its alias; a message between two participants, or a note over one, with a text to the line's end.
TEXT = r"(\d+ (?:[A-Za-z0-9 .@_]|#\d+;)*)"
WHO = r"(a\d+|outside)"
PARTICIPANT = re.compile(rf"participant (a\d+) as {TEXT}\Z")
MESSAGE = re.compile(rf"{WHO}(->>|-->>|-x){WHO}: {TEXT}\Z")
NOTE = re.compile(rf"Note over {WHO}: {TEXT}\Z")


def draw_schedule(words, schedule=b""):
    command = [checks.PROGRAM, "draw", *words]
    return subprocess.run(command, input=schedule, capture_output=True, timeout=checks.LIMIT)


def paths(root):
    """The arrows: the class and the two ends of each."""
    found = [(path.get("class"), path.get("d")) for path in root.findall(f"{SVG}path")]
    return [
        (kind, tuple(tuple(map(int, place.split())) for place in line[1:].split("L")))
        for kind, line in found
        if kind in "tir"
    ]


def dots(root):
    """The groups of the shapes at which an agent acts."""
    return [group for group in root.findall(f"{SVG}g") if group.get("class")]


def labels(root):
    """The labels of the rows."""
    return [text.text or "" for text in root.findall(f"{SVG}text") if text.get("class") in ("t", "i", "r")]


def heads(root):
    """The names of the lanes, by the lines that they are on."""
    found = {}
    for text in root.findall(f"{SVG}text[@class='h']"):
        if text.get("x") != OUTSIDE:
            found.setdefault(int(text.get("y")), []).append(text.text)
    return found


def outside_heads(root):
    """The texts above the place left of all lanes, and the line of each."""
    return [(int(text.get("y")), text.text) for text in root.findall(f"{SVG}text[@class='h']") if text.get("x") == OUTSIDE]


def has_outside(root):
    """Whether a dot, a cross or the start of an arrow is left of all lanes."""
    places = [group.get("transform") for group in dots(root)] + crosses(root)
    begins = [f"translate({x} {y})" for _, ((x, y), _) in paths(root)]
    return any(place.startswith(f"translate({OUTSIDE} ") for place in places + begins)


def lanes_of(root):
    return len(root.findall(f"{SVG}path[@class='l']"))


def crosses(root):
    return [path.get("transform") for path in root.findall(f"{SVG}path") if path.get("class") == "x"]


def shown(text):
    """A text of Mermaid's, with its entity codes decoded."""
    return re.sub(r"#(\d+);", lambda code: chr(int(code[1])), text)


def mermaid_is_sound(count, name, words, schedule, root):
    """The diagram follows the grammar, and has the same content as the picture of the same run."""
    ran = draw_schedule(["--as", "mermaid", *words], schedule)
    head, *lines, end = ran.stdout.decode("ascii").split("\n")
    count.check(f"{name}: a sequence diagram", (ran.returncode, head, end) == (0, "sequenceDiagram", ""), ran)
    who = [PARTICIPANT.match(line) for line in lines]
    lanes = lanes_of(root)
    count.check(f"{name}: its participants", all(who[:lanes]) and not any(who[lanes:]), lines)
    messages, notes = [MESSAGE.match(line) for line in lines[lanes:]], [NOTE.match(line) for line in lines[lanes:]]
    count.check(f"{name}: its lines", all(message or note for message, note in zip(messages, notes)), lines)
    count.check(f"{name}: its messages", len(list(filter(None, messages))) == len(paths(root)), lines)
    texts = [shown((message or note).groups()[-1]) for message, note in zip(messages, notes) if message or note]
    numbers = [text.text for text in root.findall(f"{SVG}text[@class='n']")]
    count.check(f"{name}: its texts", texts == [f"{number} {label}" for number, label in zip(numbers, labels(root))], texts)


def boxes(root):
    """The boxes of all texts: left, right, and the bottom of the line."""
    for text in root.findall(f"{SVG}text"):
        x, width = int(text.get("x")), GLYPH * len(text.text or "")
        at = x - width // 2 if text.get("class") == "h" else x
        yield at, at + width, int(text.get("y"))
    for group in root.findall(f"{SVG}g"):
        x, y = map(int, PLACE.match(group.get("transform")).groups())
        for text in group.findall(f"{SVG}text"):
            at = x + int(text.get("x"))
            yield at, at + GLYPH * len(text.text or ""), y + int(text.get("y"))


def nothing_overlaps(count, name, root):
    lines = {}
    left, above, width, height = map(int, root.get("viewBox").split())
    for from_, to, y in boxes(root):
        count.check(f"{name}: a label is cut", left <= from_ and to <= left + width and above < y < above + height, (from_, to, y))
        lines.setdefault(y, []).append((from_, to))
    for y, spans in lines.items():
        spans.sort()
        apart = all(a[1] <= b[0] for a, b in zip(spans, spans[1:]))
        count.check(f"{name}: labels overlap at {y}", apart, spans)
    right = max([x for _, places in paths(root) for x, _ in places], default=left)
    label = min([int(text.get("x")) for text in root.findall(f"{SVG}text") if text.get("class") in ("t", "i", "r")], default=right + 1)
    count.check(f"{name}: no label covers an arrow", right < label, (right, label))


def line_of(row):
    """The line of a row, counted from 0: after each 40 rows one line is for the names."""
    return 1 + row + row // NAMED_ROWS


def lines_are_sound(count, name, root):
    """There is a line for each row, in order, and the names are above each 40."""
    numbers = root.findall(f"{SVG}text[@class='n']")
    lines = [line_of(row) for row in range(len(numbers))]
    count.check(f"{name}: a line for each row", [int(text.get("y")) for text in numbers] == [100 * line + 75 for line in lines])
    above = [100 * (row + row // NAMED_ROWS) + 65 for row in range(0, max(len(numbers), 1), NAMED_ROWS)]
    found = heads(root)
    count.check(f"{name}: the names above each 40 rows", list(found) == (above if lanes_of(root) else []), list(found))
    count.check(f"{name}: all names each time", all(names == found[65] for names in found.values()), found)
    wanted = [(y, "outside") for y in above] if has_outside(root) else []
    count.check(f"{name}: outside is named if something is there, and only then", outside_heads(root) == wanted, outside_heads(root))
    legend = [group for group in root.findall(f"{SVG}g") if not group.get("class")]
    wanted = f"translate(-680 {line_of(len(numbers))}50)"
    count.check(f"{name}: the legend below", [group.get("transform") for group in legend] == [wanted], wanted)


def examples(count):
    for name in checks.names_in(checks.EXAMPLES):
        path = os.path.join(checks.EXAMPLES, name)
        ran = draw_schedule([path + ".schedule"])
        wanted = (0, checks.read(path + ".svg"), b"")
        count.check(f"{name} is its picture", (ran.returncode, ran.stdout, ran.stderr) == wanted, ran.stderr)
        root = tree.fromstring(ran.stdout)
        lines = [line.split() for line in checks.read(path + ".schedule").splitlines()]
        given = [line for line in lines if line[:1] in ([b"deliver"], [b"merge"])]
        count.check(f"{name}: an arrow for each delivery and merge", len(paths(root)) == len(given), paths(root))
        nothing_overlaps(count, name, root)
        lines_are_sound(count, name, root)
        trace = [line.split() for line in checks.read(path + ".trace").splitlines()]
        sent = [line[2] for line in trace if line[1] == b"sent"]
        lost = [number for number in sent if number not in {line[2] for line in given}]
        count.check(f"{name}: a cross for each packet that nobody got", len(crosses(root)) == len(lost), lost)
        mermaid_is_sound(count, name, [path + ".schedule"], b"", root)


def colours(count):
    """Each light colour is written in full before its variable: librsvg, and what is built on it, knows no variables."""
    style = checks.text_of(checks.EXAMPLES, "deploy_gossiped_twice.svg").partition("<style>")[2].partition("</style>")[0]
    light = dict(re.findall(r"--(\w+):(#\w+)", style.partition("@media")[0]))
    wanted = re.findall(r"(\w+):var\(--(\w+)\)", style)
    count.check("the style has colours", len(light) == 6 and len(wanted) >= 6, style)
    for kind, name in wanted:
        before = rf"{kind}:{light.get(name)};{kind}:var\(--{name}\)"
        missing = [rule for rule in style.split("}") if f"{kind}:var(--{name})" in rule and not re.search(before, rule)]
        count.check(f"{kind} of {name} without variables", not missing, missing)


AGENTS = b"agent 61 4 4 512 8 keep\nagent 62 4 4 512 8 keep\n"


def bad_bytes(count):
    """Names and payloads of any bytes don't break out of their place."""
    for name in (
        b"\x00\x1f\x7f\xff",
        b"#;\n%%{end}\r: end",
        b"->>-x;wrap:",
        b"<b>&amp;",
        b"]]>",
        b"\"'",
        b"\xe2\x80\xae",
        b"<script>",
        b"x" * 128,
    ):
        text = b"agent %s 4 4 9216 8 keep\nfire 0 %s %s 0\ndeliver 0 0 0\n" % ((name.hex().encode(),) * 3)
        ran = draw_schedule([], text)
        root = tree.fromstring(ran.stdout)
        count.check(
            f"{name[:8]} breaks out of its place",
            ran.returncode == 0 and not root.findall(f".//{SVG}script") and not root.findall(f".//{SVG}b"),
            ran.stdout,
        )
        shown = name if len(name) <= 12 else name[:8] + b"..(%d)" % len(name)
        wanted = "".join(chr(byte) if 32 <= byte <= 126 else "\ufffd" for byte in shown)
        count.check(
            f"{name[:8]} is shown", root.findall(f"{SVG}text[@class='h']")[0].text.strip() == wanted.strip(), ran.stdout
        )
        nothing_overlaps(count, f"{name[:8]}", root)
        mermaid_is_sound(count, f"{name[:8]}", [], text, root)
    ran = draw_schedule([], AGENTS + b"fire 0 61 %s 0\ninject %s\ndeliver 1 0 0\n" % (b"41" * 400, b"ff" * 9216))
    count.check(
        "long texts are shown with their length",
        b"AAAAAAAA..(400)" in ran.stdout and b">9216 bytes injected<" in ran.stdout,
        ran.stdout,
    )
    clock = 2**64 - 2
    late = b"84a54c54696d65cf%016x" % clock + b"a44e616d65a178a75061796c6f6164a0a24343c2"
    root = tree.fromstring(draw_schedule([], AGENTS + b"inject 03%s\ndeliver 0 0 0\n" % late).stdout)
    wanted = [f"x  @{clock} injected", f"x  @{clock} new, clock {clock + 1}"]
    count.check("the last time", labels(root) == wanted, labels(root))
    nothing_overlaps(count, "the last time", root)


def root_of(words, schedule):
    return tree.fromstring(draw_schedule(words, schedule).stdout)


def outsides(count, text):
    """The place left of all lanes has a name if something is there: in the run of `arrows`, and in others."""
    late = AGENTS + b"fire 0 78 79 0\n" * 45 + b"inject ff\n" + b"fire 0 78 79 0\n" * 40
    for name, words, schedule, lines in (
        ("what is injected, and what was never sent", [], text, [65]),
        ("an injection alone", ["--from", "4", "--to", "4"], text, [65]),
        ("an arrow whose sender has no lane", ["--agent", "1"], text, [65]),
        ("an arrow of what was never sent", ["--from", "6"], text, [65]),
        ("senders with lanes", ["--from", "2", "--to", "3"], text, []),
        ("nothing but what was taken", ["--taken"], text, []),
        ("no action", ["--from", "100"], text, []),
        ("an agent that isn't there", [], AGENTS + b"fire 7 78 79 0\n", [65]),
        ("no lanes", [], b"inject ff\n", [65]),
        ("one row of many", [], late, [65, 4165, 8265]),
        ("rows before it", ["--to", "45"], late, []),
    ):
        root = root_of(words, schedule)
        count.check(f"outside: {name}", outside_heads(root) == [(y, "outside") for y in lines], outside_heads(root))
        lines_are_sound(count, f"outside: {name}", root)
        nothing_overlaps(count, f"outside: {name}", root)
    named = draw_schedule([], b"agent 6f757473696465 4 4 512 8 keep\nfire 0 78 79 0\n")
    root = tree.fromstring(named.stdout)
    count.check("outside: an agent of this name", (heads(root), outside_heads(root)) == ({65: ["outside"]}, []), named.stdout)


def arrows(count):
    text = (
        AGENTS
        + b"fire 0 78 79 0\ndeliver 1 0 0\ndeliver 1 0 0\ninject ff\ndeliver 0 2 0\ndeliver 0 9 0\nrestart 1 -\n"
    )
    root = tree.fromstring(draw_schedule([], text).stdout)
    wanted = [
        ("t", ((500, 150), (1500, 250))),
        ("i", ((500, 150), (1500, 350))),
        ("r", ((-500, 450), (500, 550))),
        ("r", ((-500, 650), (500, 650))),
    ]
    count.check("arrows go from senders to receivers", paths(root) == wanted, paths(root))
    count.check("a restart breaks the lane", len(root.findall(f"{SVG}g/{SVG}path[@class='g']")) == 1)
    wanted_crosses = ["translate(1500 250)"]
    count.check("a packet that nobody receives has a cross", crosses(root) == wanted_crosses, crosses(root))
    mermaid_is_sound(count, "arrows", [], text, root)
    outsides(count, text)
    root = tree.fromstring(draw_schedule(["--from", "2", "--to", "3"], text).stdout)
    wanted = [("t", ((500, 150), (1500, 150))), ("i", ((500, 150), (1500, 250)))]
    count.check("a range has its arrows, on its own lines", paths(root) == wanted, paths(root))
    lines_are_sound(count, "a range", root)
    root = tree.fromstring(draw_schedule(["--agent", "1"], text).stdout)
    count.check(
        "an agent by itself has its arrows, from the left edge",
        paths(root) == [("t", ((-500, 150), (500, 150))), ("i", ((-500, 150), (500, 250)))],
        paths(root),
    )
    ran = draw_schedule(["--from", "100"], text)
    count.check(
        "a range after the end",
        (ran.returncode, ran.stderr, paths(tree.fromstring(ran.stdout))) == (0, b"no action is drawn\n", []),
        ran,
    )
    ran = draw_schedule([], AGENTS + b"deliver 0\n")
    count.check("a bad line", (ran.returncode, ran.stdout, ran.stderr) == (1, b"", b"bad line 3 WordCount\n"), ran)
    mermaid_is_sound(count, "an agent by itself", ["--agent", "1"], text, root_of(["--agent", "1"], text))
    for words in (["--agent", "x"], ["--as", "png"]):
        ran = draw_schedule(words, text)
        count.check(f"bad words {words}", (ran.returncode, ran.stdout) == (2, b""), ran)
    for agent, words in (("2", ["--agent", "2"]), ("7", ["--agent", "1", "--agent", "7", "--agent", "9"])):
        told = b"error: --agent %s: the schedule has 2 agents, counted from 0\n" % agent.encode()
        ran = draw_schedule(words, text)
        count.check(f"an agent that isn't there: {words}", (ran.returncode, ran.stdout, ran.stderr) == (2, b"", told), ran)
    for words, empty in (([], b""), (["--as", "mermaid"], b"# nothing\n")):
        ran = draw_schedule(words, empty)
        told = b"the schedule has no agents: the picture is empty\n"
        count.check("an empty schedule is reported", ran.stdout and (ran.returncode, ran.stderr) == (0, told), ran)
    ran = draw_schedule(["--agent", "0"], b"")
    told = b"error: --agent 0: the schedule has 0 agents, counted from 0\n"
    count.check("an agent of an empty schedule", (ran.returncode, ran.stdout, ran.stderr) == (2, b"", told), ran)
    lane = draw_schedule(["--agent", "1"], text).stdout
    for word in ("b", "62"):
        ran = draw_schedule(["--agent", word], text)
        count.check(f"an agent by its name: {word}", (ran.returncode, ran.stdout, ran.stderr) == (0, lane, b""), ran)
    told = b"error: --agent B: no agent of the schedule has this name, as it is or in hex\n"
    ran = draw_schedule(["--agent", "a", "--agent", "B"], text)
    count.check("a name that isn't there", (ran.returncode, ran.stdout, ran.stderr) == (2, b"", told), ran)
    count.check("an SVG if an option requests it", draw_schedule(["--as", "svg"], text).stdout == draw_schedule([], text).stdout)


# a fires three events, b merges them, and again; c gets the second one twice, and the third one after a restart.
STORY = (
    b"agent 61 4 4 512 8 keep\nagent 62 4 4 512 8 keep\nagent 63 4 4 512 8 keep\n"
    b"fire 0 61 31 0\nfire 0 62 32 0\nfire 0 63 - 0\nstate 0\nmerge 1 3 join\nmerge 1 3 join\n"
    b"deliver 2 1 0\ndeliver 2 1 0\nrestart 2 -\ndeliver 2 2 0\ninject ff\ndeliver 2 6 0\nmerge 2 0 join\n"
)


def merges(count):
    """The label of a merge names what it handed out."""
    told = [label for label in labels(root_of([], STORY)) if "merged" in label]
    count.check("two, and how many more", told == ["state @4 merged: a 1 @1, b 2 @2, +1, clock 4", "state @4 merged: nothing of 3"], told)
    for number, wanted in ((1, ": e1  @1"), (2, ": e1  @1, e2  @2"), (3, ": e1  @1, e2  @2, +1"), (12, ": e1  @1, e2  @2, +10")):
        text = b"agent 61 64 4 512 8 keep\nagent 62 64 4 512 8 keep\n"
        text += b"".join(b"fire 0 %s - 0\n" % (b"e%d" % (i + 1)).hex().encode() for i in range(number))
        text += b"state 0\nmerge 1 %d join\n" % number
        said = labels(root_of([], text))[-1]
        count.check(f"{number} events", said == f"state @{number + 1} merged{wanted}, clock {number + 1}", said)
    long = b"agent 61 64 4 512 8 keep\nagent 62 64 4 512 8 keep\n"
    long += b"".join(b"fire 0 %s %s 0\n" % (b"6e" * 20, b"70" * 300) for _ in range(5)) + b"state 0\nmerge 1 5 join\n"
    said = labels(root_of([], long))[-1]
    wanted = "state @6 merged: nnnnnnnn..(20) pppppppp..(300) @1, nnnnn.., +3, clock 6"
    count.check("a long label keeps its end", said == wanted and len(said) == 72, said)


def passed_over(count):
    """A merge that handed nothing out is grey. It has the number of events of the state, and the reason if it is the same for all.
    A merge of a state without events looks as before. A restart shows from which time on events are accepted."""
    text = b"agent 61 4 4 512 8 keep\nagent 62 4 4 512 8 ignore\nagent 63 8 4 512 8 keep+events\nstate 0\nmerge 1 0 join\n"
    text += b"fire 0 61 31 0\nfire 0 62 32 0\nstate 0\nmerge 1 3 join\nmerge 2 3 sync\nrestart 2 -\nmerge 2 3 sync\nfire 0 63 - 0\nstate 0\nmerge 1 5 sync\nrestart 1 -\n"
    root = root_of([], text)
    wanted = [
        ("t", "state @1 merged"),
        ("i", "state @3 merged: nothing of 2, below 3, clock 3"),
        ("t", "state @3 merged: a 1 @1, b 2 @2, clock 3"),
        ("i", "state @3 merged: nothing of 2"),
        ("t", "state @4 merged: c  @3, clock 4"),
    ]
    told = [(text.get("class"), text.text) for text in root.findall(f"{SVG}text") if "merged" in (text.text or "")]
    count.check("what merges passed over", told == wanted, told)
    count.check("their arrows", [kind for kind, _ in paths(root)] == [kind for kind, _ in wanted], paths(root))
    restarts = [label for label in labels(root) if "started again" in label]
    count.check("restarts", restarts == ["started again: events from 1", "started again: events from 4"], restarts)
    left = [label for label in labels(root_of(["--taken"], text)) if "merged" in label]
    count.check("--taken leaves them out", left == [label for kind, label in wanted if kind == "t"], left)
    mermaid_is_sound(count, "what merges passed over", [], text, root)


def held_back(count):
    """A query whose filters don't let an agent pass is grey there, and its label says so. The label of an answer names its node."""
    text = b"agent 61 4 4 512 8 keep\nagent 62 4 4 512 8 keep\nagent 63 4 4 512 8 keep\n"
    text += b"query 0 0 7 6c6f6164 - 1000 1 0091a162\ndeliver 1 0 0\ndeliver 2 0 0\ndeliver 0 2 0\n"
    root = root_of([], text)
    wanted = ["query load  queried 1", "query load  @1 query", "query load  @1 held back", "answer of b @1 ack"]
    count.check("a query that was held back", labels(root) == wanted, labels(root))
    count.check("its arrow", [kind for kind, _ in paths(root)] == ["t", "i", "t"], paths(root))
    count.check("--taken keeps it", labels(root_of(["--taken"], text)) == wanted, labels(root_of(["--taken"], text)))
    mermaid_is_sound(count, "a query that was held back", [], text, root)


def choices(count):
    """What --taken and --event leave out; the remaining rows keep their numbers."""
    whole = root_of([], STORY)
    every = list(zip([text.text for text in whole.findall(f"{SVG}text[@class='n']")], labels(whole)))
    for words, numbers in (
        (["--taken"], [1, 2, 3, 4, 5, 7, 9, 10]),
        (["--event", "b"], [2, 5, 7, 8]),
        (["--event", "b", "--taken"], [2, 5, 7]),
        (["--event", "c"], [3, 5, 10]),
        (["--event", "a"], [1, 5]),
        (["--event", "b", "--agent", "2"], [7, 8]),
        (["--event", "b", "--from", "3"], [5, 7, 8]),
        (["--event", "nothing"], []),
    ):
        root, name = root_of(words, STORY), " ".join(words)
        found = list(zip([text.text for text in root.findall(f"{SVG}text[@class='n']")], labels(root)))
        wanted = [(number, label) for number, label in every if int(number) in numbers]
        if "--event" in words:
            wanted = [
                (number, label.replace("a 1 @1, b 2 @2, +1", {"a": "a 1 @1", "b": "b 2 @2", "c": "c  @3"}.get(words[1], "")))
                for number, label in wanted
            ]
        count.check(f"{name}: its rows", found == wanted, found)
        lines_are_sound(count, name, root)
        nothing_overlaps(count, name, root)
        mermaid_is_sound(count, name, words, STORY, root)
    count.check("ignored packets are left out", {kind for kind, _ in paths(root_of(["--taken"], STORY))} == {"t"})
    text = AGENTS + b"inject 0384a54c54696d6501a44e616d65a178a75061796c6f6164a0a24343c2\ndeliver 1 0 0\ninject 06\n"
    found = labels(root_of(["--event", "x"], text))
    count.check("an injected event has its name", found == ["x  @1 injected", "x  @1 new, clock 2"], found)
    lost = crosses(root_of(["--event", "b"], STORY + b"fire 1 62 33 0\nfire 1 63 33 0\n"))
    count.check("only crosses of what is drawn", lost == ["translate(2500 350)", "translate(1500 550)"], lost)


def many(count):
    """30 agents and 300 actions."""
    agents = b"".join(b"agent %s 64 64 512 8 keep\n" % (b"node-%02d" % i).hex().encode() for i in range(30))
    actions = b"".join(
        b"fire %d 6465706c6f79 7631 0\n" % (i % 30) + b"deliver %d %d 0\n" % ((i * 7 + 1) % 30, i) for i in range(150)
    )
    root = tree.fromstring(draw_schedule([], agents + actions).stdout)
    count.check("30 lanes", lanes_of(root) == 30)
    count.check("names 8 times", [len(names) for names in heads(root).values()] == [30] * 8, heads(root))
    lines_are_sound(count, "a large cluster", root)
    count.check("150 arrows", len(paths(root)) == 150)
    nothing_overlaps(count, "a large cluster", root)
    mermaid_is_sound(count, "a large cluster", [], agents + actions, root)


if __name__ == "__main__":
    sys.exit(checks.over_program(examples, colours, bad_bytes, arrows, merges, passed_over, held_back, choices, many))
