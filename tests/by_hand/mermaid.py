"""By hand, since it needs Mermaid and Node: what Mermaid's own parser reads in the texts of `draw --as mermaid`.

    tests/by_hand/mermaid.py [FOLDER]

FOLDER is Mermaid's, with package.json and dist/mermaid.js; /usr/share/nodejs/mermaid if left out. Debian's package
node-mermaid of unstable, version 9.2.2, puts it there. It doesn't have to be installed: `dpkg -x` unpacks it into any folder.
`node` has to be on PATH. No browser is needed, since nothing is rendered.

The examples, schedules with any bytes in names and payloads, and random schedules are drawn. Mermaid has to read what the SVG
of the same run shows: the lanes, and for each action the sender, the receiver, the arrow and the text. Of texts with one
error, Mermaid has to refuse some, and to read the others as something else.
"""

import glob
import html
import json
import os
import subprocess
import sys
import xml.etree.ElementTree as tree

sys.dont_write_bytecode = True
sys.path.insert(0, os.path.dirname(os.path.dirname(os.path.abspath(__file__))))
import checks
import programs
from checks import KINDS, TOP

READER = os.path.join(TOP, "tests", "by_hand", "mermaid.js")
SVG = "{http://www.w3.org/2000/svg}"

SEEDS = range(1, 205)

# Mermaid's names of the three arrows.
ARROWS = {"t": "SOLID", "i": "DOTTED", "r": "SOLID_CROSS"}

# Names and payloads: words and signs of Mermaid's language, what it searches for before it parses, and every byte.
BYTES = [
    b"end", b"END", b"loop x", b"alt", b"else", b"opt", b"par", b"and", b"rect", b"critical", b"option", b"break", b"box", b"note",
    b"Note over a0", b"left of a0", b"participant", b"actor a", b"as", b"x as y", b"create a", b"destroy a0", b"activate a0",
    b"deactivate", b"autonumber", b"off", b"link a0: x", b"links a0: {}", b"title x", b"title: x", b"accTitle: x", b"accDescr {",
    b"wrap:", b":wrap:x", b"nowrap: x", b"outside", b"a0", b"a1", b"graph TD", b"sequenceDiagram", b"info",
    b"->>", b"a0->>a1: x", b"-x", b"--x", b"-)", b"-->>", b"->>+", b"->>-a0", b"<<->>", b"-|\\", b"()", b"a@{", b"@{ x: y }",
    b";", b"x;y", b"#", b"# x", b"#35;", b"#quot;", b"#59", b"&#35;", b"&amp;", b"%%", b"%% x", b"%%{init: {}", b"}%%",
    b":", b"::", b",", b"+", b"-", b"--", b"---", b"style:#a;", b"style a:#a;", b"classDef:#a;", b"classDef a:#b;",
    b"\n", b"\r\n", b"x\nend\n", b"\n---\n", b"\t", b"\x00", b"\x0b", b"\x7f", b" ", b"  x  ", b"",
    b"\"", b"'", b"`", b"\"x\";'y'", b"\\", b"\\n", b"<br/>", b"<b>x</b>", b"<script>", b"</svg>", b"<!--", b"-->", b"]]>",
    b"$$x$$", b"{{x}}", b"${x}", b"**x**", "\u00e9".encode(), "\u65e5\u672c".encode(), "\ufb02\xb0\xb035\xb6\xdf".encode(),
    "\u2028".encode(), "\u202e".encode(), "\ufeff".encode(), b"\xff", b"\xc3", b"\xed\xa0\x80", b"\xf0\x9f\x98",
    b"end;" * 32, b"#;" * 64, b"\n" * 128, b" " * 128,
]
BYTES += [bytes(range(first, first + 8)) for first in range(0, 256, 8)]


class Drawn:
    """A run's name, its text for Mermaid, and what its SVG shows."""

    def __init__(self, name, schedule, words=(), agents=None):
        self.name = name
        self.text = run_command(["draw", "--as", "mermaid", *words], schedule).decode()
        self.root = tree.fromstring(run_command(["draw", *words], schedule))
        heads = [head.text or "" for head in self.root.findall(f"{SVG}text[@class='h']") if head.get("y") == "065"]
        self.lanes = list(zip(range(len(heads)) if agents is None else agents, heads))

    def who(self, x):
        return "outside" if int(x) < 0 else f"a{self.lanes[int(x) // 1000][0]}"

    def shown(self):
        """What Mermaid has to read: its actors, and its messages and notes."""
        arrows = {}
        for path in self.root.findall(f"{SVG}path"):
            if path.get("class") in ARROWS:
                start, end = (place.split() for place in path.get("d")[1:].split("L"))
                arrows[int(end[1])] = (ARROWS[path.get("class")], self.who(start[0]))
        messages = []
        numbers = self.root.findall(f"{SVG}text[@class='n']")
        dots = [group for group in self.root.findall(f"{SVG}g") if group.get("class")]
        labels = [text for text in self.root.findall(f"{SVG}text") if text.get("class") in ARROWS]
        for number, group, label in zip(numbers, dots, labels, strict=True):
            x, y = group.get("transform")[len("translate(") : -1].split()
            kind, sender = arrows.pop(int(y), ("NOTE", self.who(x)))
            messages.append([kind, sender, self.who(x), f"{number.text} {label.text or ''}".strip()])
        actors = [[f"a{agent}", f"{agent} {name}".strip()] for agent, name in self.lanes]
        if any("outside" in message[1:3] for message in messages):
            actors.append(["outside", "outside"])
        return {"actors": actors, "messages": messages} if not arrows else f"arrows that end at no action: {arrows}"


def run_command(words, given=b""):
    return subprocess.run([checks.PROGRAM, *words], input=given, capture_output=True, timeout=600, check=True).stdout


def read(folder, texts):
    """What Mermaid reads in each text, or the error with which it refuses it."""
    given = "".join(json.dumps(text) + "\n" for text in texts)
    words = ["node", READER, os.path.join(folder, "dist", "mermaid.js")]
    said = subprocess.run(words, input=given, stdout=subprocess.PIPE, text=True, timeout=600, check=True).stdout
    return [unescaped(json.loads(line)) for line in said.splitlines()]


def unescaped(value):
    """Mermaid's words, each entity as the character that it stands for."""
    if isinstance(value, dict):
        return {key: unescaped(part) for key, part in value.items()}
    if isinstance(value, list):
        return [unescaped(part) for part in value]
    return html.unescape(value) if isinstance(value, str) else value


def spelled(some):
    return some.hex() or "-"


def examples():
    for path in sorted(glob.glob(os.path.join(TOP, "examples", "**", "*.schedule"), recursive=True)):
        with open(path, "rb") as file:
            yield Drawn(os.path.relpath(path, TOP), file.read())
    for path in sorted(glob.glob(os.path.join(TOP, "examples", "**", "*.written"), recursive=True)):
        yield Drawn(os.path.relpath(path, TOP), run_command(["write", path]))


def any_bytes():
    for some in BYTES:
        agents = "".join(f"agent {spelled(name)} 4 4 9216 8 keep\n" for name in (some[:128] or b"x", b"y" + some[:127]))
        text = spelled(some)
        said = f"fire 0 {text} {text} 0\ndeliver 1 0 0\ndeliver 1 0 0\nquery 0 0 1 {text} {text} 9 1\ndeliver 1 2 0\nrespond 1 0 0 {text}\n"
        forged = f"inject {text}\ndeliver 0 5 0\nstate 0\nmerge 1 6 join\nrestart 1 {text}\n"
        yield Drawn(f"the bytes {some!r}", (agents + said + forged).encode())


def parts():
    """Ranges, agents by themselves, and what has no lane."""
    agents = b"".join(b"agent %02x 4 4 512 8 keep\n" % (97 + number) for number in range(12))
    text = agents + b"fire 0 78 79 0\ndeliver 11 0 0\ndeliver 1 0 0\ninject ff\ndeliver 0 2 0\ndeliver 0 99 0\n"
    text += b"deliver 12 0 0\nfire 12 78 79 0\nrestart 11 -\n"
    for words in (), ("--from", "2", "--to", "3"), ("--from", "100"), ("--taken",), ("--event", "x"), ("--event", "x", "--taken"):
        yield Drawn(f"12 agents {' '.join(words)}", text, words)
    for agents in ([11], [0, 1]):
        words = [word for agent in agents for word in ("--agent", str(agent))]
        yield Drawn(f"12 agents {' '.join(words)}", text, words, agents)


def randoms():
    for seed in SEEDS:
        kind = KINDS[seed % len(KINDS)]
        yield Drawn(f"seed {seed} of {kind}", run_command(["random", str(seed), "--kind", kind]))


# A text of ours with one error, which Mermaid has to refuse, or to read as something else.
REFUSED = (
    ("sequenceDiagram\n", ""),
    ("sequenceDiagram", "sequenceDiagrams"),
    ("sequenceDiagram", "graph TD"),
    ("participant a0 as", "participants a0 as"),
    ("participant a0", "participant a->0"),
    ("a0->>a1: ", "a0=>>a1: "),
    ("a0->>a1: ", "a0->>: "),
    ("a0->>a1: ", "->>a1: "),
    ("a0->>a1: ", "a0->>a1 "),
    ("Note over a0", "Note above a0"),
    ("Note over a0", "Note a0"),
    ("x#59;y", "x;y"),
    ("x#59;y", "x\ny"),
    ("x#59;y", "x\nend"),
    ("x#59;y", "x\nloop y"),
)
OTHERWISE = (
    ("a0->>a1: ", "a1->>a0: "),
    ("a0->>a1: ", "a0-->>a1: "),
    ("a0->>a1: ", "a0-xa1: "),
    ("a0->>a1: ", "a0->>a2: "),
    ("participant a0 as 0", "participant a0 as 1"),
    ("participant a0", "participant a2"),
    ("x#59;y", "x#58;y"),
    ("x#59;y", "x#y"),
    ("x#59;y", "x;Note over a0: y"),
    ("x#59;y", "x\n%% y"),
    ("x#59;y", "x\nautonumber\nNote over a0: y"),
)


def broken(folder):
    """A text of ours, whole, and then with one error: each with whether Mermaid's result is as expected."""
    whole = Drawn("one that is broken", b"agent 61 4 4 512 8 keep\nagent 62 4 4 512 8 keep\nfire 0 783b79 - 0\ndeliver 1 0 0\n")
    shown = whole.shown()
    first, *others = read(folder, [whole.text] + [whole.text.replace(*change) for change in REFUSED + OTHERWISE])
    yield "the text without an error is read whole", first == shown, first
    for (old, new), said in zip(REFUSED + OTHERWISE, others, strict=True):
        wanted = "refused" if (old, new) in REFUSED else "read as something else"
        seen = "refused" if "refused" in said else "read" if said == shown else "read as something else"
        yield f"{new!r} in place of {old!r} is {wanted}", old in whole.text and seen == wanted, said


def main(words):
    fault = programs.fault_of_build("serf_replay_program")
    if fault:
        print(f"{fault}\n0 passed, 1 failed")
        return 1
    folder = words[0] if words else "/usr/share/nodejs/mermaid"
    with open(os.path.join(folder, "package.json")) as file:
        print(f"Mermaid {json.load(file)['version']}", flush=True)
    runs = [run for part in (examples, any_bytes, parts, randoms) for run in part()]
    results = [(run.name, said == run.shown(), said) for run, said in zip(runs, read(folder, [run.text for run in runs]), strict=True)]
    results += broken(folder)
    for name, holds, said in results:
        if not holds:
            print(f"FAILED {name}: {said}"[:600])
    messages = sum(message[0] != "NOTE" for run in runs for message in run.shown()["messages"])
    notes = sum(len(run.shown()["messages"]) for run in runs) - messages
    print(f"{len(runs)} texts have {messages} messages and {notes} notes")
    failed = sum(not holds for _, holds, _ in results)
    print(f"{len(results) - failed} passed, {failed} failed")
    return 1 if failed else 0


if __name__ == "__main__":
    sys.exit(main(sys.argv[1:]))
