"""The diagrams of the pages, in the part of Mermaid's grammar that they use: each line can be read, each participant is declared, each
node of a flowchart is described once and is part of an arrow, and the arrows between crates are exactly the uses of crates.txt.

The script also changes the diagrams in ways that have to be refused. tests/by_hand/mermaid.py runs Mermaid's own parser.
"""

import glob
import os
import re
import sys

sys.dont_write_bytecode = True
sys.path.insert(0, os.path.dirname(os.path.dirname(os.path.abspath(__file__))))
import checks
from checks import TOP

BLOCK = re.compile(r"^```mermaid\n(.*?)^```$", re.M | re.S)

NAME = r"[A-Za-z]\w*"
# The text of a node: in quotes, or words without a character that has a meaning.
TEXT = r'(?:"[^"\n]+"|[\w ]+)'
NODE = rf"(?P<name>{NAME})(?P<shape>\(\[{TEXT}\]\)|\[{TEXT}\]|\{{{TEXT}\}}|\({TEXT}\))?"
NODES = re.compile(NODE)
ARROW = re.compile(rf' (?:-->|-- {TEXT} -->) ')
SUBGRAPH = re.compile(rf"subgraph ({NAME}) \[{TEXT}\]$")

PARTICIPANT = re.compile(rf"participant ({NAME}) as \S+$")
MESSAGE = re.compile(rf"({NAME})--?>>({NAME}): \S.*$")
NOTE = re.compile(rf"Note over ({NAME}): \S.*$")


class BadDiagram(Exception):
    """Why a diagram can't be read."""


class Flowchart:
    """A flowchart: its arrows, the nodes that are described, and the nodes of each subgraph."""

    def __init__(self, lines):
        self.arrows, self.described, self.mentioned, self.subgraphs = [], set(), set(), {}
        inside = None
        for line in lines:
            opens = SUBGRAPH.match(line)
            if opens and inside is None:
                inside = opens[1]
                self.subgraphs[inside] = set()
            elif line == "end" and inside is not None:
                inside = None
            else:
                self.read(line, inside)
        if inside is not None:
            raise BadDiagram(f"the subgraph {inside} has no end")
        alone = self.mentioned - {name for arrow in self.arrows for name in arrow}
        # A node may also be part of the arrows of its subgraph.
        joined = {name for own in self.subgraphs.keys() & {name for arrow in self.arrows for name in arrow} for name in self.subgraphs[own]}
        if alone - joined:
            raise BadDiagram(f"no arrow leads to or from {', '.join(sorted(alone - joined))}")

    def read(self, line, inside):
        """Reads the nodes of a line, with the arrows between them."""
        names = []
        for part in ARROW.split(line):
            node = NODES.fullmatch(part)
            if not node:
                raise BadDiagram(f"this is no node: {part}")
            if node["shape"] and node["name"] in self.described:
                raise BadDiagram(f"{node['name']} is described twice")
            if node["shape"]:
                self.described.add(node["name"])
            names.append(node["name"])
        self.mentioned.update(names)
        self.arrows += zip(names, names[1:])
        if inside is not None:
            self.subgraphs[inside].update(names)

    def uses(self):
        """Each arrow between two nodes. An arrow of a subgraph is an arrow of each of its nodes."""
        for one, other in self.arrows:
            for name in self.subgraphs.get(one, {one}):
                yield name, other


def read_sequence(lines):
    """Checks the lines of a sequence diagram."""
    declared, named = set(), set()
    for line in lines:
        participant, message, note = PARTICIPANT.match(line), MESSAGE.match(line), NOTE.match(line)
        if participant and participant[1] in declared:
            raise BadDiagram(f"{participant[1]} is declared twice")
        if participant:
            declared.add(participant[1])
        elif message or note:
            named.update((message or note).groups())
        else:
            raise BadDiagram(f"this is no participant, message or note: {line}")
    if declared != named:
        raise BadDiagram(f"declared or named alone: {', '.join(sorted(declared ^ named))}")


def read(text):
    """Reads a diagram. Returns it if it is a flowchart."""
    kind, *lines = [line.strip() for line in text.strip().split("\n")]
    if re.fullmatch(r"flowchart (TB|TD|BT|LR|RL)", kind):
        chart = Flowchart(lines)
        if chart.described and chart.described != chart.mentioned:
            raise BadDiagram(f"not described: {', '.join(sorted(chart.mentioned - chart.described))}")
        return chart
    if kind != "sequenceDiagram":
        raise BadDiagram(f"neither a flowchart nor a sequence diagram: {kind}")
    read_sequence(lines)
    return None


def closure(pairs):
    """All that can be reached by these pairs, as pairs."""
    pairs = set(pairs)
    while True:
        more = {(one, far) for one, near in pairs for other, far in pairs if near == other} - pairs
        if not more:
            return pairs
        pairs |= more


def uses_of_crates():
    """Each use of crates.txt: a crate, and a crate that uses it."""
    with open(os.path.join(TOP, "crates.txt"), encoding="utf-8") as file:
        rows = [line.split(":") for line in file if ":" in line and not line.startswith("#")]
    crates = {name.split()[0]: words.split() for name, words in rows}
    return {(below, crate) for crate, words in crates.items() for below in words if below in crates}


def compare(chart):
    """Compares the arrows between crates with crates.txt."""
    arrows, uses = set(chart.uses()), uses_of_crates()
    if closure(arrows) != closure(uses):
        raise BadDiagram(f"the arrows are not the uses of crates.txt: {sorted(closure(arrows) ^ closure(uses))}")
    follow = {arrow for arrow in chart.arrows if arrow in closure(set(chart.arrows) - {arrow})}
    if follow:
        raise BadDiagram(f"these arrows follow from others: {sorted(follow)}")


def is_of_crates(text):
    return "serf_lamport -->" in text


def fault(text):
    """What is wrong with a diagram, or None."""
    try:
        chart = read(text)
        if is_of_crates(text):
            compare(chart)
    except BadDiagram as why:
        return str(why)
    return None


def diagrams():
    """Each diagram of a page, with the page."""
    for path in sorted([*glob.glob(os.path.join(TOP, "*.md")), *glob.glob(os.path.join(TOP, "docs", "*.md"))]):
        with open(path, encoding="utf-8") as file:
            for found in BLOCK.findall(file.read()):
                yield os.path.relpath(path, TOP), found


# Changes that make a diagram wrong: the page, a text of the diagram, and what takes its place.
WRONG = [
    ("docs/ARCHITECTURE.md", "flowchart BT", "flowchart UP"),
    ("docs/ARCHITECTURE.md", "  serf_model --> serf_world\n", ""),
    ("docs/ARCHITECTURE.md", "  serf_model --> serf_world\n", "  serf_model --> serf_world\n  serf_agent --> serf_world\n"),
    ("docs/ARCHITECTURE.md", "  serf_json\n", "  serf_hunt\n  serf_json\n"),
    ("docs/ARCHITECTURE.md", "  end\n  serf_wire", "  serf_wire"),
    ("docs/ARCHITECTURE.md", "  participant B as serf_window\n", ""),
    ("docs/ARCHITECTURE.md", "A->>B: offer", "A->B: offer"),
    ("docs/ARCHITECTURE.md", "Note over A: serf_wire", "Note over A serf_wire"),
    ("docs/GO.md", 'guard --> memberlist["memberlist"]', 'guard --> memberlist["memberlist"'),
    ("docs/GO.md", 'channel --> program["your program"]', 'channel --> program["your program"]\n  guard["once more"] --> program'),
    ("docs/GO.md", "-- \"UserEvent, Query, Respond\" -->", "-- \"UserEvent, Query, Respond\" ->"),
    ("docs/HOST.md", "confirmed --> results", "confirmed --> result"),
]


def pages(count):
    found = list(diagrams())
    for number, (page, text) in enumerate(found):
        why = fault(text)
        count.check(f"{page}, diagram {number}", why is None, why or "")
    count.check("the crates have a diagram", sum(is_of_crates(text) for _, text in found) == 1)


def wrong_ones(count):
    found = list(diagrams())
    for page, old, new in WRONG:
        texts = [text for of, text in found if of == page and old in text]
        count.check(f"{page}: the text to change is there: {old.strip()}", len(texts) == 1)
        count.check(f"{page}: refused: {new.strip() or 'without ' + old.strip()}", all(fault(text.replace(old, new, 1)) for text in texts))


if __name__ == "__main__":
    sys.exit(checks.run(pages, wrong_ones))
