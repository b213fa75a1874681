"""Only one function runs a schedule that was read: `run` of serf_schedule, which calls `act` of serf_world.

A second loop over a schedule's actions would need its own proof that its trace is the model's. So each file that steps a
cluster, or runs one, has a row here with its reason; if any other file does, its crate fails. Comments don't count. Neither does the
receiver's name: `.step(` on any value, `step` of any type's path, and `act` and `run` of serf_world by any import are found.
"""

import os
import re
import sys

sys.dont_write_bytecode = True
sys.path.insert(0, os.path.dirname(os.path.dirname(os.path.abspath(__file__))))
import checks
from checks import TOP

CRATES = os.path.join(TOP, "crates")

# The files that may step or run a cluster: the way, the file, and the reason.
ALLOWED = {
    ("step", "serf_world/src/turns.rt"): "`act`, the one step of a schedule that is read",
    ("step", "serf_world/src/running.rt"): "`run`, whose contract has the promises",
    ("step", "serf_conform/src/solo.rt"): "an agent alone, which is compared call by call",
    ("step", "serf_random/src/draft.rt"): "the next action depends on the cluster so far",
    ("step", "serf_random/src/common.rt"): "which actions stay is decided by their turns",
    ("step", "serf_write/src/writing.rt"): "a person writes one line after another",
    ("act", "serf_world/src/lib.rt"): "the crate exports it",
    ("act", "serf_schedule/src/run.rt"): "the one run",
    ("run", "serf_world/src/lib.rt"): "the crate exports it",
    ("run", "serf_conform/src/sweep.rt"): "the trace that agents are compared with, by its contract",
}

# A comment, or a text or a character, which may contain what looks like a comment.
COMMENT = re.compile(r"//[^\n]*|b?\"(?:\\.|[^\"\\])*\"|b?'(?:\\.|[^'\\])'", re.S)

STEP = re.compile(r"\.\s*step\s*\(|::\s*step\b")

# What an import or a path names; an import in braces is taken apart by `imported`.
USE = re.compile(r"\buse\s+([^;]+);")
PATH = re.compile(r"\b\w+(?:\s*::\s*\w+)+")

# For each function of serf_world, the module that defines it, as paths in that crate name it.
HOME = {"act": "turns", "run": "running"}


def code_of(text):
    """A source without its comments and texts."""
    return COMMENT.sub(" ", text)


def imported(tree, before=()):
    """The paths that the tree of a `use` names, each as a tuple of its words; `as` and what follows it is left out."""
    depth, begin, parts = 0, 0, []
    for at, sign in enumerate(tree):
        depth += (sign == "{") - (sign == "}")
        if sign == "," and depth == 0:
            parts.append(tree[begin:at])
            begin = at + 1
    for part in [*parts, tree[begin:]]:
        path, brace, inner = part.partition("{")
        words = tuple(word for word in re.split(r"\s*::\s*", re.sub(r"\s+as\s+\w+", "", path).strip()) if word)
        if brace:
            yield from imported(inner.rpartition("}")[0], (*before, *words))
        elif words:
            yield (*before, *words)


def paths_in(code):
    """All paths of a source: those that it imports, and those that it writes out."""
    for found in USE.finditer(code):
        yield from imported(found[1])
    for found in PATH.finditer(code):
        yield tuple(re.split(r"\s*::\s*", found[0]))


def ways_in(text):
    """The ways in which a source steps or runs a cluster: `step`, `act` or `run`."""
    code = code_of(text)
    found = {"step"} if STEP.search(code) else set()
    for path in paths_in(code):
        if path in (("serf_world",), ("serf_world", "self")):  # the crate may have another name from here on
            found |= HOME.keys()
        for name, home in HOME.items():
            if path[-1] in (name, "*") and path[-2:-1] in (("serf_world",), (home,)):
                found.add(name)
    return found


def used_in(sources):
    """Each way in which each of these sources, by its path from crates/, reaches a cluster."""
    return {(way, file) for file, text in sources.items() for way in ways_in(text)}


def sources_of(crate):
    """The sources of a crate, by their paths from crates/."""
    found = {}
    for folder, _, files in os.walk(os.path.join(CRATES, crate, "src")):
        for name in files:
            path = os.path.join(folder, name)
            found[os.path.relpath(path, CRATES)] = checks.text_of(path)
    return found


def steps(count):
    used = set()
    for crate in sorted(os.listdir(CRATES)):
        found = used_in(sources_of(crate))
        for way, file in sorted(found - ALLOWED.keys()):
            print(f"FAILED {file} reaches a cluster by `{way}`: call `run` of serf_schedule, or add a row with its reason")
        count.add(not found - ALLOWED.keys(), bool(found - ALLOWED.keys()))
        used |= found
    for row in sorted(ALLOWED):
        count.check(f"{row[1]} still reaches a cluster by `{row[0]}`", row in used, "remove its row")


# A crate that steps a cluster in one file, and one that steps none.
ELSEWHERE = "serf_conform/src/parser.rt"
DRAW = "serf_draw/src/rows.rt"

# Sources, and in which ways they are found to reach a cluster.
PLANTED = (
    ("a step", DRAW, "let line = world.step(alloc, &action)?;", {"step"}),
    ("a step of another name", DRAW, "cluster.step(alloc, action)?;", {"step"}),
    ("a step on the next line", DRAW, "cluster\n    .step(alloc, action)?;", {"step"}),
    ("a step as a value", DRAW, "let step = World::step;\nstep(world, alloc, action)?;", {"step"}),
    ("a step of a type with another name", DRAW, "use serf_world::World as Cluster;\nCluster::step(cluster, alloc, action)?;", {"step"}),
    ("a loop over act", DRAW, "for action in actions {\n    serf_world::act(alloc, &mut world, teller, 1, &action)?;\n}", {"act"}),
    ("act by an import", DRAW, "use serf_world::{\n    Roster, Turns, World, act,\n};", {"act"}),
    ("act with another name", DRAW, "use serf_world::{World, act as done};", {"act"}),
    ("act in serf_world", "serf_world/src/world.rt", "use crate::turns::act;", {"act"}),
    ("act among nested imports", DRAW, "use std::io;\nuse {serf_world::{World, act}, std::mem};", {"act"}),
    ("run", DRAW, "match serf_world::run(alloc, configs, &actions) {", {"run"}),
    ("run by an import", DRAW, "use serf_world::run;", {"run"}),
    ("all of the crate", DRAW, "use serf_world::*;", {"act", "run"}),
    ("the crate with another name", DRAW, "use serf_world as w;\nw::run(alloc, configs, &actions)", {"act", "run"}),
    ("a loop in a crate that steps elsewhere", ELSEWHERE, "for action in actions {\n    world.step(alloc, &action)?;\n}", {"step"}),
    ("a docstring that names it", DRAW, "/// Calls `World::step(` of each, and serf_world::run(.\nfn nothing() {}", set()),
    ("a comment after a text with slashes", DRAW, 'let url = "a//b"; // world.step(\nfn nothing() {}', set()),
    ("a text that names it", DRAW, 'let said = "World::step";', set()),
    ("another run", DRAW, "use serf_schedule::run;\nuse crate::replay;\nreplay::run(io, matches)", set()),
    ("another act", DRAW, "use crate::verbs::act;\nlone.act()", set()),
)


def planted(count):
    for name, file, text, wanted in PLANTED:
        found = {way for way, _ in used_in({file: text}) - ALLOWED.keys()}
        count.check(f"planted: {name}", found == wanted, found)


if __name__ == "__main__":
    sys.exit(checks.run(steps, planted))
