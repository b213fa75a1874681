"""Finds out what refuses each wrong body. One check of a copy of the crate tries many edits.

Each function is proved against the contracts of the others, so edits of different functions can be in the sources together.
`rattle check --only` checks only the edited functions: each other function of the crate gets a body that does nothing and a
hole for its proof, and its statement is assumed (`rt ci` has proved it). The check names the open goals of each edited
function. An edit is refused if one of these is a goal of meaning: a clause of an `ensures`, an invariant, or the `requires`
of a call. It is not refused if only a sum may overflow, or a name is missing.

An open goal shows nothing if the change of shape alone would have opened it. So a refusal has one of these kinds:

- `false`: the prover found values at which the goal is false;
- `shape`: the edit has the same shape as the text that it replaces, whose goals are proved;
- `twin`: its neutral twin, with the same shape, is proved;
- `law`: it edits a definition, and a lemma about the definition, which was proved before, is not proved any more;
- `open`: none of these. The goal may be open only because of the edit's shape.
"""

import os
import re
import shutil
import subprocess
import tempfile
import time

import edits

# How long to wait, in seconds, before a check is repeated because the machine ran out of a resource.
WAITS = [5, 30, 120]

# What the toolchain prints about an open goal, and about a goal whose written answer no longer proves it.
OPEN = re.compile(r"^note: (src/\S+?):(\d+):\d+: (.*?) \(`([^`]+)`\)")
ANSWER = re.compile(r"^\./proofs/(\S+?)/(?:Answers|Invariants|Proof)\.antt:\d+:\d+: error: (?:`([^`]*)`: )?(.*)")
MEANING = re.compile(r"what the function ensures holds|invariant|requires|what the call")
GONE = re.compile(r"has no field|is not in scope|has no `|was not admitted")
LAW = re.compile(r"^fn \S+::laws::\S+: not proved; it stands on `Rattle\.\w+\.proofs\.([\w.+-]+)`")
ENDED = re.compile(r"^fn (\S+): (no proof|not proved|could not tell)")
FALSE = "values at which this goal is false"

# The proof of a function that no edit changes.
STUB = (
    "use Rattle.{crate}.proofs.{module}.Statement as stated\n\n"
    "pub {name}_spec : {{M : Type 1}} → stated.statement M\n"
    "{name}_spec = ?\n"
)


class Goal:
    """An open goal of meaning: its name, and whether the prover found values at which it is false."""

    def __init__(self, name, is_false=False):
        self.name = name
        self.is_false = is_false


class Refusal:
    """The goal that refused an edit, its function, and the kind of the refusal."""

    def __init__(self, kind, goal):
        self.kind = kind
        self.goal = goal

    def __str__(self):
        return f"{self.goal} ({self.kind})"


def stubs_for(crate, batch):
    """A proof with a hole for each function of the crate that no edit of a batch changes, by its file's path."""
    turned = {name for edit in batch for name in edit.functions}
    stubs = {}
    for path in edits.source_files(crate):
        for _, name, in_cycle in edits.functions_in(crate, path):
            if name not in turned and not in_cycle:
                stubs[f"proofs/{name.replace('::', '/')}"] = STUB.format(module=name.replace("::", "."), crate=crate, name=name.split("::")[-1])
    return stubs


def texts_of(crate, batch, is_control):
    """The texts of a crate's files for a batch: with its edits, except in a control, and only with the bodies of the functions that
    they change."""
    texts = {} if is_control else edits.applied(batch)
    for path in edits.source_files(crate):
        texts[path] = emptied(crate, path, texts.get(path) or edits.text_of(crate, path), batch)
    return texts


def emptied(crate, file, text, batch):
    """A file's text in which each function that no edit of a batch changes has a body that does nothing. Its callers see only its
    contract, and its proof has a hole, so the body is not needed."""
    turned = {name for edit in batch for name in edit.functions}
    kept = {name.split("::")[-1] for _, name, in_cycle in edits.functions_in(crate, file) if in_cycle or name in turned}
    lines, out, at = text.split("\n"), [], 0
    while at < len(lines):
        function = edits.FUNCTION.match(lines[at])
        body = edits.body_at(lines, at) if function and function[3] not in kept and "const fn" not in lines[at] else None
        if body:
            begin, end = body
            out += [*lines[at : begin + 1], "unreachable!()", lines[end]]
            at = end + 1
        else:
            out.append(lines[at])
            at += 1
    return "\n".join(out)


def goals_in(said):
    """For each function that isn't proved, its open goals of meaning."""
    goals, open_goals, answered = {}, [], {}
    lines = said.split("\n")
    for at, line in enumerate(lines):
        is_open, answer, ended, law = OPEN.match(line), ANSWER.match(line), ENDED.match(line), LAW.match(line)
        if is_open and (MEANING.search(is_open[3]) or is_open[4].startswith("invariant_of-")):
            open_goals.append(Goal(is_open[4], FALSE in line))
        elif answer and answer[2] and not GONE.search(answer[3]):
            # The written answer proved the goal before, and doesn't prove the goal as it is now.
            function, goal = answered_by(answer[1], answer[2])
            answered.setdefault(function, []).append(Goal(goal))
        elif line.startswith("fn "):
            if ended:
                name = function_of(ended[1].partition("::")[2])
                # An edit of a definition is refused if a lemma about the definition is not proved.
                own = open_goals + answered.get(name, [])
                goals.setdefault(name, []).extend(own or ([Goal(law[1])] if law else []))
            open_goals = []
    return {name: own for name, own in goals.items() if own}


def answered_by(folder, goal):
    """The function and the goal of a written answer. The answers of a cycle of calls are in one file."""
    parts = folder.split("/")
    if parts[-1].startswith("+"):
        name, _, goal = goal.partition("-")
        parts[-1] = name
    return function_of("::".join(parts)), goal


def function_of(name):
    """The function that contains a closure. For any other function, its own name."""
    found = re.fullmatch(r"(?:(.*)::)?fn::(.*)::\w+", name)
    return "::".join(filter(None, found.groups())) if found else name


class Checks:
    """The checks of one crate's edits. In the folder `kept`, a check leaves what the next one doesn't have to read again."""

    def __init__(self, rt, crate, kept):
        self.lib = rt.rtlib
        self.crate = crate
        self.kept = kept

    def said_of(self, batch, is_control=False):
        """The toolchain's output for a copy of the crate with the edits of a batch, or without them for a control. If the machine
        has no disk space, memory or process left, the check is repeated, up to three times."""
        for seconds in WAITS:
            try:
                return self.check(batch, is_control)
            except OSError as why:
                print(f"mutants: {self.crate.name} is checked again in {seconds} seconds: {why!r:.300}", flush=True)
                time.sleep(seconds)
        return self.check(batch, is_control)

    def check(self, batch, is_control):
        lib, crate = self.lib, self.crate
        stubs = stubs_for(crate.name, batch)
        with tempfile.TemporaryDirectory(prefix="mutants-", ignore_cleanup_errors=True) as room:
            for part in lib.PARTS:
                if os.path.isdir(f"{crate.folder}/{part}"):
                    shutil.copytree(f"{crate.folder}/{part}", f"{room}/{part}")
            for file, text in texts_of(crate.name, batch, is_control).items():
                with open(f"{room}/{file}", "w", encoding="utf-8") as it:
                    it.write(text)
            for folder, text in stubs.items():
                for name in ("Answers.antt", "Invariants.antt"):
                    if os.path.exists(f"{room}/{folder}/{name}"):
                        os.remove(f"{room}/{folder}/{name}")
                os.makedirs(f"{room}/{folder}", exist_ok=True)
                with open(f"{room}/{folder}/Proof.antt", "w", encoding="utf-8") as it:
                    it.write(text)
            only = [word for edit in batch for name in edit.functions for word in ("--only", name)]
            words = [lib.RATTLE, "check", *crate.words(["--jobs", "1", "--allow-holes", *only], keeps=False), "--incremental", self.kept]
            ran = subprocess.run([*lib.guarded(), *words], cwd=room, stdin=subprocess.DEVNULL, stdout=subprocess.PIPE, stderr=subprocess.STDOUT, text=True, errors="replace")
            return ran.stdout

    def open_goals(self, batch, is_control=False):
        """For each edit of a batch, the functions that it changes with their open goals of meaning; and the output."""
        said = self.said_of(batch, is_control)
        goals = goals_in(said)
        return [[(name, goals[name]) for name in edit.functions if name in goals] for edit in batch], said

    def proved_twins(self, batch):
        """The names of those of these edits that have a neutral twin, and whose twin is proved."""
        having = [(edit, edit.twin()) for edit in batch if edit.twin()]
        if not having:
            return set()
        goals, said = self.open_goals([twin for _, twin in having])
        return {edit.name for (edit, twin), own in zip(having, goals) if not own and all(is_proved(said, name) for name in twin.functions)}

    def refusals(self, batch):
        """For each edit of a batch what refused it, or None; and the toolchain's output."""
        goals, said = self.open_goals(batch)
        unclear = [edit for edit, own in zip(batch, goals) if own and not is_clear(edit, own)]
        twins = self.proved_twins(unclear)
        return [refusal_of(edit, own, edit.name in twins) for edit, own in zip(batch, goals)], said


def is_proved(said, name):
    """Whether the toolchain's output has a function as proved, apart from the holes that stand for other functions' proofs."""
    return re.search(rf"^fn \w+::{re.escape(name)}: (?:no holes|depends on a hole in )", said, re.M) is not None


def is_clear(edit, own):
    """Whether open goals show by themselves that the edit's meaning is refused."""
    return edit.is_definition or edit.keeps_shape or any(goal.is_false for _, goals in own for goal in goals)


def refusal_of(edit, own, has_proved_twin):
    """What refused an edit that left these goals open, or None if it left none."""
    if not own:
        return None
    for name, goals in own:
        false = [goal.name for goal in goals if goal.is_false]
        if false:
            return Refusal("false", f"{name}: {false[0]}")
    kind = "law" if edit.is_definition else "shape" if edit.keeps_shape else "twin" if has_proved_twin else "open"
    name, goals = own[0]
    return Refusal(kind, f"{name}: {goals[0].name}")
