#!/usr/bin/env python3
"""Wrong bodies: each edit of crates/NAME/mutants changes one function, whose contract has to refuse it.

    python3 tools/mutants.py [CRATE..] [--list] [--control] [--over-ci] [--anew] [--write]

tests/refused has what refused each edit (tools/evidence.py). The script tries the edits whose line there is outdated, because
something that their check reads has changed. Of the other edits it tries 2 in 100, which are drawn by the commit's hash. If
one of these is not refused any more, it tries all edits of the crate. tools/edit_checks.py says how edits are tried, and what
shows that one is refused.

--list prints each edit with the functions that it changes, and tries none. --control makes the same checks without the
edits: each function that an edit changes has to be proved there. --over-ci uses the libraries that `rt ci` left, as the
gate does; without it they are built first. --anew tries all edits. --write writes the results to tests/refused.

The status is 0 if each edit is refused, and 1 if an edit isn't refused, is refused only because of its shape, or can't be read.
It is 2 for an unknown option or a crate without edits, and 3 if the toolchain isn't there.
"""

import os
import re
import resource
import secrets
import sys
import tempfile
import threading
import time
import traceback
from concurrent.futures import ThreadPoolExecutor

TOP = os.path.dirname(os.path.dirname(os.path.abspath(__file__)))
sys.dont_write_bytecode = True
import edit_checks
import edits
import evidence
import libraries
import machine
import reach
import toolchain

OPTIONS = ("--list", "--control", "--over-ci", "--anew", "--write")

# How many crates are tried in parallel. A check takes one processor, and up to 3 GB.
LANES = min(machine.processors(), 5)


class Counts:
    """The results of a run's edits."""

    def __init__(self):
        self.lock = threading.Lock()
        self.believed = self.tried = self.drawn = self.failed = 0
        self.kinds = {}

    def add(self, refusal, was_tried):
        """Counts an edit, which was tried or whose line is believed."""
        with self.lock:
            self.tried += was_tried
            self.believed += not was_tried
            self.failed += refusal is None or refusal.kind == "open"
            if refusal:
                self.kinds[refusal.kind] = self.kinds.get(refusal.kind, 0) + 1

    def __str__(self):
        kinds = ", ".join(f"{kind} {number}" for kind, number in sorted(self.kinds.items()))
        return f"{self.tried} edits tried, {self.drawn} of them for the draw, {self.believed} believed; refused by kind: {kinds}"

    def draw(self, number):
        """Counts edits that are tried only because the commit draws them, although their lines are believed."""
        with self.lock:
            self.drawn += number

    def fail(self):
        """Counts a failure that belongs to no edit."""
        with self.lock:
            self.failed += 1


class Run:
    """One run over crates: what is known about their edits, and which of them are tried."""

    def __init__(self, rt, words):
        self.rt = rt
        self.is_control, self.is_anew, self.writes = "--control" in words, "--anew" in words, "--write" in words
        self.now = evidence.header()
        # An archive has no commit, so a random number draws the share.
        self.commit = evidence.commit() or secrets.token_hex(20)
        self.reach = reach.Reach(TOP)
        self.counts = Counts()

    def sums_of(self, crate, crate_edits):
        """The hash of everything that the check of each edit reads, by name."""
        return {edit.name: self.reach.sum_of(crate, edit)[:32] for edit in crate_edits}

    def plan(self, crate, crate_edits, known_evidence, sums):
        """The edits that are tried, and what refused each of the others."""
        believed = (
            {} if self.is_anew or self.is_control else {edit.name: known_evidence.refusal(edit, sums[edit.name]) for edit in crate_edits}
        )
        believed = {name: refusal for name, refusal in believed.items() if refusal}
        rest = {
            name: refusal for name, refusal in believed.items() if not evidence.is_drawn(f"{crate}/{name}", self.commit)
        }
        return [edit for edit in crate_edits if edit.name not in rest], rest, believed.keys() - rest.keys()

    def try_crate(self, crate):
        """Tries the edits of a crate, prints the results, and writes them if --write is given."""
        crate_edits = edits.edits_of(crate.name)
        known_evidence, sums = evidence.Evidence(crate.name, self.now), self.sums_of(crate.name, crate_edits)
        for line in [*known_evidence.faults, *known_evidence.lines_without_edit({edit.name for edit in crate_edits})]:
            print_line(line)
        planned_edits, rest, drawn = self.plan(crate.name, crate_edits, known_evidence, sums)
        self.counts.draw(len(drawn))
        refusals = self.try_edits(crate, planned_edits)
        if any(refusals[name] is None for name in drawn):
            print_line(f"{crate.name}: a drawn edit is not refused any more, so all edits of the crate are tried")
            refusals |= self.try_edits(crate, [edit for edit in crate_edits if edit.name in rest])
            rest = {}
        for refusal in rest.values():
            self.counts.add(refusal, False)
        for name, refusal in sorted((rest | refusals).items()):
            if refusal and refusal.kind == "open":
                print_line(f"FAILED {crate.name}/{name}: {refusal}: perhaps only the change of shape was refused")
        if self.writes and not self.is_control and sums == evidence_sums(crate.name, crate_edits):
            known_evidence.write(self.now, sums, {name: refusal for name, refusal in (rest | refusals).items() if refusal})

    def try_edits(self, crate, crate_edits):
        """What refused each of these edits, by name. If a batch of several shows nothing at all, for example because the toolchain
        can't read one of them, its halves are tried."""
        refusal_of = {}
        with tempfile.TemporaryDirectory(prefix="mutants-", ignore_cleanup_errors=True) as kept:
            checks = edit_checks.Checks(self.rt, crate, kept)
            batches = edits.batches_of(crate_edits)
            while batches:
                batch = batches.pop(0)
                began = time.monotonic()
                refusals, said = self.refusals(checks, batch)
                log(crate, batch, began, said)
                if len(batch) > 1 and not any(refusals):
                    half = len(batch) // 2
                    batches[:0] = [batch[:half], batch[half:]]
                    continue
                for edit, refusal in zip(batch, refusals):
                    refusal_of[edit.name] = refusal
                    self.report(crate, edit, refusal)
                if not all(refusals):
                    lines = [line[:200] for line in said.split("\n") if re.search(r"error|not proved|no proof", line)]
                    print_line("\n".join(lines[:40]))
        return refusal_of

    def refusals(self, checks, batch):
        """What refused each edit of a batch, or None, and the toolchain's output. For a control, whether each function is proved
        without its edit."""
        if not self.is_control:
            return checks.refusals(batch)
        goals, said = checks.open_goals(batch, True)
        return [None if own else edit_checks.Refusal("control", "proved without the edit") for own in goals], said

    def report(self, crate, edit, refusal):
        """Counts and prints the result of one edit."""
        self.counts.add(refusal, True)
        name = f"{crate.name}/{edit.name}"
        print_line(f"{name}: {refusal}" if refusal else f"FAILED {name}: {self.failure(edit)}")

    def failure(self, edit):
        """Why an edit is a failure."""
        functions = ", ".join(edit.functions)
        return (
            f"without the edit a goal is open in {functions}"
            if self.is_control
            else f"no goal of meaning is open in {functions}"
        )

    def try_whole(self, crate):
        """Tries the edits of a crate. An error that ends this too early is printed and counted as a failure, and the other crates
        continue."""
        try:
            self.try_crate(crate)
        except Exception as why:
            where = traceback.extract_tb(why.__traceback__)[-1]
            print_line(f"FAILED {crate.name}: {why!r:.300}, at {os.path.basename(where.filename)}:{where.lineno}")
            self.counts.fail()


def evidence_sums(crate, own):
    """The hashes of edits over the current sources, which are read again."""
    now = reach.Reach(TOP)
    return {edit.name: now.sum_of(crate, edit)[:32] for edit in own}


def print_line(text):
    """Prints a text at once, unless it is empty."""
    if text:
        print(text, flush=True)


def log(crate, batch, began, said):
    """Appends the toolchain's output to a file, if MUTANTS_LOG names a folder."""
    if os.environ.get("MUTANTS_LOG"):
        with open(os.path.join(os.environ["MUTANTS_LOG"], f"{crate.name}.log"), "a", encoding="utf-8") as file:
            file.write(f"==== {time.monotonic() - began:.1f} {[edit.name for edit in batch]}\n{said}\n")


def why_unbuilt(crates, over_ci):
    """Why the libraries below these crates are not from the current sources, or None. Without `over_ci` they are built."""
    if over_ci:
        return libraries.fault_of(crates)
    for below in {it.folder: it for crate in crates for it in crate.below()}.values():
        if below.build_rlib([], anew=False):
            return f"{below.name} is not proved"
    return None


def main(words):
    names = [word for word in words if not word.startswith("--")]
    unknown = [word for word in words if word.startswith("--") and word not in OPTIONS]
    unknown += [name for name in names if not os.path.isdir(os.path.join(TOP, "crates", name, "mutants"))]
    if unknown:
        print(__doc__.strip(), file=sys.stderr)
        return 2
    rt = toolchain.load()
    if rt is None:
        print(f"mutants: {toolchain.MISSING}\n0 passed, 1 failed")
        return 3
    rt.rtlib.guarded()
    os.chdir(TOP)
    crates = [crate for crate in rt.rtlib.crates_below(TOP) if not names or crate.name in names]
    crates = [crate for crate in crates if os.path.isdir(os.path.join(crate.folder, "mutants"))]
    try:
        listed = {crate.name: edits.edits_of(crate.name) for crate in crates}
    except edits.BadEdit as bad:
        print(f"FAILED {bad}\n0 passed, 1 failed")
        return 1
    if "--list" in words:
        for name, own in listed.items():
            for edit in own:
                print(f"{name}/{edit.name}: {', '.join(edit.functions)}")
        return 0
    why = why_unbuilt(crates, "--over-ci" in words)
    if why:
        print(f"FAILED {why}\n0 passed, 1 failed")
        return 1
    began, run = time.monotonic(), Run(rt, words)
    # The crates with the largest number of edits are first.
    with ThreadPoolExecutor(LANES) as pool:
        list(pool.map(run.try_whole, sorted(crates, key=lambda it: -len(listed[it.name]))))
    used, counts = resource.getrusage(resource.RUSAGE_CHILDREN), run.counts
    print(counts)
    print(f"{used.ru_utime + used.ru_stime:.0f} processor seconds, {time.monotonic() - began:.0f} seconds")
    total = counts.tried + counts.believed
    print(f"{total - min(counts.failed, total)} passed, {counts.failed} failed")
    return 1 if counts.failed else 0


if __name__ == "__main__":
    sys.exit(main(sys.argv[1:]))
