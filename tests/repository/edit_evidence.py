"""Evidence of refusals: how the files of edits are read, how an edit's functions are named, what an edit's checksum covers, which
lines are believed, and which edits a commit selects.

All of this is tried on a small repository that the script makes. No edit is really checked here: a stand-in knows which
of them are harmless.
"""

import os
import subprocess
import sys
import tempfile

sys.dont_write_bytecode = True
sys.path.insert(0, os.path.dirname(os.path.dirname(os.path.abspath(__file__))))
import checks
import edit_checks
import edit_files
import edits
import evidence
import mutants
import reach

PROOF = "crates/serf_high/proofs/double/Answers.antt"

FILES = {
    "crates.txt": "serf_low:\nserf_high: serf_low\n",
    "crates/serf_low/src/lib.rt": """//! Low.
ghost use Rattle.serf_low.specs.Sum.{total};

/// Adds.
pub fn add(a: u8, b: u8) -> u8
    ensures sum { result ≡ total a b }
{
    a + b
}

/// Nothing that anybody above uses.
pub fn aside(a: u8) -> u8
    ensures same { result ≡ a }
{
    a
}

/// A weight in grams.
pub struct Weight {
    pub grams: u8,
}

trait Hidden {
    fn hide(&self) -> u8;
}

impl Hidden for Weight {
    fn hide(&self) -> u8
        ensures hidden { result ≡ 1 }
    {
        1
    }
}

pub trait Weighed {
    fn weigh(&self) -> u8;
}

impl Weighed for Weight {
    fn weigh(&self) -> u8
        ensures weighed { result ≡ 2 }
    {
        2
    }
}

impl Drop for Weight {
    fn drop(self)
        ensures dropped { ⊤ }
    {
    }
}
""",
    "crates/serf_low/specs/Lib.antt": "pub mod Sum\n",
    "crates/serf_low/specs/Sum.antt": (
        "abbrev pub total : ℕ → ℕ → ℕ\ntotal a b = a + b\n\nabbrev pub other : ℕ → ℕ\nother a = a\n"
    ),
    "crates/serf_high/src/lib.rt": """//! High.
#![tactic(auto, using(crate::proofs::OfCrate::whole))]
ghost use Rattle.serf_high.specs.Twice.{twice};
use serf_low::{Weight, add};

/// Doubles.
#[tactic(auto, using(crate::proofs::OfDouble::tripled))]
pub fn double(a: u8) -> u8
    ensures double { result ≡ twice a }
{
    let pair = Pair { a };
    pair.show();
    pair.count();
    add(a, a)
}

/// A number by a name.
#[error("the number {a}")]
pub struct Pair {
    pub a: u8,
    pub weight: Weight,
}

impl Pair {
    /// The number.
    pub fn of(a: u8) -> u8
        ensures of { result ≡ a }
    {
        a
    }
}

impl Pair where u8: Shown {
    /// Shows the number.
    pub fn show(&self) {
    }
}

trait Counted {
    fn count(&self);
}

impl Counted for Pair {
    fn count(&self)
        ensures counted { ⊤ }
    {
    }
}

trait Listed {
    fn list(&self);
}

impl Listed for Pair {
    fn list(&self)
        ensures listed { ⊤ }
    {
    }
}

/// Halves.
#[tactic(auto, using(crate::proofs::OfHalf::quartered))]
pub fn half(a: u8) -> u8
    ensures half { result ≡ a }
{
    a
}
""",
    "crates/serf_high/specs/Lib.antt": "pub mod Twice\n",
    "crates/serf_high/specs/Twice.antt": (
        "use Rattle.serf_low.specs.Sum.{total}\n\nabbrev pub twice : ℕ → ℕ\ntwice a = total a a\n"
    ),
    PROOF: "use Rattle.std.proofs.Common.{arith}\nuse Rattle.serf_high.proofs.Lemmas.{doubled}\n\nanswers = (doubled, arith)\n",
    "crates/serf_high/proofs/Names.antt": "pub use Rattle.std.proofs.Common.{arith}\n",
    "crates/serf_high/proofs/Lemmas.antt": "pub doubled : ℕ\ndoubled = 2\n",
    "crates/serf_high/proofs/Lib.antt": "pub mod Lemmas\n",
    "crates/serf_high/proofs/OfCrate.antt": "pub whole : ℕ\nwhole = 1\n",
    "crates/serf_high/proofs/OfDouble.antt": "pub tripled : ℕ\ntripled = 3\n",
    "crates/serf_high/proofs/OfHalf.antt": "pub quartered : ℕ\nquartered = 4\n",
    "crates/serf_high/proofs/Others.antt": "pub halved : ℕ\nhalved = 1\n",
    "crates/serf_high/mutants/lib.edits": """file: src/lib.rt

edit: adds_nothing
why: a number is doubled to itself
old: add(a, a)
new: add(a, 0)

edit: half_of_nothing
why: each number's half is said to be 0
turns: half
old:     ensures half { result ≡ a }
new:     ensures half { result ≡ 0 }
""",
    "crates/serf_high/mutants/others.edits": """file: src/lib.rt

edit: adds_by_steps
why: 0 is doubled to 1
old: add(a, a)
new: if a == 0 { 1 } else { add(a, a) }
twin: if a == 0 { add(a, a) } else { add(a, a) }
""",
}

# What each change of a file does to the checksum of the edit of `double`.
CHANGES = [
    ("a body below", "crates/serf_low/src/lib.rt", "    a + b", "    b + a", False),
    ("a contract below that is called", "crates/serf_low/src/lib.rt", "ensures sum {", "ensures added {", True),
    ("a contract below that nothing calls", "crates/serf_low/src/lib.rt", "ensures same {", "ensures equal {", False),
    ("a definition below that the contract reaches", "crates/serf_low/specs/Sum.antt", "total a b = a + b", "total a b = b + a", True),
    ("a definition below that nothing reaches", "crates/serf_low/specs/Sum.antt", "other a = a", "other a = 0", False),
    ("the edited function", "crates/serf_high/src/lib.rt", "add(a, a)\n}", "add(a, a) \n    + 0\n}", True),
    ("another function's body", "crates/serf_high/src/lib.rt", "    a\n}", "    a + 0\n}", False),
    ("a comment", "crates/serf_high/src/lib.rt", "/// Doubles.", "/// Doubles it.", False),
    ("a lemma that its proof imports", "crates/serf_high/proofs/Lemmas.antt", "doubled = 2", "doubled = 3", True),
    ("a lemma that it doesn't import", "crates/serf_high/proofs/Others.antt", "halved = 1", "halved = 2", False),
    ("a lemma that its attribute names", "crates/serf_high/proofs/OfDouble.antt", "tripled = 3", "tripled = 4", True),
    ("a lemma that the crate's attribute names", "crates/serf_high/proofs/OfCrate.antt", "whole = 1", "whole = 2", True),
    ("a lemma that another function's attribute names", "crates/serf_high/proofs/OfHalf.antt", "quartered = 4", "quartered = 5", False),
    ("the text of an error", "crates/serf_high/src/lib.rt", "the number {a}", "a number: {a}", False),
    ("a field of a type that it uses", "crates/serf_high/src/lib.rt", "    pub a: u8,", "    pub a: u8, pub b: u8,", True),
    ("the head of an impl of a method that it calls", "crates/serf_high/src/lib.rt", "u8: Shown", "u8: Hidden", True),
    (
        "the head of an impl of methods that it doesn't call",
        "crates/serf_high/src/lib.rt",
        "impl Pair {",
        "impl Pair where u8: Shown {",
        False,
    ),
    ("a function of a trait that it calls", "crates/serf_high/src/lib.rt", "ensures counted { ⊤ }", "ensures counted { ⊥ }", True),
    (
        "a function of a trait that it neither names nor calls",
        "crates/serf_high/src/lib.rt",
        "ensures listed { ⊤ }",
        "ensures listed { ⊥ }",
        False,
    ),
    ("an impl below of a trait that is private there", "crates/serf_low/src/lib.rt", "ensures hidden {", "ensures shown {", False),
    (
        "an impl below of a public trait that it neither names nor calls",
        "crates/serf_low/src/lib.rt",
        "ensures weighed {",
        "ensures heavy {",
        False,
    ),
    ("how a type that it uses is dropped", "crates/serf_low/src/lib.rt", "ensures dropped {", "ensures gone {", True),
    ("its definition", "crates/serf_high/specs/Twice.antt", "twice a = total a a", "twice a = total a (a + 0)", True),
    ("a comment that names a method", "crates/serf_high/src/lib.rt", "    let pair", "    // (of one)\n    let pair", False),
    ("a line that names a file", "crates/serf_high/proofs/Lib.antt", "Lemmas\n", "Lemmas\npub mod Others\n", False),
    ("a lemma that is imported and not used", PROOF, ".{doubled}", ".{doubled, trebled}", False),
    ("another lemma of that name", PROOF, "serf_high.proofs.Lemmas", "serf_low.proofs.Lemmas", True),
    ("a lemma of std that another file passes on", PROOF, "Rattle.std.proofs.Common", "Rattle.serf_high.proofs.Names", False),
    ("a lemma of another place in std", "crates/serf_high/proofs/Names.antt", "Rattle.std.proofs.Common", "Rattle.std.proofs.Other", False),
    ("a lemma of std from another place", PROOF, "Rattle.std.proofs.Common", "Rattle.std.proofs.Other", True),
    ("what its crate uses", "crates.txt", "serf_high: serf_low", "serf_high: serf_low hex", True),
]


def write(top, path, text):
    os.makedirs(os.path.dirname(os.path.join(top, path)) or top, exist_ok=True)
    with open(os.path.join(top, path), "w", encoding="utf-8") as file:
        file.write(text)


def repository(room):
    """The small repository, which the tools use as if it were their own."""
    for path, text in FILES.items():
        write(room, path, text)
    edits.TOP = mutants.TOP = room
    evidence.FOLDER = os.path.join(room, "tests", "refused")


def sum_of(top, name="adds_nothing"):
    edit = next(it for it in edits.edits_of("serf_high") if it.name == name)
    return reach.Reach(top).sum_of("serf_high", edit)


def sums(count, top):
    before = sum_of(top)
    count.check("two sums of the same sources", before == sum_of(top))
    for name, path, old, new, changes in CHANGES:
        text = FILES[path]
        count.check(f"{name}: the text to change is there", text.count(old) == 1, text)
        write(top, path, text.replace(old, new))
        if name == "the edited function":
            # (the edit's own text has to stay as it is)
            write(top, path, text.replace("    add(a, a)", "    let b = a;\n    add(a, a)"))
        count.check(
            name, (sum_of(top) != before) == changes, "its checksum changed" if not changes else "its checksum is the same"
        )
        write(top, path, text)
    for name, text, changes in (
        ("a new file", "//! More.\n\nfn more() {\n}\n", False),
        ("a new file with an attribute of the crate", "#![tactic(auto, using(crate::proofs::OfHalf::quartered))]\n", True),
    ):
        path = "crates/serf_high/src/more.rt"
        write(top, path, text)
        count.check(name, (sum_of(top) != before) == changes)
        os.remove(os.path.join(top, path))
    twin = sum_of(top, "adds_by_steps")
    path = "crates/serf_high/mutants/others.edits"
    write(top, path, FILES[path].replace("twin: if a == 0 { add(a, a)", "twin: if a == 0 { add(0, a)"))
    count.check("its twin", sum_of(top, "adds_by_steps") != twin)
    write(top, path, FILES[path])


class Crate:
    """What the runs know of a crate."""

    name = "serf_high"


class Run(mutants.Run):
    """A run whose checks are a stand-in. The edits of `harmless` are not refused. Of the others, those of `unshown` are refused by
    a goal that their shape may have opened. The run records which edits are tried."""

    def __init__(self, harmless, commit, words=(), unshown=()):
        self.rt, self.harmless, self.commit, self.tried_names = None, harmless, commit, []
        self.unshown = unshown
        self.is_control, self.is_anew, self.writes = False, "--anew" in words, "--write" in words
        self.now, self.reach, self.counts = "toolchain a logic 0a\njudge 0", reach.Reach(edits.TOP), mutants.Counts()

    def try_edits(self, crate, crate_edits):
        found = {}
        for edit in crate_edits:
            self.tried_names.append(edit.name)
            kind = "open" if edit.name in self.unshown else "shape"
            found[edit.name] = None if edit.name in self.harmless else edit_checks.Refusal(kind, "double: returns-clause-double")
            self.counts.add(found[edit.name], True)
        return found


def run(harmless, commit, *words, unshown=()):
    it = Run(harmless, commit, words, unshown)
    it.try_crate(Crate)
    return it


def drawing(name):
    """A commit that selects this edit only, and one that selects none."""
    names = [edit.name for edit in edits.edits_of("serf_high")]
    drawn = {at: [it for it in names if evidence.is_drawn(f"serf_high/{it}", str(at))] for at in range(2000)}
    return next(str(at) for at in drawn if drawn[at] == [name]), next(str(at) for at in drawn if not drawn[at])


def believed(count, top):
    mutants.print_line = lambda text: None
    one, none = drawing("adds_nothing")
    names = sorted(edit.name for edit in edits.edits_of("serf_high"))
    first = run([], none, "--write")
    count.check("without evidence, all are tried", sorted(first.tried_names) == names, first.tried_names)
    count.check(
        "with evidence, none is tried", run([], none).tried_names == [] and run([], none).counts.believed == len(names)
    )
    count.check("except those that the commit selects", run([], one).tried_names == ["adds_nothing"])
    count.check("a harmless edit that isn't selected is believed", run(["adds_nothing"], none).counts.failed == 0)
    drawn = run(["adds_nothing"], one)
    count.check(
        "a harmless edit that is selected fails, and all of its crate are tried",
        drawn.counts.failed == 1 and sorted(drawn.tried_names) == names,
        drawn.tried_names,
    )
    unshown = run([], none, "--anew", "--write", unshown=["adds_nothing"])
    again = run([], none)
    count.check("an edit that only its shape may have refused fails", unshown.counts.failed == 1, unshown.counts.kinds)
    count.check("a later run fails for its line too", (again.counts.failed, again.tried_names) == (1, []), again.tried_names)
    run([], none, "--anew", "--write")
    anew = run(["adds_nothing"], none, "--anew")
    count.check("--anew finds a harmless edit", anew.counts.failed == 1 and sorted(anew.tried_names) == names)
    path = evidence.path_of("serf_high")
    with open(path, encoding="utf-8") as file:
        text = file.read()
    for name, changed, tried in (
        ("a toolchain of another logic", text.replace("logic 0a", "logic 0b"), names),
        ("another toolchain of the same logic", text.replace("toolchain a", "toolchain b"), []),
        ("a toolchain that names no logic", text.replace(" logic 0a", ""), names),
        ("other scripts", text.replace("judge 0", "judge 1"), names),
        ("a sum that was changed by hand", text.replace("adds_nothing ", "adds_nothing 0"), ["adds_nothing"]),
        ("cut off in the middle", text[: len(text) - 40], [names[-1]]),
        ("an empty file", "", names),
        ("garbage", "\x00\xff\n" * 9, names),
    ):
        write(top, os.path.relpath(path, top), changed)
        got = sorted(run([], none).tried_names)
        count.check(name, got == sorted(tried), got)
    write(top, os.path.relpath(path, top), text + "gone " + "0" * 32 + " shape double: x\n")
    known = evidence.Evidence("serf_high", "toolchain a logic 0a\njudge 0")
    count.check("an edit that was removed is named", len(known.lines_without_edit(set(names))) == 1)
    write(top, os.path.relpath(path, top), text)
    write(
        top,
        "crates/serf_high/specs/Twice.antt",
        FILES["crates/serf_high/specs/Twice.antt"].replace("total a a", "total a 0"),
    )
    got = run([], none).tried_names
    count.check(
        "an edit that depends on a changed definition is tried", sorted(got) == sorted(["adds_nothing", "adds_by_steps"]), got
    )


def drawn_share(count):
    names = [f"serf_{crate}/edit_{number}" for crate in range(20) for number in range(20)]
    drawn = [[name for name in names if evidence.is_drawn(name, f"commit {at}")] for at in range(400)]
    share = sum(map(len, drawn)) / 400 / len(names)
    count.check("about 2 in 100 are selected", 0.017 < share < 0.023, share)
    crates = sum(len({name.partition("/")[0] for name in own}) for own in drawn) / 400
    count.check("from a fifth of the crates", 3.2 < crates < 4.8, crates)
    count.check("each is selected by some commit", set().union(*drawn) == set(names))


def kinds(count):
    """The kinds of evidence that an edit is refused."""
    twin = next(it for it in edits.edits_of("serf_high") if it.name == "adds_by_steps")
    plain = next(it for it in edits.edits_of("serf_high") if it.name == "adds_nothing")
    goal, false = edit_checks.Goal("returns-clause-double"), edit_checks.Goal("returns-clause-double", True)
    for name, edit, own, has_twin, kind in (
        ("the same shape", plain, [("double", [goal])], False, "shape"),
        ("values at which a goal is false", twin, [("double", [goal, false])], False, "false"),
        ("a proved twin", twin, [("double", [goal])], True, "twin"),
        ("another shape alone", twin, [("double", [goal])], False, "open"),
    ):
        count.check(name, edit_checks.refusal_of(edit, own, has_twin).kind == kind)
    count.check("no open goal", edit_checks.refusal_of(plain, [], True) is None)
    for name, line, is_proved in (
        ("a function without a hole", "fn serf_high::double: no holes", True),
        (
            "a function that calls one whose proof is a hole",
            "fn serf_high::double: depends on a hole in `Rattle.serf_high.proofs.half.Proof.half_spec`",
            True,
        ),
        (
            "a function with an open goal",
            "fn serf_high::double: not proved; it stands on `Rattle.serf_high.proofs.double.Goals`",
            False,
        ),
        ("another function", "fn serf_high::double_twice: no holes", False),
    ):
        count.check(name, edit_checks.is_proved(f"note: one\n{line}\nonly=1 holes=0\n", "double") == is_proved)
    count.check("a twin's texts", twin.twin().pairs[0][2] == "if a == 0 { add(a, a) } else { add(a, a) }")


# Functions of impls, and how the toolchain names each below its crate.
IMPLS = """//! Held.

pub struct Held<S: Sink> {
    sink: S,
}

impl<S: Sink> Held<S> {
    fn first(&self) {
    }
}

impl<S: Sink + Drop> Drop for Held<S> {
    fn drop(self) {
        let Held { sink: _ } = self;
    }
}

impl Clone for Held<Memory> {
    fn clone(&self) -> Self {
    }
}
"""
NAMES = ["held::Held::first", "held::Held::drop", "held::Held+MemoryClone::clone"]


def function_names(count, top):
    """While an edit is tried, each other function's proof is a hole, under the name that the toolchain has for it."""
    path = "crates/serf_high/src/held.rt"
    write(top, path, IMPLS)
    found = [name for _, name, _ in edits.functions_in("serf_high", "src/held.rt")]
    count.check("a method, a drop that is written out, and a trait's function at one type", found == NAMES, found)
    os.remove(os.path.join(top, path))


# Files of edits that can't be read, each with a part of the error.
UNREAD = [
    ("a text before any edit", "file: src/lib.rt\nold: a\nnew: b\n", "before any 'edit:' line"),
    ("a text of no file", "edit: one\nwhy: it is\nold: a\nnew: b\n", "before any 'file:' or 'old:' line"),
    ("a twin of nothing", "file: src/lib.rt\nedit: one\nwhy: it is\ntwin: a\n", "before any 'new:' line"),
    ("an old text alone", "file: src/lib.rt\nedit: one\nwhy: it is\nold: a\n", "no 'new:' line"),
    ("an edit without words", "file: src/lib.rt\nedit: one\nold: a\nnew: b\n", "no line 'why:'"),
    ("a line of no kind", "file: src/lib.rt\nedit: one\nwhy: it is\nolt: a\n", "isn't a line of an edit"),
]


def files(count, top):
    """What a file says of its edits, and files that can't be read."""
    folder = os.path.join(top, "crates", "serf_high", "mutants")
    found = {it.name: it for it in edit_files.written_in(folder)}
    count.check("the edits of all files, by name", list(found) == ["adds_by_steps", "adds_nothing", "half_of_nothing"], list(found))
    count.check("what an edit does", found["adds_by_steps"].why == "0 is doubled to 1")
    count.check("the functions that it names", [it.turns for it in found.values()] == [[], [], ["half"]])
    count.check("a text with spaces before it", found["half_of_nothing"].pairs[0][2] == "    ensures half { result ≡ 0 }")
    several = edit_files.read("it", "file: a\nedit: one\nwhy: it is\nold: b\nnew:\ntwin: c\nold: d\nnew: e\nfile: f\nold: g\nnew: h\n")[0]
    count.check(
        "several texts",
        several.pairs == [("a", "b", ""), ("a", "d", "e"), ("f", "g", "h")] and several.twins == ["c", None, None],
        several.pairs,
    )
    for name, text, said in UNREAD:
        count.check(name, said in unread(lambda text=text: edit_files.read("it", text)))
    for name, text, said in (
        ("one.edit", "", "end in .edits"),
        ("more.edits", FILES["crates/serf_high/mutants/others.edits"], "have this name"),
    ):
        write(folder, name, text)
        count.check(f"a file {name}", said in unread(lambda: edit_files.written_in(folder)))
        os.remove(os.path.join(folder, name))


def unread(call):
    """Why edits can't be read, or an empty text if they can."""
    try:
        call()
    except edit_files.BadEdit as why:
        return str(why)
    return ""


def words(count):
    """A word that tools/mutants.py doesn't know is reported, and nothing is tried."""
    tool = os.path.join(checks.TOP, "tools", "mutants.py")
    for word in ("--help", "--overci", "serf_nothing"):
        result = subprocess.run(
            [sys.executable, tool, word], stdout=subprocess.PIPE, stderr=subprocess.PIPE, text=True, timeout=checks.LIMIT
        )
        count.check(f"mutants.py {word}", result.returncode == 2 and not result.stdout and "[CRATE..]" in result.stderr, result)


def of_edits(count):
    with tempfile.TemporaryDirectory(prefix="evidence-") as room:
        repository(room)
        files(count, room)
        function_names(count, room)
        sums(count, room)
        kinds(count)
        believed(count, room)
        drawn_share(count)
    words(count)


if __name__ == "__main__":
    sys.exit(checks.run(of_edits))
