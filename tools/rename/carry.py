"""Carries the evidence of wrong bodies (tests/refused) over a renaming.

    python3 tools/rename/carry.py OLD [CRATE..]      writes the lines in this tree, which is the renamed one; OLD is the tree before

A line says what refused an edit, for a sum of all that the edit's check reads (tools/reach.py). It is written anew, with the sum of
this tree and the renamed goal, only if

- the line's sum is that of the old tree, so that it was the old tree's evidence;
- the scripts that judge, and the toolchain, are the same;
- the texts that the two sums are made of are, file by file, the same but for the renaming: each text of the old tree, renamed by the
  table as its file is, is a text of the new one, and there is no other. Code counts without its layout, as `rt fmt` lays it out;
- the edit makes of the old sources, renamed, what it makes of the new ones, and so does its twin.

The table maps no two names of a crate to one (rename.py --check), so the new check has the old one's goals under new names.
Of all other edits it prints the name and why; they are untried then.
"""

import importlib
import os
import re
import subprocess
import sys
from collections import Counter

sys.dont_write_bytecode = True
import after
import rename
from table import TOP


def load(top, tools):
    """The modules of a tree's tools, over a tree."""
    for name in ("edits", "edit_files", "edit_checks", "reach", "evidence"):
        sys.modules.pop(name, None)
    sys.path.insert(0, os.path.join(tools, "tools"))
    edits, reach = importlib.import_module("edits"), importlib.import_module("reach")
    sys.path.pop(0)
    edits.TOP = top
    return edits, reach


class Said:
    """What the sums of a tree's edits are made of, by file."""

    def __init__(self, top, tools=TOP):
        self.top = top
        self.edits, self.reach = load(top, tools)
        now = self.now = self.reach.Reach(top)
        self.proofs, own = {}, now.said_by_proof

        def said_by_proof(file):
            text, reached = own(file)
            if text:
                body = self.reach.without_uses(self.reach.plain_proof(now.sources.texts[file]))
                self.proofs[text] = (file, text[: -len(body)].split("\n")[1:-1], body)
            return text, reached

        now.said_by_proof = said_by_proof

    def edits_of(self, crate):
        return {edit.name: edit for edit in self.edits.edits_of(crate)}

    def of(self, crate, edit):
        """The sum of an edit, and its texts: each with its file, and whether it is of code, a definition or a proof."""
        found = {}

        def sha(*texts):
            found["texts"] = texts
            return own(*texts)

        own, self.reach.sha = self.reach.sha, sha
        try:
            total = self.now.sum_of(crate, edit)
        finally:
            self.reach.sha = own
        line, first, *rest = found["texts"]
        texts, file = [], None
        files = self.now.sources.files(crate, "src")
        for text in rest:
            if text in self.proofs:
                file, places, body = self.proofs[text]
                texts.append((file, "proof", body))
                texts += [(file, "place", place) for place in places]
            elif any(text.startswith(f"{one} ") for one in files) and text.split(" ", 1)[0] in files:
                file = text.split(" ", 1)[0]
                texts.append((file, "code", text.split(" ", 1)[1]))
            elif text.startswith(f"{crate}/") or re.match(r"serf_\w+/(src|specs)/", text):
                of, body = text.split("\n", 1)
                texts.append((of, "code" if "/src/" in of else "definition", body))
            elif text == repr(edit.twins):
                continue
            else:
                texts.append((file, "code", text))
        return total, line, texts


class Carry:
    """A renaming of one tree's evidence for another."""

    def __init__(self, old):
        self.old, self.new = old, TOP
        rename.TOP = old
        self.tree = rename.Tree()
        rename.TOP = TOP
        # A line's sum is that of the old tree's own script. What two sums are made of is compared by this tree's script.
        self.then, self.was, self.memo = Said(old, old), Said(old), {}
        self.now = Said(TOP)

    def renamed(self, file, kind, text):
        """A text of the old tree's sums, by the names of the new one."""
        key = (file, kind, text)
        if key not in self.memo:
            self.memo[key] = self.made_of(file, kind, text)
        return self.memo[key]

    def made_of(self, file, kind, text):
        path = f"crates/{file}"
        new = self.tree.new_path(path)[len("crates/") :]
        if kind == "place":
            name, module, there = text.split(" ")
            return (new, kind, f"{self.names(path, name)} {self.place(path, module, there)}")
        made = self.tree.code(path, text, self.tree.word_in)
        return (new, kind, plain(made) if kind == "code" else made)

    def names(self, path, text):
        return self.tree.stretch(path, text, self.tree.word_in)

    def place(self, path, module, name):
        """Where a name comes from: the module of a crate has that crate's names."""
        found = re.match(r"Rattle\.(serf_\w+)\.(specs|proofs)\.(.*)$", module)
        if not found:
            return f"{module} {name}"
        own = f"crates/{found[1]}/{found[2]}/{found[3].replace('.', '/')}.antt"
        return f"{self.names(own, module)} {name if name == 'None' else self.names(own, name)}"

    def same_texts(self, crate, was, now):
        """Why the texts of two sums aren't the same but for the renaming, or None."""
        old = Counter(self.renamed(*one) for one in was)
        new = Counter((file, kind, plain(text) if kind == "code" else text) for file, kind, text in now)
        if old == new:
            return None
        (more, *_), (less, *_) = list((old - new).keys()) or [("", "", "")], list((new - old).keys()) or [("", "", "")]
        return f"{more[0] or less[0]} isn't the renamed text: {apart(more[2], less[2])}"

    def same_edit(self, crate, one, other):
        """Why an edit of the new tree isn't the old one renamed, or None."""
        home = f"crates/{crate}/mutants/all.edits"
        functions = {self.tree.edits(home, f"turns: {name}")[len("turns: ") :] for name in one.functions}
        if functions != set(other.functions):
            return f"it turns {', '.join(other.functions)}, and not {', '.join(sorted(functions))}"
        for before, behind in ((one, other), (one.twin(), other.twin())):
            if (before is None) != (behind is None):
                return "one has a twin, and the other none"
            if before is None:
                continue
            old = {}
            for file, text in texts_of(self.was, before).items():
                path = f"crates/{crate}/{file}"
                old[self.tree.new_path(path).split("/", 2)[2]] = plain(self.tree.code(path, text, self.tree.word_in))
            new = {file: plain(text) for file, text in texts_of(self.now, behind).items()}
            if old != new:
                return "it makes something else of the source"
        return None

    def goal(self, crate, goal):
        """A goal, which begins with a function's path."""
        file = goal.split("::")[0].replace("+", "/")
        path = f"crates/{crate}/src/{file}.rt"
        path = path if path in self.tree.texts else f"crates/{crate}/mutants/all.edits"
        return self.tree.stretch(path, f" {goal}", self.tree.word_in)[1:]

    def crate(self, crate):
        """Writes a crate's lines. Returns how many there are, and why each other edit is untried."""
        new_crate = self.tree.raw.get(crate, crate)
        path = os.path.join(self.old, "tests", "refused", f"{crate}.txt")
        with open(path, encoding="utf-8") as file:
            lines = file.read().split("\n")
        was, now = self.was.edits_of(crate), self.now.edits_of(new_crate)
        kept, untried = [], []
        for line in lines[3:]:
            found = re.match(r"(\w+) ([0-9a-f]{32}) (\w+) (.+)$", line)
            if not found:
                continue
            name, total, kind, goal = found.groups()
            why = self.why_untried(crate, was.get(name), now.get(name), total)
            if why is None:
                sum_now = self.now.of(new_crate, now[name])[0][:32]
                kept.append(f"{name} {sum_now} {kind} {self.goal(crate, goal)}")
            else:
                untried.append(f"{new_crate}/{name}: {why}")
        named = {line.split(" ")[0] for line in lines[3:] if line}
        untried += [f"{new_crate}/{name}: it has no line" for name in now if name not in named]
        with open(os.path.join(TOP, "tests", "refused", f"{new_crate}.txt"), "w", encoding="utf-8") as file:
            file.write("\n".join([lines[0].replace(crate, new_crate), *lines[1:3], *kept, ""]))
        if new_crate != crate and os.path.exists(os.path.join(TOP, "tests", "refused", f"{crate}.txt")):
            os.remove(os.path.join(TOP, "tests", "refused", f"{crate}.txt"))
        return len(kept), untried

    def why_untried(self, crate, one, other, total):
        if one is None or other is None:
            return "only one tree has it"
        if self.then.of(crate, one)[0][:32] != total:
            return "its line isn't of the old tree's sum"
        _, line, texts = self.was.of(crate, one)
        new_crate = self.tree.raw.get(crate, crate)
        _, new_line, new_texts = self.now.of(new_crate, other)
        if " ".join(self.tree.raw.get(word, word) for word in line.replace(":", " :").split()).replace(" :", ":") != new_line:
            return "its crate uses other crates"
        return self.same_edit(crate, one, other) or self.same_texts(crate, texts, new_texts)


def plain(text):
    """Code without its layout, and without its imports and modules, whose order is layout."""
    text = re.sub(r"(?m)^\s*(?:pub(?:\([^)]*\))? |ghost )*(?:use [^;]*|mod \w+);", "", text)
    return " ".join(token for token, _, _ in after.spans(re.sub(r"//[^\n]*", "", text)))


def texts_of(said, edit):
    """The texts of the files that an edit changes, with the edit in them."""
    before, said.edits.TOP = said.edits.TOP, said.top
    texts = {}
    for file, old, new in edit.pairs:
        text = texts[file] if file in texts else said.edits.text_of(edit.crate, file)
        texts[file] = text.replace(old, new, 1)
    said.edits.TOP = before
    return texts


def apart(one, other):
    """Where two texts begin to differ."""
    at = len(os.path.commonprefix([one, other]))
    return f"{one[max(0, at - 30) : at + 50]!r} and {other[max(0, at - 30) : at + 50]!r}"


def judge_of(top):
    """The sum of the scripts that judge in a tree."""
    code = f"import sys; sys.path.insert(0, {os.path.join(top, 'tools')!r}); import evidence; print(evidence.judge())"
    return subprocess.run([sys.executable, "-c", code], stdout=subprocess.PIPE, text=True, check=True).stdout


def main(words):
    carry = Carry(os.path.abspath(words[0]))
    if judge_of(carry.old) != judge_of(TOP):
        print("the scripts that judge aren't the same in both trees", file=sys.stderr)
        return 1
    crates = words[1:] or sorted(name[:-4] for name in os.listdir(os.path.join(carry.old, "tests", "refused")))
    all_untried = 0
    for crate in crates:
        kept, untried = carry.crate(crate)
        print(f"{crate}: {kept} lines carried over, {len(untried)} edits untried")
        for one in untried:
            print(f"  {one}")
        all_untried += len(untried)
    return 0


if __name__ == "__main__":
    sys.exit(main(sys.argv[1:]))
