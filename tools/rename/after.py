"""What follows a renaming, in the tree that it is in: the layout, the edits of wrong bodies whose lines the layout changed, and
what is made of the sources.

    python3 tools/rename/after.py
"""

import glob
import os
import re
import shutil
import subprocess
import sys

sys.dont_write_bytecode = True
HERE = os.path.dirname(os.path.abspath(__file__))
TOP = os.path.dirname(os.path.dirname(HERE))
TOKEN = re.compile(r"[\w]+|[^\w\s]")


def lay_out():
    """Lays out each crate's files."""
    for crate in sorted(os.listdir(os.path.join(TOP, "crates"))):
        folder = os.path.join(TOP, "crates", crate)
        if os.path.isdir(os.path.join(folder, "src")):
            subprocess.run(["rt", "fmt"], cwd=folder, check=True)
            for path in glob.glob(os.path.join(folder, "src", "**", "*.rt"), recursive=True):
                narrow_clauses(path)
            subprocess.run(["rt", "fmt"], cwd=folder, check=True)


COLUMNS = 100
CLAUSE = re.compile(r"(\s*)(?:pub )?(?:requires|ensures|ghost(?! use))\b")
# What a line of a clause may begin with, best first.
BREAKS = (re.compile(r" (?=[≡×→⊎≢] |\+\+ )"), re.compile(r" (?=\()"), re.compile(r" "))


def narrow_clauses(path):
    """Breaks the lines of clauses that the new names made too wide: where the fewest brackets are open, and late."""
    with open(path, encoding="utf-8") as file:
        lines = file.read().split("\n")
    out, open_braces, indent = [], 0, ""
    for line in lines:
        found = CLAUSE.match(line)
        if found and not open_braces:
            indent = found[1] + "    "
        if not (open_braces or found):
            out.append(line)
            continue
        open_braces += line.count("{") - line.count("}")
        while len(line) > COLUMNS:
            at = break_of(line)
            out.append(line[:at])
            line = (indent if found else re.match(r"\s*", line)[0]) + line[at + 1 :]
            found = None
        out.append(line)
    if out != lines:
        with open(path, "w", encoding="utf-8") as file:
            file.write("\n".join(out))


def break_of(line):
    """The blank at which a line of a clause is broken."""
    begin = max(len(re.match(r"\s*", line)[0]) + 20, line.find("{") + 2 if CLAUSE.match(line) else 0)
    depths, depth = [], 0
    for letter in line:
        depth += letter in "({[" and 1 or -(letter in ")}]")
        depths.append(depth)
    for pattern in BREAKS:
        places = [found.start() for found in pattern.finditer(line) if begin <= found.start() <= COLUMNS]
        if places:
            least = min(depths[at] for at in places)
            return max(at for at in places if depths[at] == least)
    raise ValueError(f"no place to break: {line}")


def spans(text):
    """The tokens of a text, each with the places at which it begins and ends. A comma before a closing bracket counts for nothing, as
    the layout adds and takes them."""
    found = [(token[0], token.start(), token.end()) for token in TOKEN.finditer(text)]
    return [one for at, one in enumerate(found) if not (one[0] == "," and at + 1 < len(found) and found[at + 1][0] in ")]}")]


def place_of(tokens, all_tokens):
    """The place of tokens among all, if they are there once."""
    first, length = [], len(tokens)
    for at in range(len(all_tokens) - length + 1):
        if all_tokens[at][0] == tokens[0] and [one[0] for one in all_tokens[at : at + length]] == tokens:
            first.append(at)
    return first[0] if len(first) == 1 else None


def moved(source, old, news):
    """The line of a source that now has what an edit changes of `old`, and what it becomes by each of the new texts; None where
    what changes is on several lines."""
    all_tokens = spans(source)
    at = place_of([one[0] for one in spans(old)], all_tokens)
    if at is None:
        return None
    olds = [one[0] for one in spans(old)]
    front, back = len(olds), len(olds)
    for new in news:
        words = [one[0] for one in spans(new)]
        same = 0
        while same < min(len(olds), len(words)) and olds[same] == words[same]:
            same += 1
        end = 0
        while end < min(len(olds), len(words)) - same and olds[-1 - end] == words[-1 - end]:
            end += 1
        front, back = min(front, same), min(back, end)
    back = min(back, len(olds) - front)
    # (what is inserted between two tokens is next to the first of them)
    if front + back == len(olds):
        front -= 1
    begin, end = all_tokens[at + front][1], all_tokens[at + len(olds) - back - 1][2]
    line_begin = source.rfind("\n", 0, begin) + 1
    line_end = source.find("\n", end)
    line = source[line_begin:line_end]
    if "\n" in line:
        return None
    made = []
    for new in news:
        parts = spans(new)
        middle = new[parts[front][1] : parts[len(parts) - back - 1][2]] if front < len(parts) - back else ""
        made.append(source[line_begin:begin] + middle + source[end:line_end])
    return line, made


def mended():
    """Edits whose change the layout puts on several lines, by crate and name: the texts of a change on one line that does the
    same (table/mended.edits)."""
    found = {}
    with open(os.path.join(HERE, "table", "mended.edits"), encoding="utf-8") as file:
        for line in file.read().split("\n"):
            key, _, text = line.partition(": ")
            if key == "edit":
                own = found.setdefault(text, {})
            elif key in ("old", "new", "twin"):
                own[key] = text
    return found


def mend_edits(path):
    """Mends the edits of a file whose old text isn't in its source once. Returns those that can't be mended."""
    by_hand = mended()
    with open(path, encoding="utf-8") as file:
        lines = file.read().split("\n")
    crate = path.split("/mutants/")[0].split("/must-fail/")[0]
    source = name = None
    changed, open_ones, applied = False, [], None
    for at, line in enumerate(lines):
        key, _, text = line.partition(": ")
        if key == "file":
            with open(os.path.join(crate, text.strip()), encoding="utf-8") as file:
                source = file.read()
        elif key == "edit":
            name, applied = text, source
        elif key == "old":
            news = [at + 1] + ([at + 2] if at + 2 < len(lines) and lines[at + 2].startswith("twin: ") else [])
            if applied is None:
                applied = source
            if applied.count(text) != 1:
                found = moved(applied, text, [lines[one].partition(": ")[2] for one in news])
                other = by_hand.get(f"{os.path.basename(crate)}/{name}")
                if other and applied.count(other["old"]) == 1:
                    found = other["old"], [other[lines[one].partition(": ")[0]] for one in news]
                if found is None or applied.count(found[0]) != 1:
                    open_ones.append(f"{os.path.relpath(path, TOP)}: {name}: {text}")
                    continue
                lines[at] = f"old: {found[0]}"
                for one, new in zip(news, found[1]):
                    lines[one] = f"{lines[one].partition(': ')[0]}: {new}"
                changed = True
            applied = applied.replace(lines[at].partition(": ")[2], lines[news[0]].partition(": ")[2], 1)
    if changed:
        with open(path, "w", encoding="utf-8") as file:
            file.write("\n".join(lines))
    return open_ones


def make_others():
    """Makes what is made of the sources."""
    shutil.copy(os.path.join(TOP, "include", "serf_agent.h"), os.path.join(TOP, "bindings", "go", "serfagent", "serf_agent.h"))
    for words in (["tools/calling.py"], ["tools/manual_of_header.py"], ["tools/rust_of_header.py"]):
        subprocess.run([sys.executable, *words], cwd=TOP, check=True)


def main():
    lay_out()
    open_ones = []
    for part, names in (("mutants", "*.edits"), ("must-fail", "*.edit")):
        for path in sorted(glob.glob(os.path.join(TOP, "crates", "*", part, names))):
            open_ones += mend_edits(path)
    for one in open_ones:
        print(f"open: {one}")
    make_others()
    return 1 if open_ones else 0


if __name__ == "__main__":
    sys.exit(main())
