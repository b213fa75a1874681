#!/usr/bin/env python3
"""tools/calling.py [--check | CRATE]: writes CALLING.md of the crates that other programs are likely to call: the purpose of each,
a caller that the gate compiles, and its calls with their clauses, one per line. All of it is read from the sources.

--check writes nothing. It prints a line for each page that is outdated; the status is then 1. CRATE prints a page of this kind for
any library, and after it what the words of its clauses mean, from the comments of its specs.
"""

import glob
import os
import re
import sys

TOP = os.path.dirname(os.path.dirname(os.path.abspath(__file__)))

# The caller of each crate: functions of a file that a script of tests/ compiles, or that is proved.
CALLERS = {
    "serf_wire": ("tests/library/units/changed.rattle", ["is_same_event"]),
    "serf_snapshot": ("tests/library/units/snapshots.rattle", ["opened", "take"]),
    "serf_store": ("tests/library/units/stores.rattle", ["store_keeps_what_is_noted"]),
    "serf_agent": ("crates/serf_example/src/main.rt", ["open_over", "tell"]),
    "serf_world": ("tests/library/units/clusters.rattle", ["configs", "named_twice"]),
    "serf_replay": ("tests/library/units/streams.rattle", ["a_line_is_done_as_it_is_read"]),
    "serf_conform": ("crates/serf_conform/src/trying.rt", ["try_calls"]),
}

ITEM = re.compile(r'^pub (?:const )?(?:unsafe )?(?:extern "C" )?(fn|struct|enum|trait) (\w+)')
EXPORT = re.compile(r'^pub extern "C" fn (\w+)', re.M)
CLAUSE = re.compile(r"^ *ensures(?: (\w+))?\b")
# A definition of specs/ with the comment above it.
DEFINITION = re.compile(r"((?:^-- .*\n)+)(?:abbrev|unfoldable|pub record|abbrev mutual)(?: pub)?(?: mutual)? (\w+)", re.M)
IMPL = re.compile(r"^impl(?:<.*?>)? (?:(\w+)(?:<.*>)? for )?(\w+)")
METHOD = re.compile(r"^    pub (?:const )?fn (\w+)")
TRAIT_METHOD = re.compile(r"^    fn (\w+)")
# The end of a signature: the beginning of its clauses or of its body.
BODY = re.compile(r"\s*(?:ensures\b|requires\b|where\b|ghost\b|\{|;|measure\b)")


def read(*parts):
    """The text of a file below the top folder."""
    with open(os.path.join(TOP, *parts), encoding="utf-8") as file:
        return file.read()


def exported_names(lib):
    """The names that a crate exports."""
    words = " ".join(re.findall(r"^pub use (?!serf_)[\w:]*?(?:::)?(\{[^}]*\}|\w+);", lib, re.M))
    return set(re.findall(r"\w+", words))


def signature(lines):
    """A function's signature on one line, up to its clauses."""
    text = ""
    for line in lines:
        if BODY.match(line):
            break
        line = line.partition(" // ")[0]
        if line.strip().startswith("//"):
            continue
        text += " " + line.strip()
        if line.rstrip().endswith(("{", ";")):
            break
    text = re.sub(r"\s+", " ", text.strip().rstrip("{;").strip())
    text = re.sub(r'^(?:pub )?(?:const )?(?:unsafe )?(?:extern "C" )?fn ', "", text)
    return text.replace("( ", "(").replace(", )", ")").replace(",)", ")")


def contract(lines):
    """The lines of the function that begins here, up to its body."""
    indent, contract_lines, is_begun = re.match(r" *", "".join(lines[:1]))[0], [], False
    for line in lines:
        is_begun = is_begun or bool(re.match(r" *(?:ensures|requires|ghost)\b", line))
        if line.rstrip() in (indent + "{", indent + "}") or (not is_begun and line.rstrip().endswith(("{", ";"))):
            break
        contract_lines.append(line)
        if line.endswith(";"):
            break
    return contract_lines


def clauses(lines):
    """The names of the clauses of the function that begins here. A clause without a name is `one`."""
    return [clause[1] or "one" for clause in map(CLAUSE.match, contract(lines)) if clause]


def has_conditions(lines):
    """Whether the function that begins here requires something of its caller."""
    return any(re.match(r" *requires\b", line) for line in contract(lines))


def sentence(docs):
    """The first sentence of an item's docs."""
    text = " ".join(line.strip().removeprefix("///").strip() for line in docs).split("  ")[0]
    match = re.match(r"(.*?[.:])(?: [A-Z`(]|$)", text)
    return (match[1].rstrip(":") if match else text).replace("|", "\\|")


def items_in(path):
    """The public items of a file: the type that each belongs to, its name, its signature, its first sentence, and the lines
    that a function begins."""
    docs, kind, owner = [], "", None
    lines = read(path).split("\n")
    for at, line in enumerate(lines):
        stripped = line.strip()
        if stripped.startswith("///"):
            docs.append(stripped)
            continue
        if stripped.startswith("#["):
            continue
        item, impl = ITEM.match(line), IMPL.match(line)
        method = METHOD.match(line) if kind != "trait" else TRAIT_METHOD.match(line)
        if item:
            kind, owner = (item[1], item[2]) if item[1] == "trait" else ("", None)
            is_fn = item[1] == "fn"
            yield None, item[2], signature(lines[at:]) if is_fn else item[2], sentence(docs), lines[at:] if is_fn else []
        elif impl:
            # A trait's calls are listed at the trait.
            kind, owner = ("for", None) if impl[1] else ("impl", impl[2])
        elif method and owner:
            yield owner, method[1], f"{owner}::{signature(lines[at:])}", sentence(docs), lines[at:]
        if stripped:
            docs = []


def exported_items(crate):
    """The public items of a crate, each with the lines that it begins."""
    paths = sorted(glob.glob(os.path.join(TOP, "crates", crate, "src", "**", "*.rt"), recursive=True))
    names, items = exported_names(read("crates", crate, "src", "lib.rt")), []
    names |= {name for path in paths for name in EXPORT.findall(read(os.path.relpath(path, TOP)))}
    for path in paths:
        items += [item for item in items_in(os.path.relpath(path, TOP)) if (item[0] or item[1]) in names]
    return items


def conditions(crate):
    """The public calls of a crate that require something of their caller."""
    return {f"{owner}::{name}" if owner else name for owner, name, _, _, lines in exported_items(crate) if lines and has_conditions(lines)}


def calls(crate):
    """The rows of a crate's calls: types with their methods, then functions."""
    order = sorted(
        exported_items(crate), key=lambda item: ((item[0] or item[1])[0].islower(), (item[0] or item[1]).lower(), item[0] is not None)
    )
    return [
        f"| `{signature_text}` | {purpose} | {', '.join(f'`{name}`' if name != 'one' else name for name in clauses(lines))} |"
        for _, _, signature_text, purpose, lines in order
    ]


def function(text, name):
    """A function of a file, unchanged, with its docs."""
    match = re.search(rf"^(?:///.*\n|#\[.*\n)*(?:pub )?fn {name}\b(?s:.*?)^\}}$", text, re.M)
    if not match:
        sys.exit(f"calling: there is no function {name}")
    return match[0]


def caller(crate):
    """The part of a page that shows a caller, if the crate has one."""
    if crate not in CALLERS:
        return ""
    path, names = CALLERS[crate]
    text = "\n\n".join(function(read(path), name) for name in names)
    indented = re.sub(r"^(?=.)", "    ", text, flags=re.M)
    return f"""## A caller

From `{path}`:

{indented}

"""


def page(crate):
    """The page of a crate."""
    text = read("crates", crate, "src", "lib.rt")
    head = re.match(r"(?://!.*\n)+", text)
    purpose = re.sub(r"^//! ?", "", head[0], flags=re.M).strip() if head else ""
    rows = "\n".join(calls(crate))
    return f"""# Calling `{crate}`

{purpose}

{caller(crate)}## Its calls

Each call has its contract at its function, clause by clause. `tools/calling.py {crate}` prints what the words of the clauses mean. [PROMISES.md](../../docs/PROMISES.md) says what they promise together.

| Call | What it is | Its clauses |
|---|---|---|
{rows}
"""


def words(crate):
    """What the words of a crate's clauses mean, from the comments of its specs."""
    rows = []
    for path in sorted(glob.glob(os.path.join(TOP, "crates", crate, "specs", "**", "*.antt"), recursive=True)):
        for comment, name in DEFINITION.findall(read(os.path.relpath(path, TOP))):
            rows.append(f"- `{name}`: {' '.join(line.removeprefix('-- ').strip() for line in comment.splitlines())}")
    return "\n".join(["", "## Its definitions", "", *rows, ""])


def check_pages():
    """Each page, and whether it equals what the sources yield."""
    for crate in CALLERS:
        path = os.path.join("crates", crate, "CALLING.md")
        yield path, os.path.exists(os.path.join(TOP, path)) and read(path) == page(crate)


def main(words_given):
    if len(words_given) == 1 and os.path.isfile(os.path.join(TOP, "crates", words_given[0], "src", "lib.rt")):
        print(page(words_given[0]) + words(words_given[0]), end="")
        return 0
    if words_given not in ([], ["--check"]):
        print(__doc__.strip(), file=sys.stderr)
        return 2
    if words_given:
        faults = [path for path, is_made in check_pages() if not is_made]
        for path in faults:
            print(f"{path} is outdated: run tools/calling.py")
        return int(bool(faults))
    for crate in CALLERS:
        with open(os.path.join(TOP, "crates", crate, "CALLING.md"), "w", encoding="utf-8") as file:
            file.write(page(crate))
    return 0


if __name__ == "__main__":
    sys.exit(main(sys.argv[1:]))
