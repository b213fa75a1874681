"""The documents name what exists: paths, crates, public items, clauses, links, commands and their statuses.

Each check is one thing that a document names:

- a path in backquotes exists in the repository (from its top, from the document, from a crate or a crate's src);
- `crate::item` and `Type::method` are public items, and `serf_name` is a crate, or a function of a header in C;
- a clause named in the tables of PROMISES.md, or in brackets after a function, is a clause of some contract;
- the calls that PROMISES.md says have conditions are the public ones with a `requires`;
- a link leads to a file that exists;
- `tools/to_add.py` finds the files of each thing that ARCHITECTURE.md, "To add something", names;
- tests/README.md has each script of tests/, and no script of a test is outside of its folders;
- tools/gate.rows has a minimum number of checks of each script of `./test`, and the cost of each crate and each part;
- each CALLING.md is what `tools/calling.py` makes from the sources;
- a command that begins with `./` or with `python3` names a script that exists, and a command word that the program has
  (`./my-..` is the reader's own);
- a script of tests/ runs each command in an indented block, and `tests/pages.py` says what each other block is.
"""

import glob
import os
import re
import sys

sys.dont_write_bytecode = True
sys.path.insert(0, os.path.dirname(os.path.dirname(os.path.abspath(__file__))))
import checks
import pages
from checks import TOP, text_of
from pages import documents
import calling
import gate
import to_add

ENDINGS = (
    "rt",
    "antt",
    "md",
    "py",
    "schedule",
    "trace",
    "snapshot",
    "hex",
    "edit",
    "rattle",
    "h",
    "c",
    "go",
    "rs",
    "toml",
    "sh",
    "svg",
    "txt",
)

# How a document names a file outside the repository: Serf's own sources, and a reader's files.
FOREIGN = {
    "serf.go",
    "delegate.go",
    "snapshot.go",
    "query.go",
    "messages.go",
    "local.snapshot",
    "config.go",
    "kitchenrue.example/serf",
    "kitchenrue.example/serfagent",
    "github.com/hashicorp/serf",
    "github.com/hashicorp/serf/serf",
    "src/github.com/hashicorp/serf",
    "cmd/serf",
    "TryLockError::WouldBlock",
}

SPAN = re.compile(r"`([^`\n]+)`")
LINK = re.compile(r"\[[^\]\n]*\]\(([^)\s]+)\)")
COMMAND = re.compile(r"^(?: {4,}|\$ )?((?:\./|python3 )[\w./-]+)((?: [\w./-]+)*)", re.M)


def paths_of(kind):
    return [
        path
        for path in glob.glob(f"{TOP}/crates/*/{kind}/**/*", recursive=True)
        if os.path.isfile(path) and path.endswith((".rt", ".antt"))
    ]


def sources(kind):
    return [text_of(path) for path in paths_of(kind)]


class Tree:
    """What the repository has that a document can name."""

    def __init__(self):
        self.crates = {
            os.path.basename(path) for path in glob.glob(f"{TOP}/crates/*") if os.path.isdir(os.path.join(path, "src"))
        }
        headers = [text_of(path) for path in glob.glob(f"{TOP}/include/*.h") + glob.glob(f"{TOP}/bindings/c/*.h")]
        self.functions = set(re.findall(r"\b(serf_\w+)\(", "\n".join(headers)))
        self.metrics = set(re.findall(r'\{\s*"(serf_\w+)",\s*"', text_of(f"{TOP}/agent/internal/measure/names.go")))
        code = "\n".join(sources("src"))
        self.specs = "\n".join(sources("specs"))
        items = re.findall(
            r"\bpub(?:\(crate\))? (?:const )?(?:unsafe )?(?:extern \"C\" )?(?:fn|struct|enum|trait|type|const) (\w+)",
            code,
        )
        methods = re.findall(r"\bfn (\w+)", code)
        variants = re.findall(r"^    (\w+)(?:\(.*\)|\s*\{.*\})?,", code, re.M)
        self.items = set(items) | set(methods) | set(variants)
        self.clauses = set(re.findall(r"\bensures (\w+)", code)) | set(
            re.findall(r"^\s+(?:pub )?(\w+)\s*:", self.specs, re.M)
        )

    def has_path(self, span, document):
        """Whether a path leads to something: from the top, the page's folder, any crate, or a crate's src."""
        bases = [
            TOP,
            os.path.join(TOP, os.path.dirname(document)),
            *glob.glob(f"{TOP}/crates/*"),
            *glob.glob(f"{TOP}/crates/*/*"),
        ]
        return any(glob.glob(os.path.join(base, span)) for base in bases)


def is_path(span):
    return (
        bool(re.fullmatch(r"[\w.*/{},-]+", span))
        and ("/" in span and not span.startswith("/") or span.rpartition(".")[2] in ENDINGS and "." in span)
    )


def alternatives(span):
    """The paths that `a.{b,c}` stands for."""
    found = re.search(r"\{([^{}]*)\}", span)
    if not found:
        return [span]
    return [
        path
        for word in found[1].split(",")
        for path in alternatives(span[: found.start()] + word + span[found.end() :])
    ]


def wrong_span(tree, document, span):
    """What is wrong with a word in backquotes, or None."""
    if span in FOREIGN or re.fullmatch(r"\.\w+", span) or re.search(r"NAME|FILE|CRATE", span):
        return None
    if re.fullmatch(r"serf_\w+", span):
        return None if span in tree.crates | tree.functions | tree.metrics else "no such crate, function or metric"
    if re.fullmatch(r"\w+(::\w+)+", span):
        crate, *rest = span.split("::")
        if crate.startswith("serf_") and crate not in tree.crates:
            return "no such crate"
        missing = [name for name in rest if name not in tree.items]
        return f"no item {missing[0]}" if missing else None
    if is_path(span):
        missing = [path for path in alternatives(span) if not tree.has_path(path.rstrip("/"), document)]
        return f"no such file: {missing[0]}" if missing else None
    return None


def clauses_in(page):
    """The clauses that begin a row of a page's tables, or that are named after a function; a crate is none."""
    found = re.findall(r"^\| `((?!serf_)\w+)` \|", page, re.M)
    return found + [
        name
        for names in re.findall(r"clauses? ((?:`\w+`(?:, | and )?)+)", page)
        for name in re.findall(r"`(\w+)`", names)
    ]


def wrong_command(jobs, page, script, words):
    """What is wrong with a command that a page shows, or None."""
    path = script.removeprefix("python3 ")
    if f" -o {path.removeprefix('./')}" in page or path.startswith("./my-") or path == "-m":
        return None
    if not os.path.isfile(os.path.join(TOP, path)):
        return "no such script"
    if os.path.basename(path) == "serf-replay" and words and words[0] not in jobs:
        return f"the program has no job {words[0]!r}"
    return None


def conditions(page):
    """The calls that PROMISES.md says have conditions, and what is wrong, or None: they are the public ones with `requires`."""
    listed = SPAN.findall(page.partition("These calls have conditions (`requires`): ")[2].partition(".\n")[0])
    # (a method that is named without its type belongs to the type before it)
    names, owner = set(), ""
    for name in listed:
        own, _, method = name.rpartition("::")
        owner = own or owner
        names.add(name if own or not name.startswith(("sync", "write_new_file", "rename_")) else f"{owner}::{method}")
    libraries = sorted(path.split("/")[1] for path in glob.glob("crates/*/src/lib.rt", root_dir=TOP))
    found = {name for crate in libraries for name in calling.conditions(crate)}
    yield "the calls that have conditions", None if names == found else f"are others: {sorted(names ^ found)}"


def things_to_add():
    """Each thing that `tools/to_add.py` knows, and what is wrong with it, or None: files of a crate and of a binding name it.

    A binding for a language changes no crate, so files of the bindings, of their tests and of the pages name it.
    """
    for thing in to_add.THINGS:
        found = list(to_add.files_of(thing))
        folders = {path.split("/")[0] for path in found}
        needed = {"bindings", "docs", "release", "tests"} if thing == "binding" else {"bindings", "crates"}
        yield thing, None if needed <= folders else f"is named in {sorted(folders)} only"


# What the scripts of tests/ share, outside of their folders.
SHARED = {"attestation.py", "checks.py", "filler.py", "pages.py", "piped_agents.py", "traced_agents.py", "one_agent.py", "browser.py"}


def missing_scripts(page):
    """Each script of tests/, and what is wrong with its place or with its line of the page, or None."""
    for path in sorted(glob.glob("tests/*.py", root_dir=TOP) + glob.glob("tests/*/*.py", root_dir=TOP)):
        name = path.removeprefix("tests/")
        if "/" in name:
            yield path, None if f"\n- `{name}`: " in page else "has no line"
        else:
            yield path, None if name in SHARED else "is in none of the folders, so ./test doesn't run it"


def strays():
    """Each file at the top, and what is wrong with it, or None: a page has to name it."""
    pages = {page: text_of(page) for page in documents()}
    for name in sorted(os.listdir(TOP)):
        if os.path.isfile(os.path.join(TOP, name)) and not name.startswith("."):
            is_named = any(re.search(rf"\b{re.escape(name)}\b", text) for page, text in pages.items() if page != name)
            yield name, None if is_named else "is named on no page"


def rows_of_gate(crates):
    """Each script of the gate, crate and part of the whole, and what is wrong with its row of tools/gate.rows, or None."""
    rows = gate.rows()
    yield "its rows", None if len(re.findall(r"^ *[-\d]", text_of("tools", "gate.rows"), re.M)) == len(rows) else "name one thing twice"
    scripts = [path for path in glob.glob("tests/*/*.py", root_dir=TOP) if not path.startswith("tests/by_hand/")]
    for name in [*scripts, gate.MUTANTS]:
        yield name, None if name in gate.minimum_counts() else "has no minimum number of checks"
    for name in [*crates, *gate.PARTS]:
        yield name, None if rows.get(name, [0, 0])[1] else "has no processor seconds"
    known = {*scripts, *crates, *gate.PARTS}
    for name in rows:
        yield name, None if name in known or name.partition(" ")[0] in scripts else "is a row of nothing"


def jobs_of_program():
    """The command words that the program knows."""
    text = "\n".join(sources("src"))
    return set(re.findall(r"^\s+kind: CommandKind::\w+,\n\s+name: \"([a-z-]+)\",", text, re.M)) | {"--help", "--version", "help"}


# A measured figure: a number of nanoseconds to milliseconds, of MB, of a processor's seconds or minutes, of minutes on so
# many processors, of events a second, or of instructions.
FIGURE = re.compile(
    r"\b\d[\d,.]*(?: to \d[\d,.]*)? "
    r"(?:ns|nanoseconds|microseconds|milliseconds|MB|processor seconds|processor minutes|minutes on \w+ processors|events a second|instructions)\b"
)


def figures_twice(documents):
    """Each measured figure, what is wrong with it, or None, and its page. If two pages need it, the second one should link
    to the first."""
    found = {}
    for page in documents:
        for figure in FIGURE.findall(text_of(page)):
            found.setdefault(figure, {})[page] = None
    for figure, where in sorted(found.items()):
        yield figure, None if len(where) == 1 else f"is in {' and '.join(where)}", list(where)[0]


def quoted(page):
    """Each definition that PROMISES.md quotes, and what is wrong with it, or None: a file of specs has exactly this text."""
    specs = "\n".join(sources("specs"))
    for block in re.findall(r"(?:^    .*\n)+", page, re.M):
        text = re.sub(r"^    ", "", block, flags=re.M)
        if re.search(r"^abbrev ", text, re.M):
            yield re.search(r"^abbrev pub (\w+)", text, re.M)[1], None if text in specs else "isn't quoted exactly"


# A row of a table in CHANGELOG.md whose first cell has former names, and what follows "before:" in its lists.
BEFORE_TABLE = re.compile(r"^ *\| Before \| Now \|\n.*\n((?: *\|.*\n)+)", re.M)
BEFORE_WORDS = re.compile(r"\(before: ([^)]*)\)|the crate `(\w+)` is ")


def former_names(page):
    """What CHANGELOG.md names as it was called before: the names in the first cells of its tables, and after "before:"."""
    cells = [row.strip(" |").split(" | ")[0] for rows in BEFORE_TABLE.findall(page) for row in rows.splitlines()]
    words = [f"`{crate}`" if crate else text for text, crate in BEFORE_WORDS.findall(page)]
    return {span for text in cells + words for span in SPAN.findall(text)}


def checks_of(tree, jobs, document):
    """What a document names, and what is wrong with each, or None."""
    page = text_of(document)
    former = former_names(page) if document == "CHANGELOG.md" else set()
    for span in sorted(set(SPAN.findall(page)) - former):
        yield span, wrong_span(tree, document, span)
    for span in sorted(former):
        if re.fullmatch(r"serf_\w+", span):
            yield f"{span}, a former name", "is there" if wrong_span(tree, document, span) is None else None
    for link in LINK.findall(page):
        if not link.startswith("#"):
            stands = "://" in link or tree.has_path(link.partition("#")[0], document)
            yield link, None if stands else "leads nowhere"
    for script, words in COMMAND.findall(page):
        yield script + words, wrong_command(jobs, page, script, words.split())
    if document == os.path.join("docs", "PROMISES.md"):
        yield from quoted(page)
        yield from conditions(page)
        for clause in clauses_in(page):
            yield clause, None if clause in tree.clauses else "no such clause"
    if document == os.path.join("tests", "README.md"):
        yield from missing_scripts(page)


def named(count):
    tree, jobs = Tree(), jobs_of_program()
    for path, is_made in calling.check_pages():
        count.check(path, is_made, "is outdated: run tools/calling.py")
    for what, fault, path in figures_twice(documents()):
        count.check(f"{path}: `{what}`", fault is None, fault)
    for what, fault in rows_of_gate(tree.crates):
        count.check(f"tools/gate.rows: `{what}`", fault is None, fault)
    for what, fault in things_to_add():
        count.check(f"tools/to_add.py: `{what}`", fault is None, fault)
    for what, fault in strays():
        count.check(f"the top: `{what}`", fault is None, fault)
    for what, fault, path in pages.faults():
        count.check(f"{path}: `{what}`", fault is None, fault)
    for document in documents():
        for what, fault in checks_of(tree, jobs, document):
            count.check(f"{document}: `{what}`", fault is None, fault)


if __name__ == "__main__":
    sys.exit(checks.run(named))
