"""The commands that the pages show in indented blocks, and which script of tests/ runs each.

A script gets its commands from `of`, and runs them exactly as the page shows them. So a new command of a page is run too. If no
script runs it, tests/repository/documents.py fails (`faults`).
"""

import fnmatch
import glob
import os
import re

import checks

# Folders that hold no documents of ours.
SKIPPED = {"out", "target", ".git", "node_modules"}

BLOCK = re.compile(r"(?:^(?: {4}|\t).*\n(?:\n(?= {4}|\t))?)+", re.M)

# How a command begins: with its variables, and then with one of these words.
COMMAND = re.compile(
    r"(?:[A-Z_]+=\S* )*(?:\./[\w.-]+|agent/[\w/]+|bindings/[\w/]+|tools/[\w.]+|examples/[\w./]+|serf|serf-replay|kitchenrue-agent|cut|grep|mkfifo|seq|for|sh|python3?|pip|go|cargo|dpkg"
    r"|make|cmake|cc|rt|apt-get|tar|sha256sum)(?=[ ;]|$)"
)

AGENT = "tests/library/agent.py"
CAPTURE = "tests/program/capture.py"
EMBED = "tests/library/embed.py"
PACKAGES = "tests/library/packages.py"
COMMAND_LINE = "tests/program/command_line.py"
CONFORM = "tests/program/conform.py"
EXITS = "tests/repository/exits.py"
FIRST_CALL = "tests/repository/first_call.py"
RELEASE = "tests/repository/release.py"
TIMELINE = "tests/program/timeline.py"
ATTEST = "tests/program/attest.py"

# Which script runs a command: the pages, how the command begins, and the script. The first row that matches is used.
RUN_BY = (
    ("docs/WRONG_BODIES.md", "tools/wrong_bodies", EXITS),
    ("CONTRIBUTING.md", "SERF_UNPROVED=1 ", FIRST_CALL),
    ("*", "kitchenrue-agent |agent/|dpkg |serf ", AGENT),
    ("docs/AGENT.md", "examples/records/|serf-replay ", AGENT),
    ("examples/records/README.md", "examples/records/", ATTEST),
    ("*", "mkfifo |./my-agent ", EMBED),
    ("*", "python3 conformance/|seq |sh ", CONFORM),
    ("bindings/*", "", PACKAGES),
    ("examples/capture/README.md", "python3 ", CAPTURE),
    ("*", "(?:./)?serf-replay timeline ", TIMELINE),
    ("examples/timeline/README.md", "serf-replay ", TIMELINE),
    ("*", "(?:./)?serf-replay |for |cut |grep ", COMMAND_LINE),
)

# The pages whose blocks are a whole script with its output, and the script that runs them.
SCRIPTS = {"docs/START.md": PACKAGES}

# The commands that no script runs, and why.
NOT_RUN = {
    ("README.md", "./test"): "it runs all the tests",
    **dict.fromkeys(
        [
            ("docs/GO.md", command)
            for command in (
                "go mod download github.com/hashicorp/serf@v0.9.4",
                """bindings/go/drop_in "$(go list -m -f '{{.Dir}}' github.com/hashicorp/serf)" ../serf-drop-in""",
                "go mod edit -replace github.com/hashicorp/serf=../serf-drop-in",
                "go mod tidy",
            )
        ],
        "it needs a network; tests/library/packages.py makes the folder from Debian's sources",
    ),
}

# The blocks that aren't commands, by the page and the word that they begin with: what compares them, or what they are.
LISTINGS = {
    "docs/AGENT.md": {"TIME": AGENT},
    "docs/HOST.md": {"serf_agent_receive(&agent,": PACKAGES, "with": PACKAGES, "let": PACKAGES, "node,": EMBED},
    "PUBLISHING.md": {"./test": RELEASE},
    "bindings/go/README.md": {"require": "two lines of a go.mod"},
    "bindings/python/README.md": {"import": EMBED},
    "bindings/rust/README.md": {
        "[dependencies]": "two lines of a Cargo.toml",
        "let": "how a host with tokio calls, which no test compiles",
    },
    "crates/*/CALLING.md": {"": "contracts, generated from the sources by tools/calling.py"},
    "docs/ARCHITECTURE.md": {"serf_agent_c": "what exists in Go, as a picture"},
    "docs/CONFORMANCE.md": {"agent": CONFORM, "seed": CONFORM},
    "docs/GO.md": {
        "require": "lines of a go.mod",
        "mkdir": "commands that put a program next to the package and compile it",
        "package": "a whole program over bindings/go/serf",
        "unfinished": "lines of such a program, for what an earlier life left open",
    },
    "docs/SPEC.md": {"open": CONFORM},
    "docs/PROMISES.md": {"--": "tests/repository/documents.py", "fn": "lines of the toolchain, cut short"},
    "examples/capture/README.md": {"tcpdump": "a capture of a reader's own cluster, which needs root", "#": CAPTURE},
    "tests/README.md": {"tests/": "the folders, as a picture"},
}


class Shown:
    """A command that a page shows: the page, its line there, the command, and the lines right under it, which are its output."""

    def __init__(self, page, line, text):
        self.page, self.line, self.text, self.output = page, line, text, ""

    def name(self):
        return f"{self.page}:{self.line}: {self.text}"


def documents():
    """All pages, by their path from the top."""
    found = []
    for folder, folders, names in os.walk(checks.TOP):
        folders[:] = [name for name in folders if name not in SKIPPED and not name.startswith(".")]
        found += [os.path.relpath(os.path.join(folder, name), checks.TOP) for name in names if name.endswith(".md")]
    return sorted(found)


def blocks(page):
    """The indented blocks of a page, without their indent: the line of each, and its text."""
    text = checks.text_of(page)
    for found in BLOCK.finditer(text):
        indent = re.match(r"\s+", found[0])[0]
        yield text.count("\n", 0, found.start()) + 1, re.sub(rf"^{indent}", "", found[0], flags=re.M)


def commands_in(page, line, block):
    """The commands of a block that begins with one. After a backslash at the end of a line, the command continues on the next line."""
    found, went_on = [], False
    for at, text in enumerate(block.split("\n")[:-1]):
        if went_on:
            found[-1].text += " " + text.strip().removesuffix("\\").rstrip()
        elif COMMAND.match(text):
            found.append(Shown(page, line + at, text.removesuffix("\\").rstrip()))
        else:
            found[-1].output += text + "\n"
        went_on = (went_on or COMMAND.match(text)) and text.endswith("\\")
    for shown in found:
        shown.output = shown.output.strip("\n") + "\n" if shown.output.strip("\n") else ""
    return found


def shown():
    """All commands of all pages, except those whose blocks are scripts."""
    for page in documents():
        for line, block in blocks(page):
            if page not in SCRIPTS and COMMAND.match(block):
                yield from commands_in(page, line, block)


def runner(command):
    """The script that runs a command, or None."""
    for pages, beginning, script in RUN_BY:
        if fnmatch.fnmatch(command.page, pages) and re.match(beginning, command.text):
            return script
    return None


def of(script, pages="*"):
    """The commands that a script has to run, from these pages."""
    return [it for it in shown() if runner(it) == script and fnmatch.fnmatch(it.page, pages)]


def listing(page, block):
    """What the table has for a block that isn't a command, or None."""
    word = block.split()[0]
    listed = [own for pages, own in LISTINGS.items() if fnmatch.fnmatch(page, pages)]
    return next((own.get(word, own.get("")) for own in listed), None)


def faults():
    """Each block and each command, what is wrong with it, or None, and its page."""
    for page in documents():
        for line, block in blocks(page):
            if page not in SCRIPTS and not COMMAND.match(block):
                listed = listing(page, block)
                yield f"line {line}", None if listed else "is no command, and tests/pages.py doesn't say what it is", page
    for command in shown():
        script = runner(command)
        if not script and (command.page, command.text) not in NOT_RUN:
            yield command.text, "no script of tests/ runs it", command.page
        elif command.output and script != COMMAND_LINE:
            yield command.text, "no script compares the lines under it, or they are commands that tests/pages.py doesn't know", command.page
        else:
            yield command.text, None, command.page
    for script in sorted({script for *_, script in RUN_BY}):
        parts = [script, *glob.glob(f"{script[:-3]}/*.py", root_dir=checks.TOP)]
        takes = any("pages.of(" in checks.text_of(part) for part in parts)
        yield script, None if takes else "doesn't run the commands that tests/pages.py has for it", "tests/pages.py"
