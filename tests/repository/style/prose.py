"""What people read in the repository's files, extracted from them: pages, comments, docstrings, and texts such as messages.

A passage is a paragraph of a page, a comment of one line or of several, or a text of a program that has three words or more. Text
in backquotes is left out, since it is code. A gap takes its place, so that no phrase reaches over it.
"""

import fnmatch
import io
import os
import re
import tokenize

import checks
import pages

# The kinds of files, as style.rows names them, and the endings or names of their files.
KINDS = {
    "pages": ("*.md",),
    "Go": ("*.go",),
    "Rattle": ("*.rt", "*.rattle", "*.antt"),
    "Python": ("*.py",),
    "C, Rust and shell": ("*.c", "*.h", "*.rs", "*.sh", "*/Makefile", "*.cmake", "*.in"),
}

# Pages that a tool makes from sources, or that have the table of words.
SKIPPED_FILES = ("*/CALLING.md", "docs/STYLE.md", "tests/repository/style/*", "tests/repository/style.py")

GAP = " \u2026 "
CODE = re.compile(r"`[^`\n]*`")
LINK = re.compile(r"(\[[^\]\n]*\])\([^)\s]*\)")

# The comments and texts of Go, Rattle, C and Rust; a character may be a quote.
BRACED = re.compile(r"(?P<line>//[^\n]*)|(?P<block>/\*.*?\*/)|\"(?P<text>(?:\\.|[^\"\\\n])*)\"|'(?:\\.|[^'\\\n])'|(?P<raw>`[^`]*`)", re.S)
DASHES = re.compile(r"^\s*--(?P<line>[^\n]*)", re.M)
SHELL = re.compile(r"(?:^|(?<=\s))(?P<line>#[^\n]*)|\"(?P<text>(?:\\.|[^\"\\])*)\"|'(?P<single>[^']*)'", re.M)

# A comment that a compiler or a linter reads.
DIRECTIVE = re.compile(r"//(?:go:|lint:|nolint|export )|# shellcheck ")

# How a comment's line begins.
MARK = re.compile(r"^\s*(?://[/!]?|/\*+|\*(?!\S)|#+!?|--)?[ \t]?")


def kind_of(path):
    """The kind of a file, or None if nobody reads it as prose."""
    if any(fnmatch.fnmatch(path, skipped) for skipped in SKIPPED_FILES):
        return None
    own = next((kind for kind, names in KINDS.items() if any(fnmatch.fnmatch("./" + path, name) for name in names)), None)
    if own or "." in os.path.basename(path):
        return own
    with open(os.path.join(checks.TOP, path), "rb") as file:
        begin = file.read(40)
    return "Python" if b"python3" in begin else "C, Rust and shell" if b"sh\n" in begin and begin.startswith(b"#!") else None


def files():
    """The files that people read, by their paths from the top, with the kind of each."""
    for folder, folders, names in os.walk(checks.TOP):
        folders[:] = sorted(name for name in folders if name not in pages.SKIPPED and not name.startswith(".") and name != "__pycache__")
        for name in sorted(names):
            path = os.path.relpath(os.path.join(folder, name), checks.TOP)
            kind = kind_of(path)
            if kind:
                yield path, kind


def plain(text):
    """A passage without its code and the targets of its links."""
    return LINK.sub(r"\1", CODE.sub(GAP, text))


def is_sentence(text):
    """Whether a text of a program is read by somebody: it has three words or more."""
    return len(re.findall(r"(?<!\S)[A-Za-z][\w'-]*[,.:;?!]?(?!\S)", text)) > 2


def joined(lines):
    """Lines of a comment that follow one another, as passages: the number of the first line of each, and the lines."""
    found = []
    for number, text in lines:
        text = MARK.sub("", text).rstrip()
        if found and number == found[-1][0] + len(found[-1][1]) and text:
            found[-1][1].append(text)
        elif text:
            found.append((number, [text]))
    return found


def of_page(text):
    """The passages of a page: its lines outside of indented blocks, since each paragraph is one line."""
    prose = pages.BLOCK.sub(lambda block: "\n" * block[0].count("\n"), text)
    return [(number, [line]) for number, line in enumerate(prose.split("\n"), 1) if line.strip()]


def of_python(text):
    """The passages of a Python file: comments, docstrings and texts."""
    comments, found = [], []
    for token in tokenize.generate_tokens(io.StringIO(text).readline):
        if token.type == tokenize.COMMENT:
            comments.append((token.start[0], token.string))
        elif token.type == tokenize.STRING and not re.match(r"(?i)[bu]?r|rb|b", token.string):
            body = re.sub(r"^\w*(\"\"\"|'''|\"|')|(\"\"\"|'''|\"|')$", "", token.string)
            if token.string[0] in "fF":
                body = re.sub(r"\{[^{}\n]*\}", GAP.strip(), body)
            if is_sentence(body):
                found += joined((token.start[0] + at, line) for at, line in enumerate(body.split("\n")))
    return joined(comments) + found


def of_code(text, form):
    """The passages of a source whose comments and texts have this form."""
    comments, found = [], []
    for part in form.finditer(text):
        number = text.count("\n", 0, part.start()) + 1
        own = {name: body for name, body in part.groupdict().items() if body is not None}
        for name, body in own.items():
            body = body.strip("`") if name == "raw" else body
            if name == "line":
                comments += [] if DIRECTIVE.match(body) else [(number, body)]
            elif name == "block" or is_sentence(body):
                found += joined((number + at, line.removesuffix("*/")) for at, line in enumerate(body.replace("\\n", " ").split("\n")))
    return joined(comments) + found


def passages(path, kind, text):
    """The passages of a file: the number of the first line of each, and its lines."""
    if kind == "pages":
        return of_page(text)
    if kind == "Python":
        return of_python(text)
    if path.endswith(".antt"):
        return of_code(text, DASHES)
    return of_code(text, BRACED if path.endswith((".go", ".rt", ".rattle", ".c", ".h", ".rs")) else SHELL)
