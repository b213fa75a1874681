"""Identifiers of Rattle, of its definitions and proofs, and of pages: where they are in a text, and which of them name something.

A text is cut into stretches, each of code, of prose, or kept as it is. What a string says is kept: it is a format's word. So is
what `#[error(..)]` and the paths of `std::error` and `thiserror` say, since these names are not the repository's.
"""

import re

# An identifier, or a part of a name with hyphens.
WORD = re.compile(r"[A-Za-z_][A-Za-z0-9_]*")

# A name of a definition or a lemma, as a whole: identifiers that hyphens join.
NAME = re.compile(r"[A-Za-z_][A-Za-z0-9_]*(?:-[A-Za-z0-9_]+)*")

# A part of an identifier: of snake_case, or a hump.
PART = re.compile(r"[A-Z]+(?![a-z])|[A-Z][a-z0-9]*|[a-z0-9]+|_")

# What is a comment, a string or a character, and what names of others there are, in code.
CODE = re.compile(
    r"""(?P<comment>//[^\n]*)
      | (?P<kept>b?r\#*"(?:.|\n)*?"\#* | b?"(?:\\(?:.|\n)|[^"\\])*" | b?'(?:\\(?:x[0-9a-fA-F]{2}|u\{[^}]*\}|.)|[^'\\\n])'
          | \#\[error\( | \bstd::error\b(?:::\{?Error\b)? | \bthiserror::Error\b | \bclap::error\b | \b(?:core|io|fmt)::Error\b
          | \bRattle\.(?!serf_)[\w.+]+)""",
    re.X,
)

# A comment of a file of definitions or proofs, and a string in one.
PROOF = re.compile(
    r"""(?P<comment>(?m:^--(?:\ [^\n]*)?$)|\ --(?:\ [^\n]*)?(?=\n|$))
      | (?P<kept>"(?:\\.|[^"\\\n])*" | \bRattle\.(?!serf_)[\w.+]+)""",
    re.X,
)

# What a page quotes: a block of code, or words in backquotes.
QUOTED = re.compile(r"(?P<block>(?m:^```[^\n]*\n)(?:.|\n)*?(?m:^```$)|(?m:^    [^\n]*$))|(?P<words>`[^`\n]+`)")


def parts(word):
    """The parts of an identifier, which joined are the identifier."""
    return PART.findall(word)


def is_unmistakable(word):
    """Whether a word of prose can only be an identifier: it has an underscore, or a capital inside."""
    return ("_" in word.strip("_") or re.search(r"[a-z][A-Z]", word) is not None) and not word.isupper()


def stretches(text, pattern):
    """The stretches of a text of code: each with its kind, `code`, `prose` or `kept`."""
    at = 0
    for found in pattern.finditer(text):
        if found.start() > at:
            yield "code", text[at : found.start()]
        yield ("prose" if found.lastgroup == "comment" else "kept"), found[0]
        at = found.end()
    if at < len(text):
        yield "code", text[at:]


def quoted(text):
    """The stretches of a prose: `code` in backquotes and blocks, else `prose`."""
    at = 0
    for found in QUOTED.finditer(text):
        if found.start() > at:
            yield "prose", text[at : found.start()]
        yield "code", found[0]
        at = found.end()
    if at < len(text):
        yield "prose", text[at:]


def words_of(text, pattern):
    """The identifiers that a text's code has."""
    return {word for kind, stretch in stretches(text, pattern) if kind == "code" for word in WORD.findall(stretch)}
