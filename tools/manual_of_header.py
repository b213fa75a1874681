#!/usr/bin/env python3
"""tools/manual_of_header.py [--check]: writes docs/serf_agent.3, the manual page of the calls in C, from include/serf_agent.h
bindings/c/serf_agent_store.h and bindings/c/serf_agent_text.h.

--check writes nothing. The status is 1 if the page is outdated.
"""

import os
import re
import sys

TOP = os.path.dirname(os.path.dirname(os.path.abspath(__file__)))
HEADER = os.path.join(TOP, "include", "serf_agent.h")
STORE = os.path.join(TOP, "bindings", "c", "serf_agent_store.h")
TEXT = os.path.join(TOP, "bindings", "c", "serf_agent_text.h")
PAGE = os.path.join(TOP, "docs", "serf_agent.3")

COMMENT = re.compile(r"/\*(.*?)\*/", re.S)
# How a line of a long comment of the store's header begins.
STAR = re.compile(r"^ \*(?: |$)", re.M)
# The parts of the header that are on the page: its calls and the headings above them, its enums and its structs.
PART = re.compile(
    r"(?P<comments>(?:/\*(?:(?!\*/).)*\*/\n)*)(?:(?P<gives>uint32_t|enum \w+|void|const char \*) ?(?P<call>serf_\w+)\((?P<words>[^)]*)\);|(?P<kind>enum|struct) (?P<name>\w+) \{\n(?P<body>.*?)\n\};)|(?P<head>/\* [A-Z][^*]* \*/)(?=\n\n)",
    re.S,
)


def escape_groff(text):
    """A text escaped for groff, so that its backslashes, dashes and leading dots are printed."""
    text = re.sub(r"\s+", " ", text.strip()).replace("\\", "\\e").replace("-", "\\-")
    return re.sub(r"^([.'])", r"\\&\1", text)


def comment_text(comments):
    """The text of comments."""
    return escape_groff(" ".join(text.strip() for text in COMMENT.findall(comments)))


def paragraphs(text):
    """The paragraphs of the header's first comment, and the items of its lists."""
    for part in re.split(r"\n\s*\n", text.strip()):
        lines = re.split(r"\n\s*(?=\d\. |- )", part.strip())
        yield f".PP\n{escape_groff(lines[0])}" if not re.match(r"\d\. |- ", lines[0]) else list_item(lines[0])
        yield from map(list_item, lines[1:])


def list_item(line):
    """An item of a list in a comment."""
    mark, _, text = line.strip().partition(" ")
    return f".IP {escape_groff(mark)} 3\n{escape_groff(text)}"


def call_entry(match):
    """A call with its comment."""
    parameters = re.sub(r"\s+", " ", match["words"])
    result_type = "" if match["gives"] == "uint32_t" else f"{match['gives']} "
    return f".TP\n.BI \"{result_type}{match['call']}(\" \"{escape_groff(parameters)}\" )\n{comment_text(match['comments'])}"


def values(body):
    """The lines of an enum or a struct: each name with its comment, which is after it or on the line above."""
    above = ""
    for line in body.split("\n"):
        comment = re.fullmatch(r" {4}/\* (.*) \*/", line)
        declaration = re.fullmatch(r" {4}(\S.*?)( = \d+)?[,;]?\s*(?:/\* (.*?) \*/)?", line)
        if comment:
            above = comment[1]
        elif declaration and declaration[1] not in ("struct {", "} place"):
            yield f".TP\n.B {escape_groff(declaration[1] + (declaration[2] or ''))}\n{escape_groff(declaration[3] or above or '(as its name says)')}"
            above = ""


def parts_of(path):
    """A header's title, the rest of its first comment, its calls with their heads, and its types."""
    with open(path, encoding="utf-8") as file:
        text = STAR.sub("", file.read())
    first = COMMENT.search(text)
    title, _, rest = first[1].partition("\n\n")
    calls, types = [], []
    for match in PART.finditer(text, first.end()):
        if match["call"]:
            calls.append(call_entry(match))
        elif match["head"]:
            calls.append(f".SS {comment_text(match['head'])}")
        else:
            types += [f".SS {match['kind']} {match['name']}", comment_text(match["comments"]), *values(match["body"])]
    return title, rest, calls, types


# The first lines of the page.
BEGINNING = [
    '.\\" Made from include/serf_agent.h by tools/manual_of_header.py.',
    '.TH SERF_AGENT 3 "" "Kitchenrue"',
    ".SH NAME",
    "serf_agent \\- one proved Serf agent in C",
    ".SH SYNOPSIS",
    ".nf",
    ".B #include <serf_agent.h>",
    ".B #include <serf_agent_store.h>",
    ".B #include <serf_agent_text.h>",
    ".PP",
    ".B cc host.c $(pkg\\-config \\-\\-cflags \\-\\-libs serf_agent)",
    ".fi",
]


def manual_page():
    """The text of the manual page."""
    title, rest, calls, types = parts_of(HEADER)
    file_title, file_rest, file_calls, file_types = parts_of(STORE)
    text_title, text_rest, text_calls, _ = parts_of(TEXT)
    lines = [
        *BEGINNING,
        ".SH DESCRIPTION",
        escape_groff(title),
        *paragraphs(rest),
        ".SH CALLS",
        "Each call returns a value of",
        ".IR \"enum serf_agent_code\" .",
        *calls,
        ".SH THE FILE",
        escape_groff(file_title),
        *paragraphs(file_rest),
        *file_calls,
        ".SH SENTENCES",
        escape_groff(text_title),
        *paragraphs(text_rest),
        *text_calls,
        ".SH TYPES",
        *types,
        *file_types,
        ".SH SEE ALSO",
        ".BR serf\\-replay (1),",
        "docs/HOST.md: what to call when, and the file.",
    ]
    return "\n".join(lines) + "\n"


def main(words):
    if words not in ([], ["--check"]):
        print(__doc__.strip(), file=sys.stderr)
        return 2
    text = manual_page()
    if words:
        with open(PAGE, encoding="utf-8") as file:
            return int(file.read() != text)
    with open(PAGE, "w", encoding="utf-8") as file:
        file.write(text)
    return 0


if __name__ == "__main__":
    sys.exit(main(sys.argv[1:]))
