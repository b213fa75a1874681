"""Links to sections: each leads to a heading, and a figure in the linking sentence is in the section that the link leads to.

A reader follows such a link to find where a number is from. So a sentence that has a figure and links to a section is checked:
the figure has to be in that section, or in one of the sections if the sentence links to several. A figure is a number of two
digits or more outside of backquotes. Versions and dates are none. A link to the glossary explains a word, and no figure.
"""

import os
import re
import sys

sys.dont_write_bytecode = True
sys.path.insert(0, os.path.dirname(os.path.dirname(os.path.abspath(__file__))))
import checks
import pages
from checks import text_of

HEADING = re.compile(r"^(#+) +(.+?) *$", re.M)
LINK = re.compile(r"\[([^\]\n]*)\]\(([^)\s#]*)#([^)\s]+)\)")
CODE = re.compile(r"`[^`\n]*`")

# The page whose sections explain words.
GLOSSARY = "GLOSSARY.md"

# What ends a sentence: a mark before a space, and the end of a table's cell.
END = re.compile(r"(?<=[.!?])\s+|\s*\|\s*")

# A number, with its thousands and its fraction; what has two points, a hyphen or a letter next to it is no figure.
FIGURE = re.compile(r"(?<![\w.,-])\d[\d,]*(?:\.\d+)?(?![\w-]|[.,]\d)")


def slug_of(heading):
    """The name by which a link reaches a heading."""
    words = re.sub(r"[^\w\s-]", "", heading.replace("`", "").lower())
    return re.sub(r"\s", "-", words.strip())


def sections_of(text):
    """The sections of a page by their links' names: each with the sections below it, up to the next of its rank."""
    found, headings = {}, list(HEADING.finditer(text))
    for at, heading in enumerate(headings):
        ends = (other.start() for other in headings[at + 1 :] if len(other[1]) <= len(heading[1]))
        found.setdefault(slug_of(heading[2]), text[heading.start() : next(ends, len(text))])
    return found


def figures_in(text):
    """The figures of a text: its numbers of two digits or more."""
    return {number.strip(",") for number in FIGURE.findall(text) if len(re.sub(r"\D", "", number)) > 1}


def sentences_of(text):
    """The sentences of a page that link to a section: the line of each, its text without what is in backquotes, and its links."""
    for number, line in enumerate(pages.BLOCK.sub(lambda block: "\n" * block[0].count("\n"), text).split("\n"), 1):
        for sentence in END.split(line):
            links = [(page, section) for _, page, section in LINK.findall(sentence)]
            if links:
                yield number, CODE.sub("", LINK.sub(r"\1", sentence)), links


def faults(texts):
    """Each link to a section, and each figure in a sentence with one, of these pages, and what is wrong with it, or None."""
    sections = {page: sections_of(text) for page, text in texts.items()}
    for page, text in texts.items():
        for number, sentence, links in sentences_of(text):
            found = []
            for other, section in links:
                target = os.path.normpath(os.path.join(os.path.dirname(page), other)) if other else page
                found.append(sections.get(target, {}).get(section))
                yield f"{page}:{number}: {other}#{section}", None if found[-1] else "no such section"
            if all(os.path.basename(other) == GLOSSARY for other, _ in links):
                continue
            there = figures_in("\n".join(part for part in found if part))
            for figure in sorted(figures_in(sentence)):
                names = ", ".join(f"{other}#{section}" for other, section in links)
                yield f"{page}:{number}: {figure}", None if figure in there else f"isn't in {names}"


def links(count):
    for what, fault in faults({page: text_of(page) for page in pages.documents()}):
        count.check(what, fault is None, fault)


# A page that is linked to, and sentences about it: how many things are wrong with each.
TARGET = (
    "# Tests\n\n## How it is tested\n\nIn 1,807 kills 393 events ran twice, 12.5 in 100, and 80 before.\n\n### On one node\n\n"
    "44 kills.\n\n## Else\n\n764 events.\n"
)
PLANTED = (
    ("a figure that is there", "In [1,807 kills](docs/T.md#how-it-is-tested), 393 ran twice.", 0),
    ("a figure of a section below it", "In [44 kills](docs/T.md#how-it-is-tested).", 0),
    ("figures that are not there", "In [1,100 kills](docs/T.md#how-it-is-tested), handlers ran 764 events again.", 2),
    ("a figure of another section", "In [a test](docs/T.md#how-it-is-tested), 764 events ran again.", 1),
    ("a figure that is part of another", "In [a test](docs/T.md#how-it-is-tested), 807 ran again, 12 in 100.", 2),
    ("a figure of the sentence before", "It has 764 lines. In [a test](docs/T.md#how-it-is-tested), 393 ran again.", 0),
    ("a figure of another cell", "| 764 | [a test](docs/T.md#how-it-is-tested), 393 |", 0),
    ("one of two sections", "[764](docs/T.md#else) and [393](docs/T.md#how-it-is-tested) events ran again.", 0),
    ("a version, a date, code and a digit", "[So](docs/T.md#else) does 0.10.2 of 2026-11-28 with `--kills 2000` in 3 cases.", 0),
    ("a figure after a colon", "Of [a test](docs/T.md#how-it-is-tested): 764 events ran again.", 1),
    ("a section that is not there", "[So](docs/T.md#how-it-was-tested).", 1),
    ("a page that is not there", "[So](docs/U.md#else).", 1),
    ("a word of the glossary", "It has 764 [events](docs/GLOSSARY.md#event).", 0),
    ("a word of the glossary and a section", "It has 764 [events](docs/GLOSSARY.md#event) in [a test](docs/T.md#how-it-is-tested).", 1),
    ("a word that the glossary lacks", "It has [events](docs/GLOSSARY.md#events).", 1),
    ("a block", "    [So](docs/T.md#nothing) 999\n", 0),
)


def planted(count):
    for name, text, wrong in PLANTED:
        texts = {"README.md": text, "docs/T.md": TARGET, "docs/GLOSSARY.md": "# Glossary\n\n## Event\n\nA word.\n"}
        found = [(what, fault) for what, fault in faults(texts) if fault]
        count.check(f"planted: {name}", len(found) == wrong, found)


if __name__ == "__main__":
    sys.exit(checks.run(links, planted))
