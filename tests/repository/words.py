"""The pages say a thing once: no table and no long line appears twice. README is one screen of prose.

No other page has a limit on its words. A word has a letter or a digit, so the bars of a table are no words. What is in indented
blocks isn't counted: commands, programs and listings, which tests run or compare (tests/pages.py).
"""

import os
import re
import sys

sys.dont_write_bytecode = True
sys.path.insert(0, os.path.dirname(os.path.dirname(os.path.abspath(__file__))))
import checks
import pages
from checks import text_of

# How many words README may have.
OF_README = 960

# Two tables are the same if the other one has this part of the smaller one's rows, and at least so many, word for word.
PART, ROWS = 0.5, 3

# A line of so many characters, in a list, a row or a paragraph, may be on one page only.
LONG = 120

WORD = re.compile(r"\S*\w\S*")
TABLE = re.compile(r"(?:^ *\|.*\n)+", re.M)
RULE = re.compile(r"[\s|:-]*")


def prose_of(text):
    """A page without its indented blocks."""
    return pages.BLOCK.sub("", text)


def words_in(text):
    """How many words the prose of a page has."""
    return len(WORD.findall(prose_of(text)))


def rows_of(table):
    """The rows of a table below its head, without their spaces."""
    rows = [re.sub(r"\s*\|\s*", "|", line.strip()) for line in table.splitlines()]
    return {row for row in rows[1:] if not RULE.fullmatch(row)}


def tables_in(texts):
    """Each table of these pages: its place, and its rows."""
    for page, text in texts.items():
        for found in TABLE.finditer(text):
            yield f"{page}:{text.count(chr(10), 0, found.start()) + 1}", rows_of(found[0])


def same_tables(texts):
    """Each pair of tables of these pages, and the rows that they share if they are the same table."""
    found = list(tables_in(texts))
    for at, (name, rows) in enumerate(found):
        for other, others in found[at + 1 :]:
            shared, smaller = len(rows & others), min(len(rows), len(others))
            yield name, other, rows & others if shared >= ROWS and shared > PART * smaller else None


def pages_of_lines(texts):
    """The long lines of these pages, and the pages that have each."""
    found = {}
    for page, text in texts.items():
        for line in prose_of(text).splitlines():
            if len(line) >= LONG:
                found.setdefault(line.strip(), []).append(page)
    return found


def texts():
    """The pages, except those that tools/calling.py makes."""
    return {page: text_of(page) for page in pages.documents() if not page.endswith("CALLING.md")}


def limit(count):
    found = words_in(text_of("README.md"))
    count.check(f"README.md has {OF_README} words at most", found <= OF_README, found)


def twice(count):
    for name, other, shared in same_tables(texts()):
        count.check(f"{name} and {other} are two tables", shared is None, shared)


def long_lines(count):
    for line, found in pages_of_lines(texts()).items():
        count.check(f"a line of {found[0]}: {line[:60]}", len(found) == 1, found)


def planted(count):
    found = words_in("# A page\n\nOf `one` | 2 words - more.\n\n    ./a command\n\n| a | b |\n|---|---|\n")
    count.check("planted: the words of a page", found == 9, found)
    rows = [f"| {word} | {word * 2} |\n" for word in "abcdefghi"]
    head = "| Word | What |\n|---|---|\n"
    for name, one, other, is_same in (
        ("the same rows", rows[:4], rows[:4], True),
        ("most rows of the smaller", rows[:4], rows[1:], True),
        ("half of the rows", rows[:6], rows[3:], False),
        ("a small table", rows[:2], rows[:2], False),
    ):
        pair = list(same_tables({"A.md": head + "".join(one), "B.md": "Text.\n\n" + head + "".join(other)}))
        count.check(f"planted: {name}", [bool(shared) for *_, shared in pair] == [is_same], pair)
    line = "- A line " + "of words " * 14
    for name, one, other, wanted in (
        ("a long line twice", line, line, ["A.md", "B.md"]),
        ("a long line once", line, "Text.", ["A.md"]),
        ("a long line in a block", line, "    " + line, ["A.md"]),
        ("a short line twice", line[:40], line[:40], None),
    ):
        found = list(pages_of_lines({"A.md": one + "\n", "B.md": other + "\n"}).values())
        count.check(f"planted: {name}", found == ([wanted] if wanted else []), found)


if __name__ == "__main__":
    sys.exit(checks.run(limit, twice, long_lines, planted))
