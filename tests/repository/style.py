"""style.py [--list KIND | --since COMMIT | --write]: the words that this project doesn't use (style/phrases.py), in pages, comments,
docstrings and messages.

tests/repository/style.rows has the maximum number of findings of each kind of file. It may only fall.
tests/repository/style.exceptions has the uses that are right, each with its reason.

--list KIND, such as pages or Go, prints the findings of a kind, each with a better word. --since COMMIT prints those in lines that
changed since a commit. --write lowers the rows to what is found.
"""

import fnmatch
import os
import re
import subprocess
import sys
from bisect import bisect_right
from collections import Counter

sys.dont_write_bytecode = True
sys.path.insert(0, os.path.dirname(os.path.dirname(os.path.abspath(__file__))))
import checks
from checks import TOP

HERE = os.path.dirname(os.path.abspath(__file__))
sys.path.insert(0, os.path.join(HERE, "style"))
import prose
from phrases import PHRASES

ROWS = os.path.join("tests", "repository", "style.rows")
EXCEPTIONS = os.path.join("tests", "repository", "style.exceptions")

# The page with the table of words, and how many rows it has at least.
PAGE, MIN_ROWS = "docs/STYLE.md", 30

# How much is shown on either side of a finding, in characters.
AROUND = 50


class Allowed:
    """An exception: the phrase, the files in which it is allowed, the form of the text around it, its reason, and how often it was met."""

    def __init__(self, line):
        self.phrase, self.files, form, self.reason = (part.strip() for part in line.split(" | ", 3))
        self.form, self.met = re.compile(form, re.I), 0

    def covers(self, phrase, path, text, at):
        is_met = (
            self.phrase == phrase.name
            and fnmatch.fnmatch(path, self.files)
            and any(found.start() <= at < found.end() for found in self.form.finditer(text))
        )
        self.met += is_met
        return is_met


class Finding:
    """A word that isn't used here: its place, what it is, and the text around it."""

    def __init__(self, path, line, phrase, around):
        self.path, self.line, self.phrase, self.around = path, line, phrase, around

    def __str__(self):
        return f"{self.path}:{self.line}: {self.phrase.name}: {self.around} (better: {self.phrase.better})"


def lines_of(text):
    """The lines of a file of rows, without its comments."""
    return [line for line in text.splitlines() if line.strip() and not line.startswith("#")]


def rows():
    """The maximum of each kind, by its name."""
    return {name.strip(): int(number) for number, name in (line.split(None, 1) for line in lines_of(checks.text_of(ROWS)))}


def exceptions():
    return [Allowed(line) for line in lines_of(checks.text_of(EXCEPTIONS))]


def found_in(path, kind, text, allowed):
    """The findings of a file."""
    for number, lines in prose.passages(path, kind, text):
        plain = [prose.plain(line) for line in lines]
        joined = " ".join(plain)
        begins = [0]
        for line in plain:
            begins.append(begins[-1] + len(line) + 1)
        for phrase in PHRASES:
            for found in phrase.found_in(joined):
                # (some patterns begin before the word that they are about)
                at = found.end() - len(found[0].lstrip()) if found[0][:1].isspace() else found.start()
                if not any(exception.covers(phrase, path, joined, found.end() - 1) for exception in allowed):
                    around = joined[max(0, at - AROUND) : found.end() + AROUND]
                    yield Finding(path, number + bisect_right(begins, at) - 1, phrase, around)


def all_found(allowed):
    """The findings of each kind of file."""
    found = {kind: [] for kind in prose.KINDS}
    for path, kind in prose.files():
        found[kind] += found_in(path, kind, checks.text_of(path), allowed)
    return found


def too_many(kind, number, maximum):
    """Why a kind has too many findings, or None."""
    if number <= maximum.get(kind, 0):
        return None
    return f"{number} are there, and {ROWS} allows {maximum.get(kind, 0)}: style.py --list '{kind}' shows them, --since COMMIT the new ones"


def style(count):
    allowed, maximum = exceptions(), rows()
    found = all_found(allowed)
    for kind, own in found.items():
        error = too_many(kind, len(own), maximum)
        count.check(f"the words of {kind}", error is None, error)
        if len(own) < maximum.get(kind, 0):
            print(f"{kind}: {len(own)} findings are left of {maximum[kind]}; style.py --write lowers the row")
    count.check("the rows", maximum.keys() == found.keys(), maximum.keys() ^ found.keys())
    names = {phrase.name for phrase in PHRASES}
    for exception in allowed:
        count.check(
            f"an exception of {exception.phrase!r}",
            exception.phrase in names and exception.reason,
            "has no such kind of word, or no reason",
        )
        if not exception.met:
            print(f"the exception of {exception.phrase!r} in {exception.files} is met nowhere: remove its line")


def phrases(count):
    """The pattern of each kind of word refuses its own sentence, and accepts the sentences that use the word rightly."""
    for phrase in PHRASES:
        refused = [found.phrase.name for found in found_in("A.md", "pages", phrase.refused + "\n", [])]
        count.check(f"planted: {phrase.refused}", phrase.name in refused, refused)
        for sentence in phrase.accepted:
            found = [str(finding) for finding in found_in("A.md", "pages", sentence + "\n", [])]
            count.check(f"planted: {sentence}", not found, found)


def unlisted(rows_of_table):
    """The rows of a table of words, by their left cells, for which there is no phrase."""

    def is_known(row):
        return any(re.search(rf"\b{phrase.name}\b", row) or list(phrase.found_in(row)) for phrase in PHRASES)

    return [row for row in rows_of_table if not is_known(row)]


def table(count):
    """Each row of the table of words in docs/STYLE.md has a phrase."""
    lines = checks.text_of(PAGE).partition("\n## Words\n")[2].splitlines()
    found = [line.split("|")[1].strip() for line in lines if line.startswith("|")][2:]
    count.check(f"{PAGE}: the table of words", len(found) >= MIN_ROWS, len(found))
    lacking = unlisted(found)
    count.check(f"{PAGE}: each row has a phrase in style/phrases.py", not lacking, lacking)
    count.check("planted: a row without a phrase", unlisted(["goes on with its file", "utilizes"]) == ["utilizes"])


# Files of each kind, and the lines in which a phrase is found.
PLANTED = (
    ("a page", "A.md", "# Behind a head\n\nText.\n\n| a | behind b |\n", [1, 5]),
    ("what a page shows", "A.md", "Call `behind` or [this](behind/it.md).\n\n    ./behind it\n", []),
    ("Go's comments", "a.go", "// behind it\n\n// One line\n// behind another.\nvar behind = 1\n/* It is\nbehind it. */\n", [1, 4, 7]),
    ("Go's texts", "a.go", 'var a, behind = "behind the last line", `behind the\nlast one`\nvar c = "behind"\n', [1, 1]),
    ("a phrase over two lines", "a.go", "// It goes\n// on with it.\n\n// It goes\n\n// on and on.\n", [1]),
    ("what Go's compiler reads", "a.go", "//go:build behind it\n\n//export behind it\n", []),
    ("Rattle's docstrings", "a.rt", "//! Behind it.\n/// Behind it.\nfn behind() {} // behind it\n", [1, 2, 3]),
    ("a comment after a character", "a.rt", "fn a<'a>() { '\"'; behind } // \"behind it\n", [1]),
    ("comments of specs", "a.antt", "-- what is behind it\nbehind = 1\n", [1]),
    ("Python's docstrings", "a.py", '"""What is behind it."""\nbehind = 1  # behind it\n', [1, 2]),
    ("Python's texts", "a.py", 'x = f"it is behind {behind} here"\ny = r"it is behind it"\nz = "behind"\n', [1]),
    ("C's comments", "a.h", "/* One\n * behind another. */\nint behind;\n", [2]),
    ("Rust's docstrings", "a.rs", "/// Behind it.\nfn behind() {}\n", [1]),
    ("a shell's comments", "a.sh", "# It is behind it.\nbehind \"${a#*:}\" # and behind it\necho 'it is behind it'\n", [1, 2, 3]),
)


def kinds(count):
    for name, path, text, wanted in PLANTED:
        own = found_in(path, prose.kind_of(path), text, [])
        found = sorted(finding.line for finding in own if finding.phrase.name in ("behind", "goes on"))
        count.check(f"planted: {name}", found == wanted, found)
    for number, is_refused in ((2, False), (3, True)):
        count.check(f"planted: {number} findings, if 2 are allowed", bool(too_many("Go", number, {"Go": 2})) == is_refused)
    count.check("planted: a kind without a row", too_many("Ada", 1, {"Go": 2}))
    count.check("planted: a page that a tool makes", prose.kind_of("crates/serf_wire/CALLING.md") is None)
    own = [Allowed(r"behind | docs/*.md | behind the (?:pipe|wall) | a place")]
    for path, place, wanted in (("docs/A.md", "the wall", 0), ("docs/A.md", "the end", 1), ("A.md", "the wall", 1)):
        found = len(list(found_in(path, "pages", f"It is behind {place}.", own)))
        count.check(f"planted: behind {place} in {path}, with an exception", found == wanted, found)


def changed_lines(commit):
    """The lines of each file that changed since a commit, by its path."""
    shown = subprocess.run(["git", "diff", "-U0", commit], cwd=TOP, check=True, stdout=subprocess.PIPE, text=True, errors="replace").stdout
    found, path = {}, None
    for line in shown.splitlines():
        if line.startswith("+++ b/"):
            path = line.removeprefix("+++ b/")
        hunk = re.match(r"@@ -\S+ \+(\d+)(?:,(\d+))? @@", line)
        if hunk and path:
            found.setdefault(path, set()).update(range(int(hunk[1]), int(hunk[1]) + int(hunk[2] or 1)))
    return found


def write():
    """Lowers each row to what is found."""
    found, text = all_found(exceptions()), checks.text_of(ROWS)
    for kind, own in found.items():
        text = re.sub(rf"^ *(\d+)  {re.escape(kind)}$", lambda row: f"{min(int(row[1]), len(own)):>6}  {kind}", text, flags=re.M)
    with open(os.path.join(TOP, ROWS), "w", encoding="utf-8") as file:
        file.write(text)


def main(words):
    if not words:
        return checks.run(style, phrases, kinds, table)
    if words == ["--write"]:
        write()
        return 0
    if len(words) == 2 and words[0] == "--list" and words[1] in prose.KINDS:
        shown = all_found(exceptions())[words[1]]
    elif len(words) == 2 and words[0] == "--since":
        lines = changed_lines(words[1])
        shown = [
            exception for own in all_found(exceptions()).values() for exception in own if exception.line in lines.get(exception.path, ())
        ]
    else:
        print(__doc__.strip(), file=sys.stderr)
        return 2
    for exception in shown:
        print(exception)
    for name, number in Counter(exception.phrase.name for exception in shown).most_common():
        print(f"{number:>6}  {name}")
    return 0


if __name__ == "__main__":
    sys.exit(main(sys.argv[1:]))
