"""The widths of lines: no line of a file has more columns than .editorconfig allows for its kind of file.

A line may be wider if breaking it elsewhere wouldn't help: one of its texts, or an address, doesn't fit on a line by itself, or the
line is inside a text of several lines. In Rattle, a line may also be wider if `rt fmt` never breaks it: an import, an attribute, or
a line with a text.
"""

import os
import re
import subprocess
import sys
from collections import Counter

sys.dont_write_bytecode = True
sys.path.insert(0, os.path.dirname(os.path.dirname(os.path.abspath(__file__))))
import checks
from checks import TOP

SETTINGS = ".editorconfig"

# Files whose wide lines stay, and why.
KEPT = {
    "tools/edits.py": "a hash of this script is in each file of tests/refused: with another text, every wrong body would be tried again",
    "tools/edit_checks.py": "the same",
}

# A text of one line, or an address.
TEXT = re.compile(r'[rbfRBF]{0,2}"(?:\\.|[^"\\])*"|[rbfRBF]{0,2}\'(?:\\.|[^\'\\])*\'|`[^`]*`|https?://\S+')

# For each language, the forms of texts and comments. The group `text` is a text that may have several lines. The other parts keep the
# search from taking a quote in a comment, or in a text of one line, for the beginning of a text.
LONG_TEXTS = {
    ".py": re.compile(
        r'(?P<text>"""(?:\\.|[^\\])*?"""|\'\'\'(?:\\.|[^\\])*?\'\'\')'
        r'|"(?:\\.|[^"\\\n])*"|\'(?:\\.|[^\'\\\n])*\'|#[^\n]*',
        re.S,
    ),
    ".go": re.compile(r'(?P<text>`[^`]*`)|"(?:\\.|[^"\\\n])*"|\'(?:\\.|[^\'\\\n])*\'|//[^\n]*', re.S),
    ".rt": re.compile(r'(?P<text>"(?:\\.|[^"\\])*")|\'(?:\\.|[^\'\\\n])\'|//[^\n]*', re.S),
}
LONG_TEXTS[".rattle"] = LONG_TEXTS[".rs"] = LONG_TEXTS[".rt"]

# What begins a line before a docstring. A docstring is a text of several lines too, but its lines can be broken.
DOCSTRING = re.compile(r"(?:\A|\n)[ ]*\Z")

# What `rt fmt` keeps on one line, in Rattle.
UNBROKEN = re.compile(r"\s*(?:(?:pub(?:\([^)]*\))? |ghost )*use |#!?\[|(?!//)[^\n]*\")")


def sections(text):
    """The sections of .editorconfig: the form of the paths, whether it is of whole paths, and the properties."""
    found = []
    for line in text.splitlines():
        if line.startswith("["):
            form = line.strip()[1:-1]
            found.append((form_of(form), "/" in form, {}))
        elif "=" in line and not line.startswith("#") and found:
            name, _, value = line.partition("=")
            found[-1][2][name.strip()] = value.strip()
    return found


def form_of(glob):
    """The form of the paths that a glob of .editorconfig matches."""
    signs = {"**": ".*", "*": "[^/]*", "{": "(?:", "}": ")", ",": "|"}
    return re.compile("".join(signs.get(part, re.escape(part)) for part in re.split(r"(\*\*|[*{},])", glob)))


def properties(found, path):
    """The properties of a file: those of a later section override those of an earlier one."""
    own = {}
    for form, is_of_path, values in found:
        if form.fullmatch(path if is_of_path else os.path.basename(path)):
            own.update(values)
    return own


def kind_of(path, text):
    """The ending of a file, or that of the language that its first line names."""
    ending = os.path.splitext(path)[1]
    if not ending and text.startswith("#!"):
        return ".py" if "python" in text.partition("\n")[0] else ".sh"
    return ending


def inside_texts(kind, text):
    """The numbers of the lines that begin or end inside a text of several lines."""
    found = set()
    for part in LONG_TEXTS[kind].finditer(text) if kind in LONG_TEXTS else ():
        is_docstring = kind == ".py" and DOCSTRING.search(text[: part.start()])
        if part["text"] and "\n" in part["text"] and not is_docstring:
            first = text.count("\n", 0, part.start()) + 1
            found.update(range(first, first + part["text"].count("\n") + 1))
    return found


def wide_lines(path, text, own):
    """The lines of a file that are too wide, by their numbers."""
    if not own.get("max_line_length", "off").isdigit():
        return []
    maximum, tab, kind, found, inside = int(own["max_line_length"]), int(own["indent_size"]), kind_of(path, text), [], None
    for number, line in enumerate(text.split("\n"), 1):
        columns = len(line.expandtabs(tab))
        if columns <= maximum or kind in (".rt", ".rattle") and UNBROKEN.match(line):
            continue
        indent = columns - len(line.lstrip().expandtabs(tab))
        if any(indent + len(part[0]) + 1 > maximum for part in TEXT.finditer(line)):
            continue
        inside = inside_texts(kind, text) if inside is None else inside
        if number not in inside:
            found.append((number, columns, maximum))
    return found


def files():
    """The repository's files, by their paths from the top, and those that will be committed."""
    words = ["git", "ls-files", "--cached", "--others", "--exclude-standard"]
    listed = subprocess.run(words, cwd=TOP, check=True, stdout=subprocess.PIPE, text=True).stdout.splitlines()
    paths = (path for path in listed if os.path.isfile(os.path.join(TOP, path)) and not os.path.islink(os.path.join(TOP, path)))
    return sorted(paths)


def widths(count):
    found, checked, kept = sections(checks.text_of(SETTINGS)), Counter(), Counter()
    for path in files():
        own = properties(found, path)
        if not own.get("max_line_length", "off").isdigit():
            continue
        wide = wide_lines(path, checks.text_of(path), own)
        if path in KEPT:
            kept[path] = len(wide)
            continue
        for number, columns, maximum in wide:
            print(f"FAILED {path}:{number}: has {columns} columns, and {SETTINGS} allows {maximum}")
        checked[bool(wide)] += 1
    count.add(checked[False], checked[True])
    for path in KEPT:
        count.check(f"{path} has wide lines", kept[path], "remove its row from KEPT")


WIDE = "x" * 9 + " = " + "y" * 9
ALLOWED = {"max_line_length": "20", "indent_size": "4"}

# Files whose lines may have 20 columns, and the numbers of the lines that are too wide.
PLANTED = (
    ("a wide line", "a.py", f"{WIDE}\na = 1\n", [1]),
    ("a line of 20 columns", "a.py", f"{WIDE[:20]}\n", []),
    ("a comment", "a.go", "// a comment that is too wide\n", [1]),
    ("tabs", "a.go", "\t\t\t\ta := bc\n", [1]),
    ("a docstring", "a.py", '"""What it is.\n\nIt is more than this line has.\n"""\n', [3]),
    ("a text that doesn't fit", "a.py", 'a = "a text of more than this"\n', []),
    ("a text that fits", "a.py", 'a = b(c, d, e, f, "a text")\n', [1]),
    ("an address", "a.sh", "# see https://serf.example/a\n", []),
    ("a line inside a text", "a.py", 'a = """x\na line of this very text\n"""\n', []),
    ("a line after a text", "a.py", f'a = """x\n"""\n{WIDE}\n', [3]),
    ("a line inside a text in Go", "a.go", "a := `x\na line of this very text\n`\n", []),
    ("a line inside a text in Rattle", "a.rt", 'let a = "x\n  a line of this very text";\n', []),
    ("an import in Rattle", "a.rt", "ghost use Rattle.a.b.{c, d};\n", []),
    ("an import in Go", "a.go", f"use {WIDE}\n", [1]),
    ("a row of a macro in Rattle", "a.rt", 'rows! { "a" B => "cd"; }\n', []),
    ("an attribute in Rattle", "a.rt", "    #[tactic(auto, using(a, b))]\n", []),
    ("a comment in Rattle", "a.rt", '/// A comment that is "too" wide.\n', [1]),
)


def planted(count):
    for name, path, text, wanted in PLANTED:
        found = [number for number, _, _ in wide_lines(path, text, ALLOWED)]
        count.check(f"planted: {name}", found == wanted, found)
    count.check("planted: a kind without a maximum", not wide_lines("a.md", WIDE * 99, {"max_line_length": "off", "indent_size": "4"}))
    found = sections("# [a]\n[*]\na = 1\nb = 2\n\n[*.{py,go}]\na = 3\n[docs/**.md]\na = 4\n[docs/{a,b}/*.c]\na = 5\n")
    for path, wanted in (("x", "1"), ("x/a.py", "3"), ("a.md", "1"), ("docs/x/a.md", "4"), ("docs/a/x.c", "5"), ("docs/a/b/x.c", "1")):
        count.check(f"planted: the properties of {path}", properties(found, path) == {"a": wanted, "b": "2"}, properties(found, path))


if __name__ == "__main__":
    sys.exit(checks.run(widths, planted))
