#!/usr/bin/env python3
"""Writes the fixed parts of a timeline as constants of `serf_timeline`, from the files in examples/timeline.

    python3 tools/page_parts.py [--check]

The files are `page.html`, `timeline.css` and `timeline.js`. A browser runs the script only if it has the hash that is in the page, so
the hash is a constant too. --check writes nothing.

The status is 0 if the constants are those of the files, and 1 if --check finds that a constant isn't. It is 2 for an unknown option.
"""

import base64
import hashlib
import os
import sys

TOP = os.path.dirname(os.path.dirname(os.path.abspath(__file__)))
FOLDER = os.path.join(TOP, "examples", "timeline")
SOURCES = os.path.join(TOP, "crates", "serf_timeline", "src")

# The maximum number of the script's lines that are in one constant.
LINES = 450

# The maximum width of a line in the layout of `rt fmt`.
WIDTH = 100


def read(name):
    with open(os.path.join(FOLDER, name), encoding="utf-8") as file:
        return file.read()


def literal(text):
    """The literal of these bytes. A line of the text is a line of the literal."""
    written = {ord("\\"): "\\\\", ord('"'): '\\"'}
    return (
        'b"'
        + "".join(written.get(byte) or (chr(byte) if byte == 10 or 32 <= byte < 127 else f"\\x{byte:02x}") for byte in text.encode())
        + '"'
    )


def constant(about, name, text):
    """A constant, in the layout of `rt fmt`, which begins a new line before a literal with a long first line."""
    declared, written = f"pub const {name}: &[u8] =", literal(text)
    space = " " if len(f"{declared} {written}".partition("\n")[0]) <= WIDTH else "\n    "
    return f"/// {about}\n{declared}{space}{written};\n"


def files():
    """The text of each file of constants, by its name."""
    script = read("timeline.js")
    digest = base64.b64encode(hashlib.sha256(script.encode()).digest()).decode()
    fixed = {"HASH": digest, "STYLE": read("timeline.css")}
    pieces = read("page.html").split("~")
    texts = [""]
    blanks = []
    for at, piece in enumerate(pieces):
        if at % 2 == 0:
            texts[-1] += piece
        elif piece in fixed:
            texts[-1] += fixed[piece]
        else:
            blanks.append(piece)
            texts.append("")
    assert blanks == ["TITLE", "TITLE", "TONE", "VERDICT", "STILL", "DATA", "SCRIPT"], blanks
    lines = script.splitlines(keepends=True)
    abouts = (
        "up to the title",
        "up to the heading",
        "up to the tone of the verdict",
        "up to the verdict",
        "up to what is shown without the script",
        "up to the data",
        "up to the script",
        "from the script on",
    )
    names = ("OPENING", "HEADING", "TONE", "VERDICT", "STILL", "DATA", "SCRIPT", "ENDING")
    made = {
        "frame.rt": "//! The fixed parts of the page between its blanks. tools/page_parts.py makes this file from examples/timeline.\n\n"
    }
    made["frame.rt"] += "\n".join(constant(f"The page {about}.", name, text) for about, name, text in zip(abouts, names, texts))
    for number, start in enumerate(range(0, len(lines), LINES), 1):
        made[
            f"script_{number}.rt"
        ] = f"//! Part {number} of the page's script. tools/page_parts.py makes this file from examples/timeline.\n\n" + constant(
            f"Part {number} of the script.", f"SCRIPT_{number}", "".join(lines[start : start + LINES])
        )
    return made


def main(words):
    if words not in ([], ["--check"]):
        print(__doc__.strip(), file=sys.stderr)
        return 2
    status = 0
    for name, text in files().items():
        path = os.path.join(SOURCES, name)
        if not words:
            with open(path, "w", encoding="utf-8") as file:
                file.write(text)
            continue
        with open(path, encoding="utf-8") as file:
            if file.read() != text:
                print(f"page_parts.py: {name} is not what examples/timeline has: run python3 tools/page_parts.py", file=sys.stderr)
                status = 1
    return status


if __name__ == "__main__":
    sys.exit(main(sys.argv[1:]))
