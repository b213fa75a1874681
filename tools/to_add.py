#!/usr/bin/env python3
"""tools/to_add.py THING: prints the files that name the nearest thing of its kind. If you add another one, inspect these files.

THING is `reason` (why a packet is ignored, for example Oversize, or TimeFull for a reason of the window), `refusal` (for example
RespondersFull), `word` (of a schedule, for example save), `field` (of the query, for example relay_factor) or `binding` (for a
language, for example Rust's).
"""

import os
import re
import subprocess
import sys

TOP = os.path.dirname(os.path.dirname(os.path.abspath(__file__)))

# How a file names each thing.
THINGS = {
    "reason": re.compile(r"\b(?:Oversize|OVERSIZE|TimeFull|TIME_FULL)\b"),
    "refusal": re.compile(r"\b(?:RespondersFull|RESPONDERS_FULL)\b"),
    "word": re.compile(r"\b(?:[Ss]aves?|Saved|saves_so|\w*save_member_clock|SaveMemberClock)\b"),
    "field": re.compile(r"relay_factor|RelayFactor"),
    "binding": re.compile(r"bindings/rust\b|\"bindings\", \"rust\"|\bcargo\b"),
}

# Files that name a thing only to test it, or that are made from the sources.
LEFT_OUT = re.compile(
    r"/mutants/|/CALLING\.md$|^CHANGELOG\.md$|^tests/refused/|^examples/.*\.(?:svg|trace|log)$|^conformance/schedules/|^docs/completions/|\.1$|\.3$"
)


def files():
    """The files that git tracks, by their paths from the top."""
    result = subprocess.run(["git", "ls-files"], cwd=TOP, stdout=subprocess.PIPE, text=True, check=True)
    return [path for path in result.stdout.splitlines() if not LEFT_OUT.search(path)]


def files_of(thing):
    """The files that name a thing."""
    for path in files():
        try:
            with open(os.path.join(TOP, path), encoding="utf-8") as file:
                if THINGS[thing].search(file.read()):
                    yield path
        except (UnicodeDecodeError, FileNotFoundError):
            continue


def place_of(path):
    """The crate, or the folder, that a path is listed under."""
    parts = path.split("/")
    return "/".join(parts[:2]) if len(parts) > 2 else parts[0] if len(parts) > 1 else "the top"


def main(words):
    if len(words) != 1 or words[0] not in THINGS:
        print(__doc__.strip(), file=sys.stderr)
        return 2
    places = {}
    for path in files_of(words[0]):
        places.setdefault(place_of(path), []).append(path)
    for place, own in places.items():
        print(f"{place}: {', '.join(os.path.relpath(path, place) if path.startswith(place + '/') else path for path in own)}")
    return 0


if __name__ == "__main__":
    sys.exit(main(sys.argv[1:]))
