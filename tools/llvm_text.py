#!/usr/bin/env python3
"""tools/llvm_text.py [MODULE]: rewrites the text of an LLVM module so that clang reads it from version 15 on.

The toolchain's compiler hands each module to its own clang, which is newer than those of distributions. Its text has a few words
that older versions don't know. This script replaces each of them by one that means the same, or removes it if it only allows clang
to optimize more. So whatever clang compiles from the new text does what the old text says.

It reads a text from a file or from standard input, and writes the new one to standard output. The status is 1 if a word is left
that clang 15 doesn't know.
"""

import re
import sys

# The words that are replaced: the version of LLVM that introduced each, what matches it, what replaces it, and why it means the same.
REPLACED = (
    (22, r"\bptrtoaddr\b", "ptrtoint", "the same number; clang may also assume that the pointer is made from it again"),
)

# The words that are removed. Each of them is a promise to the optimizer.
REMOVED = (
    (21, r" captures\([^()]*\)", "what a call keeps of a pointer"),
    (20, r"(?<=icmp) samesign\b", "both numbers have the same sign"),
    (20, r" initializes\(\([^()]*\)(?:, \([^()]*\))*\)", "which bytes a call writes"),
    (20, r"(?<=getelementptr) (?:inbounds )?nuw\b|(?<=getelementptr inbounds) nuw\b", "an address doesn't wrap"),
    (20, r"(?<=getelementptr) nusw(?: nuw)?\b", "an address doesn't wrap"),
    (19, r"(?<=trunc)(?: nuw| nsw)+\b", "no bits are lost"),
    (19, r" range\(i\d+ -?\d+, -?\d+\)", "the range of a number"),
    (18, r"(?<=or) disjoint\b", "the bits are disjoint"),
    (18, r"(?<=zext) nneg\b|(?<=uitofp) nneg\b", "a number isn't negative"),
    (18, r" dead_on_unwind\b| writable\b", "what an argument's memory is used for"),
    (16, r" memory\([^()]*\)", "which memory a function reads and writes"),
)

# `getelementptr inbounds` keeps its word if `nuw` is removed.
INBOUNDS = re.compile(r"(?<=getelementptr) inbounds nuw\b")

# A vector of equal elements, which LLVM writes so since version 20. The vector's length is in its type, earlier in the line.
SPLAT = re.compile(r"splat \((\w+) ([^()]*)\)")


def spelled_out(line):
    """A line in which each vector of equal elements is written with all of them."""

    def vector(found):
        kind, value = found.groups()
        length = re.findall(rf"<(\d+) x {kind}>", line[: found.start()])[-1]
        return f"<{', '.join([f'{kind} {value}'] * int(length))}>"

    return SPLAT.sub(vector, line)


def portable(text):
    """The text of a module, as clang 15 reads it."""
    text = INBOUNDS.sub(" inbounds", text)
    for _, form, by, _ in REPLACED:
        text = re.sub(form, by, text)
    for _, form, _ in REMOVED:
        text = re.sub(form, "", text)
    return "\n".join(spelled_out(line) if "splat (" in line else line for line in text.split("\n"))


def main(words):
    if words[:1] in (["-h"], ["--help"]) or len(words) > 1:
        print(__doc__.strip(), file=sys.stdout if words[:1] in (["-h"], ["--help"]) else sys.stderr)
        return 0 if words[:1] in (["-h"], ["--help"]) else 2
    if words:
        with open(words[0], encoding="utf-8") as file:
            text = file.read()
    else:
        text = sys.stdin.read()
    sys.stdout.write(portable(text))
    return 0


if __name__ == "__main__":
    sys.exit(main(sys.argv[1:]))
