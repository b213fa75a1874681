#!/usr/bin/env python3
"""tools/rust_of_header.py [--check]: writes what the library for C declares as Rust, from include/serf_agent.h: numbers.rs, structs.rs and
calls.rs in bindings/rust/sys/src.

--check writes nothing. The status is 1 if one of them is outdated.
"""

import os
import re
import sys
import textwrap

TOP = os.path.dirname(os.path.dirname(os.path.abspath(__file__)))
sys.path.insert(0, os.path.join(TOP, "tools"))
sys.dont_write_bytecode = True
import manual_of_header

FOLDER = os.path.join(TOP, "bindings", "rust", "sys", "src")

# The names of the structs that aren't those of C in capitals.
NAMES = {"serf_agent": "Handle", "serf_agent_result": "CallResult"}
NUMBERS = {
    "size_t": "usize",
    "bool": "bool",
    "void": "u8",
    **{f"{sign}int{bits}_t": f"{'u' if sign else 'i'}{bits}" for sign in ("u", "") for bits in (8, 16, 32, 64)},
}
# The field of the handle that is a struct itself.
INNER = re.compile(r"struct \{\s*void \*at;\s*\} place;")
PLACE = "/// Where an agent is.\n#[repr(C)]\n#[derive(Debug)]\npub struct Place {\n    /// The address, which only the library uses.\n    pub at: *mut u8,\n}\n"

# How wide a line may be (bindings/rust/rustfmt.toml).
WIDTH = 140


def doc_comment(text, indent=""):
    """A comment as lines of documentation, in which names are marked as code. Without a comment, there are none."""
    words = re.sub(r"\b((?:enum )?(?:SERF_AGENT|serf_agent)(?:_\w+)?)\b", r"`\1`", re.sub(r"\s+", " ", text.strip()))
    if not words:
        return ""
    # (a name of a call in front of a colon stays as it is)
    words = words if re.match(r"[a-z_]+(?:, [a-z_]+)*:", words) else words[0].upper() + words[1:]
    words += "" if words.endswith(".") else "."
    # (no line begins with a minus, which would be a list)
    words = words.replace("2^64 - 1", "2^64\0-\0001")
    return "".join(
        f"{indent}/// {line}\n".replace("\0", " ")
        for line in textwrap.wrap(words, WIDTH - 10 - len(indent), break_long_words=False, break_on_hyphens=False)
    )


def struct_name(name):
    """The name of a struct in Rust."""
    return NAMES.get(name) or "".join(word.capitalize() for word in name.split("_")[2:])


def rust_declaration(declaration):
    """A declaration of C as one of Rust: its name and its type."""
    const, kind, star, name = re.fullmatch(r"(const )?(?:struct )?(\w+) (\*?)(\w+)", re.sub(r"\s+", " ", declaration.strip())).groups()
    rust_type = NUMBERS.get(kind) or struct_name(kind)
    pointer = ("*const " if const else "*mut ") if star else ""
    return f"{name}: {pointer}{rust_type}"


def comment_text(comments):
    """The text of comments."""
    return " ".join(text.strip() for text in manual_of_header.COMMENT.findall(comments or ""))


def values(body):
    """The lines of an enum or a struct: each declaration with its comment, which is after it or on the lines above."""
    above = ""
    for match in re.finditer(r"/\*(?P<above>.*?)\*/|(?P<own>[^\s,;/][^,;/]*)[,;]?[ ]*(?:/\*(?P<after>.*?)\*/)?", body, re.S):
        if match["above"] is not None:
            above = match["above"]
        elif match["own"].strip():
            yield match["own"].strip(), match["after"] or above
            above = ""


def enum_constants(match):
    """The constants of an enum."""
    for declaration, comment in values(match["body"]):
        name, _, value = declaration.partition(" = ")
        kind = "u64" if name.endswith("_LIMIT") else "u32"
        yield f"{doc_comment(comment or 'as its name says')}pub const {name}: {kind} = {value};\n"


def struct_declaration(match):
    """A struct, with its comments."""
    name = struct_name(match["name"])
    with_pointer = name == "Handle"
    fields = []
    for declaration, comment in values(INNER.sub("struct place place;", match["body"])):
        field = "place: Place" if with_pointer and "place" in declaration else rust_declaration(declaration)
        length = re.match(r"(\w+)_len:", field)
        fields.append(doc_comment(comment or (f"the {length[1]}'s length in bytes" if length else ""), "    ") + f"    pub {field},\n")
    traits = "Debug" if with_pointer else "Clone, Copy, Debug, Default"
    return f"{doc_comment(comment_text(match['comments']))}#[repr(C)]\n#[derive({traits})]\npub struct {name} {{\n{''.join(fields)}}}\n"


def call_declaration(match, previous_comment):
    """A call. If it has no comment, it gets the previous call's."""
    parameters = [rust_declaration(word) for word in match["words"].split(",")]
    line = f"    pub fn {match['call']}({', '.join(parameters)}) -> u32;\n"
    if len(line) > WIDTH + 1:
        line = f"    pub fn {match['call']}(\n" + "".join(f"        {word},\n" for word in parameters) + "    ) -> u32;\n"
    return doc_comment(comment_text(match["comments"]) or previous_comment, "    ") + line


def texts_of(header):
    """The text of each file, for the header's."""
    version = re.search(r"((?:/\*(?:(?!\*/).)*\*/\n))#define SERF_AGENT_VERSION (\d+)", header, re.S)
    constants, structs, calls, previous_comment = (
        [f"{doc_comment(comment_text(version[1]))}pub const SERF_AGENT_VERSION: u32 = {version[2]};\n"],
        [PLACE],
        [],
        "",
    )
    for match in manual_of_header.PART.finditer(header, manual_of_header.COMMENT.search(header).end()):
        if match["call"]:
            calls.append(call_declaration(match, previous_comment))
            previous_comment = comment_text(match["comments"]) or previous_comment
        elif match["kind"] == "enum":
            constants += enum_constants(match)
        elif match["kind"]:
            structs.append(struct_declaration(match))
    files = {
        "numbers.rs": ["//! The version, and the numbers that calls return.\n", *constants],
        "structs.rs": ["//! The structs, in C's layout.\n", *structs],
        "calls.rs": ["//! The calls.\n", "use crate::structs::*;\n", 'extern "C" {\n' + "".join(calls) + "}\n"],
    }
    note = "// tools/rust_of_header.py makes this file from include/serf_agent.h.\n\n"
    return {name: note + "\n".join(parts) for name, parts in files.items()}


def main(words):
    if words not in ([], ["--check"]):
        print(__doc__.strip(), file=sys.stderr)
        return 2
    with open(manual_of_header.HEADER, encoding="utf-8") as file:
        texts = texts_of(file.read())
    for name, text in texts.items():
        path = os.path.join(FOLDER, name)
        if words:
            with open(path, encoding="utf-8") as file:
                if file.read() != text:
                    return 1
        else:
            with open(path, "w", encoding="utf-8") as file:
                file.write(text)
    return 0


if __name__ == "__main__":
    sys.exit(main(sys.argv[1:]))
