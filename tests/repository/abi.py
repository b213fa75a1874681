"""abi.py [--write]: what the last release's headers declared for C is declared in the same way today, or the SONAME is another one.

bindings/c/abi.rows has what the last release declared: its SONAME, and a row for each call, each struct with its fields, and each
constant with its value. A declaration that is new has no row and breaks no program. --write writes the rows of today's headers: it is
for the release, and it refuses to drop or to change a row unless the SONAME, whose number is SERF_AGENT_VERSION, is another one.
"""

import os
import re
import sys

sys.dont_write_bytecode = True
sys.path.insert(0, os.path.dirname(os.path.dirname(os.path.abspath(__file__))))
import checks
from checks import TOP, text_of

HEADERS = ("include/serf_agent.h", "bindings/c/serf_agent_store.h", "bindings/c/serf_agent_text.h")
ROWS = "bindings/c/abi.rows"
HEAD = "# What the headers of the last release declared for C. `python3 tests/repository/abi.py --write` writes this file at a release.\n"

DECLARATION = re.compile(
    r"^#define (?P<define>\w+) (?P<value>\S+)$"
    r"|^enum (?:\w+ )?\{(?P<enum>[^}]*)\};"
    r"|^struct (?P<struct>\w+) \{(?P<fields>[^}]*)\};"
    r"|^(?P<result>[a-z][\w *]*?)(?P<call>serf_agent_\w+)\((?P<arguments>[^)]*)\);",
    re.M,
)
# The number at the end of the SONAME.
VERSION = "SERF_AGENT_VERSION"


def plain(text):
    return re.sub(r" ?\* ?", " *", re.sub(r"\s+", " ", text.strip()))


def constants(body):
    """The constants of an enum with their values."""
    following = 0
    for text in filter(None, (plain(each) for each in body.split(","))):
        name, _, value = text.partition(" = ")
        following = int(value, 0) if value else following
        yield f"{name} = {following}"
        following += 1


def types(arguments):
    """The types of a call's arguments, without their names."""
    return ", ".join(
        re.sub(r"\b\w+$", "", each).strip() if re.search(r"[ *]\w+$", each) else each for each in map(plain, arguments.split(","))
    )


def declared(text):
    """The rows of a header's text."""
    text = re.sub(r"/\*.*?\*/|//[^\n]*", "", text, flags=re.S)
    text = re.sub(r"[ \t]+$", "", text, flags=re.M)
    for found in DECLARATION.finditer(text):
        if found["define"] and found["define"] != VERSION:
            yield f"{found['define']} = {found['value']}"
        elif found["enum"]:
            yield from constants(found["enum"])
        elif found["struct"]:
            yield f"struct {found['struct']} {{ {plain(found['fields'])} }}"
        elif found["call"]:
            yield f"{plain(found['result'])} {found['call']}({types(found['arguments'])})"


def now():
    """Today's SONAME and rows."""
    number = re.search(rf"^#define {VERSION} (\d+)$", text_of(HEADERS[0]), re.M)[1]
    return f"libserf_agent.so.{number}", [row for path in HEADERS for row in declared(text_of(path))]


def released(text):
    rows = [line for line in text.splitlines() if line and not line.startswith("#")]
    return rows[0], rows[1:]


def broken(old, new):
    """The rows of the last release that today's headers don't have, unless the SONAME changed."""
    return [row for row in old[1] if row not in set(new[1])] if old[0] == new[0] else []


def same(count):
    old, new = released(text_of(ROWS)), now()
    count.check("the headers have calls, structs and constants", len(new[1]) > 120, len(new[1]))
    count.check("the rows have as many", len(old[1]) > 120, len(old[1]))
    for row in old[1]:
        gone = broken((old[0], [row]), new)
        count.check(
            f"still declared: {row[:60]}",
            not gone,
            f"{row}\nThe SONAME is {new[0]}, as in the last release: bindings/c/README.md says when it changes",
        )
    names = re.findall(r"libserf_agent\.so\.\d+\b(?!\.)", text_of("bindings/c/README.md"))
    count.check("bindings/c/README.md: the SONAME", set(names) == {new[0]}, names)


HEADER = """#define LIMIT 5 /* a limit */
enum code { OK = 0, FULL = 3, EMPTY };
/* A result. */
struct serf_agent_pair { uint64_t one; const char *two; };
uint32_t serf_agent_fire(struct serf_agent *agent, const uint8_t *name, size_t name_len,
                         bool coalesce);
void serf_agent_none(void);
"""


def planted(count):
    old = "lib.so.1", list(declared(HEADER))
    count.check(
        "planted: the rows",
        len(old[1]) == 7 and "uint32_t serf_agent_fire(struct serf_agent *, const uint8_t *, size_t, bool)" in old[1],
        old[1],
    )
    for what, before, after, number in (
        ("nothing", "", "", 0),
        ("a comment", "A result", "The result", 0),
        ("an argument's name", "*name,", "*text,", 0),
        ("a new call", "void", "int serf_agent_new(void);\nvoid", 0),
        ("a new constant at the end", "EMPTY }", "EMPTY, NEW }", 0),
        ("a constant in the middle", "FULL = 3, EMPTY", "FULL = 3, NEW, EMPTY", 1),
        ("another value", "LIMIT 5", "LIMIT 6", 1),
        ("a field more", "uint64_t one;", "uint64_t one; bool more;", 1),
        ("another type", "size_t name_len", "uint32_t name_len", 1),
        ("another result", "void serf_agent_none", "int serf_agent_none", 1),
        ("a call less", "void serf_agent_none(void);", "", 1),
    ):
        new = list(declared(HEADER.replace(before, after, 1) if before else HEADER))
        found = broken(old, ("lib.so.1", new))
        count.check(f"planted: {what}", len(found) == number, found)
        count.check(f"planted: {what}, with another SONAME", not broken(old, ("lib.so.2", new)))


def write():
    """Writes the rows of today's headers."""
    new = now()
    if os.path.exists(os.path.join(TOP, ROWS)):
        gone = broken(released(text_of(ROWS)), new)
        if gone:
            print("\n".join(["abi: these are no longer declared, so SERF_AGENT_VERSION has to grow:", *gone]), file=sys.stderr)
            return 1
    with open(os.path.join(TOP, ROWS), "w", encoding="utf-8") as file:
        file.write(HEAD + "".join(f"{row}\n" for row in (new[0], *new[1])))
    return 0


if __name__ == "__main__":
    sys.exit(write() if sys.argv[1:] == ["--write"] else checks.run(same, planted))
