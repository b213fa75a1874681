"""version.py [--write]: the file VERSION has the version, and each copy of it is the same.

Files that can read VERSION do: ./release, and the Makefile and the installer of bindings/c. The others have a copy, since their
tools read nothing else, and so do the names of archives and packages on pages. --write puts VERSION into all copies, also into the
program, which then has to be proved anew.
"""

import os
import platform
import re
import shutil
import subprocess
import sys
import tempfile

sys.dont_write_bytecode = True
sys.path.insert(0, os.path.dirname(os.path.dirname(os.path.abspath(__file__))))
import checks
import pages
from checks import TOP, text_of

FORM = re.compile(r"\d+\.\d+\.\d+")

# The copies of the version: the file, and the text before and after it. Of CHANGELOG's headings, the first one counts.
COPIES = {
    "crates/serf_replay_program/src/commands.rt": (r'\.version\("', r'"\)'),
    "agent/internal/config/config.go": (r'^const Version = "', r'"$'),
    "bindings/rust/Cargo.toml": (r'^version = "', r'"$'),
    "bindings/rust/sys/Cargo.toml": (r'^version = "', r'"$'),
    "bindings/python/pyproject.toml": (r'^version = "', r'"$'),
    "bindings/c/serf_agent_text.c": (r'^static const char version\[\] = "', r'";$'),
    "bindings/python/serf_agent/__init__.py": (r'^__version__ = "', r'"$'),
    "CHANGELOG.md": (r"^## ", r"(?: - \d{4}-\d\d-\d\d)?$"),
}

# The names of a release's files, on pages. CHANGELOG may have older ones.
RELEASED = r"\b(?:serf-replay-|kitchenrue-agent_)", r"(?=-x86_64-linux|_amd64\.deb)"


def version():
    return text_of("VERSION").strip()


def form(before, after):
    return re.compile(rf"({before})({FORM.pattern})({after})", re.M)


def wrong_copy(text, own, before, after):
    """What is wrong with the first copy of a version in a text, or None."""
    found = form(before, after).search(text)
    if not found:
        return "has no version"
    return None if found[2] == own else f"has {found[2]}, and VERSION has {own}"


def wrong_names(text, own):
    """What is wrong with the names of a release's files on a page, or None."""
    others = sorted({found[0] for found in form(*RELEASED).finditer(text) if found[2] != own})
    return f"names {', '.join(others)}, and VERSION has {own}" if others else None


def with_version(text, own, before, after, count=0):
    """A text with this version in place of another one."""
    return form(before, after).sub(lambda found: found[1] + own + found[3], text, count=count)


def pages_with_versions():
    return [page for page in pages.documents() if page != "CHANGELOG.md"]


def copies(count):
    own = version()
    count.check("VERSION", FORM.fullmatch(own) and text_of("VERSION") == own + "\n", text_of("VERSION"))
    for path, around in COPIES.items():
        error = wrong_copy(text_of(path), own, *around)
        count.check(f"{path}: its version", error is None, error)
    for page in pages_with_versions():
        error = wrong_names(text_of(page), own)
        count.check(f"{page}: names of a release's files", error is None, error)


def installed(count):
    """The installer of bindings/c reads VERSION, both when the Makefile calls it and when a user does."""
    if shutil.which("make") is None:
        print("not run: the installer of bindings/c, since make is not on PATH")
        return
    folder = os.path.join(TOP, "bindings", "c")
    with tempfile.TemporaryDirectory(prefix="version-") as root:
        libraries = [os.path.join(root, name) for name in ("libserf_agent.so", "libserf_agent.a")]
        for path in libraries:
            # (a shared library has the number of its processor at byte 18)
            with open(path, "wb") as file:
                file.write(bytes(18) + {"aarch64": b"\xb7"}.get(platform.machine(), b"\x3e"))
        made = ["make", "-s", "-C", folder, "-o", libraries[0], "-o", libraries[1], f"OUT={root}", "install", f"PREFIX={root}/made"]
        for name, words in (("made", made), ("put", ["sh", os.path.join(folder, "put"), *libraries, f"{root}/put"])):
            result = subprocess.run(words, capture_output=True, text=True)
            there = os.path.join(root, name, "lib")
            names = os.listdir(there) if os.path.isdir(there) else []
            count.check(f"{name}: the library's name", f"libserf_agent.so.{version()}" in names, (result.stderr, names))
            page = os.path.join(there, "pkgconfig", "serf_agent.pc")
            output = open(page, encoding="utf-8").read() if os.path.exists(page) else ""
            count.check(f"{name}: what pkg-config reads", f"\nVersion: {version()}\n" in output, output)


def planted(count):
    for name, text, around, error in (
        ("a copy", 'version = "0.2.0"\nother = "0.1.0"\n', COPIES["bindings/rust/Cargo.toml"], None),
        ("an older copy", 'const Version = "0.1.0"\n', COPIES["agent/internal/config/config.go"], "has 0.1.0, and VERSION has 0.2.0"),
        ("a longer copy", '.version("0.2.01")', COPIES["crates/serf_replay_program/src/commands.rt"], "has 0.2.01, and VERSION has 0.2.0"),
        ("no copy", 'version = "next"\n', COPIES["bindings/python/pyproject.toml"], "has no version"),
        ("a heading", "# Changes\n\n## Unreleased\n\n## 0.2.0 - 2026-12-01\n\n## 0.1.0\n", COPIES["CHANGELOG.md"], None),
        ("an older heading", "# Changes\n\n## 0.1.0\n\n## 0.2.0\n", COPIES["CHANGELOG.md"], "has 0.1.0, and VERSION has 0.2.0"),
    ):
        found = wrong_copy(text, "0.2.0", *around)
        count.check(f"planted: {name}", found == error, found)
    page = "tar xzf serf-replay-0.1.0-x86_64-linux.tar.gz\ndpkg -i kitchenrue-agent_0.1.0_amd64.deb\nmemberlist 0.2.2\n"
    error = wrong_names(page, "0.2.0")
    count.check("planted: names on a page", error == "names kitchenrue-agent_0.1.0, serf-replay-0.1.0, and VERSION has 0.2.0", error)
    written = with_version(page, "0.2.0", *RELEASED)
    count.check("planted: names that are written", written == page.replace("0.1.0", "0.2.0") and not wrong_names(written, "0.2.0"), written)
    count.check("planted: other words of a page", wrong_names("serf-replay-0.1.0 and memberlist 0.2.2", "0.2.0") is None)


def write():
    """Puts VERSION into all copies."""
    own = version()
    changed = {path: with_version(text_of(path), own, *around, count=1) for path, around in COPIES.items()}
    changed |= {page: with_version(changed.get(page, text_of(page)), own, *RELEASED) for page in pages_with_versions()}
    for path, text in changed.items():
        if text != text_of(path):
            with open(os.path.join(TOP, path), "w", encoding="utf-8") as file:
                file.write(text)
            print(path)
    return 0


if __name__ == "__main__":
    if sys.argv[1:] == ["--write"]:
        sys.exit(write())
    sys.exit(checks.run(copies, installed, planted))
