"""What is in the agent's Debian package: a hardened program, the pages and files that Debian requires, and one maintainer."""

import gzip
import os
import re
import shutil
import sys
import tempfile

sys.dont_write_bytecode = True
import c_library
import checks

DOC = os.path.join("usr", "share", "doc", "kitchenrue-agent")
PROGRAM = os.path.join("usr", "bin", "kitchenrue-agent")
MANUAL = os.path.join("usr", "share", "man", "man1", "kitchenrue-agent.1.gz")

# What readelf prints of a program that is position-independent, has full RELRO and is stripped; and what it must not print.
HARDENED = (
    ("position-independent", r"Type: +DYN ", True),
    ("RELRO", r"GNU_RELRO", True),
    ("bound at its start", r"Flags: .*\bNOW\b.*\bPIE\b", True),
    ("stripped", r"\.symtab|\.debug_", False),
)


def unzipped(*path):
    with gzip.open(os.path.join(*path), "rt", encoding="utf-8") as file:
        return file.read()


def hardened(count, program):
    said = c_library.ran(["readelf", "-W", "-h", "-l", "-d", "-S", program])[1]
    for what, form, wanted in HARDENED:
        count.check(f"package: its program is {what}", bool(re.search(form, said)) == wanted, said[-3000:])


def manual(count, folder):
    """The manual page has each flag of -help with its text, and groff reads it without a warning."""
    page = unzipped(folder, MANUAL)
    flags = re.findall(r"^  (-\S+) +(.*)$", c_library.ran([os.path.join(folder, PROGRAM), "-help"])[1], re.M)
    count.check("package: -help has flags", len(flags) > 30, flags)
    missing = [flag for flag, text in flags if f".TP\n.B {dashed(flag)}\n{dashed(text)}\n" not in page]
    count.check("package: its manual page has each flag", not missing, missing)
    if shutil.which("groff") is None:
        print("not run: groff on the agent's manual page, since it is not on PATH")
        return
    with tempfile.NamedTemporaryFile("w", suffix=".1", encoding="utf-8") as file:
        file.write(page)
        file.flush()
        said = c_library.ran(["bash", "-c", f"groff -man -Tutf8 -ww {file.name} 2>&1 >/dev/null"])
    count.check("package: groff reads its manual page", said == (0, ""), said)


def dashed(text):
    return text.replace("-", "\\-")


def documents(count, folder):
    """The changelogs, the licence, and one maintainer, which PUBLISHER names."""
    maintainer = re.search(r"^maintainer (.*)$", checks.text_of("PUBLISHER"), re.M)[1]
    version = checks.text_of("VERSION").strip()
    log = unzipped(folder, DOC, "changelog.gz")
    count.check("package: its changelog begins with the version", log.startswith(f"kitchenrue-agent ({version}) "), log[:200])
    count.check("package: its changelog has the maintainer", f"\n -- {maintainer}  " in log, log[:400])
    count.check("package: it has CHANGELOG.md", unzipped(folder, DOC, "CHANGELOG.md.gz") == checks.text_of("CHANGELOG.md"))
    notice = checks.text_of(folder, DOC, "copyright")
    wanted = ("Copyright 2026", "/usr/share/common-licenses/Apache-2.0", "MPL-2.0", "memberlist", "coordinate")
    count.check("package: it names the licences", all(word in notice for word in wanted), notice)
    return maintainer


def lint(count, package):
    """lintian finds nothing, not even what it only warns of."""
    if shutil.which("lintian") is None:
        print("not run: lintian on the agent's package, since it is not installed")
        return
    status, output = c_library.ran(["lintian", "--allow-root", package])
    count.check("package: lintian", status == 0 and not re.search(r"^[EW]: ", output, re.M), output)


def check(count, package, folder):
    """Checks a package, and what was unpacked from it into a folder."""
    hardened(count, os.path.join(folder, PROGRAM))
    manual(count, folder)
    maintainer = documents(count, folder)
    said = c_library.ran(["dpkg-deb", "-f", package, "Maintainer"])[1].strip()
    count.check("package: its maintainer is PUBLISHER's", said == maintainer, said)
    lint(count, package)
