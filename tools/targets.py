#!/usr/bin/env python3
"""tools/targets.py TARGET FOLDER: proves the library for C for a processor, and writes into a folder what a release has of it.

TARGET is x86_64 or aarch64. The folder gets

    libserf_agent_c.a       the static library, compiled by the toolchain's clang
    serf_agent_c.ll         the text of the module that the toolchain passed to its clang, for a stock clang (tools/llvm_text.py)
    flags                   the flags with which the toolchain called its clang, one a line
    verdict                 the last line of the check from which both are made

The proof of a crate counts for one processor: its verdict names the target. So each target needs a check of this crate; the crates
below it don't depend on the target. The status is 1 if the crate is not proved or can't be compiled, and 3 if the toolchain isn't
there.
"""

import contextlib
import hashlib
import os
import re
import shlex
import shutil
import subprocess
import sys
import tempfile

TOP = os.path.dirname(os.path.dirname(os.path.abspath(__file__)))
sys.path.insert(0, os.path.join(TOP, "tools"))
sys.dont_write_bytecode = True
import c_library
import libraries
import llvm_text
import machine
import toolchain
import verdicts

# The toolchain's name of each target.
TRIPLES = {"x86_64": "x86_64-unknown-linux-gnu", "aarch64": "aarch64-unknown-linux-gnu"}

# The target that `rt ci` proves. Its check isn't repeated.
OF_CI = "x86_64"

# A wrapper of the toolchain's clang. For x86-64 the toolchain calls clang once, to compile the module. For aarch64 it calls clang twice:
# to optimize the module, with its text as the result, and to compile the optimized text, which it may have rewritten. The wrapper keeps
# the module with the words of the first call, and both texts if there are two.
WRAPPER = """#!/bin/sh
for word; do
    case $word in
    *.bc) cp "$word" {kept}/module.bc && printf '%s\\n' "$@" >{kept}/words && is_first=1 ;;
    rewritten.ll) cp "$word" {kept}/rewritten.ll ;;
    esac
done
[ -n "${{is_first:-}}" ] || exec {clang} "$@"
{clang} "$@" || exit
[ ! -e printed.ll ] || cp printed.ll {kept}/printed.ll
"""

# What of these words names a file or a folder, and isn't a flag for everybody: the word itself, or the word and the next one.
OWN = (
    "--target=",
    "--sysroot=",
    "--no-default-config",
    "-no-canonical-prefixes",
    "-fintegrated-cc1",
    "-fno-crash-diagnostics",
    "-Werror",
    "-c",
    "-S",
    "-emit-llvm",
)
OWN_PAIRS = ("-x", "-o", "-Xclang")


class Stopped(Exception):
    """Why nothing was written."""


def wrapped(kit, folder):
    """A copy of the toolchain's folder, by links, whose clang keeps its input in `folder`. Returns the path of the copy."""
    own, copy = os.path.join(kit, "toolchain"), os.path.join(folder, "toolchain")
    os.makedirs(os.path.join(copy, "bin"))
    for name in os.listdir(own):
        if name != "bin":
            os.symlink(os.path.join(own, name), os.path.join(copy, name))
    for name in os.listdir(os.path.join(own, "bin")):
        if name != "clang":
            os.symlink(os.path.join(own, "bin", name), os.path.join(copy, "bin", name))
    path = os.path.join(copy, "bin", "clang")
    with open(path, "w", encoding="utf-8") as file:
        file.write(WRAPPER.format(kept=shlex.quote(folder), clang=shlex.quote(os.path.join(own, "bin", "clang"))))
    os.chmod(path, 0o755)
    return copy


def flags_of(words):
    """The flags of a call of clang that another clang needs as well."""
    found, rest = [], iter(words)
    for word in rest:
        if word in OWN_PAIRS:
            next(rest, None)
        elif not word.startswith(OWN) and not word.endswith((".bc", ".ll", ".o")):
            found.append(word)
    return found


def checked(rt, crate, words, name):
    """Proves the crate, and returns the verdict. What the check leaves is at `name`."""
    with tempfile.TemporaryFile("w+", errors="replace") as crate.out:
        status = crate.call(rt.rtlib.RATTLE, "check", *words, "-o", name)
        crate.out.seek(0)
        said = crate.out.read()
    found = verdicts.VERDICT.findall(said)
    if status or not found:
        raise Stopped(f"the crate is not proved:\n{said[-2000:]}")
    return found[-1]


def compiled(rt, crate, words, name, folder):
    """Compiles what was proved, and keeps what the toolchain passed to its clang."""
    for flag in ("--logic-built", "--jobs"):
        at = words.index(flag)
        words = [*words[:at], *words[at + 2 :]]
    with tempfile.TemporaryFile("w+", errors="replace") as crate.out:
        more = [
            "--crate-checked",
            name,
            "--toolchain",
            wrapped(rt.rtlib.KIT, folder),
            "--backend",
            "llvm",
            "-o",
            os.path.join(folder, "libserf_agent_c.a"),
        ]
        status = crate.call(rt.rtlib.RATTLE, "build", *words, *more)
        crate.out.seek(0)
        if status:
            raise Stopped(f"the crate was not compiled:\n{crate.out.read()[-2000:]}")
    if text_at(os.path.join(folder, "printed.ll")) != text_at(os.path.join(folder, "rewritten.ll")):
        raise Stopped("the toolchain rewrote the optimized module, so the module's text means something else than what was compiled")


def text_of(rt, folder):
    """The text of the module that was kept, for a stock clang."""
    clang = os.path.join(rt.rtlib.KIT, "toolchain", "bin", "clang")
    words = [clang, "-S", "-emit-llvm", "-Xclang", "-disable-llvm-passes", "-x", "ir", os.path.join(folder, "module.bc"), "-o", "-"]
    done = subprocess.run(words, stdin=subprocess.DEVNULL, stdout=subprocess.PIPE, stderr=subprocess.PIPE, text=True)
    if done.returncode:
        raise Stopped(f"clang can't print the module:\n{done.stderr[-2000:]}")
    # Its first line has the name of a temporary file.
    return llvm_text.portable(re.sub(r"\A; ModuleID = .*\n", "", done.stdout))


def write(target, to):
    """Writes a target's files into a folder."""
    rt = toolchain.load()
    if rt is None:
        raise Stopped(toolchain.MISSING)
    crate = c_library.crate_of(rt)
    fault = libraries.fault_of([crate])
    if fault:
        raise Stopped(fault)
    words = crate.words(["--jobs", str(machine.lanes(4 << 30))], keeps=False)
    os.makedirs(to, exist_ok=True)
    with tempfile.TemporaryDirectory(prefix="targets-") as folder:
        if target == OF_CI and c_library.is_checked(crate):
            name, verdict = toolchain.CHECKED, verdicts.read(TOP).get(crate.name, ("", verdicts.KEPT))[1]
        else:
            words += ["--target", TRIPLES[target]]
            name = f"{toolchain.CHECKED}.{target}"
            verdict = checked(rt, crate, words, name)
        compiled(rt, crate, words, name, folder)
        with open(os.path.join(folder, "words"), encoding="utf-8") as file:
            flags = flags_of(file.read().splitlines())
        texts = {"serf_agent_c.ll": text_of(rt, folder), "flags": "".join(f"{flag}\n" for flag in flags), "verdict": f"{verdict}\n"}
        shutil.copyfile(os.path.join(folder, "libserf_agent_c.a"), os.path.join(to, "libserf_agent_c.a"))
    for name, text in texts.items():
        with open(os.path.join(to, name), "w", encoding="utf-8") as file:
            file.write(text)


# What is written for a target.
FILES = ("libserf_agent_c.a", "serf_agent_c.ll", "flags", "verdict")


def of_sources():
    """A checksum of what a target's files are made of: the sources of the crate and of those below it, and the script for the text."""
    with open(llvm_text.__file__, "rb") as file:
        return hashlib.sha256(c_library.of_sources().encode() + file.read()).hexdigest()


def folder_of(target):
    return os.path.join(c_library.CRATE, "out", target)


def current(target):
    """The folder with a target's files, if they were made from the current sources, or None."""
    to = folder_of(target)
    sources = text_at(os.path.join(to, "sources"))
    # (without a note, nothing has to be known of the toolchain)
    is_current = sources is not None and sources == of_sources() and all(os.path.exists(os.path.join(to, name)) for name in FILES)
    return to if is_current else None


def made(target):
    """The folder with a target's files, in the crate's own folder. They are made if they aren't there, and aren't kept on this machine,
    for the current sources."""
    to = folder_of(target)
    if current(target):
        return to
    os.makedirs(to, exist_ok=True)
    sources, note = of_sources(), os.path.join(to, "sources")
    kept = os.path.join(machine.FOLDER, f"serf_agent_c-{target}-{sources}")
    with contextlib.suppress(FileNotFoundError):
        os.remove(note)
    if all(os.path.exists(os.path.join(kept, name)) for name in FILES):
        for name in FILES:
            shutil.copyfile(os.path.join(kept, name), os.path.join(to, name))
    else:
        write(target, to)
        with contextlib.suppress(OSError):
            machine.write(kept, [os.path.join(to, name) for name in FILES])
    with open(note, "w", encoding="utf-8") as file:
        file.write(sources)
    return to


def text_at(path):
    """A file's text, or None if there is no file."""
    try:
        with open(path, encoding="utf-8") as file:
            return file.read()
    except FileNotFoundError:
        return None


def main(words):
    if len(words) != 2 or words[0] not in TRIPLES:
        is_help = words in (["-h"], ["--help"])
        print(__doc__.strip(), file=sys.stdout if is_help else sys.stderr)
        return 0 if is_help else 2
    try:
        write(*words)
    except Stopped as why:
        print(f"targets: {why}", file=sys.stderr)
        return 3 if str(why) == toolchain.MISSING else 1
    return 0


if __name__ == "__main__":
    sys.exit(main(sys.argv[1:]))
