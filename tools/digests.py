"""The digests of a release: the SHA-256 of the object that clang-16 of Debian 12 makes of the library's text (bindings/source). A release
has them in the file `digests` next to each text:

    compiler Debian clang version ..    the first line of what this clang prints as its version
    flags --target=.. -c -x ir          the flags with which it is called, in the text's folder
    text SHA256                         of serf_agent_c.ll
    object SHA256                       of what it makes of serf_agent_c.ll
"""

import functools
import hashlib
import os
import re
import shutil
import subprocess
import tempfile

TOP = os.path.dirname(os.path.dirname(os.path.abspath(__file__)))
BUILD = os.path.join(TOP, "bindings", "source", "build")
TEXT, FLAGS = "serf_agent_c.ll", "flags"

# The compiler, and how its version begins.
CLANG = "clang-16"
OF_DEBIAN = "Debian clang version 16."


class Failed(Exception):
    """Why the compiler made no object."""


@functools.cache
def compiler():
    """The first line of the compiler's version, or None if it isn't on PATH."""
    if shutil.which(CLANG) is None:
        return None
    said = subprocess.run([CLANG, "--version"], stdin=subprocess.DEVNULL, stdout=subprocess.PIPE, stderr=subprocess.DEVNULL, text=True)
    return said.stdout.partition("\n")[0].strip()


def missing():
    """Why the digests can't be made here, or None."""
    own = compiler()
    if own is None:
        return f"{CLANG} is not on PATH"
    return None if own.startswith(OF_DEBIAN) else f"{CLANG} is {own!r}, and not Debian's"


def sha256(data):
    return hashlib.sha256(data).hexdigest()


@functools.cache
def text_of(target, text, flags):
    """The text of `digests` for a target, from its text and its flags, as bytes. The compiler has to be there."""
    with tempfile.TemporaryDirectory(prefix="digests-") as folder:
        os.mkdir(os.path.join(folder, target))
        shutil.copy(BUILD, folder)
        for name, data in ((TEXT, text), (FLAGS, flags)):
            with open(os.path.join(folder, target, name), "wb") as file:
                file.write(data)
        found, made = {}, os.path.join(folder, "serf_agent_c.o")
        for to in ("--flags", made):
            done = subprocess.run(
                [os.path.join(folder, "build"), to, target],
                env={**os.environ, "CLANG": CLANG},
                stdin=subprocess.DEVNULL,
                stdout=subprocess.PIPE,
                stderr=subprocess.PIPE,
                text=True,
            )
            if done.returncode:
                raise Failed(f"{CLANG} can't compile the text for {target}:\n{done.stderr[-2000:]}")
            found[to] = done.stdout.strip()
        with open(made, "rb") as file:
            digest = sha256(file.read())
    return f"compiler {compiler()}\nflags {found['--flags']}\ntext {sha256(text)}\nobject {digest}\n".encode()


def not_checked(published):
    """Why published digests can't be compared with those of the compiler that is here, or None."""
    own = compiler()
    if own is None:
        return f"{CLANG} is not on PATH"
    theirs = re.search(rb"^compiler (.*)$", published, re.M)
    if theirs is None or theirs[1].decode(errors="replace") != own:
        return (
            f"{CLANG} is {own!r} here, and the digest is of {theirs[1].decode(errors='replace')!r}"
            if theirs
            else "the digests name no compiler"
        )
    return None
