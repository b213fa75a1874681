"""bindings/source/build: the library from its text, by a stock clang, and the sentences with which it ends if it can't make it."""

import os
import re
import shutil

import digests
from in_rust import bytes_of, stand_in
from users import NotRun, by_user, write_given, refused, well, write


def in_source(count, archive):
    """The text is that of the archive, or one of a stand-in."""
    if shutil.which(digests.CLANG) is None:
        raise NotRun(f"{digests.CLANG} is not on PATH")
    home, machine = archive.home(), os.uname().machine
    source = archive.copy(home, "bindings", "source")
    folder, made = os.path.join(source, machine), os.path.join(home, "made.o")
    if not os.path.isdir(folder):
        by_user(home, "mkdir", folder)
        write_given(folder, "serf_agent_c.ll", stand_in(archive, home))
        write_given(folder, "flags", "-O3\n-mllvm\n--no-such-pass\n")
        write_given(
            folder, "digests", digests.text_of(machine, *(bytes_of(os.path.join(folder, name)) for name in (digests.TEXT, digests.FLAGS)))
        )
    texts = {name: bytes_of(os.path.join(folder, name)) for name in (digests.TEXT, "digests")}

    def build(to, *more, **env):
        return by_user(home, "sh", os.path.join(source, "build"), to, *more, **{"CLANG": digests.CLANG, **env})

    if well(count, "build makes the object", build(made)):
        count.check(
            "it is the object of the digest", f"object {digests.sha256(bytes_of(made))}\n" in texts["digests"].decode(), texts["digests"]
        )
    well(count, "build makes the library", build(os.path.join(home, "made.a")))
    os.remove(made)
    old, other = (
        write(os.path.join(home, name), f'#!/bin/sh\n[ "$1" = -dumpversion ] && exec echo {number}\n{then}\n')
        for name, number, then in (("old", "14.0.6", "exit 1"), ("other", "16.0.6", f'exec {digests.CLANG} "$@"'))
    )
    refused(
        count,
        "an old clang",
        build(made, CLANG=old),
        "^build: .*/old is version 14, and the source needs 15 or later: install clang-16, or name a later one by CLANG=$",
    )
    refused(count, "a clang that isn't there", build(made, CLANG="none"), "^build: none is not on PATH: install clang from version 15 on")
    refused(
        count,
        "no archiver",
        build(os.path.join(home, "made.a"), AR="none"),
        "build: there is no archiver none on PATH: install binutils, or name one by AR=$",
    )
    refused(count, "another processor", build(made, "riscv64"), "^build: there is no source for riscv64: ")
    for what, name, change, clang, sentence in (
        (
            "a changed text",
            digests.TEXT,
            lambda text: text + b"\n",
            digests.CLANG,
            r"serf_agent_c\.ll isn't the release's, since its SHA-256 isn't the one in digests: unpack the archive again$",
        ),
        (
            "another object",
            "digests",
            lambda text: re.sub(rb"(?<=^object )\w", b"x", text, flags=re.M),
            other,
            "made another object than the same compiler made for the release: install the compiler again, or name another one by CLANG=$",
        ),
    ):
        write_given(folder, name, change(texts[name]))
        refused(count, what, build(made, CLANG=clang), sentence)
        write_given(folder, name, texts[name])
    write_given(folder, "digests", re.sub(rb"(?<=^compiler ).*|(?<=^object )\w", b"x", texts["digests"], flags=re.M))
    well(count, "the digest is another compiler's", build(made))
    os.remove(os.path.join(folder, "digests"))
    well(count, "there are no digests, as in a clone", build(made))
