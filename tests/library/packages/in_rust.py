"""The crates in Rust, serf_agent and serf-agent-sys, by cargo."""

import glob
import os
import re
import shutil
import subprocess

import digests
import host_lines
from users import AS_USER, NotRun, as_shown, by_user, write_given, refused, well, write


def in_rust(count, archive):
    """`cargo package` verifies, and a user's crate depends on the archive's."""
    if shutil.which("cargo") is None:
        raise NotRun("cargo is not on PATH")
    home = archive.home()
    target = {"CARGO_TARGET_DIR": os.path.join(home, "target")}
    own = os.path.join(home, "app")
    os.makedirs(os.path.join(own, "src"))
    write(
        os.path.join(own, "Cargo.toml"),
        f'[package]\nname = "app"\nversion = "0.1.0"\nedition = "2021"\n\n[dependencies]\nserf_agent = {{ path = "{archive.path("bindings", "rust")}" }}\n',
    )
    shutil.copy(archive.path("bindings", "rust", "examples", "two_agents.rs"), os.path.join(own, "src", "main.rs"))
    os.mkdir(os.path.join(own, "src", "bin"))
    write(os.path.join(own, "src", "bin", "lines.rs"), host_lines.program("rust"))
    if AS_USER:
        subprocess.run(["chown", "-R", "65534:65534", own], check=True)
    if well(count, "a crate that depends on the archive's builds", by_user(own, "cargo", "build", "-q", home=home, **target), ""):
        well(
            count,
            "the example in Rust",
            by_user(own, os.path.join(home, "target", "debug", "app"), archive.home_of(home, "kept")),
            archive.example,
        )
        well(count, "HOST's lines in Rust", by_user(own, os.path.join(home, "target", "debug", "lines")), host_lines.SAYS)
    crate = archive.copy(home, "bindings", "rust")
    packaged(count, archive, home, crate, target)
    for shown in as_shown("rust"):
        answer = by_user(crate, "sh", "-ec", shown.text.replace("FOLDER", archive.home_of(home, "shown")), home=home, **target)
        count.check(shown.name(), answer[0] == 0 and answer[1].endswith(archive.example), answer)
    linked(count, archive, home, crate, target)


def packaged(count, archive, home, crate, target):
    """`cargo package` verifies both crates: the safe one over the other's package, as from a registry."""
    answer = by_user(os.path.join(crate, "sys"), "cargo", "package", home=home, **target)
    well(count, "cargo package verifies serf-agent-sys", answer)
    count.check("it prints nothing about what is missing", "Verifying" in answer[1] and "warning: " not in answer[1], answer[1])
    listed = by_user(os.path.join(crate, "sys"), "cargo", "package", "--list", home=home, **target)[1].split("\n")
    count.check(
        "it has the library and its header",
        {"native/libserf_agent_c.a", "native/serf_agent.h", "build/main.rs", "LICENSE"} <= set(listed),
        listed,
    )
    registry = archive.home_of(home, "registry")
    (package,) = glob.glob(os.path.join(home, "target", "package", "serf-agent-sys-*.crate"))
    by_user(registry, "tar", "xzf", package, home=home)
    (folder,) = os.listdir(registry)
    write_given(os.path.join(registry, folder), ".cargo-checksum.json", '{"files":{}}')
    by_registry = ["--config", 'source.crates-io.replace-with="here"', "--config", f'source.here.directory="{registry}"']
    answer = by_user(crate, "cargo", "package", *by_registry, home=home, **target)
    well(count, "cargo package verifies serf_agent over it", answer)
    count.check(
        "it prints nothing about what is missing either",
        "Verifying" in answer[1] and not re.search(r"warning: (?!ignoring example)", answer[1]),
        answer[1],
    )


def linked(count, archive, home, crate, target):
    """What the build script of serf-agent-sys links, and the sentences with which it ends if it can't."""
    sys_crate = os.path.join(crate, "sys")

    def build(*before, **more):
        return by_user(crate, *before, "cargo", "build", "--example", "two_agents", home=home, **{**target, **more})

    from_text(count, archive, home, crate, target, build)
    refused(
        count,
        "no text in Rust",
        build(SERF_AGENT_FROM_SOURCE="1"),
        "serf-agent-sys: this package has the library, but not the library's text for ",
    )
    shutil.rmtree(os.path.join(sys_crate, "native"))
    refused(
        count,
        "no library in Rust",
        build(),
        "serf-agent-sys: this package has neither the static library nor the library's text for .*set SERF_AGENT_LIBRARY to",
    )
    refused(
        count, "a library that isn't there", build(SERF_AGENT_LIBRARY="/none/a.a"), r"serf-agent-sys: there is no library at /none/a\.a"
    )
    well(count, "the library that SERF_AGENT_LIBRARY names", build(SERF_AGENT_LIBRARY=archive.path("lib", "libserf_agent_c.a")))
    scripts = glob.glob(os.path.join(home, "target", "debug", "build", "serf-agent-sys-*", "build-script-main"))
    elsewhere = {"CARGO_CFG_TARGET_OS": "macos", "CARGO_CFG_TARGET_ARCH": "aarch64"}
    refused(
        count,
        "another machine in Rust",
        by_user(sys_crate, scripts[0], **elsewhere),
        "^serf-agent-sys: the library is for Linux on x86-64 or aarch64, and the target is macos on aarch64: name another one by --target, or build in a container of that kind$",
    )


def from_text(count, archive, home, crate, target, build):
    """The library that the build script compiles with clang from a text: that of the archive, or one of a stand-in. Afterwards the crate
    has no text."""
    if shutil.which(digests.CLANG) is None:
        print(f"not run: the crate's text for clang, since {digests.CLANG} is not on PATH")
        shutil.rmtree(os.path.join(crate, "sys", "source"), ignore_errors=True)
        return
    machine = os.uname().machine
    source = os.path.join(crate, "sys", "source")
    folder = os.path.join(source, machine)
    is_own = os.path.isdir(folder)
    if not is_own:
        by_user(home, "mkdir", "-p", folder)
        write_given(folder, "serf_agent_c.ll", stand_in(archive, home))
        write_given(folder, "flags", "-O3\n-mllvm\n--no-such-pass\n")
        write_given(
            folder, "digests", digests.text_of(machine, *(bytes_of(os.path.join(folder, name)) for name in (digests.TEXT, digests.FLAGS)))
        )
    texts = {name: bytes_of(os.path.join(folder, name)) for name in (digests.TEXT, "digests")}
    answer = build(SERF_AGENT_FROM_SOURCE="1")
    if well(count, "cargo compiles the text", answer):
        made = glob.glob(os.path.join(home, "target", "debug", "build", "serf-agent-sys-*", "out", "serf_agent_c.o"))
        object_of = [digests.sha256(bytes_of(path)) for path in made]
        count.check(
            "it is the object of the digest",
            object_of == re.findall(r"^object (\w+)$", texts["digests"].decode(), re.M),
            (object_of, texts["digests"]),
        )
        if is_own:
            run = os.path.join(home, "target", "debug", "examples", "two_agents")
            well(
                count,
                "the example in Rust over the text",
                by_user(crate, run, archive.home_of(home, "over_text"), home=home),
                archive.example,
            )
    well(count, "the feature from-source", by_user(crate, "cargo", "build", "--features", "from-source", home=home, **target))
    own = {"SERF_AGENT_FROM_SOURCE": "1"}
    few = archive.home_of(home, "few_tools")
    for name in ("cargo", "rustc", "cc", "ld", "as", "sh"):
        by_user(home, "ln", "-s", shutil.which(name), few)
    # (cargo runs the script again if the variable has another value, but not for another PATH)
    refused(
        count,
        "no clang",
        build("env", f"PATH={few}", SERF_AGENT_FROM_SOURCE="2"),
        "serf-agent-sys: no clang is on PATH: install clang-16, or set CLANG to",
    )
    write(os.path.join(few, "clang"), "#!/bin/sh\necho 14.0.6\n")
    refused(
        count,
        "an old clang",
        build("env", f"PATH={few}", SERF_AGENT_FROM_SOURCE="3"),
        "serf-agent-sys: clang is version 14, and the text needs 15 or later: install clang-16",
    )
    refused(
        count,
        "an old clang that CLANG names",
        build(**own, CLANG=os.path.join(few, "clang")),
        "clang, which CLANG names, is version 14, and the text needs 15",
    )
    refused(count, "a clang that isn't there", build(**own, CLANG="none"), "serf-agent-sys: none, which CLANG names, can't be run: ")
    refused(count, "no archiver", build(**own, AR="none"), "serf-agent-sys: none can't make an archive: .*; install binutils")
    for what, name, change, sentence in (
        (
            "a changed text",
            digests.TEXT,
            lambda text: text + b"\n",
            r"serf_agent_c\.ll isn't the release's: its SHA-256 is \w{64}, and digests next to it has \w{64}; get the crate again",
        ),
        (
            "another object",
            "digests",
            lambda text: re.sub(rb"(?<=^object )\w", b"x", text, flags=re.M),
            r"made an object with the SHA-256 \w{64}, and the same compiler made x\w{63} for the release: install the compiler again",
        ),
    ):
        write_given(folder, name, change(texts[name]))
        refused(count, what, build(**own), sentence)
        write_given(folder, name, texts[name])
    shutil.move(os.path.join(crate, "sys", "native"), os.path.join(home, "native"))
    well(count, "without the library, cargo compiles the text", build())
    shutil.move(os.path.join(home, "native"), os.path.join(crate, "sys", "native"))
    shutil.rmtree(source)


def bytes_of(path):
    with open(path, "rb") as file:
        return file.read()


def stand_in(archive, home):
    """A text with the calls of the header, which do nothing, for an archive without texts."""
    with open(archive.path("include", "serf_agent.h"), encoding="utf-8") as file:
        calls = re.findall(r"^uint32_t (serf_agent_\w+)\(([^)]*)\);", re.sub(r"/\*.*?\*/", "", file.read(), flags=re.S), re.M)
    source, text = os.path.join(home, "stand_in.c"), os.path.join(home, "stand_in.ll")
    write(source, '#include "serf_agent.h"\n' + "".join(f"uint32_t {name}({words}) {{ return 1; }}\n" for name, words in calls))
    subprocess.run(
        [digests.CLANG, "-w", "-ffreestanding", f"-I{archive.path('include')}", "-S", "-emit-llvm", "-o", text, source], check=True
    )
    return bytes_of(text)
