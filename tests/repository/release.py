"""./release: only from a green gate, twice with the same bytes, each file with its sum, and signed by the key that it is given. --verify
passes then, and fails after any change. The agent in both packages starts."""

import filecmp
import io
import json
import os
import re
import shutil
import stat
import subprocess
import sys
import tarfile
import tempfile

sys.dont_write_bytecode = True
sys.path.insert(0, os.path.dirname(os.path.dirname(os.path.abspath(__file__))))
import checks
import digests
import green
import publisher
import verdicts
from checks import TOP

sys.path.insert(0, os.path.join(TOP, "tests", "repository", "release"))
import objects
from calls import BILL, NAME, PACKAGE, PROGRAM, SDIST, SUMS, VERSION, run_release, release, replace_with_sum, write

# What is copied from the repository: what ./release reads, and ./release itself.
PARTS = [
    "README.md", "LICENSE", "VERSION", "CHANGELOG.md", "SECURITY.md", "install", "include", "bindings", "agent", "conformance", "docs",
    "examples", "release", "tools", "crates", "crates.txt", "PUBLISHER", "PUBLISHING.md",
]


def clone(root):
    """A repository with the archive's files as they are here, and with stand-ins for the built outputs."""
    top = os.path.join(root, "clone")
    os.makedirs(top)
    for name in PARTS:
        path, to = os.path.join(TOP, name), os.path.join(top, name)
        if os.path.isdir(path):
            shutil.copytree(path, to, symlinks=True, ignore=shutil.ignore_patterns("out", "target", "native", "__pycache__"))
        else:
            shutil.copy(path, to)
    shutil.copy(os.path.join(TOP, ".gitignore"), top)
    who = ["-c", "user.name=a", "-c", "user.email=a@localhost"]
    for words in (["init", "-q"], ["add", "-A"], [*who, "commit", "-qm", "all"]):
        subprocess.run(["git", *words], cwd=top, check=True)
    program = os.path.join(top, "crates", "serf_replay_program", "out", "serf_replay_program")
    write(program, PROGRAM)
    os.chmod(program, os.stat(program).st_mode | stat.S_IXUSR)
    compile_library(os.path.join(top, "crates", "serf_agent_c", "out", "libserf_agent_c.a"))
    write(os.path.join(top, verdicts.PATH), verdicts_of(top))
    return top


def verdicts_of(top):
    """A record of verdicts, as the gate writes it."""
    return verdicts.text_of(
        "a toolchain", {name: (verdicts.hash_of_sources(top, name), f"logic=proved functions={len(name)}") for name in verdicts.crates(top)}
    )


def compile_library(path, compiler="cc"):
    """A static library in place of the proved one: it has the calls of the header, and they do nothing."""
    with open(os.path.join(TOP, "include", "serf_agent.h"), encoding="utf-8") as file:
        calls = re.findall(r"^uint32_t (serf_agent_\w+)\(([^)]*)\);", re.sub(r"/\*.*?\*/", "", file.read(), flags=re.S), re.M)
    os.makedirs(os.path.dirname(path), exist_ok=True)
    write(f"{path}.c", '#include "serf_agent.h"\n' + "".join(f"uint32_t {name}({words}) {{ return 1; }}\n" for name, words in calls))
    subprocess.run([compiler, "-w", "-fPIC", f"-I{TOP}/include", "-c", "-o", f"{path}.o", f"{path}.c"], check=True)
    subprocess.run(["ar", "rcs", path, f"{path}.o"], check=True)


def refused(count, top, root):
    count.check("refused without a green gate", release(top, os.path.join(root, "none"))[0] == 3)
    before = green.state(top)
    write(os.path.join(top, "docs", "more.md"), "more\n")
    green.record_green(top, before)
    count.check("no mark if a file was added during the gate", not green.is_green(top))
    os.remove(os.path.join(top, "docs", "more.md"))
    green.record_green(top, before)
    count.check("a mark if nothing changed", green.is_green(top))
    write(os.path.join(top, "docs", "more.md"), "more\n")
    count.check("refused if a file was added since", release(top, os.path.join(root, "none"))[0] == 3)
    os.remove(os.path.join(top, "docs", "more.md"))
    for path in (green.PROGRAM, green.LIBRARY):
        with open(os.path.join(top, path), "r+b") as file:
            tested = file.read()
            file.write(b"another\n")
        status, output = release(top, os.path.join(root, "none"))
        count.check(
            f"refused if {os.path.basename(path)} isn't the one that the gate tested",
            status == 3 and "not passed" in output,
            (status, output),
        )
        with open(os.path.join(top, path), "wb") as file:
            file.write(tested)
    os.rename(os.path.join(top, green.LIBRARY), os.path.join(root, "library"))
    count.check("refused without the library", release(top, os.path.join(root, "none"))[0] == 3)
    os.rename(os.path.join(root, "library"), os.path.join(top, green.LIBRARY))


def unmade(count, top, root):
    """It prints a sentence if nothing can be written, if there is no compiler, and if there is no make."""
    status, output = release(top, "/proc/none")
    count.check(
        "refused if nothing can be written",
        status == 3 and re.fullmatch(r"release: /proc/none/\S+: No such file or directory\n", output),
        output,
    )
    status, output = release(top, os.path.join(root, "none"), CC="none")
    count.check("refused without a compiler", status == 3 and "there is no C compiler none on PATH" in output, (status, output))
    few = os.path.join(root, "few")
    os.mkdir(few)
    for name in ("env", "git", "bash", "dirname", "awk", "sort", "cut", "find", "xargs", "sha256sum"):
        os.symlink(shutil.which(name), os.path.join(few, name))
    os.symlink(sys.executable, os.path.join(few, "python3"))
    answer = release(top, os.path.join(root, "none"), PATH=few)
    count.check("refused without make", answer == (3, "release: make: No such file or directory\n"), answer)


def another_version(count, top, root):
    """If the program or the agent's package has another version than VERSION, no archive is made."""
    none, other = os.path.join(root, "none"), "#!/bin/sh\necho serf-replay 9.8.7\n"
    for what, path, text, error in (
        ("program", green.PROGRAM, other, f"VERSION has {VERSION}, and the program reports serf-replay 9.8.7"),
        ("program without a version", green.PROGRAM, "#!/bin/sh\n", f"VERSION has {VERSION}, and the program reports no version"),
        ("package", "VERSION", "9.8.7\n", "VERSION has 9.8.7, and the agent's package has "),
    ):
        with open(os.path.join(top, path), encoding="utf-8") as file:
            before = file.read()
        write(os.path.join(top, path), text)
        if what == "package":
            write(os.path.join(top, green.PROGRAM), other)
            subprocess.run(["git", "-c", "user.name=a", "-c", "user.email=a@localhost", "commit", "-qam", "another"], cwd=top, check=True)
        green.record_green(top, green.state(top))
        status, output = release(top, none)
        count.check(f"refused with another version of the {what}", status == 3 and error in output, (status, output))
        write(os.path.join(top, path), before)
    write(os.path.join(top, green.PROGRAM), PROGRAM)
    subprocess.run(["git", "reset", "-q", "--hard", "HEAD~"], cwd=top, check=True)
    green.record_green(top, green.state(top))


def other_proofs(count, top, root):
    """Without the verdict of each crate's proof, for the sources that are here, nothing is made."""
    path, none = os.path.join(top, verdicts.PATH), os.path.join(root, "none")
    text = checks.text_of(path)
    for what, other, error in (
        ("no verdicts", "", "has no verdict of serf_lamport; ./test writes it"),
        ("one verdict less", re.sub(r"^serf_wire .*\n", "", text, flags=re.M), "has no verdict of serf_wire; ./test writes it"),
        ("a verdict of other sources", re.sub(r"^serf_wire \w", "serf_wire -", text, flags=re.M), "the verdict of serf_wire in "),
    ):
        write(path, other)
        status, output = release(top, none)
        count.check(f"refused with {what}", status == 3 and error in output, (status, output))
    write(path, text)


def recorded_verdicts(count):
    """What is recorded of the output of `rt ci`: the last line of a proof, and of a kept proof the line that an earlier run recorded
    for the same sources."""
    said = (
        "logic=proved tests=2\nlogic=proved functions=7\nrt: one proved\nrt: must-fail two/a: refused, as it must be\n"
        "rt: two is kept: an earlier run on this machine proved the same files\nlogic=proved functions=9\nnot this\nrt: three proved\n"
        "rt: four is kept: an earlier run on this machine proved the same files\n"
    )
    before = {"two": ("h2", "logic=proved functions=8"), "four": ("other", "logic=proved functions=1")}
    found = verdicts.found_in(said, lambda name: {"one": "h1", "two": "h2", "three": "h3", "four": "h4"}[name], before)
    wanted = {
        "one": ("h1", "logic=proved functions=7"),
        "two": ("h2", "logic=proved functions=8"),
        "three": ("h3", "logic=proved functions=9"),
        "four": ("h4", verdicts.KEPT),
    }
    count.check("the verdicts in the output of rt ci", found == wanted, found)


def key(root):
    """A key to sign with, and the file of its signer."""
    path, signers = os.path.join(root, "key"), os.path.join(root, "signers")
    subprocess.run(["ssh-keygen", "-q", "-t", "ed25519", "-N", "", "-f", path], check=True)
    write(signers, f"releases@host.example {checks.text_of(f'{path}.pub')}")
    return path, signers


def twice_the_same(count, top, root, own_key):
    for name in ("one", "two"):
        status, output = release(top, os.path.join(root, name), "--key", own_key)
        count.check(f"release {name}", status == 0, output)
    names = sorted(os.listdir(os.path.join(root, "one")))
    wheels = [name for name in names if name.endswith(".whl")]
    count.check(
        "its files", names == sorted([f"{NAME}.tar.gz", PACKAGE, SDIST, BILL, SUMS, f"{SUMS}.sig", *wheels]) and len(wheels) == 1, names
    )
    for name in names:
        same = filecmp.cmp(os.path.join(root, "one", name), os.path.join(root, "two", name), shallow=False)
        count.check(f"{name}: twice the same bytes", same)
    result = subprocess.run(["sha256sum", "-c", "--quiet", SUMS], cwd=os.path.join(root, "one"), capture_output=True, text=True)
    listed = {line.split()[1] for line in checks.text_of(root, "one", SUMS).splitlines()}
    count.check("the sum of each file", result.returncode == 0 and listed == set(names) - {SUMS, f"{SUMS}.sig"}, (result, listed))


def verified(count, top, root, signers):
    """--verify passes, and fails after a changed byte of each file, a missing file, a file more, and another signature."""
    one, copy = os.path.join(root, "one"), os.path.join(root, "copy")
    status, output = run_release(top, "--verify", one, "--signers", signers)
    count.check("--verify", (status, output) == (0, "the release is right\n"), output)

    def changed(what, change, error, more=("--signers", signers)):
        shutil.rmtree(copy, ignore_errors=True)
        shutil.copytree(one, copy)
        change()
        status, output = run_release(top, "--verify", copy, *more)
        count.check(f"--verify: {what}", status == 1 and re.search(error, output), (status, output))

    for name in sorted(os.listdir(one)):
        error = {SUMS: "is no signature of|is not in|is missing", f"{SUMS}.sig": "is by no key of|is no signature of"}.get(
            name, "has another sum than"
        )
        changed(f"a changed byte of {name}", lambda name=name: flip(os.path.join(copy, name)), error)
    changed("a missing file", lambda: os.remove(os.path.join(copy, PACKAGE)), f"{PACKAGE} is missing")
    changed("a file more", lambda: write(os.path.join(copy, "more"), "more"), "more is not in SHA256SUMS")
    changed("no signature", lambda: os.remove(os.path.join(copy, f"{SUMS}.sig")), "SHA256SUMS.sig is missing")
    changed("another file with its own sum", lambda: replace_with_sum(copy, PACKAGE, b"another"), "is no signature of")
    unsigned = f"^not checked: the signature, without --signers\n{re.escape(PACKAGE)} is not what this clone makes\n{SUMS} is not"
    changed("another file, without signers", lambda: replace_with_sum(copy, PACKAGE, b"another"), unsigned, ())
    changed(
        "another file in the archive",
        lambda: replace_with_sum(copy, f"{NAME}.tar.gz", with_more(os.path.join(one, f"{NAME}.tar.gz"))),
        "more is not in SHA256SUMS",
    )
    write(f"{signers}.other", "other@host.example " + checks.text_of(root, "other.pub"))
    status, output = run_release(top, "--verify", one, "--signers", f"{signers}.other")
    count.check("--verify: another signer", status == 1 and "is by no key of" in output, (status, output))
    unreadable(count, top, root, one)


def unreadable(count, top, root, one):
    """What --verify refuses to read, and what it leaves out without a green gate."""
    empty = os.path.join(root, "empty")
    os.makedirs(empty)
    for what, words, error in (
        ("an empty folder", ["--verify", empty], "has no SHA256SUMS"),
        ("no folder", ["--verify", os.path.join(root, "nowhere")], "No such file or directory"),
        ("no signers", ["--verify", one, "--signers", os.path.join(root, "nowhere")], "there is no file of signers at "),
        ("no key", ["--key", os.path.join(root, "nowhere"), empty], "there is no key at "),
    ):
        status, output = run_release(top, *words)
        count.check(f"refused: {what}", status == 3 and error in output, (status, output))
    for words in (["--verify", one, "more"], ["--signers", one], ["one", "two"], ["--none"]):
        status, output = run_release(top, *words)
        count.check(f"refused: the command line {' '.join(words[:1])}", status == 2 and output.startswith("usage: "), (status, output))
    os.remove(green.mark_path(top))
    status, output = run_release(top, "--verify", one)
    count.check(
        "--verify without a green gate",
        status == 0 and "not checked: the same bytes again: ./test has not passed here" in output,
        (status, output),
    )
    green.record_green(top, green.state(top))


def flip(path):
    """Changes a byte in the middle of a file."""
    with open(path, "r+b") as file:
        file.seek(os.path.getsize(path) // 2)
        byte = file.read(1)
        file.seek(-1, os.SEEK_CUR)
        file.write(bytes([byte[0] ^ 1]))


def with_more(path):
    """The bytes of an archive with one more file."""
    packed = io.BytesIO()
    with tarfile.open(path) as old, tarfile.open(fileobj=packed, mode="w:gz") as new:
        for member in old:
            new.addfile(member, old.extractfile(member))
        new.addfile(tarfile.TarInfo(f"{NAME}/more"))
    return packed.getvalue()


def bill(count, top, root):
    """The bill of materials names each file with its sum, the toolchain, and what the agent is linked with."""
    read = json.loads(checks.text_of(root, "one", BILL))
    packages = {it["name"]: it for it in read["packages"]}
    count.check(
        "the bill is SPDX 2.3",
        (read["spdxVersion"], read["dataLicense"], read["SPDXID"]) == ("SPDX-2.3", "CC0-1.0", "SPDXRef-DOCUMENT"),
        read,
    )
    sums = dict(reversed(line.split("  ")) for line in checks.text_of(root, "one", SUMS).splitlines())
    for name, digest in sums.items():
        if name != BILL:
            count.check(
                f"the bill has {name}",
                packages[name]["checksums"] == [{"algorithm": "SHA256", "checksumValue": digest}],
                packages.get(name),
            )
    for name in (
        "rattle-toolchain",
        "rattle-crate-thiserror",
        "golang-github-hashicorp-memberlist-dev",
        "golang-github-hashicorp-serf-dev",
    ):
        count.check(f"the bill has {name}", name in packages, sorted(packages))
    owned = packages["golang-github-hashicorp-memberlist-dev"]
    count.check("its licence", owned["licenseDeclared"] == "MPL-2.0", owned)
    contained = {(it["spdxElementId"], it["relatedSpdxElement"]) for it in read["relationships"] if it["relationshipType"] == "CONTAINS"}
    wheel, packed = (next(it["SPDXID"] for name, it in packages.items() if name.endswith(ending)) for ending in (".whl", "-linux.tar.gz"))
    for name, is_in_wheel in (
        ("rattle-crate-thiserror", True),
        ("rattle-crate-clap", False),
        ("golang-github-hashicorp-memberlist-dev", False),
    ):
        count.check(f"the archive contains {name}", (packed, packages[name]["SPDXID"]) in contained)
        count.check(f"the wheel contains {name}: {is_in_wheel}", ((wheel, packages[name]["SPDXID"]) in contained) == is_in_wheel)
    names = [it["SPDXID"] for it in read["packages"]]
    known = {"SPDXRef-DOCUMENT", *names}
    related = {it[end] for it in read["relationships"] for end in ("spdxElementId", "relatedSpdxElement")}
    count.check("each relation is between two of them", len(set(names)) == len(names) and related <= known, related - known)
    commit = green.git(top, "rev-parse", "HEAD")
    count.check(
        "its namespace has the commit",
        read["documentNamespace"] == f"{publisher.values()['repository']}/spdx/{VERSION}/{commit}",
        read["documentNamespace"],
    )


def packed_agent(count, root):
    """The package has the archive's program, which prints its version."""
    unpacked, built = os.path.join(root, "package"), os.path.join(root, "unpacked", NAME, "bin", "kitchenrue-agent")
    result = subprocess.run(["dpkg-deb", "-x", os.path.join(root, "one", PACKAGE), unpacked], capture_output=True, text=True)
    count.check("the package can be unpacked", result.returncode == 0, result.stderr)
    own = os.path.join(unpacked, "usr", "bin", "kitchenrue-agent")
    count.check("its program is the archive's", os.access(own, os.X_OK) and filecmp.cmp(own, built, shallow=False))
    said = subprocess.run([built, "-version"], capture_output=True, text=True)
    count.check("it prints its version", said.returncode == 0 and said.stdout.startswith(f"kitchenrue-agent {VERSION}\n"), said)


def unpacked(count, root):
    with tarfile.open(os.path.join(root, "one", f"{NAME}.tar.gz")) as tar:
        tar.extractall(os.path.join(root, "unpacked"), filter="data")
    top = os.path.join(root, "unpacked", NAME)
    checked = subprocess.run(["sha256sum", "-c", "--quiet", "SHA256SUMS"], cwd=top, capture_output=True, text=True)
    count.check("each file's hash", checked.returncode == 0, checked.stdout + checked.stderr)
    for path in (
        "README.md",
        "LICENSE",
        "VERSION",
        "bin/serf-replay",
        "bin/kitchenrue-agent",
        "lib/libserf_agent_c.a",
        "docs/COMMANDS.md",
        "docs/serf-replay.1",
        "examples/README.md",
        "include/serf_agent.h",
        "bindings/c/example.c",
        "install",
        "agent/build",
        "agent/package/Containerfile",
        "conformance/python/agent.py",
        "lib/libserf_agent.a",
        "lib/libserf_agent.so",
        "docs/serf_agent.3",
        "bindings/rust/sys/native/libserf_agent_c.a",
        "bindings/rust/sys/native/serf_agent.h",
        "bindings/rust/sys/build/main.rs",
        "bindings/rust/LICENSE",
        "bindings/go/serf/LICENSE",
        "bindings/go/drop_in",
        "bindings/go/serfagent/libserf_agent_c.a",
        "bindings/python/LICENSE",
        "PUBLISHER",
        "VERDICTS",
        SDIST,
        "crates/serf_agent/CALLING.md",
        "crates/serf_window/specs/Window.antt",
    ):
        count.check(f"it has {path}", os.path.isfile(os.path.join(top, path)))
    result = subprocess.run([os.path.join(top, "bin", "serf-replay"), "--version"], capture_output=True, text=True)
    count.check("the program runs", result.stdout == f"serf-replay {VERSION}\n", result)
    made = subprocess.run(["make", "-n", "-C", os.path.join(top, "bindings", "c")], capture_output=True, text=True)
    count.check(
        "the binding in C uses its library",
        made.returncode == 0 and "../../lib/libserf_agent_c.a" in made.stdout,
        made,
    )
    wheels = [name for name in os.listdir(top) if name.endswith(".whl")]
    count.check("it has Python's wheel", len(wheels) == 1, wheels)


def for_two_processors(count, top, root):
    """If the library was made for aarch64 from the current sources, the release has it, its packages, and the sources for a stock clang
    with the digests of what clang-16 makes of them."""
    lacks = [name for name in ("aarch64-linux-gnu-gcc", "qemu-aarch64", digests.CLANG) if shutil.which(name) is None]
    if lacks:
        print(f"not run: a release for aarch64, since {' and '.join(lacks)} is not on PATH")
        return
    out = os.path.join(top, "crates", "serf_agent_c", "out")
    sources = subprocess.run(
        [sys.executable, "-c", "import targets; print(targets.of_sources(), end='')"],
        cwd=os.path.join(top, "tools"),
        check=True,
        stdout=subprocess.PIPE,
        text=True,
    ).stdout
    for target, compiler in (("x86_64", "cc"), ("aarch64", "aarch64-linux-gnu-gcc")):
        compile_library(os.path.join(out, target, "libserf_agent_c.a"), compiler)
        for name, text in (
            ("serf_agent_c.ll", f"define i32 @of_{target}() {{ ret i32 1 }}\n"),
            ("flags", "-O3\n"),
            ("verdict", f"logic=proved target={target}\n"),
            ("sources", sources),
        ):
            write(os.path.join(out, target, name), text)
    status, said = release(top, os.path.join(root, "both"))
    count.check("a release for two processors", status == 0, said)
    names = os.listdir(os.path.join(root, "both"))
    count.check(
        "its packages for aarch64",
        f"kitchenrue-agent_{VERSION}_arm64.deb" in names and any(name.endswith("_aarch64.whl") for name in names),
        names,
    )
    said = subprocess.run(
        ["dpkg-deb", "-f", os.path.join(root, "both", f"kitchenrue-agent_{VERSION}_arm64.deb"), "Architecture"],
        capture_output=True,
        text=True,
    )
    count.check("the package's architecture", said.stdout == "arm64\n", said)
    with tarfile.open(os.path.join(root, "both", SDIST)) as tar:
        inside = tar.getnames()
    count.check(
        "the source package has both libraries",
        {f"serf_agent-{VERSION}/native/{name}libserf_agent_c.a" for name in ("", "aarch64/")} <= set(inside),
        inside,
    )
    with tarfile.open(os.path.join(root, "both", f"{NAME}.tar.gz")) as tar:
        inside = {name.partition("/")[2] for name in tar.getnames()}
    for path in (
        *(
            "lib/aarch64/libserf_agent_c.a",
            "bindings/rust/sys/native/aarch64/libserf_agent_c.a",
            "bindings/go/serfagent/libserf_agent_c_arm64.a",
        ),
        *(
            f"{place}/{target}/{name}"
            for place in ("bindings/source", "bindings/rust/sys/source")
            for target in ("x86_64", "aarch64")
            for name in ("serf_agent_c.ll", "flags", "verdict", "digests")
        ),
        *("bindings/source/build", "bindings/source/README.md"),
    ):
        count.check(f"the archive has {path}", path in inside)
    objects.compared(count, top, root)
    write(os.path.join(out, "aarch64", "sources"), "others")
    status, said = release(top, os.path.join(root, "one more"))
    found = sorted(os.listdir(os.path.join(root, "one more")))
    count.check(
        "without aarch64, if it is of other sources",
        status == 0 and not any("arm64" in name or "aarch64" in name for name in found),
        (said, found),
    )


def archives(count):
    recorded_verdicts(count)
    with tempfile.TemporaryDirectory(prefix="release-") as root:
        top = clone(root)
        refused(count, top, root)
        unmade(count, top, root)
        lacks = [name for name in ("go", "dpkg-deb") if shutil.which(name) is None]
        if lacks:
            print(f"not run: what a release contains, since {lacks[0]} is not on PATH")
            return
        another_version(count, top, root)
        other_proofs(count, top, root)
        own_key, signers = key(root)
        subprocess.run(["ssh-keygen", "-q", "-t", "ed25519", "-N", "", "-f", os.path.join(root, "other")], check=True)
        twice_the_same(count, top, root, own_key)
        unpacked(count, root)
        verified(count, top, root, signers)
        bill(count, top, root)
        packed_agent(count, root)
        for_two_processors(count, top, root)


if __name__ == "__main__":
    sys.exit(checks.run(archives))
