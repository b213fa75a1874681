"""The packages of a release's archive, each by its language's own tool: from an empty folder, without the network, by a user
who isn't root and can't write to the archive.

    tests/library/packages.py [--library FILE] [--program FILE] [--only PART] [--over-ci]

Each part has a line such as `python: N passed, M failed` or `go: not run, since go is not on PATH`. --library and --program
take others than those that the gate built. --over-ci builds the library over those that `rt ci` left, as the gate does.
"""

import argparse
import filecmp
import glob
import importlib.machinery
import importlib.util
import os
import re
import shutil
import sys
import tempfile
import time

sys.dont_write_bytecode = True
sys.path.insert(0, os.path.dirname(os.path.dirname(os.path.abspath(__file__))))
import checks
from checks import TOP
import c_library
import manual_of_header
import rust_of_header

HERE = os.path.join(TOP, "tests", "library", "packages")
sys.path.insert(0, HERE)
import host_lines
from in_go import in_go
from in_rust import in_rust
from in_source import in_source
from users import AS_USER, ELSEWHERE, OFF_LINE, NotRun, as_shown, by_user, write_given, refused, well, write

BINDINGS = os.path.join(TOP, "bindings")

# Copies of files in the bindings' own folders, and the originals.
COPIES = {
    "go/serfagent/serf_agent.h": "../include/serf_agent.h", "go/serfagent/serf_agent_heap.c": "c/serf_agent_heap.c",
    "rust/LICENSE": "../LICENSE", "rust/sys/LICENSE": "../LICENSE", "python/LICENSE": "../LICENSE",
    **{f"go/{module}LICENSE": "../LICENSE" for module in ("", "guard/", "serf/", "serfagent/", "beside_serf/")},
}


class NoAgent:
    """A stand-in for the agent's package if it can't be built."""

    program = b"#!/bin/sh\nexit 3\n"

    def __init__(self, library):
        pass


class Archive:
    """A release's archive, unpacked in a place in which users can't write, and the user's own folders."""

    def __init__(self, root, library, program):
        self.root, self.top = root, os.path.join(root, "archive")
        os.mkdir(os.path.join(root, "cache"), 0o777)
        os.chmod(os.path.join(root, "cache"), 0o777)
        spec = importlib.util.spec_from_loader("release", importlib.machinery.SourceFileLoader("release", os.path.join(TOP, "release")))
        release = importlib.util.module_from_spec(spec)
        spec.loader.exec_module(release)
        release.BUILT = {"bin/serf-replay": program, "lib/libserf_agent_c.a": library}
        lacks = [name for name in ("go", "dpkg-deb") if shutil.which(name) is None]
        if lacks:
            print(f"not run: the archive's kitchenrue-agent, since {lacks[0]} is not on PATH")
            release.Package = NoAgent
        for path, text, is_run in release.contents()[0]:
            whole = os.path.join(self.top, path)
            os.makedirs(os.path.dirname(whole), exist_ok=True)
            with open(whole, "wb") as file:
                file.write(text)
            os.chmod(whole, 0o555 if is_run else 0o444)
        self.wheel = glob.glob(os.path.join(self.top, f"*_{os.uname().machine}.whl"))[0]
        self.sdist = glob.glob(os.path.join(self.top, "serf_agent-*.tar.gz"))[0]
        with open(os.path.join(BINDINGS, "example.out"), encoding="utf-8") as file:
            self.example = file.read()

    def path(self, *parts):
        return os.path.join(self.top, *parts)

    def home(self):
        """A new and empty folder of the user's."""
        path = tempfile.mkdtemp(prefix="home-", dir=self.root)
        if AS_USER:
            os.chown(path, 65534, 65534)
        return path

    def home_of(self, home, name):
        """A new folder in a folder of the user's."""
        path = os.path.join(home, name)
        by_user(home, "mkdir", path)
        return path

    def copy(self, home, *parts):
        """A copy of a folder of the archive that is the user's own."""
        to = os.path.join(home, os.path.basename(parts[-1]))
        by_user(home, "cp", "-r", "--no-preserve=mode", self.path(*parts), to)
        return to


def aged(path, to):
    """A copy of a library or a program that needs a future C library, as today's one does on an old system."""
    with open(path, "rb") as file:
        text = file.read()
    newest = max(re.findall(rb"GLIBC_2\.(\d\d)\0", text), key=int)
    return write(to, text.replace(b"GLIBC_2." + newest + b"\0", b"GLIBC_2.99\0"))


def foreign(path, to):
    """A copy of a library that says that it is for another processor."""
    with open(path, "rb") as file:
        text = file.read()
    return write(to, text[:18] + (b"\xb7" if text[18:19] == b"\x3e" else b"\x3e") + text[19:])


def files(count, archive):
    """Copies are the same as their originals, the manual page is the header's, and all have one version."""
    for copy, of in COPIES.items():
        count.check(
            f"bindings/{copy} is a copy of bindings/{of}",
            filecmp.cmp(os.path.join(BINDINGS, copy), os.path.join(BINDINGS, of), shallow=False),
        )
    count.check("docs/serf_agent.3 is the header's: tools/manual_of_header.py writes it", manual_of_header.main(["--check"]) == 0)
    count.check(
        "the declarations of serf-agent-sys are the header's: tools/rust_of_header.py writes them", rust_of_header.main(["--check"]) == 0
    )
    if shutil.which("groff"):
        well(
            count, "groff reads the page", c_library.ran(["bash", "-c", f"groff -man -Tutf8 -ww {TOP}/docs/serf_agent.3 2>&1 >/dev/null"]),
            "",
        )
    else:
        print("not run: groff on docs/serf_agent.3, since it is not on PATH")


def in_c(count, archive):
    """make install, and hosts that use pkg-config, CMake and the static library."""
    home = archive.home()
    make = ["make", "-s", "-C", archive.path("bindings", "c")]
    prefix, source = os.path.join(home, "prefix"), archive.path("bindings", "c", "example.c")
    if not well(count, "make install, without a compiler", by_user(home, *make, "install", f"PREFIX={prefix}", "CC=none"), ""):
        return
    shared = os.path.join(prefix, "lib", "libserf_agent.so")
    exported = re.findall(r" T (\w+)$", c_library.ran(["nm", "-D", "--defined-only", shared])[1], re.M)
    count.check(
        "it exports only the agent's calls", len(exported) > 30 and all(name.startswith("serf_agent_") for name in exported), exported
    )
    held = re.findall(
        r" [A-Z] (\w+)$", c_library.ran(["nm", "-g", "--defined-only", os.path.join(prefix, "lib", "libserf_agent.a")])[1], re.M
    )
    count.check("so does the static library", sorted(held) == sorted(exported), held)
    number = re.search(r"^#define SERF_AGENT_VERSION (\d+)$", checks.text_of("include/serf_agent.h"), re.M)[1]
    count.check("its SONAME", f"libserf_agent.so.{number}\n" in c_library.ran(["objdump", "-p", shared])[1])
    count.check("its page", os.path.isfile(os.path.join(prefix, "share", "man", "man3", "serf_agent.3")))
    run = os.path.join(home, "example")
    static = ["cc", "-I", os.path.join(prefix, "include"), "-o", run, source, os.path.join(prefix, "lib", "libserf_agent.a")]
    if well(count, "a host over the static library", by_user(home, *static), ""):
        well(count, "the example over the static library", by_user(home, run, archive.home_of(home, "static")), archive.example)
    lines = archive.home_of(home, "lines")
    write_given(lines, "host.c", host_lines.program("c"))
    static[-3:] = ["-Wall", "-Wextra", "-Werror", "-o", "host", "host.c", static[-1]]
    if well(count, "HOST's lines in C", by_user(lines, *static, home=home), ""):
        well(count, "what they print", by_user(lines, "./host", home=home), host_lines.SAYS)
    by_tools(count, archive, home, prefix, source)
    clone = archive.copy(home, "bindings", "c")
    make = ["make", "-s", "-C", clone, f"TOP={archive.top}", f"OUT={home}/out"]
    refused(count, "no compiler", by_user(home, *make, "CC=none"), "there is no C compiler none on PATH")
    refused(count, "no library", by_user(home, *make, "LIBRARY=/none"), "the agent's library isn't there")
    refused(count, "a folder that can't be written", by_user(home, *make, "install", "PREFIX=/proc/none"), "/proc/none can't be written")
    refused(
        count, "another machine", by_user(home, *ELSEWHERE, *make, "install", f"PREFIX={prefix}"),
        "for Linux on x86_64, but this system is Linux i686",
    )


def by_tools(count, archive, home, prefix, source):
    """Hosts that use pkg-config and CMake."""
    found = {"PKG_CONFIG_PATH": os.path.join(prefix, "lib", "pkgconfig"), "LD_LIBRARY_PATH": os.path.join(prefix, "lib")}
    if shutil.which("pkg-config"):
        line = f"cc -o by_pkg_config {source} $(pkg-config --cflags --libs serf_agent)"
        if well(count, "a host by pkg-config", by_user(home, "sh", "-ec", line, **found), ""):
            well(
                count, "the example by pkg-config", by_user(home, "./by_pkg_config", archive.home_of(home, "pkg"), **found), archive.example
            )
    else:
        print("not run: pkg-config, which is not on PATH")
    if not shutil.which("cmake"):
        print("not run: CMake, which is not on PATH")
        return
    shutil.copy(os.path.join(HERE, "CMakeLists.txt"), home)
    words = ["cmake", "-S", ".", "-B", "build", f"-DCMAKE_PREFIX_PATH={prefix}", f"-DSOURCE={source}"]
    if well(count, "CMake finds it", by_user(home, *words)) and well(count, "CMake builds", by_user(home, "cmake", "--build", "build")):
        for name in ("shared", "static"):
            well(
                count, f"the example by CMake, {name}", by_user(home, f"build/{name}", archive.home_of(home, f"cmake_{name}")),
                archive.example,
            )


def in_python(count, archive):
    """The wheel, installed into an environment of the user's; and a wheel built from the sources."""
    home, python = archive.home(), os.path.realpath(sys.executable)
    if not well(count, "an environment", by_user(home, python, "-m", "venv", "own")):
        return
    python = os.path.join(home, "own", "bin", "python")
    own = {"PATH": f"{os.path.dirname(python)}:{os.environ['PATH']}", "PIP_NO_INDEX": "1"}
    for shown in as_shown("python"):
        # (the first command installs the wheel)
        answer = by_user(archive.top, "sh", "-ec", shown.text, home=home, **own)
        if not well(count, shown.name(), answer, None if shown.text.startswith("pip ") else archive.example):
            return
    well(count, "python -m serf_agent FOLDER", by_user(home, python, "-m", "serf_agent", archive.home_of(home, "kept")), archive.example)
    lines = archive.home_of(home, "lines")
    write_given(lines, "host.py", host_lines.program("python"))
    well(count, "HOST's lines in Python", by_user(lines, python, "host.py", home=home), host_lines.SAYS)
    said = by_user(home, python, os.path.join(HERE, "typed.py"))
    well(count, "every method is typed, and the version is the package's", said, "")
    built = archive.home_of(home, "wheels")
    well(
        count, "pip builds the wheel",
        by_user(home, python, "-m", "pip", "wheel", "--no-index", "-w", built, archive.path("bindings", "python")),
    )
    wheels = glob.glob(os.path.join(built, "*.whl"))
    count.check("it is the archive's, byte by byte", len(wheels) == 1 and filecmp.cmp(wheels[0], archive.wheel, shallow=False), wheels)
    described(count, home, python)
    refused(
        count, "no library in Python", by_user(home, python, "-m", "serf_agent", SERF_AGENT_LIBRARY="/none"),
        "^serf_agent: the library can't be loaded: /none: ",
    )
    refused(
        count, "a folder that isn't there", by_user(home, python, "-m", "serf_agent", "/none"),
        "^/none/alpha.snapshot: No such file or directory$",
    )
    refused(
        count, "another machine in Python", by_user(home, *ELSEWHERE, python, "-m", "serf_agent"),
        "^serf_agent: the library is for Linux on x86-64 or aarch64, and this system is Linux on i686: install it in a machine or a container of that kind$",
    )
    old = aged(archive.path("lib", "libserf_agent.so"), os.path.join(home, "libserf_agent.so"))
    refused(
        count, "an old C library in Python", by_user(home, python, "-m", "serf_agent", SERF_AGENT_LIBRARY=old),
        "is older than the one that it was linked with: install the source package, ",
    )
    other = foreign(archive.path("lib", "libserf_agent.so"), os.path.join(home, "foreign.so"))
    refused(
        count, "another processor's library in Python", by_user(home, python, "-m", "serf_agent", SERF_AGENT_LIBRARY=other),
        r"; it is for \w+, and this processor is \w+: install the wheel that ends with _\w+\.whl$",
    )
    builder = [python, archive.path("bindings", "python", "build_wheel.py"), home]
    well(count, "a wheel for a newer C library", by_user(home, *builder, SERF_AGENT_LIBRARY=old))
    (new,) = glob.glob(os.path.join(home, "*manylinux_2_99*.whl"))
    refused(
        count, "pip on an old C library", by_user(home, python, "-m", "pip", "install", "--no-index", new),
        "is not a supported wheel on this platform",
    )
    refused(
        count, "a wheel without a library", by_user(home, *builder, SERF_AGENT_LIBRARY="/none"),
        "^serf_agent: there is no shared library at /none",
    )
    refused(
        count, "a wheel of another machine", by_user(home, *builder, SERF_AGENT_LIBRARY=archive.path("README.md")),
        "is no shared library for Linux on x86-64 or aarch64",
    )
    from_sources(count, archive, home)


def described(count, home, python):
    """What the installed wheel has about itself."""
    said = by_user(
        home, python, "-c",
        "import importlib.metadata as m; d = m.distribution('serf_agent'); print(d.metadata); print(d.read_text('LICENSE'))",
    )[1]
    wanted = (
        "Classifier: Typing :: Typed\n", "Classifier: License :: OSI Approved :: Apache Software License\n", "License-File: LICENSE\n",
        "Project-URL: Repository, https://", "Apache License\n",
    )
    count.check("the wheel has its classifiers and its licence", all(word in said for word in wanted), said[:1500])


def from_sources(count, archive, home):
    """The source package, which pip builds with a C compiler into an environment of the user's."""
    python = os.path.join(home, "built", "bin", "python")
    if not well(count, "another environment", by_user(home, os.path.realpath(sys.executable), "-m", "venv", "built")):
        return
    install = [python, "-m", "pip", "install", "--no-index", archive.sdist]
    refused(
        count, "the source package without a compiler", by_user(home, *install, CC="none"),
        "serf_agent: there is no C compiler none on PATH: install one",
    )
    refused(
        count, "the source package on another machine", by_user(home, *ELSEWHERE, *install),
        "serf_agent: the library is for Linux on x86-64 or aarch64, and this system is Linux on i686",
    )
    if well(count, "pip installs the source package", by_user(home, *install)):
        well(
            count, "the example over it", by_user(home, python, "-m", "serf_agent", archive.home_of(home, "from_sources")), archive.example
        )
    unpacked = archive.home_of(home, "unpacked")
    by_user(unpacked, "tar", "xzf", archive.sdist, "--strip-components=1")
    again = by_user(unpacked, python, "build_wheel.py", "--sdist", home)
    well(count, "a source package makes itself again", again)
    count.check(
        "it is the same, byte by byte", filecmp.cmp(archive.sdist, os.path.join(home, os.path.basename(archive.sdist)), shallow=False)
    )
    by_user(unpacked, "rm", "native/libserf_agent_c.a")
    refused(
        count, "a source package without the library", by_user(unpacked, python, "build_wheel.py", "--sdist", home),
        "^serf_agent: there is no libserf_agent_c.a at ",
    )


def installed(count, archive):
    """The installer: the program, its page, its completions and the library."""
    home = archive.home()
    prefix = os.path.join(home, "local")
    answer = by_user(home, archive.path("install"), prefix)
    well(count, "install", answer)
    places = [
        "bin/serf-replay", "share/man/man1/serf-replay.1", "share/man/man3/serf_agent.3", "share/bash-completion/completions/serf-replay",
    ]
    places += [
        "share/zsh/site-functions/_serf-replay", "share/fish/vendor_completions.d/serf-replay.fish", "include/serf_agent.h",
        "lib/libserf_agent.so",
    ]
    for path in places:
        count.check(f"install: {path}", os.path.isfile(os.path.join(prefix, path)))
    schedule, trace = (archive.path("examples", f"deploy_gossiped_twice.{ending}") for ending in ("schedule", "trace"))
    with open(trace, encoding="utf-8") as file:
        well(
            count, "the program that was installed", by_user(home, os.path.join(prefix, "bin", "serf-replay"), "replay", schedule),
            file.read(),
        )
    refused(
        count, "an installation on another machine", by_user(home, *ELSEWHERE, archive.path("install"), prefix),
        '^install: the program is for Linux on x86-64, but this system is Linux i686; docs/START.md, "On aarch64", says what runs there$',
    )
    refused(
        count, "an installation into a folder that nobody may write", by_user(home, archive.path("install"), "/proc/none"),
        "^install: /proc/none can't be written; name another folder$",
    )
    refused(count, "an installation without a folder", by_user(home, archive.path("install")), r"^usage: \./install PREFIX")
    refused(
        count, "an installation of a clone", by_user(home, os.path.join(TOP, "install"), prefix) if os.access(TOP, os.X_OK) else (1, ""),
        "^install: this folder isn't a release",
    )
    without_make(count, archive, home)
    copy = archive.copy(home, "install")
    os.makedirs(os.path.join(home, "bin"))
    aged_program(archive, os.path.join(home, "bin", "serf-replay"))
    refused(
        count, "a program on an old C library", by_user(home, "sh", copy, prefix),
        "^install: the C library of this system is older than the one that the program was linked with; install on Debian 12 or ",
    )


def without_make(count, archive, home):
    """It only calls what every system has: no make, no compiler."""
    few, prefix = archive.home_of(home, "few"), os.path.join(home, "without_make")
    for name in ("sh", "dirname", "uname", "mkdir", "install", "sed", "ln", "od"):
        by_user(home, "ln", "-s", shutil.which(name), few)
    answer = by_user(home, "env", f"PATH={few}", archive.path("install"), prefix)
    well(count, "an installation without make", answer)
    count.check("it has the library", os.path.isfile(os.path.join(prefix, "lib", "libserf_agent.so")), answer[1])


def page(count, archive):
    """docs/START.md, part by part, exactly as shown: the commands of its blocks, and after `#` what they print."""
    with open(os.path.join(TOP, "docs", "START.md"), encoding="utf-8") as file:
        parts = dict(re.findall(r"^## (.+?)\n(.*?)(?=^## |\Z)", file.read(), re.M | re.S))
    home = archive.home()
    name = re.search(r"(serf-replay-\S+)\.tar\.gz", parts["The archive"])[1]
    by_user(
        home, "sh", "-ec",
        f"cp -r {archive.top} {name}; chmod -R u+w {name}; tar czf {name}.tar.gz {name}; sha256sum {name}.tar.gz >SHA256SUMS; rm -r {name}",
    )
    needs = {"Rust": "cargo", "Go": "go"}
    for title in [title for title, text in parts.items() if re.search(r"^ {4}", text, re.M)]:
        if title in needs and shutil.which(needs[title]) is None:
            print(f"not run: {title} in docs/START.md, since {needs[title]} is not on PATH")
            continue
        script = "".join(line[4:] + "\n" if line.startswith("    ") else "\n" for line in parts[title].split("\n"))
        wanted = re.findall(r"^[^#\n]*\S  # (.*)$", re.sub(r"<<'END'\n.*?^END$", "", script, flags=re.M | re.S), re.M)
        more = {
            "PATH": f"{os.path.dirname(os.path.realpath(sys.executable))}:{os.environ['PATH']}", "GOFLAGS": "-mod=mod", "GOPROXY": "off",
            "GOCACHE": os.path.join(archive.root, "cache"),
        }
        began = time.monotonic()
        status, output = by_user(home, "sh", "-ec", script, **more)
        at = -1
        for line in wanted:
            at = output.find(line + "\n", at + 1)
            count.check(f"{title}: it prints {line!r}", at >= 0, output[-1500:])
        count.check(f"{title}: the commands on the page", status == 0, f"{status}: {output[-1500:]}")
        print(f"docs/START.md, {title}: {time.monotonic() - began:.1f} seconds")


def aged_program(archive, to):
    """The program as it is on an old system: it needs a newer C library. If it isn't linked with one, a stand-in prints that error."""
    try:
        aged(archive.path("bin", "serf-replay"), to)
    except ValueError:
        write(to, "#!/bin/sh\necho \"serf-replay: version \\`GLIBC_2.99' not found\" >&2\nexit 1\n")


PARTS = {
    "files": files, "c": in_c, "python": in_python, "rust": in_rust, "source": in_source, "go": in_go, "install": installed, "page": page,
}


def run(total, name, part, archive):
    count = checks.Checks()
    try:
        part(count, archive)
        print(f"{name}: {count.passed} passed, {count.failed} failed", flush=True)
    except NotRun as why:
        print(f"{name}: not run, since {why}", flush=True)
    total.add(count.passed, count.failed)


def main():
    parser = argparse.ArgumentParser(description=__doc__, formatter_class=argparse.RawDescriptionHelpFormatter)
    parser.add_argument("--library")
    parser.add_argument("--program", default=os.path.join(TOP, "crates", "serf_replay_program", "out", "serf_replay_program"))
    parser.add_argument("--only", choices=PARTS)
    parser.add_argument("--over-ci", action="store_true")
    options = parser.parse_args()
    fault = None if options.library else c_library.fault_of_library(options.over_ci)
    if fault:
        print(f"{fault}\n0 passed, 1 failed")
        return 1
    if not OFF_LINE:
        print("not run: without a network, since this user can't make a space without one; the tools are only configured to use none")
    total, root = checks.Checks(), tempfile.mkdtemp(prefix="packages-")
    os.chmod(root, 0o755)
    try:
        archive = Archive(root, os.path.abspath(options.library or c_library.LIBRARY), os.path.abspath(options.program))
        for name, part in PARTS.items():
            if options.only in (None, name):
                run(total, name, part, archive)
    finally:
        shutil.rmtree(root, ignore_errors=True)
    return total.finish()


if __name__ == "__main__":
    sys.exit(main())
