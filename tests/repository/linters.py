"""What formatters and linters find in bindings, tools and tests: rustfmt, clang-format, clippy, gofmt, go vet, staticcheck, pyflakes, mypy,
shellcheck and eslint. A linter that isn't installed is reported as not run (tools/packages installs those that are small).

tests/repository/linters.rows has the maximum number of findings of each linter that may have some. It may only fall.
"""

import json
import os
import re
import shutil
import subprocess
import sys
import tempfile

sys.dont_write_bytecode = True
sys.path.insert(0, os.path.dirname(os.path.dirname(os.path.abspath(__file__))))
import checks
import pages
from checks import TOP
import c_library

sys.path.insert(0, os.path.join(TOP, "tests", "library", "packages"))
import host_lines

ROWS = os.path.join("tests", "repository", "linters.rows")

# Another version of clang-format formats differently.
CLANG_FORMAT = "version 14."

# Notes of shellcheck that are no error here: `a && b || fail` fails if a or b does, and `${Package}` is dpkg-query's own word.
LEFT_OUT = "SC2015,SC2016"

# The rules that the scripts of pages have to keep.
IN_SCRIPTS = dict.fromkeys(
    (
        *(
            "no-unused-vars",
            "no-undef",
            "no-shadow",
            "no-redeclare",
            "no-unreachable",
            "no-dupe-keys",
            "no-fallthrough",
            "no-var",
            "prefer-const",
        ),
        *("eqeqeq", "no-eval", "no-implied-eval", "no-new-func", "no-script-url", "no-loop-func", "no-return-assign", "no-throw-literal"),
    ),
    "error",
)

# The folder in which Debian has Go's packages, and the folders of ours that are checked with them, under the paths of their imports.
GO_CODE = "/usr/share/gocode"
IN_GO = (
    *("agent", "bindings/go/guard", "bindings/go/serf", "bindings/go/serfagent", "bindings/go/example", "bindings/go/beside_serf"),
    *(
        "bindings/go/burst_driver",
        "bindings/go/starved_driver",
        "bindings/go/store_driver",
        "tests/library/simulation",
        "tests/library/rpc_client",
    ),
)


def files(ending, word, *folders):
    """The files below these folders, by their paths from the top, whose names end with this, or whose first line has a word."""
    found = []
    for folder in folders or (".",):
        for at, inner, names in os.walk(os.path.join(TOP, folder)):
            inner[:] = [name for name in inner if name not in pages.SKIPPED and (not name.startswith(".") or name == ".ci")]
            for name in names:
                path = os.path.join(at, name)
                if name.endswith(ending) or word and "." not in name and re.match(rf"#!.*\b{word}\b", first_line(path)):
                    found.append(os.path.relpath(path, TOP))
    return sorted(found)


def first_line(path):
    with open(path, "rb") as file:
        return file.readline(80).decode("utf-8", "replace")


def lines_of(form, words, folder=TOP, env=None):
    """The lines of this form that a linter prints, or its whole text if it fails without any."""
    result = subprocess.run(
        words, cwd=folder, env=env, stdin=subprocess.DEVNULL, stdout=subprocess.PIPE, stderr=subprocess.STDOUT, text=True
    )
    found = [line for line in result.stdout.splitlines() if re.search(form, line)]
    return found or ([result.stdout] if result.returncode else [])


class Lacks(Exception):
    """Something that a linter needs and this machine doesn't have."""


def tool(*names):
    """The first of these programs that is installed."""
    for name in names:
        if shutil.which(name):
            return name
    raise Lacks(f"{names[0]} is not installed")


def rust(paths, folder=TOP):
    """The files that `cargo fmt` would change."""
    return lines_of(r"\.rs$", [tool("rustfmt"), "--check", "-l", "--edition", "2021", *paths], folder)


def c(paths, folder=TOP):
    name = tool("clang-format", "clang-format-14")
    said = subprocess.run([name, "--version"], stdout=subprocess.PIPE, text=True).stdout
    if CLANG_FORMAT not in said:
        raise Lacks(f"clang-format {CLANG_FORMAT.removeprefix('version ')} is not installed")
    return lines_of(r": (?:error|warning): ", [name, "--dry-run", "-Werror", *paths], folder)


def gofmt(paths, folder=TOP):
    return lines_of(r"\.go$", [tool("gofmt"), "-l", *paths], folder)


def in_go(form, words, folders):
    """The lines that a linter of Go prints about packages, which are linked into the folders that their imports name."""
    needed = ("memberlist", "go-msgpack", "serf/coordinate")
    missing = [path for path in needed if not os.path.isdir(f"{GO_CODE}/src/github.com/hashicorp/{path}")]
    if missing:
        raise Lacks(f"the Go package {missing[0]} is not installed")
    with tempfile.TemporaryDirectory(prefix="linters-") as root:
        own = os.path.join(root, "src", "kitchenrue.example")
        for folder in folders:
            shutil.copytree(os.path.join(TOP, folder), os.path.join(own, os.path.basename(folder)), symlinks=True)
        return lines_of(form, [*words, "kitchenrue.example/..."], own, c_library.go_env(root, GO_CODE))


def vet(folders):
    return in_go(r"\.go:\d+:\d+: ", [tool("go"), "vet"], folders)


def staticcheck(folders):
    return in_go(r"\.go:\d+:\d+: ", [tool("staticcheck")], folders)


def pyflakes(paths, folder=TOP):
    return lines_of(r"^\S+:\d+:\d+:? ", [tool("pyflakes3", "pyflakes"), *paths], folder)


def mypy(paths, folder, *more):
    """What mypy finds. It doesn't follow the scripts that a file calls, or those of a folder that it adds to the path."""
    return lines_of(
        r": error: ", [tool("mypy"), "--cache-dir", os.devnull, "--ignore-missing-imports", *more, *paths], os.path.join(TOP, folder)
    )


def strict_mypy(paths, folder):
    """What `mypy --strict` finds, for the oldest Python that the package supports."""
    return mypy(paths, folder, "--strict", "--python-version", "3.8")


def typed_hosts(_paths, folder):
    """What `mypy --strict` finds in typed hosts over the package: the test's, and the one with HOST's lines."""
    tool("mypy")
    with tempfile.TemporaryDirectory(prefix="linters-") as root:
        os.symlink(os.path.join(TOP, "bindings", "python", "serf_agent"), os.path.join(root, "serf_agent"))
        shutil.copy(os.path.join(TOP, folder, "typed_host.py"), root)
        with open(os.path.join(root, "lines.py"), "w", encoding="utf-8") as made:
            made.write(host_lines.program("python"))
        return strict_mypy(["typed_host.py", "lines.py"], root)


def clippy(paths, folder=TOP):
    """What clippy finds in the crates of these folders. It links nothing, so a file that only has the library's name is enough."""
    tool("cargo-clippy")
    found = []
    for path in paths:
        with tempfile.TemporaryDirectory(prefix="linters-") as root:
            library = os.path.join(root, "libserf_agent_c.a")
            with open(library, "wb"):
                pass
            env = {**os.environ, "SERF_AGENT_LIBRARY": library, "CARGO_TARGET_DIR": os.path.join(root, "target")}
            words = [tool("cargo"), "clippy", "-q", "--offline", "--all-targets", "--message-format", "short"]
            found += lines_of(r"^\S+:\d+:\d+: ", words, os.path.join(folder, path), env)
    return found


def shellcheck(paths, folder=TOP):
    return lines_of(r"^\S+:\d+:\d+: ", [tool("shellcheck"), "-f", "gcc", "-e", LEFT_OUT, *paths], folder)


def eslint(paths, folder=TOP):
    """What eslint finds, by its own rules for errors and a few more. It needs no settings of the repository's."""
    words = [
        tool("eslint"),
        "-f",
        "unix",
        "--no-eslintrc",
        "--env",
        "browser,es2020",
        "--parser-options",
        "ecmaVersion:2020",
        "--rule",
        json.dumps(IN_SCRIPTS),
    ]
    # Debian's eslint finds its parts there, whichever program `node` is
    parts = {**os.environ, "NODE_PATH": "/usr/share/nodejs:/usr/lib/nodejs"}
    return lines_of(r":\d+:\d+: ", [*words, *paths], folder, parts)


def rows():
    lines = [line for line in checks.text_of(ROWS).splitlines() if line.strip() and not line.startswith("#")]
    return {name.strip(): int(number) for number, name in (line.split(None, 1) for line in lines)}


def wrong_number(name, found, maximum):
    """What is wrong with the number of findings of a linter, or None."""
    if len(found) <= maximum.get(name, 0):
        return None
    return f"{len(found)} findings, and {maximum.get(name, 0)} are allowed:\n" + "\n".join(found)


def linters(count):
    python = files(".py", "python3")
    maximum, ran = rows(), set()
    for name, linter, words in (
        ("rustfmt", rust, [files(".rs", None, "bindings/rust")]),
        ("clippy", clippy, [[os.path.join("bindings", "rust"), os.path.join("bindings", "rust", "sys")]]),
        ("clang-format", c, [files((".c", ".h"), None, "bindings/c", "include")]),
        ("gofmt", gofmt, [files(".go", None)]),
        ("go vet", vet, [IN_GO]),
        ("staticcheck", staticcheck, [IN_GO]),
        ("pyflakes", pyflakes, [python]),
        ("mypy --strict of bindings/python", strict_mypy, [["serf_agent"], os.path.join("bindings", "python")]),
        ("mypy --strict of hosts in Python", typed_hosts, [[], os.path.join("tests", "library", "embed")]),
        ("mypy of tools", mypy, [[os.path.relpath(path, "tools") for path in files(".py", None, "tools")], "tools"]),
        ("shellcheck", shellcheck, [files(".sh", "(?:ba|da)?sh")]),
        ("eslint", eslint, [files(".js", None, "examples")]),
    ):
        ran.add(name)
        try:
            found = linter(*words)
        except Lacks as lacking:
            print(f"not run: {name}, since {lacking}")
            continue
        error = wrong_number(name, found, maximum)
        count.check(name, error is None, error)
        if len(found) < maximum.get(name, 0):
            print(f"{name}: {len(found)} findings are left of {maximum[name]}: lower its row in {ROWS}")
    count.check("each row is of a linter", maximum.keys() <= ran, maximum.keys() - ran)


# For each linter a file with one finding, and what it is in a file without one.
PLANTED = (
    ("rustfmt", rust, "a.rs", "fn main() {}\n", "fn main() { }\n"),
    ("clang-format", c, "a.c", "int main(void) {\n    return 0;\n}\n", "int main(void) {\n  return 0;\n}\n"),
    ("gofmt", gofmt, "a.go", "package a\n\nvar b = 1\n", "package a\n\nvar b  = 1\n"),
    ("pyflakes", pyflakes, "a.py", "import os\n\nprint(os.sep)\n", "import os\n"),
    ("mypy", mypy, "a.py", "a: int = 1\n", "a: int = ''\n"),
    ("mypy --strict", strict_mypy, "a.py", "def a(b: int) -> int:\n    return b\n", "def a(b):\n    return b\n"),
    ("shellcheck", shellcheck, "a.sh", '#!/bin/sh\necho "$1"\n', "#!/bin/sh\necho $1\n"),
    ("eslint", eslint, "a.js", '"use strict";\ndocument.title = "a";\n', '"use strict";\nconst a = 1;\n'),
)


def planted_in_go(count, root):
    """A package of Go with a word too few, as `go vet` finds it, and one without."""
    folder = os.path.join(root, "planted")
    os.mkdir(folder)
    for words, number in (("%d\\n\", 1", 0), ("%d\\n\"", 1)):
        with open(os.path.join(folder, "a.go"), "w", encoding="utf-8") as made:
            made.write(f'package planted\n\nimport "fmt"\n\nfunc A() {{\n\tfmt.Printf("{words})\n}}\n')
        try:
            found = vet([folder])
        except Lacks as lacking:
            print(f"not run: what go vet finds in a planted package, since {lacking}")
            return
        count.check(f"planted: go vet, {number} findings", len(found) == number, found)


def planted_in_rust(count, root):
    """A crate with something that clippy finds, and one without."""
    crate = os.path.join(root, "crate")
    os.makedirs(os.path.join(crate, "src"))
    with open(os.path.join(crate, "Cargo.toml"), "w", encoding="utf-8") as made:
        made.write('[package]\nname = "planted"\nversion = "0.1.0"\nedition = "2021"\n')
    for words, number in (("a", 0), ("a.clone()", 1)):
        with open(os.path.join(crate, "src", "lib.rs"), "w", encoding="utf-8") as made:
            made.write(f"pub fn same(a: u8) -> u8 {{\n    {words}\n}}\n")
        try:
            found = clippy(["crate"], root)
        except Lacks as lacking:
            print(f"not run: what clippy finds in a planted crate, since {lacking}")
            return
        count.check(f"planted: clippy, {number} findings", len(found) == number, found)


def planted(count):
    with tempfile.TemporaryDirectory(prefix="linters-") as root:
        planted_in_go(count, root)
        planted_in_rust(count, root)
    with tempfile.TemporaryDirectory(prefix="linters-") as folder:
        for name in (".clang-format", "bindings/rust/rustfmt.toml"):
            shutil.copy(os.path.join(TOP, name), folder)
        for name, linter, file, well, ill in PLANTED:
            path = os.path.join(folder, file)
            for text, number in ((well, 0), (ill, 1)):
                with open(path, "w", encoding="utf-8") as made:
                    made.write(text)
                try:
                    found = linter([path], folder)
                except Lacks as lacking:
                    print(f"not run: what {name} finds in a planted file, since {lacking}")
                    break
                count.check(f"planted: {name}, {number} findings", len(found) == number, found)
    count.check("planted: as many findings as are allowed", wrong_number("mypy", ["a"], {"mypy": 1}) is None)
    count.check("planted: one finding more", wrong_number("mypy", ["a", "b"], {"mypy": 1}))
    count.check("planted: a linter without a row", wrong_number("gofmt", ["a"], {"mypy": 1}))
    ill = [sys.executable, "-c", "import sys; sys.exit('an error')"]
    count.check("planted: a linter that ends with another error", lines_of("no such line", ill))
    found = files(".py", "python3", "tools") + files(".sh", "(?:ba|da)?sh", ".ci", "tools")
    wanted = {"tools/gate.py", "tools/packages", "tools/sources", ".ci/run"}
    count.check("planted: which files are scripts", wanted <= set(found) and "tools/gate.rows" not in found, found)


if __name__ == "__main__":
    sys.exit(checks.run(linters, planted))
