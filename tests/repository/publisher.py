"""tools/publisher.py: each of a publisher's values is in the file PUBLISHER, and a change of it reaches every file.

A copy of the repository gets other values. Then nothing of the old ones is left, the texts are the same except for them, and Go still
finds the modules, if it is installed.
"""

import os
import shutil
import subprocess
import sys
import tempfile

sys.dont_write_bytecode = True
sys.path.insert(0, os.path.dirname(os.path.dirname(os.path.abspath(__file__))))
import checks
import publisher
from checks import TOP

# (no value is in this file as a whole, or it would be replaced too)
HOST = "forge.test"
OTHERS = {
    "modules": f"{HOST}/us/kitchenrue/bindings/go",
    "repository": f"https://{HOST}/us/kitchenrue",
    "documentation": f"https://docs.{HOST}/serf_agent",
    "releases": f"https://{HOST}/us/kitchenrue/files",
    "maintainer": f"A. Publisher <us@{HOST}>",
}


def run_publisher(top, *words):
    result = subprocess.run(
        [sys.executable, os.path.join(top, "tools", "publisher.py"), *words], stdin=subprocess.DEVNULL, capture_output=True, text=True
    )
    return result.returncode, result.stdout, result.stderr


def copy_repository(root):
    """A copy of what is in the repository, as a repository."""
    top = os.path.join(root, "copy")
    for path in subprocess.run(
        ["git", "ls-files", "-z", "-co", "--exclude-standard"], cwd=TOP, check=True, stdout=subprocess.PIPE, text=True
    ).stdout.split("\0"):
        if path and os.path.isfile(os.path.join(TOP, path)):
            os.makedirs(os.path.dirname(os.path.join(top, path)), exist_ok=True)
            shutil.copy(os.path.join(TOP, path), os.path.join(top, path), follow_symlinks=False)
    for words in (["init", "-q"], ["add", "-A"]):
        subprocess.run(["git", *words], cwd=top, check=True)
    return top


def changed(count):
    with tempfile.TemporaryDirectory(prefix="publisher-") as root:
        top = copy_repository(root)
        old = publisher.values(top)
        count.check("PUBLISHER has each value", list(old) == list(publisher.FORMS), old)
        status, output, error = run_publisher(top, *(f"{name}={value}" for name, value in OTHERS.items()))
        count.check("other values are set", status == 0, error)
        count.check("PUBLISHER has them", publisher.values(top) == OTHERS, publisher.values(top))
        files = output.splitlines()
        for path in (
            "PUBLISHER",
            "bindings/rust/Cargo.toml",
            "bindings/python/pyproject.toml",
            "bindings/go/serfagent/go.mod",
            "agent/build",
            "README.md",
        ):
            count.check(f"{path} is changed", path in files, files)
        left = [path for path in publisher.committed(top) if old["modules"].encode() in checks.read(top, path)]
        count.check("nothing of the old values is left", not left, left)
        in_go(count, top)
        status, _, error = run_publisher(top, *(f"{name}={value}" for name, value in old.items()))
        other = [path for path in publisher.committed(top) if checks.read(top, path) != checks.read(path)]
        count.check("the old values make the same files again", status == 0 and not other, (error, other))


def in_go(count, top):
    """Go finds the modules by their new paths, and their sources are formatted."""
    if shutil.which("go") is None:
        print("not run: Go's modules with another path, since go is not on PATH")
        return
    env = {**os.environ, "GOFLAGS": "-mod=mod", "GOPROXY": "off", "GO111MODULE": "on"}
    result = subprocess.run(["go", "list", "./..."], cwd=os.path.join(top, "bindings", "go"), env=env, capture_output=True, text=True)
    names = result.stdout.split()
    count.check(
        "Go finds the programs", result.returncode == 0 and f"{OTHERS['modules']}/programs/example" in names, (names, result.stderr)
    )
    result = subprocess.run(["gofmt", "-l", "bindings/go", "agent"], cwd=top, capture_output=True, text=True)
    count.check("the sources in Go are formatted", (result.returncode, result.stdout) == (0, ""), result.stdout)


def refused(count):
    for word, error in (
        ("modules", "'modules' is not of the form NAME=VALUE"),
        ("module=forge.test", "there is no setting module: "),
        ("modules=https://forge.test", "modules can't be 'https://forge.test'"),
        ("repository=forge.test", "repository can't be "),
        ('maintainer=A "B" <a@b.test>', "maintainer can't be "),
    ):
        status, output, told = run_publisher(TOP, word)
        count.check(f"refused: {word}", (status, output) == (2, "") and error in told, (status, told))
    status, output, _ = run_publisher(TOP)
    count.check(
        "the values are printed",
        status == 0 and output == "".join(f"{name} {value}\n" for name, value in publisher.values().items()),
        output,
    )


if __name__ == "__main__":
    sys.exit(checks.run(changed, refused))
