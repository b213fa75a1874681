"""beside_serf.py: prints what the same calls cost in Serf's own code, from Debian's sources, in its own package: a figure per line.

It needs Go and Debian's golang-github-hashicorp-serf-dev, or the sources in SERF_GOPATH. If they are missing, it prints that.
"""

import os
import shutil
import subprocess
import sys
import tempfile

HERE = os.path.dirname(os.path.abspath(__file__))
SOURCES = os.environ.get("SERF_GOPATH", "/usr/share/gocode")
SERF = os.path.join("src", "github.com", "hashicorp", "serf")


def main():
    if shutil.which("go") is None or not os.path.isdir(os.path.join(SOURCES, SERF)):
        print(f"Serf's figures: not run, because go or {os.path.join(SOURCES, SERF)} isn't there")
        return 0
    with tempfile.TemporaryDirectory(prefix="beside-serf-") as folder:
        package = os.path.join(folder, SERF, "serf")
        shutil.copytree(os.path.join(SOURCES, SERF), os.path.join(folder, SERF), ignore=shutil.ignore_patterns("*_test.go"))
        shutil.copy(os.path.join(HERE, "beside_serf", "figures_test.go"), package)
        env = dict(os.environ, GO111MODULE="off", GOPATH=f"{folder}:{SOURCES}")
        ran = subprocess.run(
            ["go", "test", "-v", "-count=1", "-run", "TestFigures", "."],
            cwd=package,
            env=env,
            stdin=subprocess.DEVNULL,
            capture_output=True,
            text=True,
        )
        if ran.returncode:
            sys.exit(f"beside_serf.py: {(ran.stdout + ran.stderr)[-1500:]}")
        print("".join(line + "\n" for line in ran.stdout.split("\n") if line.startswith("serf: ")), end="")
    return 0


if __name__ == "__main__":
    sys.exit(main())
