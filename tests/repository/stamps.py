"""tools/stamp: when the proved program of a crate is current. It was built from these sources, by this toolchain, and hasn't
changed since.

The script makes the crate, its program and the toolchain's command.
"""

import os
import shutil
import subprocess
import sys
import tempfile

sys.dont_write_bytecode = True
sys.path.insert(0, os.path.dirname(os.path.dirname(os.path.abspath(__file__))))
import checks


class Repository:
    """A repository of one program with the tools of this one, next to its own toolchain."""

    def __init__(self, root):
        self.top, self.kit, self.bin = (os.path.join(root, name) for name in ("top", "kit", "bin"))
        self.source = os.path.join(self.top, "crates", "it", "src", "main.rt")
        self.program = os.path.join(self.top, "crates", "it", "out", "it")
        self.note = self.program + ".sources"
        self.what = os.path.join(self.kit, "WHAT")
        for path in (self.source, self.program, os.path.join(self.kit, "bin", "rt"), os.path.join(self.top, "tools", "x")):
            os.makedirs(os.path.dirname(path))
        for name in ("stamp", "sources"):
            shutil.copy(os.path.join(checks.TOP, "tools", name), os.path.join(self.top, "tools"))
        self.write(os.path.join(self.top, "crates.txt"), "it:\n")
        self.write(self.source, "one\n")
        self.command(self.program, "a program")
        self.version("a toolchain")
        # rt is called through a link, as after an installation
        os.mkdir(self.bin)
        os.symlink(os.path.join(self.kit, "bin", "rt"), os.path.join(self.bin, "rt"))

    @staticmethod
    def write(path, text):
        with open(path, "w", encoding="utf-8") as file:
            file.write(text)

    def command(self, path, says):
        self.write(path, f"#!/bin/sh\necho {says}\n")
        os.chmod(path, 0o755)

    def version(self, says):
        self.command(os.path.join(self.kit, "bin", "rt"), says)

    def stamp(self, verb, *more, has_rt=True):
        path = [self.bin] if has_rt else []
        env = {**os.environ, "PATH": os.pathsep.join([*path, "/usr/bin", "/bin"])}
        return subprocess.run([os.path.join(self.top, "tools", "stamp"), verb, "it", *more], env=env, capture_output=True).returncode

    def holds(self, **more):
        return self.stamp("holds", **more) == 0

    def keep(self, **more):
        """Stamps the program as built from the sources as they are."""
        sums = subprocess.run([os.path.join(self.top, "tools", "sources"), "it"], stdout=subprocess.PIPE, text=True, check=True)
        return self.stamp("keep", sums.stdout.strip(), **more)


def of_the_toolchain(count, repository):
    """The stamp has what the toolchain reports about itself: its file WHAT, or its version if it has no such file."""
    count.check("there is no stamp yet", not repository.holds())
    count.check("a build is stamped", repository.keep() == 0 and repository.holds())
    repository.version("a newer toolchain")
    count.check("another version", not repository.holds())
    repository.version("a toolchain")
    count.check("the first version again", repository.holds())
    repository.write(repository.what, "archive 1\n")
    count.check("a toolchain with another file WHAT", not repository.holds())
    count.check("a build by it is stamped", repository.keep() == 0 and repository.holds())
    repository.version("a newer toolchain")
    count.check("its version isn't read then", repository.holds())
    repository.write(repository.what, "archive 2\n")
    count.check("another text of WHAT", not repository.holds())
    count.check("without a toolchain on PATH, only the rest is compared", repository.holds(has_rt=False))
    repository.write(repository.what, "archive 1\n")
    count.check("the first text of WHAT again", repository.holds())


def of_the_build(count, repository):
    """The stamp also has the sources and the program."""
    text = checks.read(repository.note)
    repository.write(repository.note, " ".join(text.decode().split()[:2]) + "\n")
    count.check("a stamp that names no toolchain", not repository.holds())
    with open(repository.note, "wb") as file:
        file.write(text)
    repository.write(repository.source, "two\n")
    count.check("a changed source", not repository.holds())
    repository.write(repository.source, "one\n")
    repository.command(repository.program, "another program")
    count.check("another program in its place", not repository.holds())
    repository.command(repository.program, "a program")
    count.check("everything as it was built", repository.holds())
    count.check("a source that changed during the build", repository.stamp("keep", "0" * 64) == 1 and repository.holds())
    count.check("a dropped stamp doesn't hold", repository.stamp("drop") == 0 and not repository.holds())


def stamps(count):
    with tempfile.TemporaryDirectory(prefix="stamps-") as root:
        repository = Repository(root)
        of_the_toolchain(count, repository)
        of_the_build(count, repository)


if __name__ == "__main__":
    sys.exit(checks.run(stamps))
