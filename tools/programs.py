"""The programs for the tests that run them: the proved ones, or, in `./test --quick`, the ones that are compiled unproved."""

import os
import subprocess

import unproved

TOP = os.path.dirname(os.path.dirname(os.path.abspath(__file__)))

# Set by `./test --quick`.
IS_UNPROVED = bool(os.environ.get("SERF_UNPROVED"))


def path_of(name):
    """The path of a program after it was built."""
    return os.path.join(TOP, "crates", name, "out", *(["unproved"] if IS_UNPROVED else []), name)


def fault_of_build(*names):
    """Builds these programs if they are not current. Returns what went wrong, or None."""
    if IS_UNPROVED:
        try:
            for name in names:
                unproved.built(name)
        except (unproved.Stopped, OSError) as why:
            return str(why)
        return None
    built = subprocess.run(
        [os.path.join(TOP, "prove"), *names],
        stdin=subprocess.DEVNULL,
        stdout=subprocess.PIPE,
        stderr=subprocess.STDOUT,
        text=True,
        errors="replace",
    )
    return built.stdout[-2000:] if built.returncode else None
