"""The verdicts of the crates' proofs: for each crate a line with its name, a hash of its sources, and what `rt ci` printed last about it.

The gate writes the lines, and ./release puts them into the archive. A crate that `rt ci` doesn't prove again, because the same
machine has proved the same files before, keeps the verdict of that proof if this repository recorded it. Otherwise its line says that
the proof was kept.
"""

import os
import re
import subprocess

import gate

TOP = os.path.dirname(os.path.dirname(os.path.abspath(__file__)))
PATH = os.path.join("crates", "serf_replay_program", "out", "verdicts")

# A verdict, as Rattle prints it last when it has proved a crate or its tests.
VERDICT = re.compile(r"^logic=proved .*$", re.M)

HEAD = """\
# What the proofs of this release's crates ended with, one line for each crate: its name, the SHA-256 that tools/sources prints for its
# sources, and the last line of its check. `logic=proved` begins the line of a crate whose every function is proved.
"""
KEPT = "an earlier run on this machine proved the same files"


def hash_of_sources(top, crate):
    return subprocess.run([os.path.join(top, "tools", "sources"), crate], check=True, stdout=subprocess.PIPE, text=True).stdout.strip()


def read(top):
    """The recorded verdicts: the hash and the line of each crate."""
    try:
        with open(os.path.join(top, PATH), encoding="utf-8") as file:
            rows = [line.rstrip("\n").split(" ", 2) for line in file if line.strip() and not line.startswith("#")]
    except OSError:
        return {}
    return {name: (sources, verdict) for name, sources, verdict in rows}


def found_in(said, sources_of, before):
    """The hash and the line of each crate in what `rt ci` printed."""
    found, begin = {}, 0
    for end in gate.PROVED.finditer(said):
        name, sources = end[1], sources_of(end[1])
        verdicts = VERDICT.findall(said, begin, end.start())
        kept = before.get(name, (None, KEPT))
        if end[2] == "proved":
            found[name] = sources, verdicts[-1] if verdicts else "proved"
        else:
            found.setdefault(name, (sources, kept[1] if kept[0] == sources else KEPT))
        begin = end.end()
    return found


def text_of(toolchain, verdicts):
    return (
        HEAD + f"# The toolchain: {toolchain}\n" + "".join(f"{name} {sources} {verdict}\n" for name, (sources, verdict) in verdicts.items())
    )


def record(top, said):
    """Writes what `rt ci` printed about each crate."""
    toolchain = subprocess.run(["rt", "version"], stdout=subprocess.PIPE, text=True).stdout.strip()
    found = found_in(said, lambda name: hash_of_sources(top, name), read(top))
    path = os.path.join(top, PATH)
    os.makedirs(os.path.dirname(path), exist_ok=True)
    with open(path, "w", encoding="utf-8") as file:
        file.write(text_of(toolchain, found))


def crates(top):
    """The names of the repository's crates, in the order of crates.txt."""
    with open(os.path.join(top, "crates.txt"), encoding="utf-8") as file:
        return [re.match(r"\w+", line)[0] for line in file if re.match(r"\w", line)]


def fault(top):
    """Why the recorded verdicts aren't those of the current sources, or None."""
    found = read(top)
    for name in crates(top):
        if name not in found:
            return f"{PATH} has no verdict of {name}; ./test writes it"
        if found[name][0] != hash_of_sources(top, name):
            return f"the verdict of {name} in {PATH} is of other sources; ./test writes it"
    return None
