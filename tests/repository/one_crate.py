"""`./test CRATE`: everything that it names for a crate exists, and it reports a check that fails.

Each crate of crates.txt has a row, and each script that a row names exists. Each script of tests/program and tests/library is in
the row of some crate, except those that test a whole node or a whole release. And tools/packages, which `./test` calls, prints
what it installs before it does so, or what is needed if it may not install it.
"""

import contextlib
import io
import os
import subprocess
import sys
import tempfile

sys.dont_write_bytecode = True
sys.path.insert(0, os.path.dirname(os.path.dirname(os.path.abspath(__file__))))
import checks
from checks import TOP, text_of
import one_crate

# The scripts that need more than the crates: a node in Go, an agent, a release.
OF_MORE = {
    f"tests/library/{name}.py"
    for name in (
        "agent",
        "attested",
        "beside_serf",
        "go_mutants",
        "kept_cluster",
        "packages",
        "rpc_client",
        "serf_package",
        "simulation",
        "snapshot_lives",
        "filler_stock_serf",
    )
}


def rows(count):
    crates = {line.split(":")[0].split()[0] for line in text_of("crates.txt").splitlines() if line and not line.startswith("#")}
    count.check("a row for each crate", crates == one_crate.SCRIPTS.keys(), crates ^ one_crate.SCRIPTS.keys())
    for crate, names in one_crate.SCRIPTS.items():
        missing = [name for name in (*one_crate.FORM, *names) if not os.path.isfile(os.path.join(TOP, name))]
        count.check(f"{crate}: its scripts exist", not missing, missing)
    named = {name for names in one_crate.SCRIPTS.values() for name in names}
    there = {
        f"tests/{folder}/{name}"
        for folder in ("program", "library")
        for name in os.listdir(os.path.join(TOP, "tests", folder))
        if name.endswith(".py")
    }
    count.check("each script has a crate", there - OF_MORE == named - {"tests/repository/one_run.py"}, there - OF_MORE ^ named)


def runs(count):
    """One of two commands fails, and a slow script is left out."""
    script = lambda words: [sys.executable, "-c", words]
    commands = [("well", script("pass"), TOP), ("ill", script("raise SystemExit(3)"), TOP)]
    own, one_crate.commands_of = one_crate.commands_of, lambda crate, is_slow: (commands, ["tests/slow.py"])
    with contextlib.redirect_stdout(io.StringIO()) as said:
        found = one_crate.run("serf_draw", None)
    one_crate.commands_of = own
    lines = said.getvalue().splitlines()
    count.check("one passed and one failed", found == (1, 1), found)
    count.check("what a crate has is printed first", lines[0] == "test: serf_draw has well, ill", lines)
    count.check("what failed is printed", "FAILED ill" in lines and "FAILED well" not in lines, lines)
    count.check("what is left out is printed", lines[-1].startswith("not run: tests/slow.py"), lines)
    commands, left = one_crate.commands_of("serf_store", lambda name: "power" in name)
    count.check("the check comes first", commands[0][1:] == (["rt", "check"], os.path.join(TOP, "crates", "serf_store")), commands)
    count.check("the wrong bodies come next", "wrong bodies" in commands[1][0], commands)
    count.check("a slow script is left out", left == ["tests/library/power_cuts.py"], left)
    result = subprocess.run([os.path.join(TOP, "test"), "serf_none"], capture_output=True, text=True)
    count.check("a crate that isn't there", result.returncode == 2 and "CRATE" in result.stderr, result)


def installs(count):
    """A machine without Go, whose apt-get is a stand-in that fails: for root, and for somebody else."""
    with tempfile.TemporaryDirectory(prefix="packages-") as folder:
        for user, said in (("0", "packages: installing with apt-get: golang-go "), ("1000", "packages: the tests need golang-go ")):
            for name, text in (("id", f"echo {user}"), ("apt-get", "exit 1")):
                path = os.path.join(folder, name)
                with open(path, "w", encoding="utf-8") as file:
                    file.write(f"#!/bin/sh\n{text}\n")
                os.chmod(path, 0o755)
            result = subprocess.run(
                ["/bin/bash", os.path.join(TOP, "tools", "packages")], env={"PATH": folder}, capture_output=True, text=True
            )
            count.check(f"what is installed for the user {user}", result.returncode == 1 and result.stderr.startswith(said), result)
        count.check("what could not be installed", "apt-get could not install golang-go" not in result.stderr, result)


if __name__ == "__main__":
    sys.exit(checks.run(rows, runs, installs))
