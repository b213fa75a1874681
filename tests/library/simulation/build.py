"""Builds the simulation: copies of the packages under test over simulated disks, with the wrong bodies, and the runtime in virtual time."""

import os
import re
import shutil
import subprocess
import sys

sys.path.insert(0, os.path.join(os.path.dirname(os.path.abspath(__file__)), "..", "power_cuts"))
import faults
import planted
import runtime_edits

import c_library

HERE = os.path.dirname(os.path.abspath(__file__))
BINDINGS = os.path.join(c_library.TOP, "bindings", "go")
GOCODE = os.environ.get("SERF_GOPATH", "/usr/share/gocode")

# The files of the packages that use a disk. In the copies they import the simulated packages in place of Go's own.
ON_DISK = ("serfagent/store.go", "serfagent/filler.go", "serfagent/files.go", "serf/snapshot.go", "serf/open_events.go")
SIMULATED = {"os": "os", "syscall": "syscall", "path/filepath": "filepath"}

PLANTED = "kitchenrue.example/simulation/planted"

# Limits that are smaller in the copies, so that short runs reach them, the clock of the day that jumps, and what records the times
# of intents.
OTHER = {
    "serf/join.go": [
        (
            "\tpacket, err := intent.Packet()\n",
            "\tplanted.RecordIntent(s.config.NodeName, intent.Node, intent.Time, intent.Leave)\n\tpacket, err := intent.Packet()\n",
        )
    ],
    "serfagent/filler.go": [("const fillerBytes = 64 << 10", "const fillerBytes = 1 << 10")],
    "serf/snapshot.go": [("const snapshotLimit = 128 << 10", "const snapshotLimit = 1 << 10")],
    "serf/pipe.go": [("const Waiting = 4096", "const Waiting = 128")],
    "serf/config.go": [("copied.timeOfDay = time.Now\n", "copied.timeOfDay = planted.TimeOfDay\n")],
}


def on_simulated_disks(folder):
    """Has the files that use a disk import the simulated packages."""
    for name in ON_DISK:
        path = os.path.join(folder, name)
        with open(path, encoding="utf-8") as file:
            text = file.read()
        for package, simulated in SIMULATED.items():
            text = text.replace(f'\t"{package}"\n', f'\t"kitchenrue.example/simulation/{simulated}"\n')
        with open(path, "w", encoding="utf-8") as file:
            file.write(text)


def importing_planted(folder):
    """Has each edited file that uses the package planted import it."""
    for at, _, names in os.walk(folder):
        for name in names:
            path = os.path.join(at, name)
            if not name.endswith(".go"):
                continue
            with open(path, encoding="utf-8") as file:
                text = file.read()
            if "planted." in text:
                with open(path, "w", encoding="utf-8") as file:
                    file.write(re.sub(r"^(package \w+)$", rf'\1\n\nimport "{PLANTED}"', text, count=1, flags=re.M))


def copy_sources(folder, library):
    """Copies the packages into a folder of Go's, and edits them. Returns that folder."""
    source = os.path.join(folder, "go", "src", "kitchenrue.example")
    for name in ("serf", "serfagent", "guard"):
        shutil.copytree(os.path.join(BINDINGS, name), os.path.join(source, name), ignore=shutil.ignore_patterns("*_test.go"))
    os.symlink(HERE, os.path.join(source, "simulation"))
    c_library.put_beside(os.path.join(source, "serfagent"), library)
    faults.edit(source, OTHER)
    for fault in planted.FAULTS.values():
        faults.edit(source, fault.edits)
    on_simulated_disks(source)
    for name in ("serf", "serfagent", "guard"):
        importing_planted(os.path.join(source, name))
    return os.path.join(folder, "go")


def build(folder, library):
    """Builds the program in a folder, and returns its path and what went wrong, or None."""
    overlay_folder = os.path.join(folder, "runtime")
    os.makedirs(overlay_folder)
    overlay = runtime_edits.write_overlay(overlay_folder)
    program = os.path.join(folder, "cluster")
    words = ["go", "build", "-overlay", overlay, "-tags", "faketime", "-o", program, "kitchenrue.example/simulation/cluster"]
    result = subprocess.run(
        words, env=c_library.go_env(copy_sources(folder, library), GOCODE), stdin=subprocess.DEVNULL, stdout=subprocess.PIPE,
        stderr=subprocess.STDOUT, text=True, errors="replace",
    )
    return program, result.stdout[-3000:] or "go build failed" if result.returncode else None
