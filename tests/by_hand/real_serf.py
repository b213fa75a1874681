"""By hand, since it needs Go and Serf's sources: Serf's own code (conformance/serf), compared with the reference.

    tests/by_hand/real_serf.py [SEEDS]

Serf's package and conformance/serf are compiled together, by `go` and the sources of Debian's packages
golang-github-hashicorp-serf-dev and golang-github-hashicorp-memberlist-dev, or those in SERF_GOPATH. Each example is compared, and
a row of tests/rows with limits of packets, then the random schedules of SEEDS (1-2000 if left out), an equal share of each
kind but `kept`, most of whose agents keep their events, which Serf has no setting for; and then schedules of each kind that
`random --rules serf` generates. All are compared by Serf's rules. It prints each report, and fails if one has a disagreement, or
if too many compare nothing.
"""

import glob
import os
import shutil
import subprocess
import sys
import tempfile

sys.dont_write_bytecode = True
sys.path.insert(0, os.path.dirname(os.path.dirname(os.path.abspath(__file__))))
import checks
import piped_agents
from checks import KINDS, TOP

SOURCES = os.environ.get("SERF_GOPATH", "/usr/share/gocode")

# What `conform` reports if each agent answered `unsupported` to its first call.
HOLLOW = "no call but open was compared"

# At most one in so many runs may compare nothing but `open`.
HOLLOW_SHARE = 20

# How many schedules of each kind that keep to Serf's rules are compared.
COMMON_SEEDS = 10

SERF = os.path.join("src", "github.com", "hashicorp", "serf")


def build(folder):
    """Compiles Serf with its agent on the pipe, and returns the program's path."""
    package = os.path.join(folder, SERF, "serf")
    shutil.copytree(os.path.join(SOURCES, SERF), os.path.join(folder, SERF), ignore=shutil.ignore_patterns("*_test.go"))
    ours = os.path.join(TOP, "conformance", "serf")
    shutil.copy(os.path.join(ours, "agent.go"), os.path.join(package, "pipe_agent.go"))
    shutil.copytree(os.path.join(ours, "program"), os.path.join(folder, "src", "serf_pipe"))
    program = os.path.join(folder, "serf_pipe")
    paths = dict(os.environ, GO111MODULE="off", GOPATH=folder + ":" + SOURCES)
    subprocess.run(["go", "build", "-o", program, "serf_pipe"], cwd=folder, env=paths, check=True)
    return program


def main(words):
    first, _, last = (words[0] if words else "1-2000").partition("-")
    first, last = int(first), int(last or first)
    with tempfile.TemporaryDirectory(prefix="serf-") as folder:
        agent = [build(folder)]
        asked = [[path] for path in sorted(glob.glob(os.path.join(TOP, "examples", "*.schedule")))]
        asked.append([os.path.join(checks.ROWS, "packet_limits.schedule")])
        kinds = [kind for kind in KINDS if kind != "kept"]
        share = -(-(last + 1 - first) // len(kinds))
        for number, kind in enumerate(kinds):
            begin = first + number * share
            end = min(begin + share - 1, last)
            if begin <= end:
                asked.append(["--random", f"{begin}-{end}", "--kind", kind])
        for kind in KINDS:
            for seed in range(first, first + COMMON_SEEDS):
                path = os.path.join(folder, f"{kind}_{seed}.schedule")
                with open(path, "wb") as file:
                    subprocess.run([checks.COMMAND, "random", str(seed), "--kind", kind, "--rules", "serf"], check=True, stdout=file)
                asked.append([path])
        failed = hollow = 0
        for words in asked:
            status, report = piped_agents.compare([*words, "--rules", "serf"], agent, checks.COMMAND)
            print(" ".join(words) + ":\n" + report, end="", flush=True)
            # (a short schedule may begin with a packet that Serf's codec can't read, so that nothing else is compared)
            hollow += status != 0 and HOLLOW in report
            failed += status != 0 and HOLLOW not in report
    print(f"{len(asked) - failed - hollow} passed, {hollow} compared nothing but `open`, {failed} failed")
    return 1 if failed or hollow * HOLLOW_SHARE > len(asked) else 0


if __name__ == "__main__":
    sys.exit(main(sys.argv[1:]))
