"""What the gate prints about its own time: how long it will take, how many jobs prove a crate, and when it took too long. It
also checks which script runs a second time after it failed.

The crates, the page's rows and the run of `rt ci` are stand-ins.
"""

import contextlib
import io
import os
import sys
from types import SimpleNamespace

sys.dont_write_bytecode = True
sys.path.insert(0, os.path.dirname(os.path.dirname(os.path.abspath(__file__))))
import checks
import gate
import machine

# The rows of a page: the minimum number of checks, and processor seconds.
ROWS = {
    gate.PROOFS: [4, 180],
    gate.EDITS: [1, 20],
    gate.MUTANTS: [9, 60],
    gate.SCRIPTS: [None, 40],
    "serf_pack": [None, 10],
    "serf_wire": [None, 40],
    "serf_snapshot": [None, 20],
    "serf_high": [None, 80],
    "serf_aside": [None, 50],
}


def crate(name, *below):
    """A crate over others; it has to come after those that it uses."""
    return SimpleNamespace(name=name, folder=name, below=lambda: [*below])


def cluster():
    """Three crates, each above the one before, the last of which the page doesn't name, and one that is separate."""
    wire = crate("serf_wire")
    high = crate("serf_high", wire)
    return [wire, high, crate("serf_new", wire, high), crate("serf_aside")]


def no_page():
    raise FileNotFoundError


def costs(count):
    found = gate.chain_costs(cluster())
    wanted = {"serf_new": gate.UNKNOWN, "serf_high": 80 + gate.UNKNOWN, "serf_wire": 120 + gate.UNKNOWN, "serf_aside": 50}
    count.check("a crate's cost, with the most expensive chain that waits for it", found == wanted, found)
    gate.rows = no_page
    found = gate.chain_costs(cluster())
    gate.rows = lambda: ROWS
    count.check("without a page, by how many crates wait", found["serf_wire"] == 3 * gate.UNKNOWN, found)


def too_long(count):
    cold, kept = (
        "rt: serf_wire proved\nrt: serf_high proved\n",
        "rt: serf_pack is kept: an earlier run on this machine proved the same files\n",
    )
    for name, said, seconds, processors, is_fault in (
        ("a cold gate in its time", cold, gate.LONGEST, 2, False),
        ("a cold gate that took longer", cold, gate.LONGEST + 1, 2, True),
        ("on more processors too", cold, gate.LONGEST + 1, 8, True),
        ("one processor has no limit", cold, gate.LONGEST + 1, 1, False),
        ("a gate that kept something has no limit", cold + kept, gate.LONGEST + 1, 2, False),
        ("a gate that proved nothing has no limit", "", gate.LONGEST + 1, 2, False),
    ):
        fault = gate.too_long(said, seconds, processors)
        count.check(name, (fault is not None) == is_fault, fault)


def lanes(count):
    machine.processors = lambda: 64
    count.check("five side by side at most", machine.lanes(1) == 5, machine.lanes(1))
    count.check("one if there is little memory", machine.lanes(1 << 60) == 1, machine.lanes(1 << 60))
    machine.processors = lambda: 2
    count.check("no more than there are processors", machine.lanes(1) == 2, machine.lanes(1))


def jobs_of(script):
    """The command of `rt ci`, and how many jobs it gets."""
    calls = []

    class Part(gate.Part):
        def run(self, words, env=None):
            calls.append((words[-1], (env or {}).get("RT_JOBS")))
            self.failed = 1

    own, gate.Part = gate.Part, Part
    try:
        script.run_ci(CRATES_OF_CI)
    finally:
        gate.Part = own
    return calls


# The crates that a run of `rt ci` checks before it begins.
CRATES_OF_CI = [SimpleNamespace(name="serf_agent_c", folder=os.path.join(checks.TOP, "crates", "no_crate"), below=lambda: [])]


def one_job(count):
    script = checks.gate_script()
    script.tool = lambda *words: ""
    script.c_library.CRATE = CRATES_OF_CI[0].folder
    os.environ.pop("RT_JOBS", None)
    found = jobs_of(script)
    count.check("as many crates side by side as there are lanes, one job each", found == [("ci", str(machine.lanes(script.ROOM)))], found)
    os.environ["RT_JOBS"] = "7"
    count.check("the caller's number of jobs is kept", jobs_of(script) == [("ci", "7")])


def said_first(count):
    script = checks.gate_script()
    with contextlib.redirect_stdout(io.StringIO()) as said:
        script.say_first(cluster())
    count.check(
        "it prints first how long it took elsewhere",
        " 5 processor minutes " in said.getvalue() and "4 crates" in said.getvalue(),
        said.getvalue(),
    )


def whole(count):
    """The whole script fails if its run took too long."""
    script = checks.gate_script()
    part = gate.Part("rt ci")
    part.output, part.passed = "rt: serf_wire proved\n", 1
    script.run_ci, script.run_scripts = lambda crates: part, lambda *_: []
    script.say_first = script.show_costs = lambda *_: None
    script.too_few, script.green.state, script.green.record_green = lambda parts: [], lambda top: "a state", lambda *_: None
    script.machine.processors = lambda: 2
    for longest, failed in ((gate.LONGEST, 0), (-1, 1)):
        gate.LONGEST = longest
        with contextlib.redirect_stdout(io.StringIO()):
            found = script.whole(False)
        count.check(f"of {longest} seconds at most, {failed} failed", found == (1, failed), found)


# Scripts of which the first waits by the clock, and the last tries something new in each run.
AGENT, CLIENT, CLUSTER = SCRIPTS = ["tests/library/agent.py", "tests/library/rpc_client.py", "tests/library/kept_cluster.py"]


def runs_of(failing):
    """Runs the three scripts. `failing` says how many runs of each script fail before one passes. Returns how often each ran, how many
    failed at the end, and what the gate prints about second runs."""
    script = checks.gate_script()
    runs = dict.fromkeys(SCRIPTS, 0)

    def run_script(name, *_):
        runs[name] += 1
        part = gate.Part(name)
        if runs[name] <= failing.get(name, 0):
            part.failed, part.output = 1, "FAILED TestSlow: too late\n0 passed, 1 failed\n"
        return part

    script.run_script = run_script
    with contextlib.redirect_stdout(io.StringIO()):
        parts = script.run_scripts(SCRIPTS, {})
    assert [part.name for part in parts] == SCRIPTS
    return [*runs.values()], sum(part.failed for part in parts), script.ran_twice(parts)


def second_runs(count):
    said = [f"ran twice: {AGENT} failed next to other scripts: TestSlow"]
    for name, failing, wanted in (
        ("no script failed", {}, ([1, 1, 1], 0, [])),
        ("a script failed once", {AGENT: 1}, ([2, 1, 1], 0, said)),
        ("a script failed twice", {AGENT: 2}, ([2, 1, 1], 1, said)),
        ("two scripts failed", {AGENT: 1, CLIENT: 1}, ([1, 1, 1], 2, [])),
        ("a script that tries something new failed", {CLUSTER: 1}, ([1, 1, 1], 1, [])),
        ("such a script failed as well", {AGENT: 1, CLUSTER: 1}, ([2, 1, 1], 1, said)),
    ):
        found = runs_of(failing)
        count.check(name, found == wanted, found)


def of_the_time(count):
    gate.rows = lambda: ROWS
    for part in (costs, too_long, lanes, one_job, said_first, whole, second_runs):
        part(count)


if __name__ == "__main__":
    sys.exit(checks.run(of_the_time))
