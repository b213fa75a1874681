"""What the tests share that attest the records of nodes (`examples/records/attest.py`).

The files of a run are in one folder. Each recorded node has NAME.record there, and may have NAME.snapshot and a log of its handlers.
"""

import os
import subprocess
import sys
import tempfile

import checks

ATTEST = os.path.join(checks.EXAMPLES, "records", "attest.py")

sys.path.insert(0, os.path.join(checks.EXAMPLES, "records"))
from snapshot_texts import is_other


def recorded_nodes(folder):
    """The names of the nodes that have a record in a folder."""
    return checks.names_in(folder, ".record")


def attest(folder, log_ending=None, nodes=None, *words, snapshots=None, logs=None):
    """What attest.py says of the nodes of a folder, or of some of them: its status and its text. The log of a node's handlers is NAME and
    `log_ending`. `snapshots` and `logs` have the paths of other files than those in the folder, by node."""
    nodes = recorded_nodes(folder) if nodes is None else nodes

    def files(ending, others):
        places = {node: os.path.join(folder, node + ending) for node in nodes} if ending else {}
        return {node: path for node, path in {**places, **(others or {})}.items() if os.path.exists(path)}

    command = [sys.executable, ATTEST, "--program", checks.PROGRAM, *words]
    command += [word for path in files(log_ending, logs).values() for word in ("--handlers", path)]
    command += [word for node, path in files(".snapshot", snapshots).items() for word in ("--snapshot", f"{node}={path}")]
    result = subprocess.run([*command, *(os.path.join(folder, f"{node}.record") for node in nodes)], capture_output=True, text=True)
    return result.returncode, result.stdout + result.stderr


def check_attested(count, folder, log_ending=None, *words):
    """Checks that the nodes of a folder are attested, prints that, and checks that two changes of its files are refused. Without the
    program, it only prints that it did nothing."""
    if not os.path.exists(checks.PROGRAM):
        print(f"not run: attest.py, since {checks.PROGRAM} isn't built")
        return
    nodes = recorded_nodes(folder)
    status, output = attest(folder, log_ending, None, *words)
    count.check("the records are attested", status == 0 and output.startswith(f"attested: {len(nodes)} nodes, "), output)
    print(output, end="", flush=True)
    check_lost_line(count, folder, nodes)
    if log_ending:
        check_doubled_run(count, folder, log_ending, nodes)


def changed_lines(path, change):
    """The text of a file with a change of its lines, in a temporary file."""
    with open(path, "rb") as file:
        lines = file.read().splitlines(True)
    changed = tempfile.NamedTemporaryFile()
    changed.write(b"".join(change(lines)))
    changed.flush()
    return changed


def without_a_line(lines):
    """The lines of a snapshot without one that counts. (If the agent was killed before it recorded a call, the record doesn't say that the
    last of these lines was flushed.)"""
    own = [at for at, line in enumerate(lines) if line.endswith(b"\n") and not is_other(line[:-1])]
    at = own[-2:][0]
    return lines[:at] + lines[at + 1 :]


def check_lost_line(count, folder, nodes):
    """A node whose file lacks a line that was flushed is refused."""
    node = next(node for node in nodes if os.path.exists(os.path.join(folder, f"{node}.snapshot")))
    with changed_lines(os.path.join(folder, f"{node}.snapshot"), without_a_line) as changed:
        status, output = attest(folder, None, [node], snapshots={node: changed.name})
    named = f"the snapshot of {node} lost what was flushed before {changed.name} was read"
    count.check("a snapshot that lost a line is refused", status == 1 and named in output, output)


def check_doubled_run(count, folder, log_ending, nodes):
    """A node whose log has a run of a handler twice is refused."""
    node = next(node for node in nodes if b"event " in checks.read(folder, node + log_ending))
    with_doubled = lambda lines: lines + [line for line in lines if b"event " in line][:1]
    with changed_lines(os.path.join(folder, node + log_ending), with_doubled) as changed:
        status, output = attest(folder, None, [node], logs={node: changed.name})
    count.check("a handler that ran twice is refused", status == 1 and f": a handler of {node} ran again for the event" in output, output)
