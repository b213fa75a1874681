"""Programs on the agent's RPC, over two stock agents and over two of `kitchenrue-agent`: they get the same answers.

    tests/library/rpc_client.py [--library FILE] [--over-ci] [--agent PROGRAM]

- A program on Serf's own client in Go (`rpc_client/driver`) calls each method of it, and prints the results, with their types. The
  two texts are compared line by line. A difference has a row in DIFFERENT, with the reason.
- Serf's own tests of that client and of its commands, from Debian's package, run over a process (`rpc_client/shim`). A test that
  passes with a stock agent passes with ours.
- A program in Python reads the protocol by the package msgpack, with its defaults (`rpc_client/reader.py`).

Go, memberlist, Debian's package `serf`, the sources of Serf's client and the Python package have to be installed, as `tools/packages`
does; otherwise the script prints what is missing. Nothing of Serf's sources is kept here: they are linked into a folder of the run.
--library names another static library than that of crates/serf_agent_c, which is built otherwise; --over-ci builds it over what `rt ci`
left, as the gate does; --agent names a built agent.
"""

import argparse
import glob
import json
import os
import re
import shutil
import subprocess
import sys
import tempfile
from concurrent.futures import ThreadPoolExecutor

sys.dont_write_bytecode = True
sys.path.insert(0, os.path.dirname(os.path.dirname(os.path.abspath(__file__))))
import checks
import c_library
from checks import TOP

sys.path.insert(0, os.path.join(TOP, "tests", "by_hand"))
import agent_cluster_kit as kit
import serf_package

OWN = os.path.join(TOP, "tests", "library", "rpc_client")
SERF = os.path.join("src", "github.com", "hashicorp", "serf")

# The files of Serf's own that have the tests, and the files that these share.
TESTS = ("rpc_client_test.go", "util_test.go")

# The kinds of agents, and at which offset the addresses of each begin.
STOCK, OURS = "stock", "ours"
FIRST = {STOCK: 0, OURS: 100}

# The number of the net of the commands' tests, which run one after another: each of the client's tests has a smaller one. And the
# last number of the address of the agent that Python reads, which is after those of the driver.
COMMANDED, READ = 100, 95

# How long one program may run, in seconds.
LIMIT = 900

# The minimum number of facts that the driver prints.
MIN_FACTS = 600

# What is false for a stock agent, as expected. All other facts that can hold do.
FALSE = (
    *("stopped stream has it", "coordinate of nobody is there", "client is closed before", "monitor of errors has others"),
    "stats, serf encrypted",
)

# How long a pause of Serf's tests is, in seconds, try by try: they check once after a pause, which may be too short for a process,
# or too long for a query that it waits for.
PAUSES = (0.1, 0.4, 1.6, 0.1, 0.4, 5, 0.2, 0.4, 15, 0.3)

# The pauses that are tried first if a test waits for something slow: until a failure is seen, or a coalesced event arrives.
FIRST_PAUSE = {"TestRPCClientForceLeave": 5, "TestRPCClientForceLeave_prune": 5, "TestRPCClientStream_Member": 1.6}

# The minimum number of tests of the client and of the commands.
MIN_TESTS, MIN_COMMANDS = 19, 43

# The token that an agent requires from its clients, if a test is about that.
TOKENS = {"TestRPCClientAuth": "foobar"}

# The tests that can't pass over a process, and why.
NOT_TRIED = {"TestRPCClientMonitor": "its first line of the log has to be of a client, and an agent that is a process has begun before"}

# The tests that only pass with a stock agent, and why.
FAILING = {}


class Row:
    """Facts that differ: their names, the values of a stock agent and of ours, as expressions, and why. None means no such fact."""

    def __init__(self, names, stock, ours, why):
        self.names, self.stock, self.ours, self.why = names, stock, ours, why

    def fits(self, name, stock, ours):
        pairs = ((self.names, name), (self.stock, stock), (self.ours, ours))
        return all(wanted is got or wanted and got is not None and re.fullmatch(wanted, got) for wanted, got in pairs)


DIFFERENT = (
    Row(
        "stats, agent (program|handlers_(cut_off|failed|never_run|ok|still_running|timed_out|unfinished|waiting)|queries_waiting)|stats, serf (dropped(_far|_kept)?|events_(missing|open|waiting)|ignored_(below_minimum|time_full|too_old))",
        None,
        ".+",
        "ours reports more about itself",
    ),
    Row("members by a bad expression of a .*, error", "client closed", "Failed to compile regex: .*", "a stock agent ends the client"),
    Row(
        "answer that is too long, error",
        "failed to respond to key query: (response exceeds .*)",
        "response exceeds .*",
        "a stock agent calls each query one of keys",
    ),
    Row("second answer, error", ".*response already sent", "No pending queries matching ID", "ours forgets a query that was answered"),
    Row("second monitor of a client, error", "Monitor already exists", "<nil>", "ours allows more than one"),
    Row(
        "join of nobody, error",
        "(?s).*dial tcp NET.20:7946: connect: connection refused.*",
        "(?s).*dial tcp NET.1:0->NET.20:7946: connect: connection refused.*",
        "ours dials from the address at which it listens",
    ),
    Row(
        "member-update is repeated, after the events of others",
        "true",
        "false",
        "a stock agent repeats a change of tags with each later event of a member",
    ),
)


def missing():
    """What is missing of what is needed, or None."""
    found = [name for name in [kit.missing_command()] if name]
    if not os.path.isfile(os.path.join(kit.GOCODE, SERF, "client", "rpc_client.go")):
        found.append("sources of Serf's client")
    return ", ".join(found) or None


def built(folder):
    """Builds the driver, and Serf's tests over the shim, in a folder of Go's of this run: where they are, or what went wrong."""
    source = os.path.join(folder, "go", "src")
    package, serf = os.path.join(source, "kitchenrue.example", "rpc_client"), os.path.join(folder, "go", SERF)
    os.makedirs(os.path.join(package, "agent"))
    os.makedirs(serf)
    os.symlink(os.path.join(OWN, "driver"), os.path.join(package, "driver"))
    shutil.copytree(os.path.join(kit.GOCODE, SERF, "testutil"), os.path.join(serf, "testutil"))
    serf_package.with_own_addresses(os.path.join(serf, "testutil"))
    theirs = os.path.join(kit.GOCODE, SERF, "cmd", "serf", "command", "agent")
    shim = glob.glob(os.path.join(OWN, "shim", "*.go"))
    for path in [*shim, *(os.path.join(theirs, name) for name in TESTS)]:
        os.symlink(path, os.path.join(package, "agent", os.path.basename(path)))
    commands = os.path.join(serf, "cmd", "serf", "command")
    os.makedirs(os.path.join(commands, "agent"))
    for path in shim:
        os.symlink(path, os.path.join(commands, "agent", os.path.basename(path)))
    for path in glob.glob(os.path.join(os.path.dirname(theirs), "*.go")):
        os.symlink(path, os.path.join(commands, os.path.basename(path)))
    env = c_library.go_env(os.path.dirname(source), kit.GOCODE)
    programs, tests = [os.path.join(folder, name) for name in ("driver", "tests", "commands")], ["test", "-c", "-vet=off"]
    packages = (
        "kitchenrue.example/rpc_client/driver",
        "kitchenrue.example/rpc_client/agent",
        f"{SERF.removeprefix('src/')}/cmd/serf/command",
    )
    for words, program, of in zip((["build"], tests, tests), programs, packages):
        status, output = c_library.ran(["go", *words, "-p", "1", "-o", program, of], env=env)
        if status:
            return programs, output[-2000:]
    return programs, None


def agent_of(count, asked, folder):
    """The agent: the one that an option names, or one that is built as its page says."""
    if asked.agent:
        return os.path.abspath(asked.agent)
    fault = None if asked.library else c_library.fault_of_library(asked.over_ci)
    count.check("the library is built", fault is None, fault)
    program = os.path.join(folder, "kitchenrue-agent")
    library = os.path.dirname(os.path.abspath(asked.library or c_library.LIBRARY))
    if fault is None:
        status, output = c_library.ran([os.path.join(TOP, "agent", "build"), program, library], env={**os.environ, **c_library.LEAN_GO})
        count.check("agent/build", status == 0, output[-2000:])
    return program


class Side:
    """Agents of a kind: the words that start one, and their addresses, which depend on this process."""

    def __init__(self, kind, words, folder):
        self.kind, self.words, self.first = kind, words, FIRST[kind]
        self.net = f"127.{10 + os.getpid() % 240}.{os.getpid() // 240 % 250}"
        self.folder = os.path.join(folder, kind)
        os.makedirs(self.folder)

    def net_of(self, number):
        """The addresses of a test."""
        return f"127.{250 + (self.kind == OURS)}.{(os.getpid() + number) % 250}"


def ended(words, **more):
    """A program's status, its output and its errors, or that it took too long."""
    try:
        result = subprocess.run(words, stdin=subprocess.DEVNULL, capture_output=True, text=True, errors="replace", timeout=LIMIT, **more)
    except subprocess.TimeoutExpired:
        return "it took too long", "", ""
    return result.returncode, result.stdout, result.stderr[-2000:]


def run_driver(side, driver):
    """What the driver prints for a side."""
    return ended([driver, side.net, str(side.first), side.folder, *side.words])


def facts(text):
    """The facts of a text, by their names."""
    return dict(line.split(": ", 1) for line in text.splitlines() if ": " in line)


def compare(count, stock, ours):
    """Checks that each fact of both is the same, except for those that have a row."""
    used = set()
    for name in {**stock, **ours}:
        theirs, own = stock.get(name), ours.get(name)
        row = next((row for row in DIFFERENT if row.fits(name, theirs, own)), None) if theirs != own else None
        used.add(row)
        count.check(name, theirs == own or row, f"stock: {theirs}, ours: {own}")
    for row in DIFFERENT:
        count.check(f"a difference: {row.names}", row in used, f"it no longer exists: {row.why}")


def check_driven(count, said):
    """Checks what the driver printed for both sides, if it ended well on both."""
    for kind, (status, text, fault) in said.items():
        count.check(f"the driver ends well, {kind}", status == 0, f"{status}: {fault}")
    if any(status != 0 for status, _, _ in said.values()):
        return
    for kind, (_, text, _) in said.items():
        lines = text.splitlines()
        count.check(f"each fact has its own name, {kind}", len(facts(text)) == len(lines), len(lines) - len(facts(text)))
    stock = facts(said[STOCK][1])
    count.check("there are as many facts as ever", len(stock) >= MIN_FACTS, len(stock))
    wrong = [name for name, value in stock.items() if "never came" in value or value == "false" and name not in FALSE]
    count.check("all that the driver waits for happens with a stock agent", not wrong, wrong)
    compare(count, stock, facts(said[OURS][1]))


def names_of(tests, beginning):
    """The names of Serf's tests that begin with this."""
    return sorted(line for line in ended([tests, "-test.list", f"^{beginning}"])[1].splitlines() if line.startswith("Test"))


def tried(side, tests, name, number, pauses):
    """Runs a test of Serf's until it passes: whether it did, and what it printed last."""
    said = ""
    for pause in pauses:
        env = {
            **os.environ, "RPC_CLIENT_PROGRAM": "\n".join(side.words), "RPC_CLIENT_AUTH": TOKENS.get(name, ""),
            "SERF_PACKAGE_PAUSE": f"{pause}s", "SERF_PACKAGE_NET": side.net_of(number),
        }
        status, text, fault = ended([tests, "-test.v", "-test.timeout", f"{LIMIT}s", "-test.run", f"^{name}$"], env=env, cwd=side.folder)
        said = text + fault
        if status == 0 and f"--- PASS: {name}" in text:
            return True, said
    return False, said


def tested(side, tests, names):
    """How each of Serf's tests ends with a side. A test that is known to fail is tried once."""
    found = {}
    for number, name in enumerate(names):
        fails = side.kind == OURS and name in FAILING
        if name not in NOT_TRIED:
            pauses = PAUSES[1:2] if fails else (FIRST_PAUSE.get(name, PAUSES[0]), *PAUSES)
            found[name] = tried(side, tests, name, number, pauses)
    return found


def commanded(side, tests, names):
    """How each of Serf's tests of its commands ends with a side."""
    return {name: tried(side, tests, name, COMMANDED, PAUSES) for name in names}


def check_tested(count, names, minimum, ended_so):
    """Checks how Serf's tests ended."""
    count.check(f"Serf's tests exist, such as {names[:1]}", len(names) >= minimum, names)
    for name, why in {**NOT_TRIED, **FAILING}.items() if minimum == MIN_TESTS else ():
        count.check(f"{name} exists ({why})", name in names, names)
    for kind, found in ended_so.items():
        for name, (passed, said) in found.items():
            fails = kind == OURS and name in FAILING
            count.check(f"{name}, {kind}", passed != fails, said[-1500:] or f"it passes, and FAILING says: {FAILING.get(name)}")


def reader():
    """A Python that has msgpack, or None."""
    for python in (sys.executable, "/usr/bin/python3"):
        if os.path.exists(python) and c_library.ran([python, "-c", "import msgpack"])[0] == 0:
            return python
    return None


def read(side, python):
    """What Python reads from an agent."""
    agent = kit.Agent(side.folder, side.words, "read", side.first + READ, net=side.net)
    try:
        agent.start()
        return ended([python, os.path.join(OWN, "reader.py"), agent.addr, "7373"]), agent.addr
    finally:
        agent.end()


def check_read(count, sides, said):
    """Checks what Python read from both: bytes are bytes, and all else is the same."""
    found = {}
    for side in sides:
        (status, text, fault), address = said[side.kind]
        count.check(f"Python reads it, {side.kind}", status == 0, fault)
        values = found[side.kind] = json.loads(text) if status == 0 else {"members": {"Members": [{}]}, "record": {}}
        member = values["members"]["Members"][0]
        addr = "".join(f"{int(part):02x}" for part in address.split("."))
        count.check(f"an address is bytes, {side.kind}", member.pop("Addr", None) == f"bytes:{addr}", text)
        count.check(f"a payload is bytes, {side.kind}", values["record"].get("Payload") == "bytes:fffe00", text)
    count.check("all else that Python reads is the same", found[STOCK] == found[OURS], found)


def run(count, asked, folder):
    (driver, tests, commands), fault = built(folder)
    count.check("the driver and Serf's tests are compiled", fault is None, fault)
    program = agent_of(count, asked, folder)
    if fault or not os.path.isfile(program):
        return
    sides = [Side(STOCK, ["serf", "agent"], folder), Side(OURS, [program], folder)]
    python, names, of_commands = reader(), names_of(tests, "TestRPCClient"), names_of(commands, "Test")
    if python is None:
        print("not run: a reader in Python, since no python3 here has msgpack")
    with ThreadPoolExecutor(6) as pool:
        drives = {side.kind: pool.submit(run_driver, side, driver) for side in sides}
        runs = {side.kind: pool.submit(tested, side, tests, names) for side in sides}
        calls = {side.kind: pool.submit(commanded, side, commands, of_commands) for side in sides}
        reads = {side.kind: pool.submit(read, side, python) for side in sides} if python else {}
    check_driven(count, {kind: one.result() for kind, one in drives.items()})
    check_tested(count, names, MIN_TESTS, {kind: one.result() for kind, one in runs.items()})
    check_tested(count, of_commands, MIN_COMMANDS, {kind: one.result() for kind, one in calls.items()})
    if python:
        check_read(count, sides, {kind: one.result() for kind, one in reads.items()})


def main():
    parser = argparse.ArgumentParser(description=__doc__, formatter_class=argparse.RawDescriptionHelpFormatter)
    parser.add_argument("--library")
    parser.add_argument("--over-ci", action="store_true")
    parser.add_argument("--agent")
    options = parser.parse_args()
    count = checks.Checks()
    lacks = missing()
    if lacks:
        print(f"not run: programs on Serf's client, since {lacks} is missing")
        return count.finish()
    unformatted = c_library.ran(["gofmt", "-l", OWN])[1]
    count.check("the programs in Go are formatted", not unformatted, unformatted)
    with tempfile.TemporaryDirectory(prefix="rpc-client-", ignore_cleanup_errors=True) as folder:
        run(count, options, folder)
    return count.finish()


if __name__ == "__main__":
    sys.exit(main())
