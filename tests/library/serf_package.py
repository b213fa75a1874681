"""The package `serf` in Go (`bindings/go/serf`) in the place of Serf's own: what it exports, Serf's tests over it, and Serf's program
over it, killed under a flood.

    tests/library/serf_package.py [--library FILE] [--over-ci] [--kills N]

- Everything that `go doc -all` of Debian's package names is named by ours too, with the same types, except what docs/GO.md lists
  (LEFT_OUT).
- Debian's `cmd/serf`, unchanged, is compiled with our package under the import path of Serf's, and passes its own tests.
- The tests of Serf's package that compile over ours pass, except those that FAILING names with a reason.
- `cmd/serf` over ours, on a file, is killed again and again while another one fires events: no handler runs twice. On a full disk it
  ends, and its log and the others say so.

Nothing of Serf's sources is kept here: they are linked, or copied, into a folder of the run. Go and Debian's package
golang-github-hashicorp-serf-dev have to be installed, as `tools/packages` does; otherwise the script prints what is missing. --library
names another static library than that of crates/serf_agent_c, which is built otherwise; --over-ci builds it over what `rt ci` left, as
the gate does.
"""

import argparse
import glob
import os
import re
import resource
import shutil
import signal
import socket
import subprocess
import sys
import tempfile
import threading
import time
from concurrent.futures import ThreadPoolExecutor

sys.dont_write_bytecode = True
sys.path.insert(0, os.path.dirname(os.path.dirname(os.path.abspath(__file__))))
import checks
import c_library
from checks import TOP

GOCODE = os.environ.get("SERF_GOPATH", "/usr/share/gocode")
SERF = os.path.join("src", "github.com", "hashicorp", "serf")
PATH = "github.com/hashicorp/serf"
OWN = os.path.join(TOP, "bindings", "go", "serf")

# What ours doesn't export: docs/GO.md says why.
LEFT_OUT = {"Snapshotter", "NewSnapshotter"}

# The folders of the tests of Serf's program and of its package, and the minimum number of tests that have to end well.
PLACES = {"agent": ("cmd/serf/command/agent", 59), "command": ("cmd/serf/command", 43), "serf": ("serf", 45)}

# The tests that Debian's sources skip.
SKIPPED = {"TestCommandRun_mDNS"}

# Tests of Serf's package that compile over ours and can't pass, and why.
FAILING = {"TestSerf_Query_sizeLimitIncreased": "it changes the configuration after Create, which has no effect"}

# How long a pause of Serf's tests is, try by try: they check once after a pause, which may be too short on a busy machine. Serf's own
# is 10 milliseconds. If a test waits for some probes of memberlist's, the pause is added to them: three probes are hardly as long as
# it takes to see that a node has failed, so that the test fails over Serf's own package too.
PAUSES = ("10ms", "100ms", "400ms", "10ms", "1600ms")
WAIT = re.compile(r"(\t)(time\.Sleep\(\w+\.MemberlistConfig\.ProbeInterval \* \d+\))")

TEST = re.compile(r"^--- (PASS|FAIL|SKIP): (\S+)", re.M)

# How long it may take until something that has to happen happens, in seconds.
LIMIT = 60

# How many events are fired in a second, and how many bytes a full disk has.
RATE, ROOM = 300, 200


def named(text):
    """What a package exports, from the text of `go doc -all`: its functions, types, methods, variables and the fields of its types, each
    with its type, if the text has one."""
    found, kind = {}, None
    for line in text.splitlines():
        line = line.split(" //")[0].rstrip()
        method = re.match(r"func \(\w+ \*?(\w+)\) (\w+)(\(.*)", line)
        item = re.match(r"(func|type|var|const) (\w+)(.*)", line)
        field = kind and re.match(r"\t((?:[A-Z]\w*(?:, )?)+)(?![\w.])(.*)", line)
        if method:
            found[f"{method[1]}.{method[2]}"] = types_of(method[3])
        elif item:
            found[item[2]] = types_of(item[3]) if item[1] in ("func", "type") else ""
            kind = item[2] if line.endswith(("struct {", "interface {")) else None
        elif line == "}":
            kind = None
        elif field:
            found |= {f"{kind}.{name}": types_of(field[2]) for name in re.split(r",? ", field[1]) if name}
        elif re.match(r"\t[A-Z]\w*( |$)", line):
            found[line.split()[0]] = ""
    return found


def types_of(text):
    """A signature without the names of its parameters, which don't matter to a caller."""
    bare = re.sub(r"\b(?!chan\b|map\b|struct\b|interface\b)\w+ (?=[\w*\[<.])", "", " ".join(text.split()))
    return re.sub(r" \(([^(),]+)\)$", r" \1", bare)


# In a run, this replaces Serf's own package of this name: its addresses belong to the run, and its pauses are as long as the run says.
YIELD = """package testutil

import (
	"os"
	"time"
)

func Yield() {
	pause, err := time.ParseDuration(os.Getenv("SERF_PACKAGE_PAUSE"))
	if err != nil {
		panic(err)
	}
	time.Sleep(pause)
}
"""


def with_own_addresses(testutil):
    """Has a copy of Serf's package for tests return addresses of this run."""
    path = os.path.join(testutil, "addr.go")
    with open(path, encoding="utf-8") as file:
        text = file.read()
    wanted = "net.IPv4(127, 0, 0, octet)"
    assert text.count(wanted) == 1, path
    with open(path, "w", encoding="utf-8") as file:
        file.write(text.replace(wanted, 'net.ParseIP(fmt.Sprintf("%s.%d", os.Getenv("SERF_PACKAGE_NET"), octet)).To4()'))
    with open(os.path.join(testutil, "yield.go"), "w", encoding="utf-8") as file:
        file.write(YIELD)


def laid(folder, library):
    """A folder of Go's in which Serf's packages are Debian's, and the package serf is ours: returns its settings for Go."""
    source = os.path.join(folder, "go", "src")
    serf, agent = os.path.join(folder, "go", SERF), os.path.join(source, "kitchenrue.example", "serfagent")
    for path in (os.path.join(serf, "serf"), agent):
        os.makedirs(path)
    for name in ("client", "cmd", "coordinate", "testutil", "version"):
        shutil.copytree(os.path.join(GOCODE, SERF, name), os.path.join(serf, name))
    with_own_addresses(os.path.join(serf, "testutil"))
    for path in glob.glob(os.path.join(OWN, "*.go")):
        if not path.endswith("_test.go"):
            os.symlink(path, os.path.join(serf, "serf", os.path.basename(path)))
    c_library.linked_packages(os.path.join(folder, "go"), "guard")
    bindings = os.path.join(TOP, "bindings", "go", "serfagent")
    for path in [*glob.glob(os.path.join(bindings, "*.[ch]")), *glob.glob(os.path.join(bindings, "*.go")), library]:
        os.symlink(path, os.path.join(agent, os.path.basename(path)))
    return c_library.go_env(os.path.dirname(source), GOCODE)


def check_names(count, env):
    """Everything that Serf's package exports exists in ours, with the same type."""
    found = {}
    for whose, path in (("stock", GOCODE), ("ours", env["GOPATH"])):
        status, text = c_library.ran(["go", "doc", "-all", f"{PATH}/serf"], env={**env, "GOPATH": path})
        found[whose] = named(text)
        count.check(f"go doc, {whose}", status == 0 and len(found[whose]) > 150, text[-500:])
    left = {name for name in found["stock"] if name.split(".")[0] in LEFT_OUT}
    count.check("what is left out is in Serf's package", LEFT_OUT <= left, left)
    for name, is_of in sorted(found["stock"].items()):
        if name not in left:
            own = found["ours"].get(name)
            count.check(f"{name} exists", own == is_of, f"Serf's: {is_of}, ours: {own}")


def start_of(line):
    return re.match(r"(func|type|var|const|import)\b", line)


def without(text, lines):
    """A source without the items that these lines are in, and without the imports of these lines."""
    kept, items = [], []
    for number, line in enumerate(text.splitlines(keepends=True), 1):
        if start_of(line) or not items:
            items.append([])
        items[-1].append((number, line))
    for item in items:
        bad = {number for number, _ in item} & lines
        if not bad:
            kept += [line for _, line in item]
        elif item[0][1].startswith("import"):
            kept += [line for number, line in item if number not in bad]
    return "".join(kept)


def compile_tests(env, folder, package, program, *more):
    """Compiles a package's tests: what went wrong, by file, as lines."""
    status, output = c_library.ran(["go", "test", "-c", "-vet=off", *more, "-o", program, package], env=env, cwd=folder)
    found = {}
    for name, line in re.findall(r"(?:^|/)(\w+_test\.go):(\d+):\d+: ", output, re.M):
        found.setdefault(name, set()).add(int(line))
    return status, found, output


def tests_of_package(count, env, folder):
    """Serf's own tests of its package, without those that don't compile over ours: the program that has them, or None."""
    place, program = os.path.join(folder, "go", SERF, "serf"), os.path.join(folder, "serf.test")
    for path in glob.glob(os.path.join(GOCODE, SERF, "serf", "*_test.go")):
        with open(os.path.join(place, os.path.basename(path)), "w", encoding="utf-8") as file:
            file.write(WAIT.sub(r"\1testutil.Yield(); \2", checks.text_of(path)))
    for _ in range(40):
        status, wrong, said = compile_tests(env, place, f"{PATH}/serf", program, "-gcflags=-e")
        if status == 0:
            return program
        if not wrong:
            break
        for name, lines in wrong.items():
            path = os.path.join(place, name)
            with open(path, encoding="utf-8") as file:
                text = without(file.read(), lines)
            with open(path, "w", encoding="utf-8") as file:
                file.write(text)
    count.check("Serf's own tests of its package are compiled", False, said[-1500:])
    return None


def tried(program, where, env, pause, name=None):
    """Runs a program's tests, or one of them: how each ended, and everything that was printed."""
    words = [program, "-test.v", "-test.timeout", "10m", *(["-test.run", f"^{name}$"] if name else [])]
    said = c_library.ran(words, cwd=where, env={**env, "SERF_PACKAGE_PAUSE": pause})[1]
    return {name: end for end, name in TEST.findall(said)}, said


def ran_tests(program, where, env):
    """How each test of a program ends: its final end, and what was printed. A test that doesn't end well is tried again alone."""
    names = [line for line in c_library.ran([program, "-test.list", "."], env=env)[1].splitlines() if line.startswith("Test")]
    ended, said = tried(program, where, env, PAUSES[0])
    found = {name: (ended.get(name, "it never ended"), said) for name in names}
    for name in names:
        for pause in PAUSES[1:]:
            if found[name][0] in ("PASS", "SKIP") or name in FAILING:
                break
            ended, said = tried(program, where, env, pause, name)
            found[name] = (ended.get(name, "it never ended"), said)
    return found


def check_tests(count, what, found):
    passed = sum(end == "PASS" for end, _ in found.values())
    count.check(f"{what}: as many tests pass as ever", passed >= PLACES[what][1], (passed, len(found)))
    for name, (end, said) in sorted(found.items()):
        wanted = "FAIL" if name in FAILING else "SKIP" if name in SKIPPED else "PASS"
        at = max(0, said.find(f"=== RUN   {name}\n"))
        own = said[at : said.find("=== RUN", at + 9)] if "=== RUN" in said[at + 9 :] else said[at:]
        count.check(f"{what}: {name}", end == wanted, FAILING.get(name) or f"{end}: {own}")


def packed(it):
    """A short value in MessagePack."""
    if isinstance(it, dict):
        return bytes([0x80 | len(it)]) + b"".join(packed(one) for pair in it.items() for one in pair)
    if isinstance(it, list):
        return bytes([0x90 | len(it)]) + b"".join(packed(one) for one in it)
    if isinstance(it, bool):
        return b"\xc3" if it else b"\xc2"
    if isinstance(it, int):
        return b"\xcf" + it.to_bytes(8, "big")
    return bytes([0xA0 | len(it)]) + it.encode()


class Node:
    """Serf's program over ours, and a client of it."""

    def __init__(self, program, folder, name, net, number, *words):
        self.name, self.address, self.folder, self.process = name, f"{net}.{number}", folder, None
        self.words = [
            program,
            "agent",
            f"-node={name}",
            f"-bind={self.address}",
            f"-rpc-addr={self.address}:7373",
            "-profile=local",
            *words,
        ]

    def start(self, *more, **how):
        self.client = None
        end = time.monotonic() + LIMIT
        while self.client is None and time.monotonic() < end:
            # (a node that didn't start is started again, as a supervisor does: a handler that was just started may have its file)
            if self.process is None or self.process.poll() is not None:
                with open(os.path.join(self.folder, f"{self.name}.log"), "a", encoding="utf-8") as log:
                    self.process = subprocess.Popen([*self.words, *more], stdin=subprocess.DEVNULL, stdout=log, stderr=log, **how)
            try:
                self.client = socket.create_connection((self.address, 7373), LIMIT)
                self.ask("handshake", {"Version": 1})
            except OSError:
                self.client = None
                time.sleep(0.02)
        return self

    def ask(self, command, body):
        """Sends a request, and returns whether it was done."""
        self.client.sendall(packed({"Command": command, "Seq": 1}) + packed(body))
        return b"\xa5Error\xa0" in self.client.recv(4096)

    def end(self):
        self.process.kill()
        self.process.wait()
        if self.client:
            self.client.close()


class Flood(threading.Thread):
    """Fires events at a node until it is stopped: each has its number as its text."""

    def __init__(self, node):
        super().__init__(daemon=True)
        self.node, self.fired, self.is_over = node, 0, threading.Event()

    def run(self):
        while not self.is_over.wait(1 / RATE):
            if self.node.ask("event", {"Name": "x", "Payload": str(self.fired + 1), "Coalesce": False}):
                self.fired += 1


def until(holds):
    end = time.monotonic() + LIMIT
    while not (found := holds()) and time.monotonic() < end:
        time.sleep(0.02)
    return found


def lines_of(path):
    return checks.text_of(path).split() if os.path.exists(path) else []


def check_kills(count, program, folder, net, kills):
    """A node that is killed in a flood of another's events, and joins it again by its file each time. The other node has all events of
    the last times, and sends them again."""
    ran, snapshot = os.path.join(folder, "ran"), os.path.join(folder, "snapshot")
    peer = Node(program, folder, "peer", net, 8, "-log-level=err").start()
    node = Node(
        program, folder, "killed", net, 9, "-log-level=err", f"-snapshot={snapshot}", f"-event-handler=user:x=read -r n; echo $n >>{ran}"
    )
    node.start()
    joins = {"Existing": [peer.address], "Replay": False}
    count.check("cmd/serf over ours: it joins the other", until(lambda: node.ask("join", joins)))
    count.check(
        "cmd/serf over ours: its file names the other", until(lambda: "alive: peer " in checks.text_of(snapshot)), checks.text_of(snapshot)
    )
    flood = Flood(peer)
    flood.start()
    for life in range(kills):
        before = len(lines_of(ran))
        count.check(f"cmd/serf over ours, killed {life} times: it continues", until(lambda: len(lines_of(ran)) > before), before)
        time.sleep(0.05 * (life % 7))
        node.end()
        node.start()
    flood.is_over.set()
    flood.join()
    last = str(flood.fired)
    count.check("cmd/serf over ours: the last event arrives", until(lambda: last in lines_of(ran)), last)
    node.end()
    found = lines_of(ran)
    count.check("cmd/serf over ours, killed: handlers ran", len(found) > 5 * kills, (len(found), flood.fired))
    count.check(
        "cmd/serf over ours, killed: none ran twice", len(found) == len(set(found)), sorted(it for it in set(found) if found.count(it) > 1)
    )
    return peer


def with_little_room():
    signal.signal(signal.SIGXFSZ, signal.SIG_IGN)
    resource.setrlimit(resource.RLIMIT_FSIZE, (ROOM, ROOM))


def check_full_disk(count, program, folder, net, peer):
    """A disk that is full ends the node. cmd/serf ends with status 0 then: its log has an error, and the others see that it failed."""
    node = Node(program, folder, "full", net, 10, "-log-level=err", f"-snapshot={folder}/full")
    reads, writes = os.pipe()
    node.words = ["sh", "-c", f'exec "$@" >&{writes} 2>&1', "sh", *node.words]
    node.start(preexec_fn=with_little_room, restore_signals=False, pass_fds=[writes])
    os.close(writes)
    count.check("the other joins it", until(lambda: peer.ask("join", {"Existing": [node.address], "Replay": False})))
    for number in range(100):
        try:
            node.ask("event", {"Name": "x", "Payload": str(number), "Coalesce": False})
        except OSError:
            break
    try:
        status = node.process.wait(LIMIT)
    except subprocess.TimeoutExpired:
        status = "it continues"
    node.end()
    with os.fdopen(reads, encoding="utf-8", errors="replace") as file:
        output = file.read()
    count.check("cmd/serf over ours ends on a full disk", status == 0, status)
    last = [line for line in output.splitlines() if "[ERR] serf: the node has ended: " in line and "the disk is full" in line]
    count.check("and its log says why", len(last) == 1, output)
    members = [program, "members", "-status=failed", "-name=full", f"-rpc-addr={peer.address}:7373"]
    count.check("and the other sees that it failed", until(lambda: "full" in c_library.ran(members)[1]), c_library.ran(members))


def killed(count, program, folder, net, kills):
    os.makedirs(folder)
    peer = check_kills(count, program, folder, net, kills)
    check_full_disk(count, program, folder, net, peer)
    peer.end()


def built(count, env, folder):
    """Serf's program, and the programs that have the tests, by their names."""
    programs, serf = {}, os.path.join(folder, "serf")
    status, said = c_library.ran(["go", "build", "-o", serf, f"{PATH}/cmd/serf"], env=env)
    count.check("cmd/serf is compiled", status == 0, said[-1500:])
    for name in ("agent", "command"):
        program = os.path.join(folder, f"{name}.test")
        status, _, said = compile_tests(env, folder, f"{PATH}/{PLACES[name][0]}", program)
        count.check(f"the tests of {PLACES[name][0]} are compiled", status == 0, said[-1500:])
        programs[name] = program
    programs["serf"] = tests_of_package(count, env, folder)
    return serf, {name: program for name, program in programs.items() if program and os.path.exists(program)}


def run(count, asked, folder):
    env = laid(folder, os.path.abspath(asked.library or c_library.LIBRARY))
    check_names(count, env)
    serf, programs = built(count, env, folder)
    nets = [f"127.{10 + os.getpid() % 240}.{(os.getpid() // 240 * 4 + more) % 250}" for more in range(4)]
    own = {name: it for name, it in os.environ.items() if name not in c_library.LEAN_GO} | {"TMPDIR": folder}
    with ThreadPoolExecutor(3) as pool:
        runs = {}
        for net, (name, program) in zip(nets, programs.items()):
            where = os.path.join(folder, "go", SERF, PLACES[name][0])
            runs[name] = pool.submit(ran_tests, program, where, {**own, "SERF_PACKAGE_NET": net})
    for name, one in runs.items():
        check_tests(count, name, one.result())
    if os.path.exists(serf):
        killed(count, serf, os.path.join(folder, "kills"), nets[3], asked.kills)


def main():
    parser = argparse.ArgumentParser(description=__doc__, formatter_class=argparse.RawDescriptionHelpFormatter)
    parser.add_argument("--library")
    parser.add_argument("--over-ci", action="store_true")
    parser.add_argument("--kills", type=int, default=30)
    options = parser.parse_args()
    count = checks.Checks()
    if shutil.which("go") is None or not os.path.isdir(os.path.join(GOCODE, SERF, "cmd")):
        print("not run: Serf's own tests over the package serf, since Go or Serf's sources are missing")
        return count.finish()
    fault = None if options.library else c_library.fault_of_library(options.over_ci)
    count.check("the library is built", fault is None, fault)
    if fault is None:
        with tempfile.TemporaryDirectory(prefix="serf-package-", ignore_cleanup_errors=True) as folder:
            run(count, options, folder)
    return count.finish()


if __name__ == "__main__":
    sys.exit(main())
