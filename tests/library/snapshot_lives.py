"""The premise of `host_promises` about files, and the node in Go (`bindings/go/serf`): each time that a session opens on a file, the text
begins with what was confirmed in the lives before, up to other lines (docs/HOST.md, "A host's own lines").

    tests/library/snapshot_lives.py [NAME..] [--kills N] [--library FILE] [--over-ci]

A copy of the library records, at its calls, on which text each session opens, which of the library's bytes the host confirms, and which
text a compaction will replace the file with (snapshot_lives/recorder.c). The tests of the package `serf` and those of the agent run
over it, and so do nodes that are killed by SIGKILL while they fire events. Then the script holds all records against the premise
(snapshot_lives/premise.py, which cites the definitions). It fails if there are fewer lives and openings than MINIMUMS says.

Two readers also have to report the same open events for each text of these tests, and for each of them cut at random bytes: the library's,
and the second one of tests/library/handler_lines.py. The nodes that are killed write no lines about handlers.

Then it runs wrong hosts, which are planted into the copy of the sources (snapshot_lives/wrong, planted as tests/library/go_mutants.py
does): the records of the tests that each names have to break the premise. With names, only these wrong hosts are run, and nothing else.

Go and the sources of memberlist have to be installed (`tools/packages`); otherwise the script prints what is missing, and checks nothing.
--library names another static library than that of crates/serf_agent_c, which is built otherwise; --over-ci builds it over what `rt ci`
left, as the gate does.
"""

import argparse
import os
import random
import re
import shutil
import subprocess
import sys
import tempfile
import time
from collections import Counter
from concurrent.futures import ThreadPoolExecutor

sys.dont_write_bytecode = True
sys.path.insert(0, os.path.dirname(os.path.dirname(os.path.abspath(__file__))))
import checks
import c_library
import edit_files
from checks import TOP

OWN = os.path.join(TOP, "tests", "library", "snapshot_lives")
sys.path[:0] = [os.path.join(TOP, "tests", "library"), os.path.join(TOP, "tests", "library", "go_mutants"), OWN]
import go_mutants
import handler_lines
import kept_cluster
import planting
import premise
import snapshot_texts

# The calls that are recorded.
RECORDED = ("open", "close", "flushed", "compact")

# The packages whose tests are recorded.
PACKAGES = ("serf", "agent/internal/app")

# The copy of serfagent names each agent's file to the recorder.
MADE = "\truntime.SetFinalizer(agent, (*Agent).free)\n"
NAMED = MADE + "\trecordPath(agent, store)\n"

# The minimum of each part: lives, openings that follow a life that confirmed bytes, texts with other lines between these, compactions, and
# openings after a life that ended during a compaction.
MINIMUMS = {
    "serf": {"lives": 100, "telling": 15, "with_others": 5, "replaced": 40, "under_way": 0},
    "agent/internal/app": {"lives": 30, "telling": 5, "with_others": 4, "replaced": 0, "under_way": 0},
    "killed alone": {"lives": 50, "telling": 35, "with_others": 30, "replaced": 6, "under_way": 6},
    "killed in a cluster": {"lives": 20, "telling": 12, "with_others": 12, "replaced": 0, "under_way": 0},
}

# How often the node of each file is killed, how many events it is sent by then at most, how long it runs at most if it is killed at a
# random moment, in seconds, and how large a file is made that the node compacts at its start.
KILLS, SENT, SOON, LARGE = 20, 40, 0.08, 160 << 10

# At how many bytes each text is cut for the readers of lines about handlers, and the minimum number of texts with these lines.
CUTS = 20
LEAST_READ = {"serf": 1000, "agent/internal/app": 50}


def recording_library(folder, library):
    """Makes the copy of the library that records. Returns what went wrong, or None."""
    own, recorder = os.path.join(folder, os.path.basename(c_library.LIBRARY)), os.path.join(folder, "recorder.o")
    cc = os.environ.get("CC", "cc")
    names = [f"--redefine-sym=serf_agent_{name}=library_{name}" for name in RECORDED]
    for words in (
        [cc, *c_library.STRICT, "-O1", "-fPIC", "-c", "-o", recorder, os.path.join(OWN, "recorder.c")],
        ["objcopy", *names, library, own],
        ["ar", "r", own, recorder],
    ):
        status, output = c_library.ran(words)
        if status:
            return output[-2000:] or f"{words[0]} failed"
    return None


class Place(go_mutants.Place):
    """A copy of the sources over the library that records, with the wrong hosts, and the records of each run."""

    def __init__(self, folder, library, hosts):
        super().__init__(folder, library)
        shutil.copytree(os.path.join(TOP, "bindings", "go", "beside_serf"), os.path.join(self.source, "beside_serf"))
        shutil.copy(os.path.join(OWN, "recording.go"), os.path.join(self.source, "serfagent"))
        place = os.path.join(self.source, "serfagent", "agent.go")
        with open(place, encoding="utf-8") as file:
            text = file.read()
        if text.count(MADE) != 1:
            raise planting.NotPlanted(f"agent.go has this text {text.count(MADE)} times: {MADE.strip()}")
        with open(place, "w", encoding="utf-8") as file:
            file.write(text.replace(MADE, NAMED))
        planting.plant(self.source, hosts)

    def fault_of_node(self):
        """Builds the program of a node. Returns what went wrong, or None."""
        words = ["go", "build", "-tags", "faults", "-o", self.program("node"), "kitchenrue.example/beside_serf/node"]
        status, output = c_library.ran(words, env=self.env)
        return output or "go build failed" if status else None

    def records(self, name):
        """A new folder for records."""
        folder = os.path.join(self.folder, "lives", name.replace("/", "_"))
        os.makedirs(folder)
        return folder

    def tested(self, package, name, tests=".", planted=""):
        """Runs tests of a package. Returns which failed, and the records held against the premise."""
        # (without a wrong host nothing hangs, however busy the machine is)
        limit = "8m" if planted else "30m"
        folder, words = self.records(name), [self.program(package), "-test.v", "-test.timeout", limit, "-test.run", tests]
        env = {**os.environ, planting.VARIABLE: planted, "KITCHENRUE_LIVES": folder, "GOMAXPROCS": "2"}
        status, output = c_library.ran(words, cwd=os.path.join(self.source, package), env=env)
        failed = re.findall(r"^--- FAIL: (\w+)", output, re.M) or re.findall(r"^=== RUN   (\w+)$", output, re.M)[-1:] if status else []
        held = premise.Held(folder)
        shutil.rmtree(folder)
        return failed, held


def check_definitions(count):
    """Lines that are other lines, and lines that aren't; texts that begin with what was confirmed, and texts that don't."""
    other = ["", "#", "alive: a 1:1", "leave", "clock: ", "clock: 0", "clock: 1 ", " clock: 1", "event-clock: 1#"]
    other += ["clock: 18446744073709551615", "#least clock: 0", "#least clock: x", "#begun 1 61 62", "#done 1", "#ran 1", "#open 1 61 62"]
    other += ["#query 1", "#query 0 1", "#query 1 4294967296", "#event 0 61 62", "#event 1 61", "#event 1 6 62"]
    other += ["#event 1  61 62", "#event 1 61 62 ", "#event 18446744073709551615 61 62"]
    own = ["clock: 1", "clock: 01", "event-clock: 18446744073709551614", "query-clock: 7", "#least clock: 1", "#query 1 0"]
    own += ["#query 1 4294967295", "#least query-clock: 18446744073709551616", "#event 1 61 62", "#event 01 6A ", "#event 1  "]
    for line in other + own:
        count.check(f"whether {line!r} is another line", snapshot_texts.is_other(line.encode()) == (line in other))
    for confirmed, text, begins in (
        ("", "", True), ("", "anything", True), ("clock: 1\n", "clock: 1\n", True), ("clock: 1\n", "alive: a 1:1\nclock: 1\nclo", True),
        ("clock: 1\n", "alive: a 1:1clock: 1\n", False), ("clock: 1\n", "clock: 1", False), ("clock: 1\n", "clock: 01\n", False),
        ("clock: 1\n", "", False), ("clock: 1\n#query 1 1\n", "#query 1 1\nclock: 1\n", False),
        ("clock: 1\n", "clock: 2\nclock: 1\n", False),
        ("clock: 1\n#x\n", "#y\nclock: 1\n", True), ("clock: 1\nclo", "clock: 1\nclo", True), ("clock: 1\nclo", "clock: 1\n", False),
        ("clock: 1\nclo", "clock: 1\n#x\nclock: 2\n", True), ("clock: 1\nclo", "clock: 1\n#query 1 1\nclo", False),
    ):
        fault = snapshot_texts.begins_with(text.encode(), confirmed.encode())
        count.check(f"whether {text!r} begins with {confirmed!r}", (fault is None) == begins, fault)


def check_held(count, part, held):
    """The records of a part hold against the premise, and there are enough of each kind."""
    print(f"{part}: {held.said()}", flush=True)
    for name, minimum in MINIMUMS[part].items():
        count.check(f"{part}: {name}, at least {minimum}", getattr(held, name) >= minimum, held.said())
    count.check(f"{part}: each text begins with what was confirmed", not held.faults, held.faults)


def check_readers(count, part, texts, reader):
    """Two readers of the lines about handlers agree on these texts, and on each of them cut at some bytes."""
    draw, compared, open_events = random.Random(part), 0, 0
    wrong = []
    for text in sorted(texts):
        cuts = [draw.randrange(len(text) + 1) for _ in range(CUTS if len(text) < LARGE // 4 else 1)]
        for place in (len(text), *cuts):
            found, second = reader.open_events(text[:place]), handler_lines.handlers.open_events(text[:place])
            compared, open_events = compared + (found is not None), open_events + len(found or ())
            if found != second:
                wrong.append(f"{text[:place]!r}: the library {found}, the reader in Python {second}")
    print(f"{part}: {compared:,} texts say {open_events:,} times that an event is open; the readers disagree on {len(wrong)}", flush=True)
    count.check(f"{part}: texts that say something of handlers, at least {LEAST_READ[part]}", compared >= LEAST_READ[part], compared)
    count.check(f"{part}: both readers report the same open events", not wrong, wrong[:1])


def killed_alone(place, folder, kills):
    """Kills a node again and again while it fires events: on a file that keeps events, on one that doesn't and whose last line is torn at
    each start, and on one that is so large at each start that the node compacts it."""
    draw, net = random.Random(kills), f"127.{10 + os.getpid() % 240}.{os.getpid() // 240 % 250}"
    for number, (more, tail, kinds) in enumerate((
        (["-keep"], b"", ("append", "answers")),
        ([], b"event-clock: 7", ("append", "answers")),
        (["-keep"], b"# a line\n" * (LARGE // 9), ("compact", "replace", "append", "moment", "answers")),
    ), 1):
        path = os.path.join(place.folder, f"killed{number}")
        words = [place.program("node"), "-name", "a", "-bind", f"{net}.{number}", "-snapshot", path, "-log", f"{path}.log", *more]
        for life in range(kills):
            # (any bytes may follow what was confirmed)
            with open(path, "ab") as file:
                file.write(tail)
            kill_once(words, folder, kinds[life % len(kinds)], draw)


def kill_once(words, folder, kind, draw):
    """Starts a node, sends it events, and kills it: at a random moment, after some answers, or in the recorder at a record of this kind."""
    env = {**os.environ, "KITCHENRUE_LIVES": folder}
    if kind in ("append", "replace", "compact"):
        env["KITCHENRUE_KILL"] = f"{kind} {draw.randint(1, SENT // 2) if kind == 'append' else 1}"
    with tempfile.TemporaryFile() as given:
        given.write(b"".join(b"fire deploy v%d\n" % sent for sent in range(SENT)))
        given.seek(0)
        with subprocess.Popen(words, stdin=given, stdout=subprocess.PIPE, stderr=subprocess.DEVNULL, env=env) as node:
            if kind == "moment":
                time.sleep(draw.uniform(0, SOON))
            elif kind == "answers":
                # (the first line says that it has started)
                for _ in range(1 + draw.randrange(SENT)):
                    node.stdout.readline()
            else:
                node.stdout.read()
            node.kill()


def killed_in_cluster(place, folder, kills):
    """Kills the nodes of a cluster, as tests/library/kept_cluster.py does, some of them in the middle of a firing."""
    asked = argparse.Namespace(nodes=3, kills=kills, seconds=1, rate=20, seed=1, cut=False, without=False)
    os.makedirs(os.path.join(place.folder, "cluster"))
    nodes = kept_cluster.cluster(os.path.join(place.folder, "cluster"), place.program("node"), asked)
    os.environ["KITCHENRUE_LIVES"] = folder
    torment = kept_cluster.Torment(nodes, asked)
    try:
        for node in nodes:
            node.start()
        torment.run()
    finally:
        del os.environ["KITCHENRUE_LIVES"]
        for node in nodes:
            if node.starting is not None:
                node.starting.join()
            node.end()


def try_hosts(count, place, hosts):
    """Each wrong host is found."""

    def tried(host):
        return host, place.tested("serf", host.name, f"^({'|'.join(host.edit.tests)})$", host.name)[1]

    with ThreadPoolExecutor(2) as lanes:
        for host, held in lanes.map(tried, hosts):
            count.check(f"{host.name} is found ({host.edit.why})", held.faults, held.said())
            found = Counter(re.sub(r"^.*/(Test[A-Za-z]+).*$", r"\1", path) for path, _ in held.faults)
            print(f"{host.name}: {', '.join(f'{name} {times}' for name, times in found.most_common(12)) or 'not found'}", flush=True)


def run(count, library, words):
    hosts = [go_mutants.Body("", edit) for edit in edit_files.written_in(os.path.join(OWN, "wrong"))]
    with tempfile.TemporaryDirectory(prefix="snapshot-lives-") as folder:
        fault = recording_library(folder, library)
        count.check("the library that records is made", fault is None, fault)
        if fault:
            return
        try:
            place = Place(folder, os.path.join(folder, os.path.basename(c_library.LIBRARY)), hosts)
        except planting.NotPlanted as why:
            count.check("the recorder and the wrong hosts can be planted", False, why)
            return
        fault = next(filter(None, map(place.compiled, PACKAGES[:1] if words.names else PACKAGES)), None) or place.fault_of_node()
        count.check("the node and the tests are compiled", fault is None, fault)
        if fault:
            return
        if words.names:
            try_hosts(count, place, [host for host in hosts if host.name in words.names])
            return
        reader, fault = handler_lines.library_in(folder, library)
        count.check("the library is built for Python", fault is None, fault)
        if fault:
            return
        # (most of the time these tests wait)
        with ThreadPoolExecutor(len(PACKAGES)) as lanes:
            tested = list(lanes.map(lambda package: place.tested(package, package), PACKAGES))
        for package, (failed, held) in zip(PACKAGES, tested):
            if failed:
                print(f"{package}: these tests failed, which tests/library/agent.py judges: {', '.join(failed)}", flush=True)
            check_held(count, package, held)
            check_readers(count, package, held.texts, reader)
        for part, kill in (("killed alone", killed_alone), ("killed in a cluster", killed_in_cluster)):
            records = place.records(part)
            kill(place, records, words.kills)
            check_held(count, part, premise.Held(records))
        try_hosts(count, place, hosts)


def main():
    parser = argparse.ArgumentParser(description=__doc__, formatter_class=argparse.RawDescriptionHelpFormatter)
    parser.add_argument("names", nargs="*", metavar="NAME")
    parser.add_argument("--kills", type=int, default=KILLS)
    parser.add_argument("--library")
    parser.add_argument("--over-ci", action="store_true")
    words, count = parser.parse_args(), checks.Checks()
    check_definitions(count)
    fault = go_mutants.fault_of_machine(words)
    if fault:
        print(f"not run: {fault}")
        return count.finish()
    run(count, os.path.abspath(words.library or c_library.LIBRARY), words)
    return count.finish()


if __name__ == "__main__":
    sys.exit(main())
