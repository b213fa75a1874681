"""The agent for operators (`agent/`): builds and packs it as its page says, formats and vets it, runs its own tests and those of the
package serf that it uses under Go's race detector, attests what they recorded, turns it into a schedule
(`examples/records/schedule_of_records.py`), and tries what the pages show of agents (`agent/shown.py`).

    tests/library/agent.py [--library FILE] [--over-ci]

Go, memberlist, go-msgpack and Serf's coordinates have to be installed, as `tools/packages` does, and the program has to be
built. --library names another static library than that of crates/serf_agent_c, which is built otherwise; --over-ci builds it over
what `rt ci` left, as the gate does.
"""

import argparse
import importlib.util
import os
import re
import shlex
import shutil
import sys
import tempfile
from concurrent.futures import ThreadPoolExecutor

sys.dont_write_bytecode = True
sys.path.insert(0, os.path.dirname(os.path.dirname(os.path.abspath(__file__))))
import attestation
import checks
import c_library
from checks import TOP

sys.path.insert(0, os.path.join(TOP, "tests", "library", "agent"))
import packed
import pages
import races
import shown

# A test of Go's and how it ended.
TEST = re.compile(r"^--- (PASS|FAIL): (\S+)", re.M)


def unbuilt(count, library, folder):
    """If Go or the library is missing, agent/build prints a sentence, with status 3."""
    few, alone = os.path.join(folder, "few"), os.path.join(folder, "alone", "agent", "build")
    os.makedirs(few)
    for name in ("dirname", "uname"):
        os.symlink(shutil.which(name), os.path.join(few, name))
    os.makedirs(os.path.dirname(alone))
    shutil.copy(os.path.join(TOP, "agent", "build"), alone)
    for what, script, path, says in (
        ("without Go", os.path.join(TOP, "agent", "build"), few, "agent/build: go is not on PATH"),
        ("without the library", alone, os.environ["PATH"], "agent/build: libserf_agent_c.a is not in "),
    ):
        status, output = c_library.ran(
            [script, os.path.join(folder, "none"), library if path == few else folder], env={**os.environ, "PATH": path}
        )
        count.check(f"agent/build {what}", status == 3 and output.startswith(says) and output.count("\n") == 1, (status, output))


def built(count, library, folder):
    """The program, built by the script that README and AGENT.md show, and the package that contains it."""
    program, package = os.path.join(folder, "kitchenrue-agent"), os.path.join(folder, "kitchenrue-agent.deb")
    lean = {"env": {**os.environ, **c_library.LEAN_GO}}
    status, output = c_library.ran([os.path.join(TOP, "agent", "build"), program, library], **lean)
    count.check("agent/build", status == 0, output[-2000:])
    status, output = c_library.ran([program, "-version"])
    count.check("-version", status == 0 and "kitchenrue-agent" in output.lower(), (status, output))
    status, output = c_library.ran([program, "-no-such-flag"])
    count.check("a flag that doesn't exist", status != 0 and "no-such-flag" in output, (status, output))
    unbuilt(count, library, folder)
    if shutil.which("dpkg-deb") is None:
        print("not run: the Debian package, since dpkg-deb is not on PATH")
        return
    status, output = c_library.ran([os.path.join(TOP, "agent", "package", "deb"), package, library], **lean)
    count.check("agent/package/deb", status == 0, output[-2000:])
    status, output = c_library.ran(["dpkg-deb", "-x", package, os.path.join(folder, "package")])
    count.check(
        "the package has the program",
        os.access(os.path.join(folder, "package", "usr", "bin", "kitchenrue-agent"), os.X_OK),
        (status, output),
    )
    packed.check(count, package, os.path.join(folder, "package"))
    installed(count, package)


def installed(count, package):
    """The package is installed, upgraded, removed and purged, with its own scripts, in a copy of this system."""
    if shutil.which("apt-get") is None or os.geteuid() != 0:
        print("not run: the package's installation, which needs apt-get and root")
        return
    said = c_library.ran(["sh", os.path.join(TOP, "tests", "library", "agent", "install.sh"), package])[1]
    if said.strip() in ("", "unable") or said.startswith("unshare: "):
        print("not run: the package's installation, since this system allows no overlay mounts")
        return
    for line in said.splitlines():
        end, what = line.split(" ", 1)
        count.check(f"package: {what.split(': ')[0]}", end == "pass", line)
    count.check("package: all was tried", said.splitlines()[-1].endswith("and no files"), said)


# A setting of agent/internal/config: its flag and its key, either of which may be empty.
SETTING = re.compile(r'^\t\{\s*"([\w-]*)", "(\w*)",\s*"', re.M)


def settings_on_page(count):
    """AGENT.md names each setting by its key, and by its flag if that isn't the key with - for _."""
    text = checks.text_of("docs", "AGENT.md").partition("\n## Settings\n")[2].partition("\n## ")[0]
    found = SETTING.findall(checks.text_of("agent", "internal", "config", "settings.go"))
    count.check("the settings are found", len(found) > 40, found)
    for flag, key in found:
        named = [f"`{key}`{'' if flag else '*'}"] if key else []
        named += [f"`-{flag}"] if flag and flag != key.replace("_", "-") and flag != "version" else []
        named = [f"`{key}`"] if key == "discover" else named
        count.check(f"AGENT.md has the setting {key or flag}", all(word in text for word in named), named)


SCRIPT = os.path.join(TOP, "examples", "records", "schedule_of_records.py")


def loaded():
    """The script as a module."""
    module = importlib.util.module_from_spec(importlib.util.spec_from_file_location("schedule_of_records", SCRIPT))
    module.__spec__.loader.exec_module(module)
    return module


def handed_out(lines, number):
    """What a trace says that an agent was handed, in order."""
    words = [line.split() for line in lines]
    return [[it[1], *it[3:]] for it in words if it[1] in ("event", "handed") and it[2] == str(number)]


def scheduled(count, what, *words):
    """The schedule of records, and its trace as lines."""
    status, written = c_library.ran([sys.executable, SCRIPT, *words])
    count.check(f"{what}: a schedule is written", status == 0, written)
    status, schedule, said = checks.run_program(["write"], written.encode())
    count.check(f"{what}: it can be read", status == 0, said)
    status, trace, said = checks.run_program(["replay"], schedule)
    count.check(f"{what}: it runs", status == 0, said)
    return written, schedule, trace.decode().splitlines()


# The longest record that is attested, in bytes, and the minimum number of tests whose records are. Some tests flood an agent.
MAX_RECORD, MIN_ATTESTED = 1 << 20, 15


def attested(count, folder):
    """What the tests recorded: three nodes together, and each record of another test alone."""
    others = [node for node in attestation.recorded_nodes(folder) if node.startswith("Test")]
    small = [node for node in others if os.path.getsize(os.path.join(folder, f"{node}.record")) <= MAX_RECORD]
    with ThreadPoolExecutor(2) as lanes:
        for node, (status, output) in zip(small, lanes.map(lambda node: attestation.attest(folder, nodes=[node]), small)):
            count.check(f"the record of {node} is attested", status == 0 and output.startswith("attested: 1 nodes, "), output)
    print(f"{len(small)} of {len(others)} records of tests are attested; the others have more than {MAX_RECORD:,} bytes")
    count.check("enough records are attested", len(small) >= MIN_ATTESTED, others)
    for node in others:
        os.remove(os.path.join(folder, f"{node}.record"))
    attestation.check_attested(count, folder, None, "--whole")


def recorded(count, folder):
    """The records of three nodes, as a schedule, hand out exactly what was handed to each."""
    module = loaded()
    paths = [os.path.join(folder, f"{name}.record") for name in "abc"]
    nodes = [module.Node(path, lambda what: count.check("a record is whole", False, what)) for path in paths]
    for more in ([], ["--taken"]):
        what = " ".join(["three records", *more])
        written, schedule, trace = scheduled(count, what, *more, *paths)
        for number, node in enumerate(nodes):
            wanted, lives = [], -1
            for call in node.calls:
                lives += call.kind == "open"
                wanted += [[line[0], *line[1:]] for line in call.reply if line[0] in ("event", "handed")]
            count.check(f"{what}: node {number} was handed the same", handed_out(trace, number) == wanted, trace)
            count.check(
                f"{what}: lives of node {number}",
                sum(line.startswith(f'restart "{node.name.decode()}"') for line in written.splitlines()) == lives,
                written,
            )
        answers = {line.split()[0]: line.split()[1:] for line in reversed(trace)}
        actions = [line for line in written.splitlines() if not line.startswith("agent ")]
        other = [
            (line, answers[str(at)])
            for at, line in enumerate(actions, 1)
            if " # " in line and line.split(" # ")[1].split()[1:] != answers[str(at)]
        ]
        count.check(f"{what}: each call has the answer of the reference", len(actions) == len(answers) and not other, other)
        count.check(f"{what}: all is recorded", sum(" # " in line for line in actions) > 20, written)
        # (of what these nodes sent, only a query with a filter of tags is another packet at a node that it passes. The first query has
        # none)
        injected = sum(": inject " in line for line in written.splitlines())
        queries = sum(call.kind == "query" for node in nodes for call in node.calls)
        count.check(f"{what}: packets are those that were sent", injected < queries, written)
        for command in (["explain"], ["draw"], ["draw", "--as", "mermaid"]):
            status, text, said = checks.run_program(command, schedule)
            count.check(f"{what}: {' '.join(command)}", status == 0 and text, said)
    explained = checks.run_program(["explain", "--agent", "2"], schedule)[1].decode()
    # (by gossip or by a state, whichever was first)
    count.check(
        "explain says why the third node had the second event",
        re.search(r'because (slot \d carries )?event 2 "deploy" "v2": ("c" takes|new, and handed out)', explained),
        explained,
    )
    count.check("and from where it continues", "because its snapshot keeps clock" in explained, explained)


def shown_of_records(count, folder):
    """The commands of docs/AGENT.md for records, run exactly as shown, on the records of two nodes."""
    own = os.path.join(folder, "day")
    for node, name in (("web1", "a"), ("web2", "b")):
        os.makedirs(os.path.join(own, node))
        shutil.copy(os.path.join(folder, f"{name}.record"), os.path.join(own, node, "record"))
        # (the handlers' logs that such a day leaves)
        with open(os.path.join(own, node, "record"), encoding="ascii") as record, open(
            os.path.join(own, node, "handlers.log"), "w", encoding="ascii"
        ) as log:
            for time, event, payload, _ in re.findall(r"^event (\d+) (\S+) (\S+) (\d)$", record.read(), re.M):
                log.write(f"event {name} {time} {bytes.fromhex(event).decode()} {bytes.fromhex(payload).decode()}\n")
    # (the unproved program is started by a script that needs its own folder)
    with open(os.path.join(own, "serf-replay"), "w", encoding="utf-8") as file:
        file.write(f'#!/bin/sh\nexec {shlex.quote(checks.PROGRAM)} "$@"\n')
    os.chmod(file.name, 0o755)
    env = {**os.environ, "PATH": os.pathsep.join([own, os.environ["PATH"]])}
    for command in pages.of(pages.AGENT, "docs/AGENT.md"):
        if command.text.startswith(("examples/", "serf-replay ")):
            text = command.text.replace("examples/", f"{TOP}/examples/")
            status, output = c_library.ran(["sh", "-ec", text], cwd=own, env=env)
            count.check(command.name(), status == 0, output)
    picture = checks.text_of(os.path.join(own, "day.svg"))
    count.check("the day's picture", picture.startswith("<svg"), picture[:300])


def cut_off(count, folder):
    """Records that are cut off, that were continued in a second file, or that are none."""
    with open(os.path.join(folder, "c.record"), encoding="ascii") as file:
        whole = file.read()
    other = os.path.join(folder, "cut.record")

    def written(*parts):
        for number, part in enumerate(reversed(parts)):
            with open(other + (f".{number}" if number else ""), "w", encoding="ascii") as file:
                file.write(part)
        return c_library.ran([sys.executable, SCRIPT, other])

    text, module, last = written(whole)[1], loaded(), ""
    for number, at in enumerate(range(0, len(whole), max(1, len(whole) // 40))):
        with open(other, "w", encoding="ascii") as file:
            file.write(whole[:at])
        try:
            schedule = module.Schedule([module.Node(other, lambda what: None)], False).write()
        except module.RecordError as error:
            schedule = ""
            count.check(f"cut at {at}: it has no call", at < 200 and "not the record of an agent" in str(error), error)
        # (a life with more answers needs more of the record)
        count.check(f"cut at {at}: what is whole is read", len(schedule.splitlines()) >= len(last.splitlines()), schedule)
        last = schedule
        if number % 10 == 9:
            status, _, said = checks.run_program(["write"], schedule.encode())
            count.check(f"cut at {at}: it can be read", status == 0, said)
    # (the second file begins with the clocks at its place, after any call of the first)
    at = whole.index("\n\n", len(whole) // 3) + 2
    head = whole[: whole.index("\n\n") + 2].replace("\n", "\n# goes on\n", 1)
    count.check("two files are as one", written(whole[:at], head + whole[at:]) == (0, text))
    os.remove(f"{other}.1")
    status, said = written(head + whole[at:])
    count.check("a record that begins late", status == 0 and "in the middle of a life" in said, said)
    for what, words in (("none", [os.path.join(folder, "none")]), ("a folder", [folder]), ("one node twice", [other, other])):
        status, said = c_library.ran([sys.executable, SCRIPT, *words])
        count.check(f"{what}: a sentence", status == 1 and said.count("\n") <= 3 and "Traceback" not in said, said)


def main():
    parser = argparse.ArgumentParser(description=__doc__, formatter_class=argparse.RawDescriptionHelpFormatter)
    parser.add_argument("--library")
    parser.add_argument("--over-ci", action="store_true")
    options = parser.parse_args()
    count = checks.Checks()
    fault = None if options.library else c_library.fault_of_library(options.over_ci)
    if fault:
        count.check("the library is built", False, fault)
        return count.finish()
    settings_on_page(count)
    folder = os.path.dirname(os.path.abspath(options.library or c_library.LIBRARY))
    with tempfile.TemporaryDirectory(prefix="agent-") as own:
        built(count, folder, own)
        tested(count, folder, own)
    with tempfile.TemporaryDirectory(prefix="pages-") as own:
        shown.try_pages(count, folder, own)
    return count.finish()


def said_by(name, said):
    """What a test of Go printed."""
    return said[said.rfind(f"=== RUN   {name}\n") : said.find(f": {name} (")][-2000:]


def tested(count, folder, own):
    """Its own tests and those of the package serf, and what they recorded."""
    races.try_reports(count)
    words, records = [os.path.join(TOP, "agent", "test"), folder, "-v", "-count=1"], os.path.join(own, "records")

    def run():
        shutil.rmtree(records, ignore_errors=True)
        os.mkdir(records)
        return c_library.ran(words, env={**os.environ, "KITCHENRUE_RECORDS": records})

    status, output = races.run_under_detector(run)
    for end, name in TEST.findall(output):
        count.check(name, end == "PASS", said_by(name, output))
    count.check("they end well, and no line is unformatted or doubtful", status == 0, output[-2000:])
    if not os.path.exists(checks.PROGRAM):
        count.check("the program is built", False, "./prove makes it, and SERF_UNPROVED=1 uses the one that ./serf-replay compiled")
        return
    attested(count, records)
    recorded(count, records)
    shown_of_records(count, records)
    cut_off(count, records)


if __name__ == "__main__":
    sys.exit(main())
