"""The options of `examples/capture/schedule_of.py`: what is refused, and what a start makes of a snapshot."""

import os
import sys
import tempfile

import checks
from made import ALPHA, BETA, CAPTURE, EVENT, FOLDER, NAMES, capture, script, udp

sys.path.insert(0, FOLDER)
import snapshots

NODES = 'its nodes are "alpha", "beta" and "gamma"'
RANGE = "which is from 2026-11-26 13:52:56.771 to 13:53:08.105 UTC, or from 0 to 11.335 s"

KEPT = os.path.join(FOLDER, "..", "incident", "beta.snapshot")
LOG = os.path.join(FOLDER, "handlers.log")

# The words, and what the refusal has to say.
REFUSED = (
    (("--down", "bta=1-2"), ("--down bta=1-2: ", 'no node "bta"', NODES)),
    (("--ignore", "bta"), ("--ignore bta: ", 'no node "bta"', NODES)),
    (("--down", "beta=7.1-9.3", "--kept", f"bta={KEPT}"), (f"--kept bta={KEPT}: ", 'no node "bta"', NODES)),
    (("--rejoin", "bta"), ("--rejoin bta: ", 'no node "bta"', NODES)),
    (("--log", f"bta={LOG}"), ("--log bta=", 'no node "bta"', NODES)),
    (("--down", "beta=500-600"), ("500 is outside of the capture", RANGE)),
    (("--down", "beta=7.1-600"), ("600 is outside of the capture", RANGE)),
    (("--down", "beta=9-8"), ("it ends at 8, before it begins at 9",)),
    (("--down", "beta=07:24:56-07:24:59"), ("07:24:56 is outside of the capture", RANGE, "say so by --zone")),
    (("--down", "beta=25:00:00-"), ("25:00:00 is no time of day",)),
    (("--down", "beta"), ("this is not NAME=FROM-TO",)),
    (("--down", "beta=x"), ("'x' is no span FROM-TO",)),
    (("--down", "beta=-"), ("'-' is no span FROM-TO",)),
    (("--down", "beta=1-3", "--down", "beta=2-4"), ('--down says of "beta" two spans that overlap',)),
    (("--down", "beta=1-", "--down", "beta=2-4"), ('--down says of "beta" two spans that overlap',)),
    (("--kept", f"beta={KEPT}"), (f"--kept beta={KEPT}: ", "by --down beta=FROM-TO")),
    (("--down", "beta=7.1-", "--kept", f"beta={KEPT}"), ("say when it was started on this file",)),
    (("--down", "beta=7.1-9.3", "--kept", f"beta={KEPT}", "--kept", f"beta={KEPT}"), ('"beta" has a --kept already',)),
    (("--down", "beta=7.1-9.3", "--kept", "beta"), ("this is not NAME=FILE",)),
    (("--down", "beta=7.1-9.3", "--kept", f"beta={LOG}"), (LOG, "it has no line of a snapshot")),
    (("--rejoin", "beta"), ("--rejoin beta: ", "--kept beta=FILE")),
    (("--node", "delta=10.9.9.9"), ("no packet of the capture is from or to 10.9.9.9; its addresses are ",)),
    (("--node", "delta"), ("this is not NAME=ADDRESS",)),
    (("--node", "delta=10.44.0.1:x"), ("this is not NAME=ADDRESS",)),
    (("--node", "delta=[::1]:7946"), ("no packet of the capture is from or to ::1; its addresses are ",)),
    (("--log", "/nowhere"), ("/nowhere: No such file",)),
    (("--zone", "Mars"), ("--zone", "Mars")),
)


def refused(count):
    for words, sentences in REFUSED:
        got = script(CAPTURE, *words)
        is_said = all(one in got[2] for one in sentences) and "Traceback" not in got[2]
        count.check(f"refused: {' '.join(words)}", got[:2] == (2, "") and is_said, got)


def downs(count):
    """A node that was down before the capture, up to its end, or more than once."""
    event = lambda time: b"\x08" + EVENT.replace(b"LTime\x01", b"LTime%c" % time)
    packets = [(1_000_000 * at, udp(event(at + 1))) for at in range(10)]
    twice = ("--down", "beta=6.5-7.5", "--down", "beta=2.5-4.5")
    with tempfile.TemporaryDirectory() as folder:
        path, file = os.path.join(folder, "it.pcap"), os.path.join(folder, "snapshot")
        with open(path, "wb") as to:
            to.write(capture(packets))
        with open(file, "wb") as to:
            to.write(b"event-clock: 3\n")
        for what, words, restarts, given, names in (
            ("from before the capture", ("--down", "beta=-2.5"), 1, 7, ["beta"]),
            ("up to its end", ("--down", "beta=2.5-"), 0, 3, ["beta"]),
            ("twice", twice, 2, 7, ["beta"]),
            ("twice, and then on a file", (*twice, "--kept", f"beta={file}"), 2, 7, ["beta", "beta again"]),
            ("from before the capture, and then on a file", ("--down", "beta=-2.5", "--kept", f"beta={file}"), 1, 7, ["beta"]),
        ):
            got = script(path, *NAMES, *words)
            lines = [line for line in got[1].splitlines() if '"beta' in line.split(" # ")[0]]
            count.check(f"down {what}: starts", sum(line.startswith("restart ") for line in lines) == restarts, got)
            count.check(f"down {what}: packets", got[0] == 0 and sum(line.startswith("give ") for line in lines) == given, got)
            count.check(f"down {what}: agents", [line.split('"')[1] for line in lines if line.startswith("agent ")] == names, got)
            count.check(f"down {what}: one tail", got[1].count(" tail ") == (1 if "--kept" in words else 0), got)


def slack(count):
    """A moment in whole seconds is cut off: the node ran up to its last packet in that second, and from its first one on."""
    event = lambda time: b"\x08" + EVENT.replace(b"LTime\x01", b"LTime%c" % time)
    back = lambda at: (at, udp(b"\x00", sender=BETA, receiver=ALPHA))
    to = lambda at, time: (at, udp(event(time)))
    packets = [to(1_000_000, 1), to(2_400_000, 2), back(2_560_000), to(2_800_000, 3)]
    packets += [to(6_200_000, 4), back(6_430_000), to(6_600_000, 5), to(8_000_000, 6)]
    with tempfile.TemporaryDirectory() as folder:
        path = os.path.join(folder, "it.pcap")
        with open(path, "wb") as file:
            file.write(capture([(0, udp(b"\x00")), *packets]))
        for what, span, times, restart in (
            ("whole seconds", "2-6", [1, 2, 5, 6], 6_430_000),
            ("times of day", "00:00:02-00:00:06", [1, 2, 5, 6], 6_430_000),
            ("tenths", "2.5-6.4", [1, 2, 5, 6], 6_430_000),
            ("thousandths", "2.561-6.430", [1, 2, 5, 6], 6_430_000),
        ):
            got = script(path, *NAMES, "--down", f"beta={span}")
            given = [int(line.split(" ")[2][16:18], 16) for line in got[1].splitlines() if line.startswith('give "beta"')]
            count.check(f"a span in {what}", got[0] == 0 and given == times and f'restart "beta" # at {restart}us' in got[1], (got, given))
        with open(path, "wb") as file:
            file.write(capture([(500_000, udp(b"\x00")), *packets]))
        got = script(path, *NAMES, "--down", "beta=00:00:00-00:00:02")
        count.check("the second in which the capture began", got[0] == 0 and 'restart "beta" # at 2060000us' in got[1], got)
        with open(path, "wb") as file:
            file.write(capture([(0, udp(b"\x00")), *packets]))
        got = script(path, *NAMES, "--down", "beta=2.5-6.5")
        said = "# contradiction: beta sent 1 packet at {} s, and --down says that it didn't run then: correct its FROM or its TO\n"
        count.check("a start that is too late", got[0] == 1 and got[1].startswith(said.format("6.430000")), got)
        got = script(path, *NAMES, "--down", "beta=2.000-6.4")
        count.check("an end that is too early", got[0] == 1 and got[1].startswith(said.format("2.560000")), got)


def starts(count):
    """What a start makes of a snapshot, of Serf's and of one of this project's agents."""
    clocks = b"clock: 1\nevent-clock: 6\nquery-clock: 4\n"
    last = b"clock: 1\nevent-clock: 2\nquery-clock: 4\n"
    others = b"event-clock: 3x\nevent-clock: +4\nevent-clock:  5\nevent-clock: 18446744073709551615\n"
    own = clocks + b"event-clock: 03\n#event 3 61 62\nleave\n"
    for what, text, rejoins, wanted in (
        ("no line", b"", False, (b"", False)),
        ("the last of each kind", clocks + b"event-clock: 2\nalive: a 127.0.0.1:7946\n", False, (last, False)),
        ("those after a leave", clocks + b"leave\nevent-clock: 2\n", False, (b"event-clock: 2\n", False)),
        ("those after the last leave", clocks + b"leave\nevent-clock: 2\nleave\nclock: 5\n", False, (b"clock: 5\n", False)),
        ("none after a leave", clocks + b"leave\n", False, (b"", False)),
        ("a leave in the first line", b"leave\nevent-clock: 2\n", False, (b"event-clock: 2\n", False)),
        ("with -rejoin", clocks + b"leave\nevent-clock: 2\n", True, (last, False)),
        ("a torn line", b"event-clock: 2\nevent-clock: 9", False, (b"event-clock: 2\n", False)),
        ("a torn leave", b"event-clock: 2\nleave", False, (b"event-clock: 2\n", False)),
        ("a torn line alone", b"event-cl", False, (b"", False)),
        ("numbers that are none", b"event-clock: 2\n" + others, False, (b"event-clock: 2\n", False)),
        ("an own file", own, False, (own, True)),
        ("an own file with -rejoin", own, True, (own, True)),
        ("a file with least times", b"#least event-clock: 7\n", False, (b"#least event-clock: 7\n", True)),
    ):
        got = snapshots.start_on(text, rejoins)
        count.check(f"a start on {what}", got == wanted, got)
    for what, text in (("a log", b"event beta 1 deploy v1\n"), ("bytes", b"\x00\x01")):
        try:
            got = snapshots.start_on(text, False)
        except snapshots.SnapshotError:
            got = None
        count.check(f"no start on {what}", got is None, got)


def own_file(count):
    """A node of this project that keeps its events restores the largest clock line, and its events."""
    text = b"event-clock: 09\n#event 9 64 65\nevent-clock: 03\n"
    events = [b"\x03\x84\xa5LTime%c\xa4Name\xa1d\xa7Payload\xa1e\xa2CC\xc2" % time for time in (2, 9, 8, 10)]
    with tempfile.TemporaryDirectory() as folder:
        path, file = os.path.join(folder, "it.pcap"), os.path.join(folder, "snapshot")
        with open(path, "wb") as to:
            to.write(capture([(1_000_000 * at, udp(b"\x08" + event)) for at, event in enumerate(events)]))
        with open(file, "wb") as to:
            to.write(text)
        got = script(path, *NAMES, "--down", "beta=0.5-0.8", "--kept", f"beta={file}")
    trace = checks.run_program(["replay"], checks.run_program(["write"], got[1].encode())[1])[1].decode()
    times = [words[3] for words in (line.split(" ") for line in trace.splitlines()) if words[1] == "event" and words[2] == "2"]
    count.check("an own file: the agent keeps its events", got[0] == 0 and 'agent "beta again" keep-events\n' in got[1], got)
    count.check("an own file: nothing is handed out twice", times == ["8", "10"], trace)


PARTS = (refused, downs, slack, starts, own_file)
