"""Captures of stock agents on one machine: which node called, and what each life of a node was handed, as its handlers' log has it.

tests/by_hand/captures.py makes the captures and the logs, whose comments say when a node was killed and started.
"""

import datetime
import os
import re
import struct
import tempfile

import checks
from made import FOLDER, script, senders

HERE = os.path.dirname(os.path.abspath(__file__))

LOST = '2 events that this schedule doesn\'t hand out: 3 "deploy" "v3", 4 "deploy" "v4"'


def path(name):
    return os.path.join(HERE, name)


def moment(name, what):
    """When something was done for the last time, in seconds since the capture's first packet."""
    return float(re.findall(rf"^# (-?\d+\.\d+) {what}$", checks.text_of(path(f"{name}.handlers")), re.M)[-1])


def options(name, down):
    """What says when a node was down, what its file had, and what the handlers ran."""
    node = down.partition("=")[0]
    return ("--down", down, "--kept", f"{node}={path(name)}.snapshot", "--log", path(f"{name}.handlers"))


def first_packet(name):
    seconds, parts = struct.unpack_from("<2I", checks.read(path(f"{name}.pcap")), 24)
    return datetime.datetime.fromtimestamp(seconds + parts / 1e6, datetime.timezone.utc)


def of_day(name, seconds, hours=0):
    """A time of day as a log has it, in whole seconds, at an offset from UTC."""
    return (first_packet(name) + datetime.timedelta(seconds=seconds, hours=hours)).strftime("%H:%M:%S")


def handed_out(written):
    """The events that a written schedule's run hands out, by the agent's name."""
    names = [line.split('"')[1] for line in written.splitlines() if line.startswith("agent ")]
    trace = checks.run_program(["replay"], checks.run_program(["write"], written.encode())[1])[1].decode()
    found = {name: [] for name in names}
    for words in (line.split(" ") for line in trace.splitlines()):
        if words[1] == "event":
            found[names[int(words[2])]].append(" ".join([words[3], *(bytes.fromhex(word).decode() for word in words[4:6])]))
    return found


def one_machine(count):
    """Three agents on one machine dial from one address, and beta was killed: it ran two events again when it was started."""
    for name in ("addresses", "ports"):
        killed, started = moment(name, "beta was killed"), moment(name, "beta was started")
        down = f"beta={killed}-{started}"
        got = script(path(f"{name}.pcap"), *options(name, down))
        count.check(f"{name}: nothing contradicts the schedule", got[0] == 0 and got[1].startswith('agent "alpha"'), got)
        ran = handed_out(got[1])
        count.check(f"{name}: two lives of beta", list(ran) == ["alpha", "beta", "beta again", "gamma"], list(ran))
        count.check(f"{name}: what beta ran", sorted(ran["beta"]) == ["1 deploy v1", "2 deploy v2", "3 deploy v3", "4 deploy v4"], ran)
        count.check(f"{name}: what beta ran again", ran["beta again"] == ["3 deploy v3", "4 deploy v4", "5 reload n1"], ran)
        merged = senders(got[1])
        count.check(f"{name}: the sender of each state is known", all(sender in ran for _, sender in merged), merged)
        count.check(f"{name}: beta merged at its start", ("alpha", "beta") in merged and ("beta", "alpha") in merged, merged)
        again = [ends for ends in merged if "beta again" in ends]
        count.check(f"{name}: beta merged when it was started again", len(again) == 2 and again[0] == again[1][::-1], merged)

        got = script(path(f"{name}.pcap"), "--log", path(f"{name}.handlers"))
        said = [text.splitlines()[0].removeprefix("# ") for text in got[1:]]
        count.check(f"{name}: without options", got[0] == 1 and said[0] == said[1] and LOST in said[0], (got[0], said))
        count.check(f"{name}: its page shows it", f"\n    # {said[0]}\n" in checks.text_of(FOLDER, "README.md"), said)
        count.check(f"{name}: the schedule is under it", got[1].splitlines()[1] == 'agent "alpha"', got[1][:300])
        count.check(f"{name}: a comment of a written schedule", checks.run_program(["write"], got[1].encode())[0] == 0)
        plain = script(path(f"{name}.pcap"))
        count.check(f"{name}: without a log", plain[0] == 0 and plain[1] == got[1].partition("\n")[2], plain[2])

        got = script(path(f"{name}.pcap"), *options(name, f"beta={killed - 1:.3f}-{started}"))
        count.check(f"{name}: down too early", got[0] == 1 and re.match(r"# contradiction: beta sent \d+ packets? ", got[1]), got[1][:300])
        got = script(path(f"{name}.pcap"), *options(name, f"beta={killed}-{started + 0.6:.3f}"))
        count.check(f"{name}: down too long", got[0] == 1 and re.match(r"# contradiction: beta sent \d+ packets? ", got[1]), got[1][:300])


def times_of_day(count):
    """A log has whole seconds, of the machine's zone; a capture's moments have none."""
    name = "addresses"
    killed, started = moment(name, "beta was killed"), moment(name, "beta was started")
    by_seconds = script(path(f"{name}.pcap"), *options(name, f"beta={killed}-{started}"))
    utc, local = (f"{of_day(name, killed, hours)}-{of_day(name, started, hours)}" for hours in (0, 2))
    date = first_packet(name).strftime("%Y-%m-%d")
    begin, end = utc.split("-")
    for what, span, words in (
        ("UTC", utc, ()),
        ("an offset", local, ("--zone", "+02:00")),
        ("an offset after each moment", local.replace("-", "+02:00-") + "+02:00", ()),
        ("an offset west", f"{of_day(name, killed, -5)}-{of_day(name, started, -5)}", ("--zone=-05:00",)),
        ("a zone's name", f"{of_day(name, killed, 9)}-{of_day(name, started, 9)}", ("--zone", "Asia/Tokyo")),
        ("dates", f"{date}T{begin}Z-{date}T{end}Z", ("--zone", "+02:00")),
    ):
        got = script(path(f"{name}.pcap"), *options(name, f"beta={span}"), *words, TZ="America/New_York")
        count.check(f"times of day: {what}", got[0] == 0 and handed_out(got[1]) == handed_out(by_seconds[1]), got)
    got = script(path(f"{name}.pcap"), *options(name, f"beta={local}"), TZ="Europe/Helsinki")
    count.check("times of day of another zone are refused", got[:2] == (2, ""), got)
    count.check("the refusal has the capture's times", f"{date} {of_day(name, 0)}." in got[2] and " UTC, or from 0 to " in got[2], got[2])
    said = "if it is one of another zone, say so by --zone: with --zone=+02:00 it is inside\n"
    count.check("the refusal says what to do", got[2].endswith(said), got[2])
    got = script(path(f"{name}.pcap"), *options(name, f"beta={date}T{begin}+02:00-{end}"))
    is_said = "outside of the capture" in got[2] and "--zone" not in got[2]
    count.check("a moment before the capture is refused", got[:2] == (2, "") and is_said, got)


def last_clock_line(count):
    """Serf restores the last clock line of each kind: gamma ran five events again, though its file has a line above them."""
    name = "rejoin"
    down = f"gamma=-{moment(name, 'gamma was started')}"
    got = script(path(f"{name}.pcap"), *options(name, down), "--rejoin", "gamma")
    count.check("rejoin: nothing contradicts the schedule", got[0] == 0 and got[1].startswith('agent "alpha"'), got)
    ran = handed_out(got[1])
    count.check("rejoin: what gamma ran again", ran["gamma"] == [f"{number} first p{number}" for number in range(2, 7)], ran)
    tail = b"clock: 2\nevent-clock: 1\n".hex()
    count.check("rejoin: the last line of each kind", f'restart "gamma" tail {tail} #' in got[1], got[1][:300])
    with tempfile.TemporaryDirectory() as folder:
        log = os.path.join(folder, "undated.handlers")
        with open(log, "w", encoding="utf-8") as file:
            file.write(re.sub(r"^\d\S* ", "", checks.text_of(path(f"{name}.handlers")), flags=re.M))
        got = script(path(f"{name}.pcap"), *options(name, down)[:-1], log)
    is_said = "alpha's log has 6 events" in got[1].splitlines()[0]
    count.check("rejoin: lines of before the capture count if they have no date", got[0] == 1 and is_said, got[1][:300])


def by_what_it_had(count):
    """Several nodes dial from one address, and none says which it is: the caller is the node that lacked what its state lacks."""
    name = "sync"
    got = script(path(f"{name}.pcap"), "--log", path(f"{name}.handlers"))
    count.check("sync: nothing contradicts the schedule", got[0] == 0 and got[1].startswith('agent "alpha"'), got)
    ran, merged = handed_out(got[1]), senders(got[1])
    count.check("sync: what each node ran", ran == {one: ["1 hotfix h1"] for one in ("alpha", "beta", "gamma")}, ran)
    count.check("sync: gamma called", merged[-2:] == [("alpha", "gamma"), ("gamma", "alpha")], merged)
    unknown = [ends for ends in merged if ends[1] not in ran]
    are_ends = all(re.fullmatch(r"127\.0\.0\.1:\d+", end) for _, end in unknown)
    count.check("sync: callers that can be each of two", unknown and are_ends, merged)
    said = f"left out: {len(unknown)} states that had nothing new for their caller, which is not known"
    count.check("sync: they got nothing new", said in got[2], got[2])


def pictures(count):
    """The lanes of a picture are those of a node's lives, and a contradiction is in front of the picture too."""
    name = "ports"
    words = options(name, f"beta={moment(name, 'beta was killed')}-{moment(name, 'beta was started')}")
    written = script(path(f"{name}.pcap"), *words)[1]
    drawn = checks.run_program(["draw", "--taken"], checks.run_program(["write"], written.encode())[1])[1].decode()
    got = script(path(f"{name}.pcap"), *words, "--senders", given=drawn)
    count.check("a picture of two lives", got[0] == 0 and got[1].startswith("<svg ") and "'-500'" not in got[1], got[2])
    count.check("their lanes", re.findall(r"y='065'>([^<]*)<", got[1])[:4] == ["alpha", "beta", "beta again", "gamma"], got[1][:900])
    written = script(path(f"{name}.pcap"), *words[-2:])[1]
    drawn = checks.run_program(["draw"], checks.run_program(["write"], written.encode())[1])[1].decode()
    got = script(path(f"{name}.pcap"), *words[-2:], "--senders", given=drawn)
    said = "<!-- contradiction: beta's log has 2 events"
    count.check("a contradiction in front of a picture", got[0] == 1 and got[1].startswith(said), got[1][:300])
    count.check("it is no end of the comment", got[1].splitlines()[0].count("--") == 2, got[1][:300])


PARTS = (one_machine, times_of_day, last_clock_line, by_what_it_had, pictures)
