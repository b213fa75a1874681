"""What the handlers' logs have otherwise than the schedule of a capture."""

import os
import tempfile

import checks
from made import ALPHA, CAPTURE, EVENT, FOLDER, NAMES, capture, read, script, state, tcp, udp


def logs(count):
    """What the handlers' logs have otherwise than the schedule."""
    log = ("--log", os.path.join(FOLDER, "handlers.log"))
    got = script(CAPTURE, "--down", "beta=7.1-9.3", "--ignore", "beta", *log)
    count.check("the example's log", got[0] == 0 and got[1] == checks.text_of(FOLDER, "gossip.written"), got[2])
    got = script(CAPTURE, "--down", "beta=7.1-9.3", *log)
    said = 'contradiction: this schedule hands out 1 event that beta\'s log doesn\'t have: 3 "reload" "n1". '
    count.check("without --ignore", got[0] == 1 and got[1].startswith(f"# {said}") and got[2].startswith(said), got[1][:300])
    early, late = EVENT.replace(b"\xc2", b"\xc3"), EVENT.replace(b"\xc2", b"\xc3").replace(b"LTime\x01", b"LTime\x02")
    at = 20 * 3600_000_000
    data = capture([(at + 5, udp(b"\x08" + early)), (at + 6_000_005, udp(b"\x08" + late))])
    lacks = "contradiction: this schedule hands out 1 event that beta's log doesn't have"
    extra = "contradiction: beta's log has 1 event that this schedule doesn't hand out"
    whole = "event beta 1 deploy v1\nevent beta 2 deploy v1\n"
    for what, text, status, said in (
        ("the same", whole, 0, ""),
        ("one that is coalesced", "event beta 2 deploy v1\n", 0, ""),
        ("one that is missing", "event beta 1 deploy v1\n", 1, f'{lacks}: 2 "deploy" "v1"'),
        ("one that is twice", "event beta 1 deploy v1\n" + whole, 1, f'{extra}: 1 "deploy" "v1"'),
        ("one that ran twice at once", ("1970-01-01T20:00:01Z event beta 1 deploy v1\n") * 2 + "event beta 2 deploy v1\n", 1, extra),
        ("another payload", "event beta 1 deploy v1\nevent beta 2 deploy v2\n", 1, extra),
        ("a mark, carriage returns and comments", "\ufeff# x\r\n\r\n" + whole.replace("\n", "\r\n"), 0, ""),
        ("a date and a time", "1970-01-01 20:00:00 event beta 1 deploy v1\n1970-01-01T20:00:06Z event beta 2 deploy v1\n", 0, ""),
        ("a line of before the capture", "1970-01-01T19:59:59Z event beta 1 deploy v1\n" + whole, 0, ""),
        ("a line of after the capture", whole + "1970-01-01T20:00:09Z event beta 9 x y\n", 0, ""),
        ("an event that arrived before", "1970-01-01T20:00:03Z event beta 9 x y\n" + whole, 0, ""),
        ("an event that ran before", "1970-01-01T19:59:59Z event beta 1 deploy v1\nevent beta 2 deploy v1\n", 0, ""),
        ("an event that no packet has", "1970-01-01T20:00:05Z event beta 9 x y\n" + whole, 1, extra),
        ("queries, firings and starts", whole + "query beta 1 7\nfired beta 1 a b\nrestarted beta\n", 0, ""),
        ("handlers that began and ended", whole.replace("event", "begun") + "ended beta 1 deploy v1 0\nended beta 2 deploy v1 1\n", 0, ""),
        ("a line that is none", whole + "nonsense\n", 1, "line 3 is no line of a handlers' log"),
        ("a date that is none", whole + "1970-13-01T20:00:03Z event beta 9 x y\n", 1, "line 3 of the log has an impossible date"),
        ("an unknown node", whole + "event bta 1 deploy v1\n", 1, 'a node "bta", which the capture doesn\'t have'),
    ):
        got = logged(data, text)
        count.check(f"a log: {what}", got[0] == status and said in got[2] and (status == 1) == ("log" in got[2]), got)
    plain = capture([(at + 5, udp(b"\x08" + EVENT)), (at + 6_000_005, udp(b"\x08" + late, sender="10.0.0.9", receiver=ALPHA))])
    got = logged(plain, "1970-01-01T19:59:59Z event beta 1 deploy v1\n")
    said = 'contradiction: this schedule hands out 1 event that beta ran before the capture: 1 "deploy" "v1". '
    count.check("a log: an event that the schedule hands out too late", got[0] == 1 and got[1].startswith(f"# {said}"), got)
    got = logged(plain, "event beta 1 deploy v1\n1970-01-01T20:00:01Z event beta 2 deploy v1\n")
    count.check("a log: an event that another node alone got again", got[0] == 0, got)
    content = b"\x02\x82\xaaEventLTime\x02\xa6Events\x91\x82\xa5LTime\x01\xa6Events\x91\x82\xa4Name\xa6deploy\xa7Payload\xa2v1"
    merged = [(at, tcp(b"", 99, flags=2)), (at + 1, tcp(state(content), 100)), (at + 6_000_000, udp(b"\x00"))]
    for times, status in ((1, 0), (2, 1)):
        got = logged(capture(merged), "1970-01-01T20:00:01Z event beta 1 deploy v1\n" * times)
        count.check(f"a log: an event of a state, {times} times", got[0] == status, got)
    other = late.replace(b"deploy", b"reload")
    got = logged(capture([(at + 5, udp(b"\x08" + early)), (at + 6_000_005, udp(b"\x08" + other))]), "event beta 2 reload v1\n")
    count.check("a log: an event of another name doesn't coalesce", got[0] == 1 and lacks + ': 1 "deploy" "v1"' in got[1], got)
    got = logged(data, "event beta 1 deploy v1\nevent beta 2 deploy v1\n", "beta=")
    count.check("a node's own log", got[0] == 0, got)
    got = logged(data, "", "beta=")
    said = "# contradiction: this schedule hands out 2 events that beta's log doesn't have: "
    count.check("a node's empty log", got[0] == 1 and got[1].startswith(said), got)
    got = logged(data, "event beta 1 deploy v1\n", "alpha=")
    count.check("another node's log", got[:2] == (2, "") and 'is the log of "alpha"' in got[2] and 'a line of "beta"' in got[2], got)
    got = logged(data, "", "bta=")
    count.check("an unknown node's log", got[:2] == (2, "") and 'no node "bta"; its nodes are "alpha" and "beta"' in got[2], got)
    got = logged(capture([(5, udp(b"\x08" + EVENT.replace(b"\xa2v1", b"\xa3v1\n")))]), "event beta 1 deploy v1\n")
    count.check("a newline at a payload's end", got[0] == 0, got)
    odd = EVENT.replace(b"\xa2v1", b"\xa5-\n% \r")
    dash = EVENT.replace(b"\xa2v1", b"\xa1-")
    packets = [(5, udp(b"\x08" + odd)), (6, udp(b"\x08" + dash))]
    got = logged(capture(packets), "event beta 1 deploy -%0A%25%20%0D\nevent beta 1 deploy %2D\n")
    count.check("texts as the log's script writes them", got[0] == 0, got)


def logged(data, text, prefix=""):
    with tempfile.TemporaryDirectory() as folder:
        log = os.path.join(folder, "it.handlers")
        with open(log, "w", encoding="utf-8", newline="") as file:
            file.write(text)
        return read(data, *NAMES, "--log", f"{prefix}{log}")


PARTS = (logs,)
