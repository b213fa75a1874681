"""`examples/capture/schedule_of.py`: the capture next to it, compared with its handlers' log, and pictures of it with its senders;
frames, connections and files that the test makes itself; and captures that are cut or changed.

Its parts in `capture/`: `incidents.py` has captures of stock agents on one machine, which tests/by_hand/captures.py makes,
`calling.py` which node called, `logs.py` the logs of handlers, and `options.py` the other options.
"""

import os
import random
import re
import struct
import subprocess
import sys
import tempfile

sys.dont_write_bytecode = True
sys.path.insert(0, os.path.dirname(os.path.dirname(os.path.abspath(__file__))))
import checks
import pages

sys.path.insert(0, os.path.join(checks.TOP, "tests", "program", "capture"))
from made import ALPHA, BETA, BOTH, CAPTURE, EVENT, FOLDER, NAMES
from made import capture, compound, ip, node, packed, raw, read, script, state, summed, tcp, udp
import calling
import incidents
import logs
import options

sys.path.insert(0, FOLDER)
import memberlist

DOWN = ("--down", "beta=7.1-9.3", "--ignore", "beta")

USER = b"\x08" + EVENT
FRAMES = (
    ("a user message", USER),
    ("a checksum", summed(USER)),
    ("a compound message", compound(b"\x00\x80", USER)),
    ("LZW", packed(USER)),
    ("all of them", summed(packed(compound(b"\x02\x80", USER)))),
    ("a label", b"\xf4\x02dc" + summed(USER)),
)
FAULTS = (
    ("another checksum", b"\x0c\x00\x00\x00\x00" + USER, "the checksum differs"),
    ("a compound message that ends", compound(USER)[:-1], "it ends too early"),
    ("LZW without an end", packed(USER)[:-4], "it ends too early"),
    ("nothing", b"", "it ends too early"),
    ("frames without end", b"\x0c" + b"\x07\x01\x00\xff" * 3, "the checksum differs"),
)


def frames(count):
    for name, payload in FRAMES:
        got = read(capture([(5, udp(payload))]), *NAMES)
        count.check(name, got[:2] == (0, BOTH), got)
    for name, payload, fault in FAULTS:
        got = read(capture([(5, udp(USER)), (6, udp(payload))]), *NAMES)
        count.check(name, got[:2] == (1, BOTH) and fault in got[2], got)
    deep = USER
    for _ in range(40):
        deep = compound(deep)
    got = read(capture([(5, udp(deep))]), *NAMES)
    count.check("frames too deep", got[0] == 1 and "too deep" in got[2], got)
    texts = [random.Random(seed).randbytes(seed) * 3 for seed in range(0, 300, 37)]
    for text in texts:
        held = memberlist.map_at(packed(text), 1)[0][b"Buf"]
        count.check(f"{len(text)} bytes by LZW", memberlist.decompress_lzw(held) == text)


def files(count):
    packet = udp(summed(USER))
    for name, data in (
        ("Linux's any", capture([(5, packet)], link=113)),
        ("no link", capture([(5, packet)], link=101)),
        ("the other order of bytes", capture([(5, packet)], order=">")),
        ("nanoseconds", capture([(5, packet)], magic=0xA1B23C4D)),
    ):
        got = read(data, *NAMES)
        count.check(name, got[:2] == (0, BOTH), got)
    for name, data in (("no capture", b"serf"), ("an empty file", b""), ("pcapng", b"\x0a\x0d\x0d\x0a" * 9)):
        got = read(data)
        count.check(name, got[:2] == (2, "") and got[2].count("\n") == 1, got)
    got = script("/nowhere")
    count.check("no file", got[:2] == (2, "") and "No such file" in got[2], got)
    got = read(capture([(5, packet)]))
    count.check("nodes without names", got[:2] == (0, "") and "--node" in got[2], got)
    alive = b"\x04\x83\xa4Node\xa5gamma\xa4Addr" + raw(bytes((10, 0, 0, 2))) + b"\xa4Port\xcd\x1f\x0a"
    got = read(capture([(5, udp(summed(compound(alive, USER))))]))
    count.check(
        "a name that memberlist reports", got[1] == f'agent "gamma"\ngive "gamma" {EVENT.hex()} at 0us # from "{ALPHA}:7946"\n', got
    )


def connections(count):
    content = b"\x02\x81\xaaEventLTime\x09"
    sent = state(content)
    taken = f'agent "beta"\ntake "beta" {content.hex()} join # at 3us\n'
    opening, first, second = (0, tcp(b"", 99, flags=2)), tcp(sent[:20], 100), tcp(sent[20:], 120)
    for name, packets in (
        ("in order", [opening, (1, first), (3, second)]),
        ("out of order", [opening, (1, second), (3, first)]),
        ("sent again", [opening, (1, first), (2, first), (3, second), (4, second)]),
    ):
        got = read(capture(packets), *NAMES)
        count.check(f"a connection {name}", got[0] == 0 and got[1].split("#")[0] == taken.split("#")[0], got)
    again = [(9, tcp(b"", 4999, flags=2)), (11, tcp(sent, 5000))]
    got = read(capture([opening, (1, first), (3, second), *again]), *NAMES)
    count.check("a second connection of the same ends", got[0] == 0 and got[1].count("take ") == 2, got)
    got = read(capture([(0, first), (3, second)]), *NAMES)
    count.check("a connection without its beginning", got[:2] == (0, "") and "beginning" in got[2], got)
    answered = ip(BETA, ALPHA, 6, struct.pack(">2H2IBBHHH", 7946, 40000, 49, 100, 0x50, 18, 0, 0, 0))
    answer = ip(BETA, ALPHA, 6, struct.pack(">2H2IBBHHH", 7946, 40000, 50, 100, 0x50, 16, 0, 0, 0) + sent)
    got = read(capture([(0, answered), (1, answer)]), *NAMES)
    count.check("a connection of which only the answer is there", got[0] == 0 and 'take "alpha"' in got[1] and 'from "beta"' in got[1], got)
    got = read(capture([opening, (1, first)]), *NAMES)
    count.check("a connection with a gap", got[:2] == (1, "") and "too early" in got[2], got)
    got = read(capture([opening, (1, tcp(sent[:-2], 100)), (3, tcp(sent[-2:], 100 + len(sent)))]), *NAMES)
    count.check("a connection with a part missing", got[:2] == (1, "") and "too early" in got[2], got)
    got = read(capture([opening, (1, tcp(state(content, False), 100))]), *NAMES)
    count.check("a state that is no join's", "sync" in got[1], got)


def keys(count):
    payload = b"\x01" + bytes(40)
    got = read(capture([(5, udp(payload))]), *NAMES)
    count.check("an encrypted packet without a key", got[1] == "", got)
    got = read(capture([(5, udp(payload))]), *NAMES, "--key", "AAAAAAAAAAAAAAAAAAAAAA==")
    said = ("the key doesn't decrypt it", "no package `cryptography`")
    count.check("a key that isn't the right one", got[:2] == (1, "") and any(one in got[2] for one in said), got)
    try:
        from cryptography.hazmat.primitives.ciphers.aead import AESGCM
    except ImportError:
        print("capture: Python has no package cryptography, so no packet is opened")
        return
    sealed = b"\x01" + bytes(12) + AESGCM(bytes(16)).encrypt(bytes(12), summed(USER), b"")
    got = read(capture([(5, udp(sealed))]), *NAMES, "--key", "AAAAAAAAAAAAAAAAAAAAAA==")
    count.check("an encrypted packet", got[:2] == (0, BOTH), got)


def restarted(count):
    """When a node was down by its log's times of day, and on which file it was started again."""
    packets = [(1_000_000 * at, udp(USER, receiver=BETA)) for at in (0, 3, 5, 9)]
    with tempfile.TemporaryDirectory() as folder:
        path, file = os.path.join(folder, "it.pcap"), os.path.join(folder, "snapshot")
        with open(path, "wb") as to:
            to.write(capture([(at + 20 * 3600_000_000, packet) for at, packet in packets]))

        def run(*words):
            return script(path, "--node", f"beta={BETA}", *words)

        by_seconds, by_day = run("--down", "beta=2.5-6"), run("--down", "beta=20:00:02.5-20:00:06")
        is_read = by_day[1].count("give") == 2 and 'restart "beta" # at 6000000us' in by_day[1]
        count.check("a time of day", by_day == by_seconds and is_read, by_day)
        with open(path, "wb") as to:
            to.write(capture([(at + 86_398_000_000, packet) for at, packet in packets]))
        over = run("--down", "beta=23:59:59.5-00:00:04")
        count.check("times of day over midnight", 'restart "beta" # at 6000000us' in over[1] and over[1].count("give") == 2, over)
        with open(path, "wb") as to:
            to.write(capture([(at + 20 * 3600_000_000, packet) for at, packet in packets]))
        for name, text, words, tail in (
            ("a file", b"event-clock: 1\n", (), b"event-clock: 1\n"),
            ("an empty file", b"", (), b""),
            ("a file with a leave", b"event-clock: 1\nleave\nevent-clock: 0\n", (), b"event-clock: 0\n"),
            ("the same with -rejoin", b"event-clock: 1\nleave\n", ("--rejoin", "beta"), b"event-clock: 1\n"),
        ):
            with open(file, "wb") as to:
                to.write(text)
            got = run("--down", "beta=2.5-6", "--kept", f"beta={file}", *words)
            wanted = [
                'agent "beta"',
                'agent "beta again"',
                f'give "beta" {EVENT.hex()} at 0us # from "{ALPHA}:7946"',
                f'restart "beta again" tail {tail.hex() or "-"} # at 6000000us',
                f'give "beta again" {EVENT.hex()} at 9000000us # from "{ALPHA}:7946"',
            ]
            count.check(f"started on {name}", got[0] == 0 and got[1].splitlines() == wanted, got)
        got = run("--down", "beta=2.5-6", "--kept", "beta=/nowhere")
        count.check("no such file", got[0] == 2 and "No such file" in got[2], got)


def one_address(count):
    """Several nodes on one machine, whose connections all come from one address: who joins says who it is."""
    content, host = b"\x02\x81\xaaEventLTime\x09", "127.0.0.1"
    alone = b"\x06\x83\xa5Nodes\x01\xa4Join\xc3\xacUserStateLen" + bytes([len(content)]) + node(b"beta", "127.0.0.52", 7946) + content
    ends = {"sender": host, "receiver": "127.0.0.51"}
    packets = [(0, tcp(b"", 99, flags=2, **ends)), (1, tcp(alone, 100, **ends))]
    answer = []
    for seq, flags, part in ((49, 18, b""), (50, 16, state(content))):
        answer.append((2, ip("127.0.0.51", host, 6, struct.pack(">2H2IBBHHH", 7946, 40000, seq, 0, 0x50, flags, 0, 0, 0) + part)))
    got = read(capture(packets + answer), "--node", "alpha=127.0.0.51")
    wanted = [
        *('agent "alpha"', 'agent "beta"'),
        f'take "alpha" {content.hex()} join # at 1us from "beta"',
        f'take "beta" {content.hex()} join # at 2us from "alpha"',
    ]
    count.check("several nodes on one address", got[0] == 0 and got[1].splitlines() == wanted, got)


def handed(trace, names):
    """The events that a trace hands out, as lines of a handlers' log."""
    for line in trace.splitlines():
        words = line.split(" ")
        if words[1] == "event":
            texts = [bytes.fromhex(word).decode() if word != "-" else "-" for word in words[4:6]]
            yield " ".join(["event", names[int(words[2])], words[3], *texts])


def story(count):
    """The capture of examples/capture: its run hands out what its handlers ran."""
    status, text, said = script(CAPTURE, *DOWN)
    count.check("the capture is read", status == 0 and "could not be read" not in said, said)
    count.check("it is the stored one", text == checks.text_of(FOLDER, "gossip.written"), text[:300])
    names = [line.split('"')[1] for line in text.splitlines() if line.startswith("agent ")]
    count.check("its nodes", names == ["alpha", "beta", "gamma"], names)
    schedule = checks.run_program(["write"], text.encode())
    count.check("it is a written schedule", schedule[0] == 0 and not schedule[2], schedule)
    trace = checks.run_program(["replay"], schedule[1])[1].decode()
    ran = [line for line in checks.text_of(FOLDER, "handlers.log").splitlines() if line.startswith("event ")]
    got = list(handed(trace, names))
    count.check("each node is handed what its handler ran", sorted(got) == sorted(ran), (got, ran))
    reasons = checks.run_program(["explain", "--agent", "1"], schedule[1])[1].decode()
    count.check("why beta lacks one", 'event 3 "reload" "n1": below the minimum time 4, unchanged since action 105' in reasons)
    trace = checks.run_program(["replay"], checks.run_program(["write"], script(CAPTURE)[1].encode())[1])[1].decode()
    count.check("without --down beta would have it", len(list(handed(trace, names))) == len(ran) + 1, trace[-300:])


# A step of a written schedule: who gets the packet, and who sent it.
STEP = re.compile(r'(?:give|take) "(\w+)" .* (?:from "(\w+)"|its own)$')


def told(written):
    """From which lane to which the packet of each action came, as a written schedule says it; a node's own came from none."""
    lanes, number, found = {"alpha": 500, "beta": 1500, "gamma": 2500}, 0, {}
    for line in written.splitlines():
        number += {"agent": 0, "restart": 1}.get(line.split(" ")[0], 2)
        step = STEP.match(line)
        if step and step[2]:
            found[number] = (lanes[step[2]], lanes[step[1]])
    return found


def arrows(picture):
    """From where to where the arrows of a picture go, by the action in whose row they end."""
    numbers = dict(re.findall(r"<text class='n' x='-680' y='(\d+)75'>(\d+)</text>", picture))
    found = re.findall(r"<path class='[tir]' d='M(-?\d+) \d+50L(-?\d+) (\d+)50'/>", picture)
    return {int(numbers[line]): (int(begin), int(end)) for begin, end, line in found}


def senders(count):
    """--senders: the arrows of a picture begin in the lanes of those that sent the packets; nothing else of it changes."""
    written = checks.text_of(FOLDER, "gossip.written")
    schedule, sent = checks.run_program(["write"], written.encode())[1], told(written)
    own = [line.split(" ")[1] for line in written.splitlines() if line.endswith("its own")]
    count.check("who fired or asked", own == ['"alpha"', '"beta"', '"gamma"', '"alpha"'], own)
    for words in ([], ["--taken"], ["--event", "reload"], ["--from", "91", "--to", "100"], ["--from", "12", "--to", "13"]):
        drawn = checks.run_program(["draw", *words], schedule)[1].decode()
        status, picture, said = script(CAPTURE, *DOWN, "--senders", given=drawn)
        name, wanted = f"senders {' '.join(words)}", {number: sent[number] for number in arrows(drawn) if number in sent}
        count.check(f"{name}: the arrows", status == 0 and wanted and arrows(picture) == wanted, (arrows(picture), wanted, said))
        count.check(f"{name}: nothing is outside", "'-500'" in drawn and "-500" not in picture, picture[-300:])
        texts, dots = r"<text class='[tirn]'.*", r"<g class='.' transform='translate\((?!-500).*|<path class='w' d='M(?!-500).*"
        count.check(f"{name}: its texts", re.findall(texts, picture) == re.findall(texts, drawn), picture[-300:])
        count.check(f"{name}: its dots", set(re.findall(dots, picture)) >= set(re.findall(dots, drawn)), picture[-300:])
        count.check(f"{name}: no cross", "<path class='x' transform" not in picture, picture[-300:])
    drawn = checks.run_program(["draw", "--agent", "beta"], schedule)[1].decode()
    picture = script(CAPTURE, *DOWN, "--senders", given=drawn)[1]
    wanted = {number: ends for number, ends in arrows(drawn).items() if number in sent}
    count.check("senders without lanes", wanted and arrows(picture) == wanted and ">outside<" in picture, (arrows(picture), wanted))
    unnamed = capture([(5, udp(USER))]), "--node", f"beta={BETA}"
    drawn = checks.run_program(["draw"], checks.run_program(["write"], read(*unnamed)[1].encode())[1])[1].decode()
    picture = read(*unnamed, "--senders", given=drawn)[1]
    count.check("a sender without a name", arrows(picture) == {2: (-500, 500)} and ">outside<" in picture, picture)
    mermaid = checks.run_program(["draw", "--as", "mermaid"], schedule)[1].decode()
    others = [checks.text_of(checks.EXAMPLES, f"{one}.svg") for one in ("deploy_gossiped_twice", "what_is_refused", "partition/as_it_ran")]
    for number, other in enumerate(["", "serf", mermaid, *others]):
        got = script(CAPTURE, *DOWN, "--senders", given=other)
        count.check(f"another picture {number}", got[:2] == (2, "") and got[2].count("\n") == 1, got)


def shown(count):
    """Runs what its page shows, with its output in another folder."""
    with tempfile.TemporaryDirectory() as folder:
        written = os.path.join(folder, "gossip.written")
        for command in pages.of(pages.CAPTURE):
            text = command.text.replace("> examples/capture/gossip.written", f"> {written}")
            result = subprocess.run(["sh", "-ec", text], cwd=checks.TOP, capture_output=True, text=True, timeout=checks.LIMIT)
            same = os.path.exists(written) and checks.text_of(written) == checks.text_of(FOLDER, "gossip.written")
            count.check(command.name(), result.returncode == 0 and same, result.stderr)


def changed(count):
    """A capture that is cut, or has other bytes, is read as far as it goes: no traceback, whatever is in it."""
    data, chance = checks.read(FOLDER, "gossip.pcap"), random.Random(44)
    for turn in range(40):
        other = bytearray(data[: chance.randrange(len(data))] if turn % 2 else data)
        for _ in range(turn):
            other[chance.randrange(24, len(other)) if len(other) > 24 else 0] = chance.randrange(256)
        got = read(bytes(other), *DOWN)
        count.check(f"changed {turn}", got[0] in (0, 1, 2) and "Traceback" not in got[2], got[2])


if __name__ == "__main__":
    parts = (frames, files, connections, restarted, one_address, keys, story, senders, shown, changed)
    sys.exit(checks.over_program(*parts, *incidents.PARTS, *calling.PARTS, *logs.PARTS, *options.PARTS))
