"""`decode`: one packet as an argument, and packets line by line on standard input.

Every value was computed by hand from the formats (docs/SPEC.md), or was sent by an agent of Serf 0.9.4.
"""

import os
import subprocess
import sys

sys.dont_write_bytecode = True
sys.path.insert(0, os.path.dirname(os.path.dirname(os.path.abspath(__file__))))
import checks

# Packets as Serf sends them, one on each line, and the texts of their messages, with an empty line after each.
SENT = os.path.join(checks.EXAMPLES, "packets.hex")
MEANT = os.path.join(checks.EXAMPLES, "packets.text")


def text(of):
    """A text in hex, as the program prints it."""
    return of.hex() or "-"


def event(time=0, name=b"", payload=b"", coalesce=0):
    return f"userEvent\nLTime {time}\nName {text(name)}\nPayload {text(payload)}\nCC {coalesce}\n"


def query(time=0, id=0, port=0, source=b"", filters=(), flags=0, relay=0, timeout=0, name=b"", payload=b""):
    asked = "".join(f"filter {text(one)}\n" for one in filters)
    return (
        f"query\nLTime {time}\nID {id}\nAddr -\nPort {port}\nSourceNode {text(source)}\n{asked}Flags {flags}\n"
        f"RelayFactor {relay}\nTimeout {timeout}\nName {text(name)}\nPayload {text(payload)}\n"
    )


def answer(time=0, id=0, source=b"", flags=0, payload=b""):
    return f"queryResponse\nLTime {time}\nID {id}\nFrom {text(source)}\nFlags {flags}\nPayload {text(payload)}\n"


def state(member=0, event=0, query=0, status=(), left=(), slots=()):
    """A push/pull. A slot is None, or its time and its events, each a name and a payload."""
    lines = ["pushPull", f"LTime {member}"]
    lines += [f"status {text(name)} {time}" for name, time in status]
    lines += [f"left {text(name)}" for name in left]
    lines.append(f"EventLTime {event}")
    for number, slot in enumerate(slots):
        lines.append(f"slot {number} " + ("nil" if slot is None else str(slot[0])))
        lines += [f"event {text(name)} {text(payload)}" for name, payload in (slot or (0, ()))[1]]
    lines.append(f"QueryLTime {query}")
    return "\n".join(lines) + "\n"


# A user event in its canonical form.
DEPLOY = b"\x03\x84\xa5LTime\x01\xa4Name\xa6deploy\xa7Payload\xa2v1\xa2CC\xc2"

# A push/pull with event clock 9 and slots of times 8 and 7.
TWO_SLOTS = (
    b"\x02\x86\xa5LTime\x01\xacStatusLTimes\x80\xabLeftMembers\x90\xaaEventLTime\x09\xa6Events\x94"
    b"\x82\xa5LTime\x08\xa6Events\x91\x82\xa4Name\xa1a\xa7Payload\xa0\xc0\xc0"
    b"\x82\xa5LTime\x07\xa6Events\x91\x82\xa4Name\xa1b\xa7Payload\xa11\xaaQueryLTime\x01"
)

# The state of an agent with two slots that fired the event above.
STATE_OF_DEPLOY = (
    b"\x02\x86\xa5LTime\x01\xacStatusLTimes\x80\xabLeftMembers\x90\xaaEventLTime\x02\xa6Events\x92"
    b"\xc0\x82\xa5LTime\x01\xa6Events\x91\x82\xa4Name\xa6deploy\xa7Payload\xa2v1\xaaQueryLTime\x01"
)

# A query for one node that requests acks, an ack and a response.
QUERY = (
    b"\x04\x8b\xa5LTime\x01\xa2ID\x07\xa4Addr\xa0\xa4Port\x00\xaaSourceNode\xa1a\xa7Filters\x91\xa4\x00\x91\xa1b"
    b"\xa5Flags\x01\xabRelayFactor\x00\xa7Timeout\xcd\x03\xe8\xa4Name\xa4load\xa7Payload\xa0"
)
ACK = b"\x05\x85\xa5LTime\x01\xa2ID\x07\xa4From\xa1b\xa5Flags\x01\xa7Payload\xa0"
RESPONSE = b"\x05\x85\xa5LTime\x01\xa2ID\x07\xa4From\xa1b\xa5Flags\x00\xa7Payload\xa2ok"

# The largest number, of eight bytes.
MAX_UINT64 = b"\xcf" + b"\xff" * 8

# A list of more than fifteen items has its length in two bytes; nineteen of these slots are nil.
TWENTY_SLOTS = (
    b"\x02\x81\xa6Events\xdc\x00\x14"
    + b"\xc0" * 19
    + b"\x82\xa5LTime\x14\xa6Events\x91\x82\xa4Name\xa1a\xa7Payload\xc0"
)

DEPLOYED = event(1, b"deploy", b"v1")
SLOT = state(slots=[(3, [(b"a", b"b")])])
MEMBERS = state(1, 0, 2, [(b"a", 5), (b"b", 256)], [b"b"])

# Packets, and the text of their message.
PACKETS = (
    (DEPLOY, DEPLOYED),
    # in another order and in other spellings, with one more key
    (b"\x03\x85\xa1X\x92\x01\xc0\xa2CC\xc2\xa7Payload\xc4\x02v1\xa4Name\xa6deploy\xa5LTime\x01", DEPLOYED),
    (b"\x03\x83\xa5LTime\x02\xa4Name\xa1x\xa7Payload\xc0", event(2, b"x")),
    (b"\x03\x80", event()),
    (b"\x02\x80", state()),
    # the time in one, two, four and eight bytes
    (b"\x03\x81\xa5LTime\xcc\xc8", event(0xC8)),
    (b"\x03\x81\xa5LTime\xcd\xc8\x01", event(0xC801)),
    (b"\x03\x81\xa5LTime\xce\xc8\x01\x00\x02", event(0xC8010002)),
    (b"\x03\x81\xa5LTime\xcf\xc8\x01\x00\x02\x00\x00\x00\x03", event(0xC801000200000003)),
    (b"\x03\x81\xa5LTime\xcf\xff\xff\xff\xff\xff\xff\xff\xfe", event(18446744073709551614)),
    # wide keys, a wide length and a time with a sign; an unknown key may appear twice, with any value
    (b"\x03\xde\x00\x02\xc4\x02CC\xc3\xda\x00\x05LTime\xd3\x00\x00\x00\x00\x00\x00\x00\x07", event(7, coalesce=1)),
    (b"\x03\x82\xa1X\x90\xa1X\x80", event()),
    # a text has its length in its first byte, or in the two or four bytes after that
    (b"\x03\x81\xa4Name\xa6deploy", event(name=b"deploy")),
    (b"\x03\x81\xa4Name\xda\x00\x06deploy", event(name=b"deploy")),
    (b"\x03\x81\xa4Name\xdb\x00\x00\x00\x06deploy", event(name=b"deploy")),
    # eight containers inside one another
    (b"\x03\x81\xa1X" + b"\x91" * 7 + b"\xc0", event()),
    (QUERY, query(1, 7, source=b"a", filters=[b"\x00\x91\xa1b"], flags=1, timeout=1000, name=b"load")),
    # numbers in any width that holds them, up to the largest and down to the smallest
    (b"\x04\x81\xa4Port\xd3\x00\x00\x00\x00\x00\x00\x00\x01", query(port=1)),
    (b"\x04\x81\xa4Port\xcd\xff\xff", query(port=65535)),
    (b"\x04\x81\xa2ID\xce\xff\xff\xff\xff", query(id=4294967295)),
    (b"\x04\x81\xa7Timeout\xd1\xff\x80", query(timeout=-128)),
    (b"\x04\x81\xa7Timeout\xcf\x7f\xff\xff\xff\xff\xff\xff\xff", query(timeout=9223372036854775807)),
    (b"\x04\x81\xa7Timeout\xd3\x80\x00\x00\x00\x00\x00\x00\x00", query(timeout=-9223372036854775808)),
    (ACK, answer(1, 7, b"b", 1)),
    (RESPONSE, answer(1, 7, b"b", 0, b"ok")),
    # a response may name any time of its query
    (b"\x05\x81\xa5LTime" + MAX_UINT64, answer(18446744073709551615)),
    (TWO_SLOTS, state(1, 9, 1, slots=[(8, [(b"a", b"")]), None, None, (7, [(b"b", b"1")])])),
    (STATE_OF_DEPLOY, state(1, 2, 1, slots=[None, (1, [(b"deploy", b"v1")])])),
    # a clock, unlike a time, may be the largest number
    (b"\x02\x81\xa5LTime" + MAX_UINT64, state(18446744073709551615)),
    (b"\x02\x81\xaaEventLTime" + MAX_UINT64, state(0, 18446744073709551615)),
    (b"\x02\x81\xaaQueryLTime" + MAX_UINT64, state(0, 0, 18446744073709551615)),
    # a name may have two status times, and nil is the zero value
    (
        b"\x02\x83\xa5LTime" + MAX_UINT64 + b"\xacStatusLTimes\x82\xa1a\x05\xa1a\xc0\xabLeftMembers\x92\xc0\xa1b",
        state(18446744073709551615, status=[(b"a", 5), (b"a", 0)], left=[b"", b"b"]),
    ),
    (
        b"\x02\x82\xacStatusLTimes\x82\xa1a\x01\xa1b\x02\xabLeftMembers\x92\xa1b\xc0",
        state(status=[(b"a", 1), (b"b", 2)], left=[b"b", b""]),
    ),
    # a slot that has a time and no events
    (b"\x02\x81\xa6Events\x92\xc0\x81\xa5LTime\x05", state(slots=[None, (5, [])])),
    # states as Serf sends them: an empty list of events is nil, and so are an empty slot and an empty payload
    (
        b"\x02\x86\xaaEventLTime\x04\xa6Events\xc0\xa5LTime\x02\xabLeftMembers\x90\xaaQueryLTime\x03"
        b"\xacStatusLTimes\x80",
        state(2, 4, 3),
    ),
    (
        b"\x02\x86\xaaEventLTime\x04\xa6Events\x92\xc0\x82\xa6Events\x91\x82\xa4Name\xa6deploy\xa7Payload\xc0"
        b"\xa5LTime\x03\xa5LTime\x02\xabLeftMembers\x90\xaaQueryLTime\x03\xacStatusLTimes\x80",
        state(2, 4, 3, slots=[None, (3, [(b"deploy", b"")])]),
    ),
    # keys of a slot and of its event in either order, wide keys, and a payload as bin
    (b"\x02\x81\xa6Events\x91\x82\xa5LTime\x03\xa6Events\x91\x82\xa4Name\xa1a\xa7Payload\xa1b", SLOT),
    (b"\x02\x81\xa6Events\x91\x82\xa6Events\x91\x82\xa4Name\xa1a\xa7Payload\xa1b\xa5LTime\x03", SLOT),
    (b"\x02\x81\xa6Events\x91\x82\xa5LTime\x03\xa6Events\x91\x82\xa7Payload\xa1b\xa4Name\xa1a", SLOT),
    (b"\x02\x81\xd9\x06Events\x91\x82\xa5LTime\x03\xa6Events\x91\x82\xa4Name\xa1a\xa7Payload\xa1b", SLOT),
    (b"\x02\x81\xa6Events\x91\x82\xa5LTime\x03\xa6Events\x91\x82\xa4Name\xa1a\xa7Payload\xc4\x01b", SLOT),
    (TWENTY_SLOTS, state(slots=[None] * 19 + [(20, [(b"a", b"")])])),
    # a map of names and times with its length in one byte, in two and in four, and names as raw and as bin
    (
        b"\x02\x84\xa5LTime\x01\xacStatusLTimes\x82\xa1a\x05\xa1b\xcd\x01\x00\xabLeftMembers\x91\xa1b"
        b"\xaaQueryLTime\x02",
        MEMBERS,
    ),
    (
        b"\x02\x84\xabLeftMembers\xdc\x00\x01\xa1b\xaaQueryLTime\x02\xa5LTime\x01"
        b"\xacStatusLTimes\xde\x00\x02\xda\x00\x01a\x05\xa1b\xcd\x01\x00",
        MEMBERS,
    ),
    (
        b"\x02\x84\xa5LTime\x01\xacStatusLTimes\xdf\x00\x00\x00\x02\xc4\x01a\x05\xa1b\xcd\x01\x00"
        b"\xabLeftMembers\x91\xa1b\xaaQueryLTime\x02",
        MEMBERS,
    ),
    # nil stands for no clock, no members and no slots, and for an event without texts
    (
        b"\x02\x86\xa5LTime\xc0\xacStatusLTimes\xc0\xabLeftMembers\xc0\xaaEventLTime\xc0\xa6Events\xc0"
        b"\xaaQueryLTime\xc0",
        state(),
    ),
    (b"\x02\x81\xa6Events\x91\x82\xa5LTime\xc0\xa6Events\x91\xc0", state(slots=[(0, [(b"", b"")])])),
    # messages that are not read
    (b"\x00", "foreign 0\n"),
    (b"\x06\xff", "foreign 6\n"),
    (b"\x01", "foreign 1\n"),
    (b"\x01\xc1", "foreign 1\n"),
)

# The offset of the first missing part of the event above, if it is cut after so many bytes.
CUTS = (
    *(1, 2, 2, 2, 2, 2, 2, 8, 9, 9, 9, 9, 9, 14, 14, 14, 14, 14),
    *(14, 14, 21, 21, 21, 21, 21, 21, 21, 21, 29, 29, 29, 32, 32, 32, 35),
)

# Packets that are refused, and the words of their first error.
REFUSED = (
    (b"", "Empty"),
    *((DEPLOY[: length + 1], f"Truncated {place}") for length, place in enumerate(CUTS)),
    (DEPLOY + b"\x00", "Trailing 36"),
    (b"\x0a", "UnknownType 10"),
    (b"\xff\x80", "UnknownType 255"),
    (b"\x03\x90", "NotAMap"),
    (b"\x03\xc0", "NotAMap"),
    (b"\x03\x81\x01\xc0", "BadKey 2"),
    (b"\x03\x81\x01\x01", "BadKey 2"),
    (b"\x03\x81\xa2CC\x01", "WrongKind 5"),
    (b"\x03\x81\xa1x\xca\x00\x00\x00\x00", "Unsupported 202 4"),
    (b"\x03\xc1", "Unsupported 193 1"),
    # a second key, also if the first value was nil, and if it is spelled in another way
    (b"\x03\x82\xa2CC\xc2\xa2CC\xc3", "Twice 6"),
    (b"\x03\x82\xa2CC\xc0\xc4\x02CC\xc3", "Twice 6"),
    (b"\x03\x82\xa5LTime\x01\xa5LTime\x02", "Twice 9"),
    (b"\x02\x82\xa6Events\x90\xa6Events\x90", "Twice 10"),
    (b"\x02\x81\xa6Events\x91\x82\xa5LTime\x01\xa5LTime\x02", "Twice 18"),
    # one more than a field's largest number, or one less than its smallest
    (b"\x03\x81\xa5LTime\xff", "OutOfRange 8"),
    (b"\x04\x81\xa4Port\xce\x00\x01\x00\x00", "OutOfRange 7"),
    (b"\x04\x81\xa2ID\xcf\x00\x00\x00\x01\x00\x00\x00\x00", "OutOfRange 5"),
    (b"\x05\x81\xa2ID\xd0\x80", "OutOfRange 5"),
    (b"\x04\x81\xabRelayFactor\xcd\x01\x00", "OutOfRange 14"),
    (b"\x04\x81\xa7Timeout\xcf\x80\x00\x00\x00\x00\x00\x00\x00", "OutOfRange 10"),
    # eight containers may be nested, and not nine
    (b"\x03" + b"\x91" * 8 + b"\xc0", "NotAMap"),
    (b"\x03" + b"\x91" * 9 + b"\xc0", "TooDeep 9"),
    (b"\x03\x81\xa1X" + b"\x91" * 8 + b"\xc0", "TooDeep 11"),
    # 2^64 - 1 is no time of an event, a query or a slot, even of one without events
    (b"\x03\x81\xa5LTime" + MAX_UINT64, "GreatestTime 8"),
    (b"\x04\x81\xa5LTime" + MAX_UINT64, "GreatestTime 8"),
    (b"\x02\x81\xa6Events\x91\x81\xa5LTime" + MAX_UINT64, "GreatestTime 17"),
    (b"\x02\x81\xa6Events\x91\x82\xa5LTime" + MAX_UINT64 + b"\xa6Events\x90", "GreatestTime 17"),
    # errors inside lists: a filter that is no text, a key of the status times that is none, an event that is no map
    (b"\x04\x81\xa7Filters\x92\xa0\x01", "WrongKind 12"),
    (b"\x02\x81\xacStatusLTimes\x81\x01\x01", "BadKey 16"),
    (b"\x02\x81\xacStatusLTimes\x81\xc0\x05", "BadKey 16"),
    (b"\x02\x81\xa6Events\x91\x81\xa6Events\x91\x01", "WrongKind 19"),
    (TWENTY_SLOTS[:30], "Truncated 30"),
    (b"\x02\x81\xa6Events\x90\x90", "Trailing 10"),
    (b"\x03\x80\xc0", "Trailing 2"),
    # an array of a few bytes whose length is given as four billion items
    (b"\x02\x81\xa6Events\xdd\xff\xff\xff\xff", "Truncated 14"),
    (b"\x03\x81\xa6Events\xdd\xff\xff\xff\xff", "Truncated 14"),
)


def messages(count):
    for packet, out in PACKETS:
        count.exactly(f"decode {packet.hex()}", ["decode", packet.hex()], 0, out.encode(), b"")


def refused(count):
    for packet, words in REFUSED:
        said = b"refused " + words.encode() + b"\n"
        count.exactly(f"decode {packet.hex()}", ["decode", packet.hex()], 1, b"", said)
    for digits, why in (
        ("0", "an odd number of digits, 1"),
        ("038", "an odd number of digits, 3"),
        ("0x00", "character 2 is not a hex digit"),
        ("0g", "character 2 is not a hex digit"),
        ("00 00", "character 3 is not a hex digit"),
        ("0\u00e90", "character 2 is not a hex digit"),
        ("--", "character 1 is not a hex digit"),
    ):
        words = ["decode", *(["--"] if digits == "--" else []), digits]
        count.exactly(f"decode {digits}", words, 1, b"", f"bad hex: {why}\n".encode())
    said = f"bad hex: character 1 is not a hex digit\nto decode a file, run: serf-replay decode < {SENT}\n".encode()
    count.exactly("a file in place of a packet", ["decode", SENT], 1, b"", said)
    lines = checks.read(SENT)
    count.check("`-` is standard input", checks.run_program(["decode", "-"], lines) == checks.run_program(["decode"], lines) and lines)


def examples(count):
    """Packets as Serf sends them, alone and on lines."""
    lines = checks.read(SENT).splitlines()
    texts = [text + b"\n\n" for text in checks.read(MEANT).split(b"\n\n") if text]
    count.check("packets as Serf sends them", len(lines) == len(texts) >= 7)
    for number, (digits, text) in enumerate(zip(lines, texts), 1):
        count.exactly(f"packet {number}", ["decode", digits.decode()], 0, text[:-1], b"")
        count.exactly(f"packet {number} in capitals", ["decode", digits.decode().upper()], 0, text[:-1], b"")
        count.exactly(f"packet {number} on a line", ["decode"], 0, text, b"", digits + b"\n")
    count.exactly("decode 06FF", ["decode", "06FF"], 0, b"foreign 6\n", b"")
    out, given = b"".join(texts), b"\n".join(lines)
    count.exactly("all of them", ["decode"], 0, out, b"", given)
    count.exactly("with empty lines", ["decode"], 0, out, b"", b"\n\n" + b"\n\n".join(lines) + b"\n\n")
    count.exactly("many times over", ["decode"], 0, out * 1000, b"", (given + b"\n") * 1000)
    count.exactly("no lines", ["decode"], 0, b"", b"")


def refused_lines(count):
    out = b"foreign 6\n\nrefused Truncated 2\n\nforeign 6\n\n"
    count.exactly("a refusal in its place", ["decode"], 1, out, b"", b"06\n0384a5\n06\n")
    out = b"foreign 6\n\n"
    count.exactly("hex that is none", ["decode"], 1, out, b"bad line 3 BadHex\n", b"06\n\n0g\n06\n")
    count.exactly("an odd digit at the end", ["decode"], 1, out, b"bad line 2 BadHex\n", b"06\n060")
    count.exactly("any byte", ["decode"], 1, b"", b"bad line 1 BadHex\n", b"\x00\xff")


def long_lines(count):
    longest = checks.LONGEST
    line = b"03" + (b"c0" * (longest // 2))[: longest - 2] + b"\n"
    count.exactly("the longest line", ["decode"], 1, b"refused Trailing 2\n\n", b"", line)
    given = b"06\n" + b"0" * (longest + 1) + b"\n"
    count.exactly("one byte more", ["decode"], 1, b"foreign 6\n\n", b"bad line 2 TooLong\n", given)
    count.exactly("and no end", ["decode"], 1, b"", b"bad line 1 TooLong\n", b"0" * (longest + 70_000))


def framing(count):
    """A packet that begins like memberlist's framing, or is a message of memberlist, is reported next to its answer."""
    ack, alive = b"0282a75061796c6f6164a0a55365714e6f01", b"0482ab496e6361726e6174696f6e01a44e616d65a178"
    for digits, status, said, kind in (
        (b"0c00000000", 1, b"refused UnknownType 12", b"begins like memberlist's framing: 12, a checksum"),
        (b"0803", 0, b"foreign 8", b"begins like memberlist's framing: 8, a user message"),
        (b"0700", 0, b"foreign 7", b"begins like memberlist's framing: 7, a compound message"),
        (b"09", 0, b"foreign 9", b"begins like memberlist's framing: 9, a compressed message"),
        (b"0182a55365714e6f01", 0, b"foreign 1", b"looks like a message of memberlist: a ping or an ack"),
        (
            b"0381ab496e6361726e6174696f6e",
            1,
            b"refused Truncated 14",
            b"looks like a message of memberlist: a node is suspect, alive or dead",
        ),
    ):
        out, err = b"foreign 6\n\n" + said + b"\n\n", b"line 3 " + kind + b"\n"
        count.exactly(f"framing {digits.decode()}", ["decode"], status, out, err, b"06\n\n" + digits + b"\n")
    for digits, kind in (
        (ack, b"looks like a message of memberlist: a ping or an ack"),
        (alive, b"looks like a message of memberlist: a node is suspect, alive or dead"),
        (b"09", b"begins like memberlist's framing: 9, a compressed message"),
    ):
        result = subprocess.run([checks.PROGRAM, "decode", digits.decode()], capture_output=True, timeout=checks.LIMIT)
        count.check(f"alone {digits.decode()}", result.stderr.startswith(b"the packet " + kind + b"\n"), result.stderr)
    for digits in (b"0281a55365714e", b"0481a55365714e6f01", b"0181ab496e6361726e6174696f6e01", b"06a55365714e6f"):
        result = subprocess.run([checks.PROGRAM, "decode", digits.decode()], capture_output=True, timeout=checks.LIMIT)
        count.check(f"not memberlist's {digits.decode()}", b"memberlist" not in result.stderr, result.stderr)
    count.exactly("a relay of something else", ["decode"], 0, b"foreign 8\n\n", b"", b"080a\n")


if __name__ == "__main__":
    sys.exit(checks.over_program(messages, refused, examples, refused_lines, long_lines, framing))
