"""`encode`: encodes texts of messages to packets, which `decode` reads back; and texts that are refused, each in its place."""

import os
import sys

sys.dont_write_bytecode = True
sys.path.insert(0, os.path.dirname(os.path.dirname(os.path.abspath(__file__))))
import checks

STATE = b"""pushPull
LTime 7
status 61 5
left 62
left -
EventLTime 9
slot 0 nil
slot 1 5
event 61 62
event - -
slot 2 nil
QueryLTime 18446744073709551615

"""
QUERY = b"""query
LTime 1
ID 4294967295
Addr -
Port 65535
SourceNode 61
filter -
filter 00
Flags 3
RelayFactor 255
Timeout -9223372036854775808
Name 61
Payload -

"""
EVENT = b"userEvent\nLTime 18446744073709551614\nName 61\nPayload -\nCC 1\n\n"
FOREIGN = b"foreign 6\n\n"

# What is wrong with a text, the text, and the line of its error.
REFUSED = (
    ("a leading zero", EVENT.replace(b"LTime ", b"LTime 0"), 2),
    ("a time that is too large", EVENT.replace(b"614", b"615"), 2),
    ("no payload", EVENT.replace(b"Payload -\n", b""), 4),
    ("fields in another order", EVENT.replace(b"Name 61\nPayload -\n", b"Payload -\nName 61\n"), 3),
    ("a slot without events", STATE.replace(b"slot 2 nil", b"slot 2 5"), 11),
    ("digits in upper case", QUERY.replace(b"Node 61", b"Node 6A"), 6),
    ("a timeout out of its range", QUERY.replace(b"808", b"809"), 11),
    ("a type that is read", b"foreign 3\n\n", 1),
    ("no message", b"hello\n\n", 1),
    ("any bytes", b"\x00\xff\n\n", 1),
)


def examples(count):
    """The texts of packets as Serf sends them."""
    texts = [text + b"\n\n" for text in checks.read("examples", "packets.text").split(b"\n\n") if text]
    count.check("texts of packets", len(texts) >= 7, len(texts))
    for number, text in enumerate(texts, 1):
        _, packets, said = checks.run_program(["encode"], text)
        count.exactly(f"text {number} there and back", ["decode"], 0, text, said, packets)


def each_kind(count):
    texts = STATE + QUERY + EVENT + FOREIGN
    packets = checks.run_program(["encode"], texts)[1]
    count.exactly("each kind there and back", ["decode"], 0, texts, b"", packets)
    count.exactly("packets as they were", ["encode"], 0, packets, b"", b"\n" + texts + b"\n")


def refused(count):
    for name, text, line in REFUSED:
        out = b"06\nrefused BadLine %d\n06\n" % line
        count.exactly(name, ["encode"], 1, out, b"", FOREIGN + text + FOREIGN)
    said = b"the last text is cut off: its last line has no newline\n"
    count.exactly("a text that is cut off", ["encode"], 1, b"06\n", said, FOREIGN + b"foreign 6")
    count.exactly("no texts", ["encode"], 0, b"", b"")


if __name__ == "__main__":
    sys.exit(checks.over_program(examples, each_kind, refused))
