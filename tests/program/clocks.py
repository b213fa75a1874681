"""`clocks`: what it reads in a snapshot's text, and which texts it refuses."""

import os
import sys

sys.dont_write_bytecode = True
sys.path.insert(0, os.path.dirname(os.path.dirname(os.path.abspath(__file__))))
import checks

# Snapshots, and their member clock, event clock and query clock.
SNAPSHOTS = (
    (b"event-clock: 18446744073709551615\nevent-clock: x\nevent-clock: 007\n", (0, 7, 0)),
    (b"", (0, 0, 0)),
    (b"alive: b 10.0.0.2:7946\n", (0, 0, 0)),
    # (no line `leave`)
    (b"event-clock: 7\n leave\nleaves\nleave", (0, 7, 0)),
    (b"event-clock: 007\nclock: 1\n", (1, 7, 0)),
    (b"clock: 3\nquery-clock: 18446744073709551614\nclock: 2\nevent-clock: 10\nevent-clock: 9", (2, 10, 18446744073709551614)),
    # stock Serf restores the last line of a kind, an agent of this project the largest
    (b"event-clock: 7\nevent-clock: 4\n", (0, 4, 0)),
    (b"event-clock: 7\nevent-clock: 4\n#least event-clock: 8\n", (0, 7, 0)),
    (b"event-clock: 7\nleave\n#event 5 61 62\nevent-clock: 05\n", (0, 7, 0)),
    (b"event-clock: 18446744073709551615\n", (0, 18446744073709551615, 0)),
    (b"event-clock: 18446744073709551616\n", (0, 0, 0)),
    # lines that only an agent of this project writes, and what it makes of a torn line when it opens the text
    (b"#least event-clock: 8\n", (0, 0, 0)),
    (b"#least event-clock: 1\n#least query-clock: 1\n", (0, 0, 0)),
    (b"#event 7 61 62\n", (0, 0, 0)),
    (b"#query 7 9\n", (0, 0, 0)),
    (b"event-cl#\n", (0, 0, 0)),
    (b"lea#\n", (0, 0, 0)),
    (b"#le#\n", (0, 0, 0)),
    # what a crash leaves of the first line
    (b"event-clock: 5", (0, 0, 0)),
    *(
        (word[:size], (0, 0, 0))
        for word in (
            b"clock: ",
            b"event-clock: ",
            b"query-clock: ",
            b"alive: ",
            b"not-alive: ",
            b"coordinate: ",
            b"leave",
            b"#event ",
            b"#query ",
            b"#least ",
        )
        for size in range(1, len(word))
    ),
    # filler after a text, and lines that were torn over it
    (b"clock: 3\nevent-clock: 7\n" + b"#" * 65535 + b"\n", (3, 7, 0)),
    (b"clock: 3\nevent-clock: 7\nevent-clock: 1" + b"#" * 99 + b"\n", (3, 7, 0)),
    (b"clock: 3\nevent-clock: 7\n##########\nclock: 4\n", (4, 7, 0)),
    # the longest text that is read
    (b"alive: ".ljust(checks.LONGEST, b"x"), (0, 0, 0)),
)

# Snapshots with a line `leave`: the clocks with -rejoin, and those without it.
LEFT = (
    (b"event-clock: 18446744073709551615\nevent-clock: x\nleave\nevent-clock: 007\n", (0, 7, 0), (0, 7, 0)),
    (b"clock: 3\nevent-clock: 7\nquery-clock: 5\nleave\nclock: 2\n", (2, 7, 5), (2, 0, 0)),
    (b"event-clock: 7\nleave\nevent-clock: 4\nleave\n", (0, 4, 0), (0, 0, 0)),
    (b"event-clock: 6\nleave\nevent-clock: 1\n", (0, 1, 0), (0, 1, 0)),
)

# Texts that are no snapshots.
OTHERS = (
    b"\n",
    b"event b 5 d v\n",
    b"event-clock:7\n",
    b"\x7fELF\x00\xff\n" * 9,
    b"1 fired 1\n",
    b"# a log\n",
    b"#events\n",
    b"#\n",
    b"event cl#\n",
    b"x",
    b"event-clockx",
    b"event b 5 d v\ne",
)


def clocks_output(clocks, words=b""):
    return b"".join(words + line % clock for line, clock in zip((b"clock %d\n", b"event-clock %d\n", b"query-clock %d\n"), clocks))


def largest(text):
    """The clocks that an agent of this project restores."""
    found = {b"clock": 0, b"event-clock": 0, b"query-clock": 0}
    for line in text.split(b"\n")[:-1]:
        kind, _, number = line.partition(b": ")
        if kind in found and number.isdigit() and int(number) < 2**64 - 1:
            found[kind] = max(found[kind], int(number))
    return tuple(found.values())


def snapshots(count):
    for text, clocks in SNAPSHOTS:
        count.exactly(f"the snapshot {text[:100]}", ["clocks", "-"], 0, clocks_output(clocks), b"", text)
    for text, with_rejoin, without in LEFT:
        out = clocks_output(with_rejoin) + clocks_output(without, b"without -rejoin: ")
        count.exactly(f"the snapshot {text}", ["clocks", "-"], 0, out, b"", text)
    for text, _, _ in (*LEFT, (b"event-clock: 7\nevent-clock: 4\n", 0, 0)):
        count.exactly(f"for an agent of this project, {text}", ["clocks", "--own", "-"], 0, clocks_output(largest(text)), b"", text)
    for text in OTHERS:
        count.exactly(f"no snapshot {text[:100]}", ["clocks", "-"], 1, b"", b"standard input: no line of a snapshot\n", text)


def files(count):
    path = os.path.join(checks.EXAMPLES, "snapshots", "after_a_crash")
    out = checks.read(path + ".clocks")
    count.exactly("the clocks after a crash", ["clocks", path + ".snapshot"], 0, out, b"")
    path = os.path.join(checks.TOP, "no_such_file")
    count.exactly("a missing snapshot", ["clocks", path], 3, b"", os.fsencode(path) + b": no such file\n")
    path = os.path.join(checks.TOP, "README.md")
    count.exactly("a page", ["clocks", path], 1, b"", os.fsencode(path) + b": no line of a snapshot\n")
    count.exactly(
        "one byte more", ["clocks", "-"], 1, b"", b"the input is too long: it has more than 16777216 bytes\n", b"x" * (checks.LONGEST + 1)
    )


if __name__ == "__main__":
    sys.exit(checks.over_program(snapshots, files))
