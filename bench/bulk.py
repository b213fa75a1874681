"""bulk.py PROGRAM: measures packets in bulk, a long log, and many agents.

It prints for each the processor seconds and the peak of the resident set, in MB of 1,000,000 bytes.
"""

import os
import sys
import tempfile

PACKET = b"0384a24343c2a54c54696d6501a44e616d65a66465706c6f79a75061796c6f6164a27631\n"
PACKETS = 100_000
LINES = 1_000_000
AGENTS = 10_000
DELIVERIES = 1_000_000


def cost(program, words, source, wanted=(0,)):
    """Runs the program with these words. Returns its processor seconds, the peak of its resident set in bytes, and its output."""
    with tempfile.TemporaryFile() as given, tempfile.TemporaryFile() as out:
        for piece in source:
            given.write(piece)
        given.flush()
        given.seek(0)
        actions = [(os.POSIX_SPAWN_DUP2, given.fileno(), 0), (os.POSIX_SPAWN_DUP2, out.fileno(), 1)]
        child = os.posix_spawn(program, [program, *words], os.environ, file_actions=actions)
        _, status, usage = os.wait4(child, 0)
        if os.waitstatus_to_exitcode(status) not in wanted:
            sys.exit(f"bulk.py: {words} ended with status {os.waitstatus_to_exitcode(status)}")
        out.seek(0)
        return usage.ru_utime + usage.ru_stime, usage.ru_maxrss * 1024, out.read()


def told(what, seconds, peak):
    print(f"{what}: {seconds:.2f} s, {peak / 1e6:.1f} MB")


def log():
    """Events that one node fires and another is handed, with names and payloads as a handler writes them."""
    for i in range(LINES // 2):
        yield b"fired alpha %d deploy v%d\nevent beta %d deploy v%d\n" % (i + 1, i, i + 1, i)


def cluster():
    for i in range(AGENTS):
        yield b"agent %08x 512 512 512 8 keep\n" % i
    yield b"fire 0 61 - 0\n"
    for i in range(DELIVERIES):
        yield b"deliver %d 0 0\n" % (i % AGENTS)


def main():
    program = sys.argv[1]
    seconds, peak, texts = cost(program, ["decode"], [PACKET] * PACKETS)
    told(f"decode, {PACKETS:,} packets of 36 bytes", seconds, peak)
    seconds, peak, packets = cost(program, ["encode"], [texts])
    if packets.count(b"\n") != PACKETS or b"refused" in packets:
        sys.exit("bulk.py: some of the texts were not encoded")
    told(f"encode, {PACKETS:,} texts", seconds, peak)
    seconds, peak, verdicts = cost(program, ["judge"], log())
    told(f"judge, a log of {LINES:,} lines", seconds, peak)
    seconds, peak, _ = cost(program, ["replay", "--stream"], cluster())
    told(f"replay --stream, {AGENTS:,} agents of 512 slots and {DELIVERIES:,} deliveries", seconds, peak)
    schedule = [b"agent 61 512 512 512 8 keep\nagent 62 512 512 512 8 keep\nfire 0 61 - 0\n", b"deliver 1 0 0\n" * 1_000_000]
    seconds, peak, _ = cost(program, ["replay", "--summary"], schedule)
    told("replay --summary, 1,000,000 deliveries of one packet", seconds, peak)


main()
