"""lines.py PROGRAM COUNT: replays COUNT deliveries of one packet, as a whole and line by line.

It prints for each the processor seconds and the peak of the resident set, in MB of 1,000,000 bytes. If the schedule is too long to
be replayed as a whole, it prints only the other.
"""

import os
import sys
import tempfile

AGENTS = b"agent 61 512 512 512 8 keep\nagent 62 512 512 512 8 keep\n"
DELIVERY = b"deliver 1 0 0\n"
LONGEST = 16_777_216


def cost(program, words, schedule, trace):
    """Runs the program with these words. Returns its processor seconds and the peak of its resident set in bytes."""
    child = os.posix_spawn(
        program,
        [program, *words],
        os.environ,
        file_actions=[(os.POSIX_SPAWN_DUP2, schedule, 0), (os.POSIX_SPAWN_DUP2, trace, 1)],
    )
    _, status, usage = os.wait4(child, 0)
    if status != 0:
        sys.exit(f"lines.py: the program ended with status {os.waitstatus_to_exitcode(status)}")
    return usage.ru_utime + usage.ru_stime, usage.ru_maxrss * 1024


def main():
    program, count = sys.argv[1], int(sys.argv[2])
    for words in (["replay", "-"], ["replay", "--stream"]):
        with tempfile.TemporaryFile() as schedule, tempfile.TemporaryFile() as trace:
            schedule.write(AGENTS + b"fire 0 61 - 0\n")
            for _ in range(count // 1000):
                schedule.write(DELIVERY * 1000)
            schedule.seek(0)
            if "--stream" not in words and os.fstat(schedule.fileno()).st_size > LONGEST:
                continue
            seconds, peak = cost(program, words, schedule.fileno(), trace.fileno())
        print(f"{' '.join(words)}, {count:,} deliveries of one packet: {seconds:.2f} s, {peak / 1e6:.1f} MB")


main()
