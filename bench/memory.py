"""memory.py PROGRAM NAME < SCHEDULE: replays a schedule and prints how much memory that took.

This is the ratio of the peak of the resident set to the bytes of the schedule and its trace together. If the run is small, the
system reports the peak of this interpreter instead: some ten megabytes.
"""

import os
import sys
import tempfile


def replay(program, schedule, trace):
    """Replays the schedule. Returns the peak of the program's resident set in bytes."""
    child = os.posix_spawn(
        program,
        [program, "replay", "-"],
        os.environ,
        file_actions=[(os.POSIX_SPAWN_DUP2, schedule, 0), (os.POSIX_SPAWN_DUP2, trace, 1)],
    )
    _, status, usage = os.wait4(child, 0)
    if status != 0:
        sys.exit(f"memory.py: the program ended with status {os.waitstatus_to_exitcode(status)}")
    return usage.ru_maxrss * 1024


def main():
    program, name = sys.argv[1:]
    with tempfile.TemporaryFile() as trace:
        peak = replay(program, 0, trace.fileno())
        size = os.fstat(0).st_size + os.fstat(trace.fileno()).st_size
    print(f"peak memory of replaying {name}: {peak / size:.1f} times the bytes of schedule and trace")


main()
