"""Measures what the checks of a command cost: the processor seconds of each crate's proof and edits.

The toolchain reports no times, so this module reads the processor time of its processes a few times a second while they run.
The time that a process uses after the last reading is missing: at most one interval.
"""

import os
import threading

PERIOD_SECONDS = 0.25
TICKS_A_SECOND = os.sysconf("SC_CLK_TCK")


def stat_of(pid):
    """A process's parent, and the processor seconds of it and of its children that have ended."""
    with open(f"/proc/{pid}/stat", encoding="utf-8", errors="replace") as file:
        # The name is in brackets, and may contain any text.
        words = file.read().rpartition(")")[2].split()
    return int(words[1]), sum(int(word) for word in words[11:15]) / TICKS_A_SECOND


def words_of(pid):
    """The words of a process's command line."""
    with open(f"/proc/{pid}/cmdline", "rb") as file:
        return file.read().decode("utf-8", "replace").split("\0")


def check_of_process(words):
    """The crate that a process checks, and whether it checks a proof or an edit. None for any other process."""
    # An unproved run also checks a crate's names with --start, which proves nothing.
    if os.path.basename(words[0]) != "rattle" or "--crate-name" not in words or "fmt" in words[:2] or "--start" in words:
        return None
    crate = words[words.index("--crate-name") + 1]
    # A proof writes its result. An edit's check writes nothing.
    return crate, "proof" if "-o" in words else "edits"


class Costs:
    """Samples the processes below a process, from `watch` until `end`."""

    def __init__(self):
        self.seconds = {}
        self.ending = threading.Event()
        self.sampler = None

    def watch(self, root):
        """Begins to sample the processes below this one."""
        self.sampler = threading.Thread(target=self.sample_until_end, args=(root,), daemon=True)
        self.sampler.start()

    def sample_until_end(self, root):
        """Samples the processes until `end` is called."""
        while not self.ending.wait(PERIOD_SECONDS):
            self.sample(root)

    def sample(self, root):
        """Adds what the checks below a process have used so far."""
        parents, used_seconds = {}, {}
        for name in os.listdir("/proc"):
            if name.isdigit():
                try:
                    parents[int(name)], used_seconds[int(name)] = stat_of(name)
                except (OSError, ValueError, IndexError):
                    continue
        for pid in parents:
            if self.is_below(pid, root, parents):
                try:
                    check = check_of_process(words_of(pid))
                    # If a check forks, the copy counts with it.
                    if check and check_of_process(words_of(parents[pid])) != check:
                        self.seconds[pid, check] = used_seconds[pid]
                except (OSError, KeyError):
                    continue

    @staticmethod
    def is_below(pid, root, parents):
        """Whether a process is below another one, or is that one."""
        while pid in parents and pid != root:
            pid = parents[pid]
        return pid == root

    def end(self):
        """Returns the seconds of all processes, for each crate and kind."""
        self.ending.set()
        self.sampler.join()
        sums = {}
        for (_, check), seconds in self.seconds.items():
            sums[check] = sums.get(check, 0) + seconds
        return sums
