"""What the repository's scripts may use of this machine, and the files that they keep on it outside each checkout."""

import os
import shutil
import time

FOLDER = os.path.join(os.environ.get("XDG_CACHE_HOME") or os.path.expanduser("~/.cache"), "kitchenrue")

# How long unused files are kept, in seconds.
MONTH = 30 * 24 * 3600


def processors():
    """How many processors this process may use."""
    return len(os.sched_getaffinity(0))


def lanes(room):
    """How many checks may run in parallel if each takes up to this many bytes of memory: at most five, and at most one per
    processor."""
    with open("/proc/meminfo", encoding="utf-8") as file:
        free = next(int(line.split()[1]) << 10 for line in file if line.startswith("MemAvailable:"))
    return max(1, min(processors(), 5, free // room))


def write(folder, files):
    """Keeps copies of files in a folder, all of them or none."""
    forget_old()
    part = f"{folder}.{os.getpid()}"
    shutil.rmtree(part, ignore_errors=True)
    os.makedirs(part)
    for file in files:
        shutil.copyfile(file, os.path.join(part, os.path.basename(file)))
    shutil.rmtree(folder, ignore_errors=True)
    os.rename(part, folder)


def forget_old():
    """Removes what is older than a month."""
    if os.path.isdir(FOLDER):
        for entry in os.scandir(FOLDER):
            if time.time() - entry.stat().st_mtime > MONTH:
                shutil.rmtree(entry.path, ignore_errors=True) if entry.is_dir() else os.remove(entry.path)
