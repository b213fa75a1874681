"""What a store does if a system call fails, or if somebody else gets the file's name in the middle of its opening.

strace makes one call return an error, or wait. Each part is like those of embed/stores.py: it uses the cases of a store.
"""

import fcntl
import os
import stat
import time

import stores

# The text that is in the file before it is opened, and what a read of it returns.
OLD = b"a\n"
IS_OLD = OLD.hex() + " ok"

# How long a lock is made to wait, and how long the script waits for a file, in seconds.
DELAY, LIMIT = 1.5, 60
# How often a race is run again if the other side may have lost it.
RACES = 20

# How often an opening reads from a file, by store: some look for the end of the text.
READS_AT_OPENING = {"Go": 2}

REMOVALS = "unlink,unlinkat"
RENAMES = "rename,renameat,renameat2"


class Traced(stores.Driver):
    """A driver under strace, which ends by itself: killing strace would leave it behind."""

    def __init__(self, words, calls, how, paths=()):
        of_paths = [word for path in paths for word in ("-P", path)]
        asked = ["-e", f"trace={calls}", "-e", f"inject={calls}:{how}"]
        super().__init__(["strace", "-f", "-qq", "-o", "/dev/null", *of_paths, *asked, *words])

    def __exit__(self, *_):
        self.process.stdin.close()
        self.process.stdout.close()
        self.process.wait(LIMIT)


def old_file(cases, name):
    path = os.path.join(os.path.realpath(cases.folder), name)
    stores.write(path, OLD)
    return path


def failing_opening(cases, name, calls, path, of):
    """An opening in which a call fails is Failed."""
    with Traced(cases.words, calls, "error=EIO", of) as driver:
        cases.says("open", driver, f"open {path}", "Failed")
    cases.check("the text stays", stores.read(path) == OLD, name)


def failed_removal(cases):
    path = old_file(cases, "removal")
    stores.write(path + ".new", b"b")
    failing_opening(cases, "removal", REMOVALS, path, [])


def failed_sync_of_the_opened_text(cases):
    path = old_file(cases, "opened")
    failing_opening(cases, "opened", "fsync", path, [path])


def failed_sync_of_the_opened_folder(cases):
    path = old_file(cases, "folder")
    failing_opening(cases, "folder", "fsync", path, [os.path.dirname(path)])


def failed_read(cases):
    path = old_file(cases, "read")
    first = READS_AT_OPENING.get(cases.language, 0) + 1
    with Traced(cases.words, "pread64", f"error=EIO:when={first}+", [path]) as driver:
        cases.says("open", driver, f"open {path}", "ok")
        cases.says("read", driver, "read", "Failed")


def quota(cases):
    """A quota that is used up is a full disk."""
    path = old_file(cases, "quota")
    with Traced(cases.words, "write,pwrite64,writev", "error=EDQUOT", [path]) as driver:
        cases.says("open", driver, f"open {path}", "ok")
        cases.says("append over a quota", driver, "append 620a", "Full")
    cases.check("nothing of it is in the text", stores.read(path) == OLD, stores.read(path))


def failed_sync_of_a_line(cases):
    failed_sync(cases, "fdatasync", 1)


def failed_sync(cases, calls, number):
    """The sync of this number is that of the first line, and fails."""
    path = old_file(cases, "line")
    with Traced(cases.words, calls, f"error=EIO:when={number}") as driver:
        cases.says("open", driver, f"open {path}", "ok")
        cases.says("append", driver, "append 620a", "Failed")
        cases.says("append more", driver, "append 630a", "Broken")
        cases.says("replace", driver, "replace 630a", "Broken")
    cases.check("nothing more is in it", stores.read(path) == OLD + b"b\n", stores.read(path))


def failing_replacement(cases, path, calls, how, of, text):
    """A replacement in which a call fails is Failed, and the store accepts nothing more."""
    with Traced(cases.words, calls, how, of) as driver:
        cases.says("open", driver, f"open {path}", "ok")
        cases.says("replace", driver, "replace 620a", "Failed")
        cases.says("append", driver, "append 630a", "Broken")
        cases.check("it is locked still", is_locked(path))
    cases.check("the text", stores.read(path) == text, stores.read(path))
    cases.check("nothing is left next to it", cases.leaves_no_new_file(path))


def failed_sync_beside(cases):
    path = old_file(cases, "beside")
    failing_replacement(cases, path, "fsync", "error=EIO", [path + ".new"], OLD)


def failed_rename(cases):
    path = old_file(cases, "rename")
    failing_replacement(cases, path, RENAMES, "error=EIO", [], OLD)


def failed_sync_of_the_folder(cases):
    path = old_file(cases, "name")
    # (the first sync is that of the opening, and the new text has its name by the second)
    failing_replacement(cases, path, "fsync", "error=EIO:when=2", [os.path.dirname(path)], b"b\n")


def beside_of_another(cases):
    """Somebody else writes next to the text while the store has it: nothing of that gets into the text."""
    path = old_file(cases, "beside_of_another")
    with stores.Driver(cases.words) as driver:
        cases.says("open", driver, f"open {path}", "ok")
        stores.write(path + ".new", b"another's\n")
        said, text = driver.says("replace 620a"), stores.read(path)
    cases.check("nothing of another's is in it", text == (b"b\n" if said == "ok" else OLD), (said, text))


def opened_in_a_race(driver, path):
    """Opens a file that doesn't exist yet, and renames another one to its name as soon as it is made: returns the answer, and
    whether that was surely before the lock."""
    driver.says("close")
    began = time.monotonic()
    driver.process.stdin.write(f"open {path}\n")
    driver.process.stdin.flush()
    while not os.path.exists(path) and time.monotonic() - began < LIMIT:
        time.sleep(0.001)
    os.rename(path + ".other", path)
    is_before = time.monotonic() - began < DELAY
    return driver.process.stdout.readline().rstrip("\n"), is_before


def replaced_before_its_lock(cases):
    """Somebody else renames another file to this name, while the store waits for the lock of the file that it made."""
    for number in range(RACES):
        path = os.path.join(os.path.realpath(cases.folder), f"replaced{number}")
        stores.write(path + ".other", b"b")
        with Traced(cases.words, "flock", f"delay_enter={DELAY * 1_000_000:.0f}:when=1") as driver:
            said, is_before = opened_in_a_race(driver, path)
            text = driver.says("read")
        if is_before:
            break
    cases.check("it is opened", said == "ok" and is_before, said)
    cases.check("the new text is read", text == "62 ok", text)


def is_locked(path):
    """Whether somebody has the lock of the file that has this name now, tried as each store tries it."""
    with open(path, "rb") as file:
        try:
            fcntl.flock(file, fcntl.LOCK_EX | fcntl.LOCK_NB)
        except BlockingIOError:
            return True
    return False


def lock_of_the_text(cases):
    """The lock is that of the text's own file, so that all stores exclude each other."""
    path = old_file(cases, "own_lock")
    with stores.Driver(cases.words) as driver:
        cases.says("open", driver, f"open {path}", "ok")
        cases.check("the text is locked", is_locked(path))
        cases.says("replace", driver, "replace 620a", "ok")
        cases.check("what replaced it is locked", is_locked(path))
        cases.says("close", driver, "close", "ok")
        cases.check("it is free", not is_locked(path))


def made(cases):
    path = cases.path("made")
    before = os.umask(0)
    try:
        with stores.Driver(cases.words) as driver:
            cases.says("a file is made", driver, f"open {path}", "ok")
    finally:
        os.umask(before)
    rights = stat.S_IMODE(os.stat(path).st_mode)
    cases.check("nobody else may read it", rights == 0o600, oct(rights))


PARTS = {
    part.__name__: part
    for part in (
        stores.plain_file,
        stores.locks,
        stores.what_crashes_leave,
        stores.no_plain_files,
        stores.read_only,
        stores.full,
        stores.long_text,
        stores.handles,
        quota,
        made,
        lock_of_the_text,
        replaced_before_its_lock,
        failed_removal,
        failed_read,
        failed_sync_of_the_opened_text,
        failed_sync_of_the_opened_folder,
        failed_sync_of_a_line,
        beside_of_another,
        failed_sync_beside,
        failed_rename,
        failed_sync_of_the_folder,
    )
}
