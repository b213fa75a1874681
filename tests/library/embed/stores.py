"""What each binding's store has to do, tried through a driver that reads lines (store_driver.c describes them)."""

import ctypes
import os
import re
import resource
import signal
import socket
import subprocess

import filler

# The rights by which root may write what nobody else may: prctl's word, and the two rights (Linux).
DROP_RIGHT, RIGHTS = 24, (1, 2)
PRCTL = ctypes.CDLL(None).prctl
# The maximum size of a file while a full disk is simulated, in bytes.
FULL = 64
# How many bytes a text has that is longer than any buffer.
LONG = 2 << 20


class Driver:
    """A process with the store of one language."""

    def __init__(self, words, prepare=None):
        # (Python would restore the default action for a file that is too long: the end of the process)
        self.process = subprocess.Popen(
            words, stdin=subprocess.PIPE, stdout=subprocess.PIPE, text=True, preexec_fn=prepare, restore_signals=False
        )

    def says(self, line):
        self.process.stdin.write(line + "\n")
        self.process.stdin.flush()
        return self.process.stdout.readline().rstrip("\n")

    def __enter__(self):
        return self

    def __exit__(self, *_):
        self.process.kill()
        self.process.stdin.close()
        self.process.stdout.close()
        self.process.wait()


def with_no_rights():
    """A program that is started after this is bound by the rights of files, even if it is root's."""
    if os.geteuid() == 0:
        for right in RIGHTS:
            PRCTL(DROP_RIGHT, right, 0, 0, 0)


def with_little_room():
    signal.signal(signal.SIGXFSZ, signal.SIG_IGN)
    resource.setrlimit(resource.RLIMIT_FSIZE, (FULL, FULL))


def write(path, text):
    with open(path, "wb") as file:
        file.write(text)


def read(path):
    """The text of a file, without the filler that some stores keep after it."""
    return filler.text_of(whole(path))


def whole(path):
    with open(path, "rb") as file:
        return file.read()


class Cases:
    def __init__(self, count, language, places, words):
        self.count, self.language, self.words = count, language, words
        self.folder = places.fresh("store")

    def path(self, name):
        return os.path.join(self.folder, name)

    def check(self, name, holds, said=""):
        self.count.check(f"{self.language}'s store: {name}", holds, said)

    def leaves_no_new_file(self, path):
        """Whether a replacement that failed has left nothing next to the file."""
        return not os.path.exists(path + ".new")

    def says(self, name, driver, line, wanted):
        said = driver.says(line)
        self.check(name, said == wanted, f"{line[:60]}: {said}, expected {wanted}")


def plain_file(cases):
    path = cases.path("plain")
    with Driver(cases.words) as driver:
        cases.says("append before any opening", driver, "append 61", "Broken")
        cases.says("read before any opening", driver, "read", "Broken")
        cases.says("a file that doesn't exist is made", driver, f"open {path}", "ok")
        cases.says("it is empty", driver, "read", " ok")
        cases.says("append", driver, "append 610a", "ok")
        cases.says("append nothing", driver, "append ", "ok")
        cases.says("append more", driver, "append 620a", "ok")
        cases.says("read", driver, "read", "610a620a ok")
        os.chmod(path, 0o640)
        before = os.stat(path)
        cases.says("replace", driver, "replace 630a", "ok")
        after = os.stat(path)
        cases.check("it is another file after that", before.st_ino != after.st_ino and read(path) == b"c\n", read(path))
        cases.check("it keeps its rights", after.st_mode == before.st_mode, oct(after.st_mode))
        cases.check("nothing is left next to it", not os.path.exists(path + ".new"))
        cases.says("append behind", driver, "append 640a", "ok")
        cases.says("replace by nothing", driver, "replace ", "ok")
        cases.says("append after that", driver, "append 650a", "ok")
        cases.says("close", driver, "close", "ok")
        cases.says("append to a store that is closed", driver, "append 61", "Broken")
        cases.says("open again", driver, f"open {path}", "ok")
        cases.says("what is there", driver, "read", "650a ok")


def locks(cases):
    path, link = cases.path("locked"), cases.path("link")
    os.symlink("locked", link)
    with Driver(cases.words) as other:
        with Driver(cases.words) as driver:
            cases.says("open", driver, f"open {path}", "ok")
            write(path + ".new", b"b")
            cases.says("in another process", other, f"open {path}", "Locked")
            cases.check("the replacement that its owner writes stays", os.path.exists(path + ".new"))
            os.unlink(path + ".new")
            cases.says("in this one", driver, f"1 open {path}", "Locked")
            cases.says("by a link", other, f"open {link}", "Locked")
            cases.says("replace", driver, "replace 610a", "ok")
            cases.says("after a replacement", other, f"open {path}", "Locked")
            cases.says("the file is as it was", driver, "read", "610a ok")
        cases.says("after a kill", other, f"open {path}", "ok")
        cases.says("read", other, "read", "610a ok")
        cases.says("close", other, "close", "ok")
        with Driver(cases.words) as driver:
            cases.says("by a link", driver, f"open {link}", "ok")
            cases.says("replace by a link", driver, "replace 620a", "ok")
            cases.check("the link stays", os.path.islink(link) and read(path) == b"b\n", read(path))


def what_crashes_leave(cases):
    path = cases.path("left")
    write(path, b"event-clock: 3\n")
    write(path + ".new", b"event-cl")
    with Driver(cases.words) as driver:
        cases.says("open next to what a crash left", driver, f"open {path}", "ok")
        cases.check("what it left is removed", not os.path.exists(path + ".new"))
        cases.says("the text stays", driver, "read", b"event-clock: 3\n".hex() + " ok")
        cases.says("replace", driver, "replace 61", "ok")
    with Driver(cases.words) as driver:
        # (an owner that renames between another one's opening and its lock)
        write(path + ".other", b"b")
        cases.says("open", driver, f"open {path}", "ok")
        os.rename(path + ".other", path)
        with Driver(cases.words) as other:
            cases.says("the file that has the name now is used", other, f"open {path}", "ok")
            cases.says("read", other, "read", "62 ok")


def no_plain_files(cases):
    pipe, hanging = cases.path("pipe"), cases.path("hanging")
    os.mkfifo(pipe)
    os.symlink("nowhere", hanging)
    write(cases.path("file"), b"")
    with socket.socket(socket.AF_UNIX) as listening, Driver(cases.words) as driver:
        listening.bind(cases.path("socket"))
        for name, path in {
            "a folder": cases.folder,
            "the root": "/",
            "a device": "/dev/null",
            "a full device": "/dev/full",
            "a pipe": pipe,
            "a socket": cases.path("socket"),
            "a link to nothing": hanging,
        }.items():
            cases.says(name, driver, f"open {path}", "NotAFile")
        cases.says("no folder", driver, f"open {cases.path('none')}/file", "MissingFolder")
        cases.says("a file in a folder's place", driver, f"open {cases.path('file')}/file", "MissingFolder")
        cases.says("a good one, after all these", driver, f"open {cases.path('good')}", "ok")
    cases.check(
        "nothing was made", not os.path.exists(cases.path("nowhere")) and not os.path.exists(cases.path("none"))
    )


def read_only(cases):
    folder = cases.path("closed")
    os.mkdir(folder)
    for name, rights in {"read": 0o444, "written": 0o666, "none": 0o000}.items():
        write(os.path.join(folder, name), b"a\n")
        os.chmod(os.path.join(folder, name), rights)
    os.chmod(folder, 0o555)
    with Driver(cases.words, with_no_rights) as driver:
        cases.says("a file that may only be read", driver, f"open {folder}/read", "ReadOnly")
        cases.says("one that may not be read", driver, f"open {folder}/none", "ReadOnly")
        cases.says("a folder that may only be read", driver, f"open {folder}/new", "ReadOnly")
        cases.says("a file in it that may be written", driver, f"open {folder}/written", "ok")
        cases.says("append", driver, "append 620a", "ok")
        cases.says("it can't be replaced", driver, "replace 63", "ReadOnly")
        cases.says("and accepts nothing more", driver, "append 64", "Broken")
        cases.says("its text stays", driver, "read", "610a620a ok")
    os.chmod(folder, 0o755)


def full(cases):
    path, much = cases.path("full"), "61" * 40
    with Driver(cases.words, with_little_room) as driver:
        cases.says("open", driver, f"open {path}", "ok")
        cases.says("append", driver, f"append {much}", "ok")
        cases.says("append to a full disk", driver, f"append {much}", "Full")
        cases.says("and nothing more", driver, "append 62", "Broken")
        cases.says("nor a replacement", driver, "replace 62", "Broken")
        cases.says("close", driver, "close", "ok")
        cases.check("what was there stays", read(path).startswith(b"a" * 40), read(path))
        cases.says("open again", driver, f"open {path}", "ok")
        cases.says("replace on a full disk", driver, f"replace {much}{much}", "Full")
        cases.check(
            "the old text stays", read(path).startswith(b"a" * 40) and cases.leaves_no_new_file(path), read(path)
        )
        cases.says("close a broken one", driver, "close", "ok")
        cases.says("open a third time", driver, f"open {path}", "ok")
        cases.says("replace by less", driver, "replace 63", "ok")
        cases.says("read", driver, "read", "63 ok")


def long_text(cases):
    """A text that is longer than any buffer is read whole."""
    path, text = cases.path("long"), bytes(range(256)) * (LONG // 256)
    write(path, text)
    with Driver(cases.words) as driver:
        cases.says("open", driver, f"open {path}", "ok")
        cases.check("a long text is read whole", driver.says("read") == text.hex() + " ok")
        cases.says("append", driver, "append 0a", "ok")
    cases.check("a line is appended to a long text", len(read(path)) == LONG + 1)


def handles_of(driver):
    """How many files a process has open."""
    return len(os.listdir(f"/proc/{driver.process.pid}/fd"))


def inherits(driver):
    """The files that a child program would inherit from a process, in addition to the standard ones."""
    folder, found = f"/proc/{driver.process.pid}", []
    for number in os.listdir(f"{folder}/fdinfo"):
        flags = re.search(r"^flags:\s*(\w+)$", read(f"{folder}/fdinfo/{number}").decode(), re.M)
        if int(number) > 2 and not int(flags[1], 8) & os.O_CLOEXEC:
            found.append(os.readlink(f"{folder}/fd/{number}"))
    return found


def handles(cases):
    """A store leaves no file open that it no longer needs, and a child program inherits none."""
    path = cases.path("handles")
    with Driver(cases.words) as driver, Driver(cases.words) as other:
        for one in (driver, other):
            cases.says("open", one, f"open {path}", "ok")
            cases.says("close", one, "close", "ok")
        closed, refused = handles_of(driver), handles_of(other)
        cases.says("open", driver, f"open {path}", "ok")
        opened = handles_of(driver)
        cases.check("a child program inherits no file", inherits(driver) == [], inherits(driver))
        for _ in range(5):
            cases.says("replace", driver, "replace 610a", "ok")
            cases.says("in another process", other, f"open {path}", "Locked")
            cases.says("a folder", other, f"open {cases.folder}", "NotAFile")
        cases.check("no replacement leaves a file open", handles_of(driver) == opened, handles_of(driver))
        cases.check("no opening that failed leaves a file open", handles_of(other) == refused, handles_of(other))
        cases.says("close", driver, "close", "ok")
        cases.check("a store that is closed has no file open", handles_of(driver) == closed, handles_of(driver))


def try_store(count, language, places, words):
    cases = Cases(count, language, places, words)
    for part in (plain_file, locks, what_crashes_leave, no_plain_files, read_only, full, long_text, handles):
        part(cases)
