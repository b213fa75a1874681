"""Checks the simulated disk with traces that are written by hand: what each cut may leave, no more, no less."""

import os

import disks
import levels
import torn
import traces

FOLDER = os.path.realpath("/")


def hexed(text):
    return '"' + "".join(f"\\x{byte:02x}" for byte in text.encode()) + '"'


def call(thread, name, *args, result=0):
    return f"{thread} {name}({', '.join(map(str, args))}) = {result}"


def opened(name, number, how="O_RDWR|O_APPEND|O_CREAT", thread=1):
    return call(thread, "openat", "AT_FDCWD", hexed(os.path.join(FOLDER, name)), how, "0600", result=number)


def wrote(number, text, thread=1):
    return call(thread, "write", number, hexed(text), len(text), result=len(text))


def wrote_at(number, text, place):
    return call(1, "pwrite64", number, hexed(text), len(text), place, result=len(text))


def cut(number, length):
    return call(1, "ftruncate", number, length)


OPENED_FOLDER = call(1, "openat", "AT_FDCWD", hexed(FOLDER), "O_RDONLY|O_DIRECTORY", result=9)
RENAMED = call(1, "renameat", 9, hexed("file.new"), 9, hexed("file"))
SYNCED_FOLDER = call(1, "fsync", 9)


def after(lines, old=None, is_sure=True):
    """Each text that a cut after these lines leaves."""
    disk = disks.Disk(FOLDER, "file")
    if old is not None:
        disk.put("file", old, is_sure)
    for _ in disks.Walk(disk, traces.calls("\n".join(lines))):
        pass
    return {text for _, text in disk.cuts(disks.each_length)}


# The calls that were made, and each text that a cut may leave.
MADE = [opened("file", 3), OPENED_FOLDER]
CASES = {
    "a file that was just made": (MADE, None, {b""}),
    "bytes that aren't synced": ([*MADE, SYNCED_FOLDER, wrote(3, "ab")], None, {b"", b"a", b"ab", b"a\0", b"\0\0"}),
    "bytes that are": ([*MADE, SYNCED_FOLDER, wrote(3, "ab"), call(1, "fdatasync", 3)], None, {b"ab"}),
    "bytes that are, of a name that isn't": ([*MADE, wrote(3, "ab"), call(1, "fdatasync", 3)], None, {b"", b"ab"}),
    "bytes after those that are": ([opened("file", 3), wrote(3, "b")], b"a", {b"a", b"a\0", b"ab"}),
    "a sync that failed": (
        [opened("file", 3), wrote(3, "b"), call(1, "fsync", 3, result="-1 EIO (Input/output error) (INJECTED)")],
        b"a",
        {b"a", b"a\0", b"ab"},
    ),
    "a file that was never synced": ([], b"ab", {b"", b"a", b"ab", b"a\0", b"\0\0"}),
    "a rename of a synced file": (
        [OPENED_FOLDER, opened("file.new", 4), wrote(4, "c"), call(1, "fsync", 4), RENAMED], b"ab", {b"ab", b"c"}
    ),
    "a rename of one that isn't": (
        [OPENED_FOLDER, opened("file.new", 4), wrote(4, "c"), RENAMED], b"ab", {b"ab", b"", b"c", b"\0"}
    ),
    "a rename that is synced": (
        [OPENED_FOLDER, opened("file.new", 4), wrote(4, "c"), call(1, "fsync", 4), RENAMED, SYNCED_FOLDER],
        b"ab",
        {b"c"},
    ),
    "bytes by another number of the file": (
        [opened("file", 3), call(1, "fcntl", 3, "F_DUPFD_CLOEXEC", 0, result=7), wrote(7, "b"), call(1, "fsync", 7)],
        b"a",
        {b"ab"},
    ),
    "bytes to another file of that number": (
        [opened("file", 3), call(1, "close", 3), opened("other", 3), wrote(3, "b")], b"a", {b"a"}
    ),
    "bytes over others": ([opened("file", 3, "O_RDWR"), wrote_at(3, "ab", 1)], b"x##\n", {b"x##\n", b"xa#\n", b"xab\n"}),
    "bytes over others that are synced": (
        [opened("file", 3, "O_RDWR"), wrote_at(3, "ab", 1), call(1, "fdatasync", 3)], b"x##\n", {b"xab\n"}
    ),
    "bytes over others and beyond": (
        [opened("file", 3, "O_RDWR"), wrote_at(3, "ab", 1)],
        b"x#",
        {b"x#", b"xa", b"x#b", b"xab", b"x#\0", b"xa\0"},
    ),
    "bytes over those of two sectors": (
        [opened("file", 3, "O_RDWR"), wrote_at(3, "abcd", torn.SECTOR - 2)],
        b"#" * (torn.SECTOR + 3),
        {
            b"#" * (torn.SECTOR - 2) + mixed + b"#"
            for mixed in (b"####", b"a###", b"ab##", b"abc#", b"abcd", b"##c#", b"##cd", b"a#cd")
        },
    ),
    "a file that is cut": ([opened("file", 3), cut(3, 1)], b"abc", {b"abc", b"a"}),
    "a file that is cut and written over": (
        [opened("file", 3, "O_RDWR"), cut(3, 1), wrote_at(3, "bc", 1)],
        b"a#\n",
        {b"a#\n", b"a", b"ab", b"ab\0", b"a\0\0", b"abc", b"ab\n"},
    ),
    "bytes of a file that isn't appended to": (
        [opened("file", 3, "O_RDWR"), wrote(3, "ab"), wrote(3, "c"), call(1, "fsync", 3)], b"xxxx", {b"abcx"}
    ),
    "a removal": ([OPENED_FOLDER, call(1, "unlinkat", 9, hexed("file"), 0)], b"a", {b"a", b""}),
}

REFUSED = {
    "a file that gets longer by no bytes": [opened("file", 3), cut(3, 2)],
    "a file that is opened anew": [opened("file", 3, "O_RDWR|O_APPEND|O_CREAT|O_TRUNC")],
    "bytes beyond the end": [opened("file", 3, "O_RDWR"), wrote_at(3, "a", 2)],
    "bytes at several places": [opened("file", 3), call(1, "pwritev", 3, hexed("a"), 1, 0, result=1)],
    "a second name": [call(1, "link", hexed(os.path.join(FOLDER, "file")), hexed(os.path.join(FOLDER, "other")))],
}


def is_refused(lines):
    try:
        after(lines, b"a")
    except traces.Unread:
        return True
    return False


def try_threads(count):
    """A line that is printed counts from its start, and a sync from its end."""
    said = (
        '1 write(1, "\\x65", 1 <unfinished ...>\n2 fdatasync(3 <unfinished ...>\n'
        "1 <... write resumed>) = 1\n2 <... fdatasync resumed>) = 0"
    )
    names = [it.name for it in traces.calls(said)]
    count.check("simulated: printed before a sync that is under way", names == ["write", "fdatasync"], names)
    other = '2 fdatasync(3 <unfinished ...>\n1 write(1, "\\x65", 1) = 1\n2 <... fdatasync resumed>) = 0'
    names = [it.name for it in traces.calls(other)]
    count.check("simulated: a sync that ends after a line is printed", names == ["write", "fdatasync"], names)


def try_promises(count):
    """A text is kept if it or the text that replaces it is there, and not if the text before it is."""
    disk = disks.Disk(FOLDER, "file")
    for name, text in {"first": b"a", "second": b"b", "third": b"c"}.items():
        disk.put(name, text, True)
    disk.rename("first", "file")
    first = disk.file()
    disk.rename("second", "file")
    second, promise = disk.file(), levels.promise_of(disk)
    disk.rename("third", "file")
    third = disk.file()
    cases = {
        "what was answered": (second, b"b", True),
        "more": (second, b"bb", True),
        "what it replaced": (first, b"a", False),
        "what replaces it": (third, b"c", True),
        "half of that": (third, b"", False),
        "no file": (None, b"", False),
    }
    for name, (file, text, holds) in cases.items():
        count.check(f"simulated: {name}", levels.keeps(promise, file, text) == holds)


def try_all(count):
    for name, (lines, old, wanted) in CASES.items():
        left = after(lines, old, name != "a file that was never synced")
        count.check(f"simulated: {name}", left == wanted, f"{sorted(left)}, expected {sorted(wanted)}")
    for name, lines in REFUSED.items():
        count.check(f"simulated: {name} is refused", is_refused(lines))
    try_threads(count)
    try_promises(count)
    whole = {b"clock: 1": True, b"#event 1 61 ": True, b"clock: 1#": False, b"#eve#t 1 61 ": False, b"##": False, b"": False}
    for line, says in whole.items():
        count.check(f"simulated: whether {line!r} says something", bool(levels.SAYS.fullmatch(line)) == says)
    clocks = levels.clocks_in(b"event-clock: 3\nquery-clock: 12\n\0\0event-clock: 9\nevent-clock: 2\nclock: 7")
    count.check(
        "simulated: the clocks of a text", clocks == {b"event-clock": 3, b"query-clock": 12, b"clock": 0}, clocks
    )
