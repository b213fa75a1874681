"""A disk under the calls of a trace: its files, and what a power cut may leave of them.

Two things are sure after a cut: what a file had at its last sync, as long as nothing was written over it, and a folder's entries up to its
last sync. Of the rest a cut may leave any prefix of the folder's changes to its names. Of what was appended to the file of that name it may
leave any prefix, or zeros in its place. Of what was written over older bytes it may leave any sectors, and of one of them a prefix; the
rest is as it was.
"""

import os
import re

import filler
import torn
from traces import Unread


class File:
    """A file: what it had at its last sync, and after each change since then."""

    def __init__(self, data=b"", sure=0):
        self.states = [data] if sure == len(data) else [data[:sure], data]
        # if it got the name of another file: the number of that rename, and the file's content by then
        self.renamed, self.renamed_with = 0, b""

    @property
    def data(self):
        return self.states[-1]

    def becomes(self, data):
        self.states.append(data)

    def sync(self):
        self.states = [self.data]


class Opened:
    """An open file, and the place of its next bytes, if it isn't appended to."""

    def __init__(self, file, is_appended):
        self.file, self.is_appended, self.place = file, is_appended, 0


def changed(names, change):
    """The entries of a folder after a change of it."""
    kind, name, what = change
    names = dict(names)
    if kind == "make":
        names[name] = what
    elif kind == "rename" and name in names:
        names[what] = names.pop(name)
    elif kind == "remove":
        names.pop(name, None)
    return names


class Disk:
    """The folder of a store, in which `name` is the store's file. has_filler: the store keeps filler after its text."""

    def __init__(self, folder, name, has_filler=False):
        self.folder, self.name, self.has_filler = os.path.realpath(folder), name, has_filler
        self.names, self.sure_names, self.pending = {}, {}, []
        # every line that was in a file of this folder, and whether the last sync of a file failed
        self.lines, self.sync_failed = set(), False
        # how many renames there were
        self.renames = 0

    def put(self, name, data, is_sure):
        """A file that existed when the trace began. If it is not sure, an earlier process left it, and synced nothing."""
        file = File(data, len(data) if is_sure else 0)
        self.note_lines(file)
        self.change("make", name, file)
        if is_sure:
            self.sync()

    def change(self, *change):
        self.pending.append(change)
        self.names = changed(self.names, change)

    def rename(self, one, other):
        file = self.names[one]
        self.renames += 1
        file.renamed, file.renamed_with = self.renames, file.data
        self.change("rename", one, other)

    def sync(self):
        self.sure_names, self.pending = dict(self.names), []

    def file(self):
        return self.names.get(self.name)

    def text_of(self, data):
        """The text of the store's file, if the file has these bytes."""
        return filler.text_of(data) if self.has_filler else data

    def note_lines(self, file):
        self.lines.update(file.data.split(b"\n")[:-1])

    def cuts(self, lengths):
        """Each file that the name can have after a cut now, and its text; (None, b"") if the name has no file. lengths returns
        for a file up to which bytes it may be there."""
        names, found = self.sure_names, set()
        for change in [None, *self.pending]:
            names = names if change is None else changed(names, change)
            file = names.get(self.name)
            for text in [b""] if file is None else texts_left(file, lengths):
                if (file, text) not in found:
                    found.add((file, text))
                    yield file, text


def texts_left(file, lengths):
    yield file.data
    for before, after in zip(file.states, file.states[1:]):
        yield from torn.between(before, after, lengths)
    if len(file.states) > 2:
        yield from torn.between(file.states[0], file.data, lengths)


def each_length(sure, whole):
    return range(sure, whole + 1)


def few_lengths(drawn):
    """Some of the lengths: the smallest, the largest, and a random one."""

    def lengths(sure, whole):
        return sorted({sure, drawn.randint(sure, whole), whole})

    return lengths


def is_saying(call):
    """Whether a call writes to the standard output."""
    return call.name == "write" and call.args.startswith("1,")


def last_number(call):
    """The last of a call's words, a number."""
    return int(call.args.rpartition(",")[2])


class Walk:
    """Walks through a trace. After each call that changed the disk or wrote a line, an iteration returns what this line
    said, or None."""

    def __init__(self, disk, calls):
        self.disk, self.calls = disk, calls
        # the open file of each number, and the numbers of the folder
        self.files, self.folders = {}, set()

    def __iter__(self):
        for call in self.calls:
            if is_saying(call):
                yield call.texts[0]
            elif call.result >= 0 and self.does(call):
                yield None
            elif call.result < 0 and call.name in ("fsync", "fdatasync"):
                self.disk.sync_failed = True

    def does(self, call):
        """Makes a successful call; returns whether it changed the disk."""
        number = int(call.args.split(",")[0]) if re.match(r"\d", call.args) else None
        if call.name in ("openat", "open", "creat"):
            return self.opens(call)
        if call.name in ("rename", "renameat", "renameat2"):
            return self.renames(call)
        if call.name in ("unlink", "unlinkat"):
            return self.removes(call)
        if call.name in ("write", "writev"):
            return self.writes(number, b"".join(call.texts)[: call.result])
        if call.name == "pwrite64":
            return self.writes_at(number, call.texts[0][: call.result], last_number(call))
        if call.name == "ftruncate":
            return self.truncates(number, last_number(call))
        if call.name in ("fsync", "fdatasync"):
            return self.syncs(call.name, number)
        if call.name in ("close", "dup", "dup2", "dup3", "fcntl"):
            self.numbers(call, number)
            return False
        if number in self.files or number in self.folders or any(self.place(call, at) for at in range(len(call.texts))):
            raise Unread(f"the store calls {call.name}, which isn't simulated here")
        return False

    def place(self, call, at):
        """The name in the folder that the text of this number means, or None."""
        path = os.fsdecode(call.texts[at])
        numbers = re.findall(r"(AT_FDCWD|\b\d+), \"", call.args)
        if not os.path.isabs(path):
            if at >= len(numbers) or not numbers[at].isdigit() or int(numbers[at]) not in self.folders:
                return None
            path = os.path.join(self.disk.folder, path)
        folder, name = os.path.split(path)
        return name if os.path.realpath(folder) == self.disk.folder else None

    def opens(self, call):
        self.files.pop(call.result, None)
        self.folders.discard(call.result)
        if os.path.realpath(os.fsdecode(call.texts[0])) == self.disk.folder:
            self.folders.add(call.result)
            return False
        name, is_new = self.place(call, 0), False
        if name is None:
            return False
        if "O_TRUNC" in call.args or call.name == "creat":
            raise Unread("the store truncates a file, which isn't simulated here")
        if name not in self.disk.names:
            if "O_CREAT" not in call.args:
                return False
            self.disk.change("make", name, File())
            is_new = True
        self.files[call.result] = Opened(self.disk.names[name], "O_APPEND" in call.args)
        return is_new

    def renames(self, call):
        one, other = self.place(call, 0), self.place(call, 1)
        if one is None and other is None:
            return False
        if one not in self.disk.names or other is None:
            raise Unread("the store renames a file out of its folder, or into it")
        self.disk.rename(one, other)
        return True

    def removes(self, call):
        name = self.place(call, 0)
        if name not in self.disk.names:
            return False
        self.disk.change("remove", name, None)
        return True

    def writes(self, number, data):
        if number not in self.files:
            return False
        opened = self.files[number]
        at = len(opened.file.data) if opened.is_appended else opened.place
        opened.place = at + len(data)
        return self.writes_at(number, data, at)

    def writes_at(self, number, data, at):
        if number not in self.files:
            return False
        file = self.files[number].file
        if at > len(file.data):
            raise Unread("the store writes beyond the end of a file")
        file.becomes(file.data[:at] + data + file.data[at + len(data) :])
        self.disk.note_lines(file)
        return True

    def truncates(self, number, length):
        if number not in self.files:
            return False
        file = self.files[number].file
        if length > len(file.data):
            raise Unread("the store makes a file longer without writing to it")
        file.becomes(file.data[:length])
        return True

    def syncs(self, name, number):
        if number in self.files:
            self.files[number].file.sync()
            self.disk.sync_failed = False
        elif number in self.folders:
            if name != "fsync":
                raise Unread("the store calls fdatasync of its folder")
            self.disk.sync()
        return number in self.files or number in self.folders

    def numbers(self, call, number):
        if call.name == "close":
            self.files.pop(number, None)
            self.folders.discard(number)
        elif call.name != "fcntl" or "F_DUPFD" in call.args:
            self.files.pop(call.result, None)
            self.folders.discard(call.result)
            if number in self.files:
                self.files[call.result] = self.files[number]
            if number in self.folders:
                self.folders.add(call.result)
