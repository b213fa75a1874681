"""The premise of `host_promises` about a host's file, and the records of hosts (recorder.c) held against it.

Of a file's next session, crates/serf_agent_c/specs/Hosts.antt (`BeginsWith`) requires: it opens on a text that begins with what the host
confirmed before, or with the text of a compaction under way, up to other lines. What the host confirmed is the text on which the session
before was opened, and after it the bytes that the host confirmed then. Any bytes may follow. Other lines, and what it means that texts
differ only in them, are defined in crates/serf_snapshot/specs/OtherLines.antt.
"""

import os
import sys
from collections import namedtuple

sys.path.insert(0, os.path.join(os.path.dirname(os.path.abspath(__file__)), *[os.pardir] * 3, "examples", "records"))
from snapshot_texts import begins_with, own_lines

# A record of recorder.c, or a note of a test: its kind, the process and the number of the life, the moment, and its bytes.
Record = namedtuple("Record", "kind life moment data")


def records_of(path):
    """The records of a process. A kill may have torn the final record."""
    with open(path, "rb") as file:
        data = file.read()
    at = 0
    while at < len(data):
        end = data.find(b"\n", at)
        if end < 0:
            return
        kind, life, moment, length = data[at:end].decode("ascii").split(" ")
        begin, at = end + 1, end + 1 + int(length) + 1
        if at > len(data):
            return
        yield Record(kind, (path, int(life)), int(moment), data[begin : at - 1])


def notes_of(path):
    """The notes of tests: lines KIND MOMENT PATH."""
    if os.path.exists(path):
        with open(path, "rb") as file:
            for line in file.read().splitlines():
                kind, moment, data = line.split(b" ", 2)
                yield Record(kind.decode("ascii"), None, int(moment), data)


def all_records(folder):
    """All records of a folder, in the order of their moments."""
    found = list(notes_of(os.path.join(folder, "notes")))
    for name in sorted(os.listdir(folder)):
        if name.endswith(".records"):
            found += records_of(os.path.join(folder, name))
    return sorted(found, key=lambda record: record.moment)


class File:
    """What a host confirmed of a file: the texts of which it is made, and the text of a compaction under way."""

    def __init__(self, text):
        self.parts, self.new, self.killed, self.has_more = [text], None, False, False

    def take(self, kind, data):
        if self.killed:
            # (the test puts the file back to what it was before these bytes)
            return
        if kind == "compact":
            self.new = data
        elif kind == "replace":
            self.parts, self.new, self.has_more = [data], None, True
        elif kind == "append":
            self.parts.append(data)
            self.new, self.has_more = None, True

    def fault_of(self, text):
        """Why a session may not open on this text, or None."""
        fault = begins_with(text, b"".join(self.parts))
        return None if fault is None or self.new is not None and begins_with(text, self.new) is None else fault


class Held:
    """The records of a folder, held against the premise: how many sessions and files there are, how many openings were checked, how many of
    these after a session that confirmed something, on a text with other lines between the confirmed bytes, on a text with a tail that says
    something, and after a session that ended during a compaction; the texts on which sessions opened, each of them once; and the openings
    that break the premise, each as the file's path and why."""

    def __init__(self, folder):
        self.files, self.places = {}, {}
        self.lives = self.checked = self.telling = self.with_others = self.with_tail = self.replaced = self.under_way = 0
        self.faults, self.texts = [], set()
        for record in all_records(folder):
            self.take(record)

    def take(self, record):
        if record.kind == "open":
            path, _, text = record.data.partition(b"\0")
            self.opened(record.life, path, text)
        elif record.kind == "changed":
            # A test wrote the file itself, so the next session on it is a first one.
            self.files.pop(record.data, None)
        elif record.kind == "killed":
            if record.data in self.files:
                self.files[record.data].killed = True
        elif record.life in self.places and record.kind != "end":
            file = self.files.get(self.places[record.life])
            self.replaced += record.kind == "replace"
            if file is not None:
                file.take(record.kind, record.data)

    def opened(self, life, path, text):
        self.lives += 1
        self.texts.add(text)
        before = self.files.get(path)
        if before is not None:
            self.checked += 1
            self.telling += before.has_more
            self.under_way += before.new is not None
            confirmed = b"".join(before.parts)
            self.with_others += not text.startswith(confirmed)
            self.with_tail += len(own_lines(text)[0]) > len(own_lines(confirmed)[0])
            fault = before.fault_of(text)
            if fault is not None:
                self.faults.append((path.decode("utf-8", "replace"), fault))
        self.files[path], self.places[life] = File(text), path

    def said(self):
        return (
            f"{self.lives} lives on {len(set(self.places.values()))} files, {self.replaced} compactions, {self.checked} openings checked: "
            f"{self.telling} after lives that confirmed bytes, {self.with_others} with other lines between these, {self.with_tail} with a "
            f"tail that says more, {self.under_way} after lives that ended during a compaction"
        )
