"""What a store does that keeps filler after its text, tried as the parts of failing.py."""

import os

import stores
from failing import OLD, PARTS, Traced, failing_opening, old_file

FILLED = OLD + b"####\n"


def filled_file(cases, name, data=FILLED):
    path = os.path.join(os.path.realpath(cases.folder), name)
    stores.write(path, data)
    return path


def line_without_room_for_filler(cases):
    path = cases.path("no_room")
    with stores.Driver(cases.words, stores.with_little_room) as driver:
        cases.says("open", driver, f"open {path}", "ok")
        cases.says("a line for which there is room, but not for filler", driver, "append 610a", "ok")
        cases.check("no part of the filler is left", stores.whole(path) == b"a\n", stores.whole(path))
        cases.says("another line", driver, "append 620a", "ok")
        cases.says("both are there", driver, "read", "610a620a ok")


def filler_of_another_life(cases):
    path = filled_file(cases, "filled")
    with stores.Driver(cases.words) as driver:
        cases.says("open", driver, f"open {path}", "ok")
        cases.says("filler is no text", driver, "read", OLD.hex() + " ok")
        cases.says("append", driver, "append 620a", "ok")
        cases.check("the line is in front of the filler", stores.whole(path) == OLD + b"b\n##\n", stores.whole(path))
        cases.says("append more than there is filler", driver, "append 6363630a", "ok")
        text = stores.whole(path)
        cases.check("new filler is after the text", text.startswith(OLD + b"b\nccc\n####") and text.endswith(b"#\n"), text[:40])
        size = len(text)
        cases.says("append to it", driver, "append 640a", "ok")
        cases.check("the file keeps its length", os.path.getsize(path) == size, os.path.getsize(path))
        cases.says("close", driver, "close", "ok")
    cases.check("a store that is closed leaves no filler", stores.whole(path) == OLD + b"b\nccc\nd\n", stores.whole(path)[:40])


def filler_without_newline(cases):
    path = filled_file(cases, "torn", OLD + b"####")
    with stores.Driver(cases.words) as driver:
        cases.says("open", driver, f"open {path}", "ok")
    cases.check("filler without its newline is removed", stores.whole(path) == OLD, stores.whole(path))


def failed_cut_of_filler(cases):
    path = filled_file(cases, "cut", OLD + b"#\n")
    with Traced(cases.words, "ftruncate", "error=EIO", [path]) as driver:
        cases.says("open", driver, f"open {path}", "ok")
        cases.says("append over filler that can't be cut", driver, "append 620a", "Failed")
        cases.says("append more", driver, "append 630a", "Broken")
    cases.check("its text stays", stores.whole(path) == OLD + b"#\n", stores.whole(path))


def failed_sync_of_a_cut(cases):
    path = filled_file(cases, "cut_sync", OLD + b"#\n")
    with Traced(cases.words, "fdatasync", "error=EIO:when=1", [path]) as driver:
        cases.says("open", driver, f"open {path}", "ok")
        cases.says("append after a cut that isn't synced", driver, "append 620a", "Failed")
    cases.check("nothing is written over the filler", stores.whole(path) == OLD, stores.whole(path))


def failed_read_of_the_end(cases):
    path = old_file(cases, "end")
    failing_opening(cases, "end", "pread64", path, [path])


def file_of_another(cases):
    path = old_file(cases, "another")
    with stores.Driver(cases.words) as driver:
        cases.says("open", driver, f"open {path}", "ok")
        cases.says("append", driver, "append 620a", "ok")
        stores.write(path, b"c\n")
        cases.says("append to a file that somebody changed", driver, "append 640a", "Failed")
        cases.says("open again", driver, f"open {path}", "ok")
        cases.says("append", driver, "append 650a", "ok")
        stores.write(path, b"c\n")
        cases.says("close", driver, "close", "ok")
    cases.check("what somebody wrote stays", stores.whole(path) == b"c\n", stores.whole(path)[:40])


FILLED_PARTS = PARTS | {
    part.__name__: part
    for part in (
        line_without_room_for_filler,
        filler_of_another_life,
        filler_without_newline,
        failed_cut_of_filler,
        failed_sync_of_a_cut,
        failed_read_of_the_end,
        file_of_another,
    )
}
