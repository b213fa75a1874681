"""The wrong bodies of the stores, planted into copies of their sources: each step of a store has two or more.

One copy of a store has them all, and STORE_FAULT in the environment selects the one that is on. languages.py has the edits of the
bindings' stores, and system_file.py those of the file of the system below `FileStore`.
"""

from collections import namedtuple

# The name in the environment of the wrong body that is on.
FAULT_NAME = "STORE_FAULT"

# A wrong body: its step, what it does, the part that finds it, and the check of that part that fails.
Fault = namedtuple("Fault", "step what part check")

PATH = "an opening resolves the path"
LOCK = "the text is locked"
CURRENT = "a file that was replaced before its lock is opened anew"
PLAIN = "a file that is no plain file is refused"
LEFTOVER = "an opening removes what a crash left"
READ = "the text is read"
OPENED_TEXT = "an opening syncs the text"
OPENED_NAME = "an opening syncs the folder"
RIGHTS = "a file has its rights"
WRITE = "an append writes"
LINE = "an append syncs"
BESIDE = "a replacement writes a new file"
TEXT = "a replacement syncs its text"
RENAME = "a replacement renames"
NAME = "a replacement syncs the folder"
BROKEN = "a store that failed accepts nothing more"
HANDLES = "a store leaves no file open"
FILLER = "an append writes over filler"
CUT = "filler that is too short is cut, and the cut is synced"
END = "an opening finds the end of the text"
LENGTH = "a file that somebody else changed is left alone"

FAULTS = {
    "link": Fault(PATH, "a link isn't followed", "locks", "by a link"),
    "link_replaced": Fault(PATH, "a link is replaced instead of its file", "locks", "the link stays"),
    "lock": Fault(LOCK, "the text isn't locked", "locks", "in another process"),
    "lock_beside": Fault(LOCK, "the file that replaces the text isn't locked", "locks", "after a replacement"),
    "stale": Fault(CURRENT, "any file is the current one", "replaced_before_its_lock", "the new text is read"),
    "stale_device": Fault(
        CURRENT, "any file of that disk is the current one", "replaced_before_its_lock", "the new text is read"
    ),
    "device": Fault(PLAIN, "a device is taken for a file", "no_plain_files", "a device"),
    "pipe": Fault(PLAIN, "a pipe is taken for a file", "no_plain_files", "a pipe"),
    "left": Fault(LEFTOVER, "a file that a crash left stays", "what_crashes_leave", "what it left is removed"),
    "left_early": Fault(
        LEFTOVER, "a file that a crash left is removed before the lock", "locks", "the replacement that its owner writes stays"
    ),
    "left_ok": Fault(LEFTOVER, "a failed removal is Ok", "failed_removal", "open"),
    "read_nothing": Fault(READ, "nothing of the text is read", "what_crashes_leave", "the text stays"),
    "read_ok": Fault(READ, "a failed read is an empty text", "failed_read", "read"),
    "long_read_cut": Fault(READ, "of a long text only the beginning is read", "long_text", "a long text is read whole"),
    "opened_text_ok": Fault(OPENED_TEXT, "a failed sync of the opened text is Ok", "failed_sync_of_the_opened_text", "open"),
    "opened_name_ok": Fault(
        OPENED_NAME, "a failed sync of the opened folder is Ok", "failed_sync_of_the_opened_folder", "open"
    ),
    "made_for_all": Fault(RIGHTS, "all may read a file that is made", "made", "nobody else may read it"),
    "rights": Fault(RIGHTS, "a replacement has other rights", "plain_file", "it keeps its rights"),
    "write_ok": Fault(WRITE, "a failed write is Ok", "full", "append to a full disk"),
    "write_in_part": Fault(WRITE, "a write in part is Ok", "full", "append to a full disk"),
    "quota": Fault(WRITE, "a quota that is used up is another failure", "quota", "append over a quota"),
    "line_ok": Fault(LINE, "a failed sync of a line is Ok", "failed_sync_of_a_line", "append"),
    "beside_ok": Fault(BESIDE, "a failed write of the new file is Ok", "full", "replace on a full disk"),
    "beside_in_part": Fault(BESIDE, "a partial write of the new file is Ok", "full", "replace on a full disk"),
    "beside_kept": Fault(
        BESIDE, "an existing new file is appended to", "beside_of_another", "nothing of another's is in it"
    ),
    "beside_sync_ok": Fault(TEXT, "a failed sync of the new file is Ok", "failed_sync_beside", "replace"),
    "no_rename": Fault(RENAME, "nothing is renamed", "plain_file", "it is another file after that"),
    "rename_ok": Fault(RENAME, "a failed rename is Ok", "failed_rename", "replace"),
    "rename_takes_beside": Fault(
        RENAME, "after a failed rename the store writes to the new file", "failed_rename", "it is locked still"
    ),
    "folder_ok": Fault(NAME, "a failed sync of the folder is Ok", "failed_sync_of_the_folder", "replace"),
    "old_file_open": Fault(HANDLES, "a replacement leaves the old file open", "handles", "no replacement leaves a file open"),
    "opening_leaks": Fault(
        HANDLES, "an opening that failed leaves its file open", "handles", "no opening that failed leaves a file open"
    ),
    "goes_on": Fault(BROKEN, "a failure is forgotten at once", "full", "and nothing more"),
    "refused_once": Fault(BROKEN, "a failure is forgotten once a call was refused", "full", "nor a replacement"),
    "writes_broken": Fault(BROKEN, "a refused append is written", "read_only", "its text stays"),
}

# In C, in addition to those of `FAULTS`: the other languages close and free by themselves.
C_FAULTS = FAULTS | {
    "child_has_lock": Fault(HANDLES, "a child program inherits the text, with its lock", "handles", "a child program inherits no file"),
    "folder_open": Fault(HANDLES, "a store that is closed leaves its folder open", "handles", "a store that is closed has no file open"),
}

# In stores that keep filler after their text, in addition to those of `FAULTS`.
FILLED_FAULTS = FAULTS | {
    "filler_needed": Fault(
        FILLER, "a line fails if there is no room for filler", "line_without_room_for_filler",
        "a line for which there is room, but not for filler"
    ),
    "filler_left": Fault(
        FILLER, "a part of the filler is left if there is no room for it", "line_without_room_for_filler",
        "no part of the filler is left"
    ),
    "filler_behind": Fault(
        FILLER, "lines are appended after the filler", "filler_of_another_life", "the line is in front of the filler"
    ),
    "no_filler": Fault(FILLER, "no filler is prepared", "filler_of_another_life", "new filler is after the text"),
    "filler_kept": Fault(
        FILLER, "a store that is closed leaves its filler", "filler_of_another_life",
        "a store that is closed leaves no filler"
    ),
    "cut_ok": Fault(CUT, "a failed cut of filler is Ok", "failed_cut_of_filler", "append over filler that can't be cut"),
    "cut_sync_ok": Fault(
        CUT, "a failed sync of a cut is Ok", "failed_sync_of_a_cut", "append after a cut that isn't synced"
    ),
    "filler_read": Fault(END, "filler is taken for text", "filler_of_another_life", "filler is no text"),
    "torn_filler": Fault(
        END, "filler without its newline stays", "filler_without_newline", "filler without its newline is removed"
    ),
    "end_ok": Fault(END, "a failed read of the end is Ok", "failed_read_of_the_end", "open"),
    "any_length": Fault(
        LENGTH, "a file that somebody changed is written to", "file_of_another", "append to a file that somebody changed"
    ),
    "cut_anyway": Fault(
        LENGTH, "a file that somebody changed is cut when it is closed", "file_of_another", "what somebody wrote stays"
    ),
}

# For the file below `FileStore`, in addition to those of `FAULTS`. The wrong bodies of an opening's syncs and of a store that failed
# are left out: they are in the code above that file, in which a contract refuses them. Those of `OF_BINDINGS` are planted only into
# the stores of the bindings; their parts are tried over `FileStore` too.
OF_CONTRACTS = ("opened_text_ok", "opened_name_ok", "goes_on", "refused_once", "writes_broken")
OF_BINDINGS = ("long_read_cut", "quota", "old_file_open", "opening_leaks")
FILE_FAULTS = {name: fault for name, fault in FAULTS.items() if name not in OF_CONTRACTS + OF_BINDINGS} | {
    "lock_another": Fault(LOCK, "another file is locked in the text's place", "lock_of_the_text", "the text is locked"),
    "other_disk": Fault(
        CURRENT, "a file of that number on another disk is the current one", "file_of_another_disk",
        "a file of that number on another disk"
    ),
    "link_made": Fault(PLAIN, "the file that a link names is made", "no_plain_files", "a link to nothing"),
    "write_nothing": Fault(WRITE, "nothing is written", "full", "what was there stays"),
    "made_for_group": Fault(RIGHTS, "the group may read a file that is made", "made", "nobody else may read it"),
    "no_line": Fault(LINE, "a line isn't synced", "failed_sync_of_a_line", "append"),
    "no_text": Fault(TEXT, "the new file isn't synced", "failed_sync_beside", "replace"),
    "data_alone": Fault(TEXT, "only the data of the new file is synced", "failed_sync_beside", "replace"),
    "no_name": Fault(NAME, "the folder isn't synced", "failed_sync_of_the_folder", "replace"),
    "old_file": Fault(RENAME, "the store keeps writing to the old file", "plain_file", "what is there"),
    "opened_anew": Fault(RENAME, "the new file is opened anew, without its lock", "locks", "after a replacement"),
    "read_ok": Fault(READ, "a failed read is an empty text", "failed_read", "open"),
}

# The power cuts have a wrong body of these steps too: its name there (`tests/library/power_cuts/faults.py`).
OF_POWER_CUTS = {OPENED_TEXT: "opened_text", OPENED_NAME: "opened_name", LINE: "line", TEXT: "text", NAME: "name"}


def steps(faults=FAULTS):
    """Each step, with its wrong bodies that are planted here."""
    found = {}
    for fault in faults.values():
        found.setdefault(fault.step, []).append(fault)
    return found
