"""Bugs that are planted into copies of the stores' sources, by edits of their text.

A bug is one sync that is missing or late. In C, Python, Go and Rust one copy has them all, and the
environment's POWER_CUTS_FAULT selects the one that is on; for `FileStore` there is a separate copy for each.
"""

import os

FAULT_NAME = "POWER_CUTS_FAULT"

# The copy that has them all while none is on: it works as well as the store itself.
NONE = "none"

# What each bug removes.
FAULTS = {
    "line": "no sync of the line",
    "text": "no sync of the new text before the rename",
    "name": "no sync of the folder after the rename",
    "opened_text": "no sync of the text at opening",
    "opened_name": "no sync of the folder at opening",
    "late": "the line synced by the next append: handed out before",
    "order": "the line written by the next call: handed out before",
}


# What each bug does, in a store that keeps filler after its text.
FILLER_FAULTS = {
    "no_newline": "filler without a newline",
    "not_cut": "old filler that isn't cut before longer bytes are written over it",
    "cut_late": "no sync after old filler was cut",
    "opened_filler": "an opening that treats the last line in front of filler as filler",
    "cut_at_close": "a close that cuts one byte more than the filler",
}


class NotThere(Exception):
    """The text that an edit replaces isn't in its file exactly once."""


def edit(folder, edits):
    """Applies edits to files below a folder: for each file, pairs of a text that is in it exactly once and its replacement."""
    for name, pairs in edits.items():
        path = os.path.join(folder, name)
        with open(path, encoding="utf-8") as file:
            text = file.read()
        for old, new in pairs:
            if text.count(old) != 1:
                raise NotThere(f"{name}: the text to replace isn't there exactly once: {old!r}")
            text = text.replace(old, new)
        with open(path, "w", encoding="utf-8") as file:
            file.write(text)


C = {
    "serf_agent_store.c": [
        ("#define _GNU_SOURCE\n", """#define _GNU_SOURCE
#include <stdbool.h>
#include <stdlib.h>
#include <string.h>
static bool is(const char *fault) {
    const char *planted = getenv("POWER_CUTS_FAULT");
    return planted != NULL && strcmp(planted, fault) == 0;
}
"""),
        (
            "!write_all(store->file, bytes, len) || fdatasync(store->file) != 0",
            '(is("late") && fdatasync(store->file) != 0) || !write_all(store->file, bytes, len)'
            ' || (!is("line") && !is("late") && fdatasync(store->file) != 0)',
        ),
        ("fsync(file) == 0", '(is("text") || fsync(file) == 0)'),
        ("fsync(store->folder) != 0", '!is("name") && fsync(store->folder) != 0'),
        ("fsync(store->file) == 0 &&", '(is("opened_text") || fsync(store->file) == 0) &&'),
        ("fsync(store->folder) == 0", '(is("opened_name") || fsync(store->folder) == 0)'),
        ("\nenum serf_agent_store_error serf_agent_store_settle(", """
static enum serf_agent_store_error write_pending_late(struct serf_agent_store *store, struct serf_agent *agent, size_t len) {
    static struct serf_agent_bytes before;
    static uint8_t late[1 << 16];
    enum serf_agent_store_error fault = before.replaces ? serf_agent_store_replace(store, late, before.len)
                                                        : serf_agent_store_append(store, late, before.len);
    serf_agent_pending(agent, &before, late, len);
    return fault;
}

enum serf_agent_store_error serf_agent_store_settle("""),
        (
            "error = write_pending(store, agent, pending.len)",
            'error = is("order") ? write_pending_late(store, agent, pending.len) : write_pending(store, agent, pending.len)',
        ),
    ]
}

PYTHON = {
    "serf_agent/store.py": [
        ("\nclass Store:\n", '\nFAULT = os.environ.get("POWER_CUTS_FAULT")\n\n\nclass Store:\n'),
        ("os.fdatasync(self._file)", 'FAULT in ("line", "late") or os.fdatasync(self._file)'),
        (
            "write_all(self._file, data)",
            'FAULT == "late" and os.fdatasync(self._file)\n                write_all(self._file, data)',
        ),
        ("os.fsync(file)\n", 'FAULT == "text" or os.fsync(file)\n'),
        (
            "os.fsync(self._file)\n        os.fsync(self._folder)",
            'FAULT == "opened_text" or os.fsync(self._file)\n        FAULT == "opened_name" or os.fsync(self._folder)',
        ),
        (
            "self._file = file\n            os.fsync(self._folder)",
            'self._file = file\n            FAULT == "name" or os.fsync(self._folder)',
        ),
    ],
    "serf_agent/agent.py": [
        ("from .store import Path, Store\n", """from .store import FAULT, Path, Store

LATE = []


def later(write, data):
    if FAULT != "order":
        write(data)
        return
    while LATE:
        before, late = LATE.pop()
        before(late)
    LATE.append((write, data))

"""),
        (
            '(self._store.replace if pending.replaces else self._store.append)(data.raw + (self._host_lines if pending.replaces else b""))',
            'later(self._store.replace if pending.replaces else self._store.append, data.raw + (self._host_lines if pending.replaces else b""))',
        ),
    ],
}

GO = {
    "serfagent/store.go": [
        (
            "\nfunc syncFolder(",
            """
func is(fault string) bool { return os.Getenv("POWER_CUTS_FAULT") == fault }

func unless(fault string, done func() error) error {
	if is(fault) {
		return nil
	}
	return done()
}

var late func() error

func later(write func([]byte) error, data []byte) error {
	if !is("order") {
		return write(data)
	}
	before := late
	late = func() error { return write(data) }
	if before == nil {
		return nil
	}
	return before()
}

func syncFolder(""",
        ),
        (
            "\t\treturn flushData(s.file)\n",
            '\t\treturn unless("line", func() error { return unless("late", func() error { return flushData(s.file) }) })\n',
        ),
        (
            "\t\tif err := s.write(data); err != nil {",
            '\t\tif is("late") {\n\t\t\tflushData(s.file)\n\t\t}\n\t\tif err := s.write(data); err != nil {',
        ),
        ("\t\tfile.Sync,\n", '\t\tfunc() error { return unless("text", file.Sync) },\n'),
        ("return syncFolder(s.path)", 'return unless("name", func() error { return syncFolder(s.path) })'),
        ("err = file.Sync()", 'err = unless("opened_text", file.Sync)'),
        ("err = syncFolder(resolved)", 'err = unless("opened_name", func() error { return syncFolder(resolved) })'),
    ],
    "serfagent/filler.go": [
        ("\tfiller[length-1] = '\\n'\n", '\tif !is("no_newline") {\n\t\tfiller[length-1] = \'\\n\'\n\t}\n'),
        ("\tif s.size == s.end {\n", '\tif s.size == s.end || is("not_cut") {\n\t\ts.size = s.end\n'),
        (
            "\ts.size = s.end\n\treturn flushData(s.file)\n",
            '\ts.size = s.end\n\treturn unless("cut_late", func() error { return flushData(s.file) })\n',
        ),
        (
            "\tisFiller := false\n",
            '\tdefer func() {\n\t\tif is("opened_filler") && s.end > 0 && s.end < s.size {\n'
            "\t\t\ttext := make([]byte, s.end-1)\n\t\t\ts.file.ReadAt(text, 0)\n"
            "\t\t\ts.end = int64(bytes.LastIndexByte(text, '\\n') + 1)\n\t\t}\n\t}()\n\tisFiller := false\n",
        ),
        ("\treturn s.file.Truncate(end)\n", '\tif is("cut_at_close") {\n\t\tend--\n\t}\n\treturn s.file.Truncate(end)\n'),
    ],
    "serfagent/agent.go": [
        (
            "err = a.store.Replace(append(data[:len(data):len(data)], a.appendix...))",
            "err = later(a.store.Replace, append(data[:len(data):len(data)], a.appendix...))",
        ),
        ("err = a.store.Append(data)", "err = later(a.store.Append, data)"),
    ],
}

RUST = {
    "src/store.rs": [
        ("\nfn sync_folder(", """
pub(crate) fn is(fault: &str) -> bool {
    std::env::var("POWER_CUTS_FAULT").as_deref() == Ok(fault)
}

fn sync_folder("""),
        (
            "store.file.sync_data()?;",
            'if !is("line") && !is("late") {\n                    store.file.sync_data()?;\n                }',
        ),
        (
            "store.file.write_all(bytes)?;",
            'if is("late") {\n                    store.file.sync_data()?;\n                }\n'
            "                store.file.write_all(bytes)?;",
        ),
        (
            "file.sync_all()?;\n        fs::rename(",
            'if !is("text") {\n            file.sync_all()?;\n        }\n        fs::rename(',
        ),
        (
            "Ok(sync_folder(&store.path)?)",
            'if !is("name") {\n                sync_folder(&store.path)?;\n            }\n            Ok(())',
        ),
        (
            "file.sync_all()?;\n        sync_folder(&path)?;",
            'if !is("opened_text") {\n            file.sync_all()?;\n        }\n'
            '        if !is("opened_name") {\n            sync_folder(&path)?;\n        }',
        ),
    ],
    "src/agent.rs": [
        ("\nimpl Agent {\n    /// Opens", """
thread_local! {
    static LATE: std::cell::RefCell<Option<(bool, Vec<u8>)>> = const { std::cell::RefCell::new(None) };
}

fn later(store: &mut Store, replaces: bool, bytes: Vec<u8>) -> Result<(), crate::store::StoreError> {
    let now = if crate::store::is("order") { LATE.replace(Some((replaces, bytes))) } else { Some((replaces, bytes)) };
    match now {
        Some((true, bytes)) => store.replace(&bytes),
        Some((false, bytes)) => store.append(&bytes),
        None => Ok(()),
    }
}

impl Agent {
    /// Opens"""),
        (
            "let write_result = if pending.replaces { self.store.replace(&bytes) } else { self.store.append(&bytes) };",
            "let write_result = later(&mut self.store, pending.replaces, bytes);",
        ),
    ],
}

# Each bug of `FileStore` separately: what is removed from src/store.rt.
NO_SYNC_OF_THE_LINE = ("self.failures > 0 || self.file.sync().is_err()", "self.failures > 0")
FILE_STORE = {
    "line": [NO_SYNC_OF_THE_LINE],
    "text": [("    file.sync_new_file()?;\n", "")],
    "name": [("    file.rename_new_file()?;\n    file.sync_folder()\n", "    file.rename_new_file()\n")],
    "opened_text": [("        opened.sync().map_err(StoreError::Sync)?;\n", "")],
    "opened_name": [("        opened.sync_folder().map_err(StoreError::Folder)?;\n", "")],
    "late": [
        NO_SYNC_OF_THE_LINE,
        (
            "self.failures > 0 || self.file.write(bytes).is_err()",
            "self.failures > 0 || self.file.sync().is_err() || self.file.write(bytes).is_err()",
        ),
    ],
}
