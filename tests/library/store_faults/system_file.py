"""The store of Rattle: its driver, and the edits that plant wrong bodies into a copy of its file of the system.

No clause describes what the system does, so the contracts refuse none of these. Files of the driver say which one is on.
"""

import os
import struct

import failing
import faults
import file_store
import scratch
import stores

OWN = os.path.join(os.path.dirname(os.path.abspath(__file__)), "driver")
WORDS = os.path.join(os.path.dirname(os.path.abspath(file_store.__file__)), "words.rattle")
USES = ["serf_store", "serf_snapshot", "hex", "anyhow"]

FAULTY = '''//! Which wrong body is on.

/// Files that say which wrong body is on.
pub trait Faulty {
    /// Whether it is the one of this name.
    fn is(&self, fault: &str) -> bool;
}
'''

LIB = [
    ("mod error;\n", "mod error;\nmod faulty;\n"),
    ("pub use error::StoreError;\n", "pub use error::StoreError;\npub use faulty::Faulty;\n"),
]

OPENING = [
    (
        "    match files.canonicalize(alloc, path) {\n        Ok(real) => Ok(real),",
        '    if files.is("link") || files.is("link_replaced") {\n'
        "        return Ok(Path::new(path).to_path_buf(alloc)?);\n    }\n"
        "    match files.canonicalize(alloc, path) {\n        Ok(real) => Ok(real),",
    ),
    (
        "        lock(&file)?;\n",
        '        if !files.is("lock") && !files.is("lock_another") {\n            lock(&file)?;\n        }\n',
    ),
    (
        "    locked(file.lock_now())\n}\n",
        "    locked(file.lock_now())\n}\n\n/// A file beside the text, locked.\npub fn locked_beside<R: Files>(alloc: Global, files: &R, path: &str) -> "
        "Result<R::File, StoreError>\nwhere\n    R::File: LockFile,\n{\n"
        "    let mut name = String::from_str(alloc, path)?;\n    name.push_str(\".lock\")?;\n"
        "    let file = open_text(files, &name)?;\n    lock(&file)?;\n    Ok(file)\n}\n\n"
        "/// What has a name: a link itself, or its file where a link is opened.\n"
        "fn look<R: Files>(files: &R, path: &str) -> io::Result<std::fs::Metadata> {\n"
        '    if files.is("link_replaced") || files.is("link_made") {\n        files.metadata(path)\n    } else {\n'
        "        files.symlink_metadata(path)\n    }\n}\n",
    ),
    (
        "    plain(files.symlink_metadata(path))\n",
        "    match look(files, path) {\n"
        '        Ok(_) if files.is("device") || files.is("pipe") => Ok(()),\n        named => plain(named),\n    }\n',
    ),
    (
        "    match files.symlink_metadata(path) {\n"
        "        Ok(named) => Ok(named.dev() == own.dev() && named.ino() == own.ino()),",
        "    match look(files, path) {\n"
        '        Ok(named) => Ok(files.is("stale")\n            || ((files.is("other_disk") || named.dev() == own.dev())\n'
        '                && (files.is("stale_device") || named.ino() == own.ino()))),',
    ),
    (
        ".mode(0o600)",
        '.mode(if files.is("made_for_all") { 0o644 } else if files.is("made_for_group") { 0o640 } else { 0o600 })',
    ),
    (
        "    remove_if_there(files, path).map_err(StoreError::Leftover)",
        '    if files.is("left") {\n        return Ok(());\n    }\n'
        "    match remove_if_there(files, path) {\n        Err(_) if files.is(\"left_ok\") => Ok(()),\n"
        "        Err(error) => Err(StoreError::Leftover(error)),\n        Ok(()) => Ok(()),\n    }",
    ),
]

SYSTEM = [
    ("use crate::opening::{open_locked,", "use crate::opening::{locked_beside, open_locked,"),
    (
        "        let file = open_locked(",
        '        if files.is("left_early") {\n            remove_leftover(files, &paths.new_file)?;\n        }\n'
        "        let file = open_locked(",
    ),
    (
        "        remove_leftover(files, &paths.new_file)?;\n        Ok(SystemFile {\n",
        "        remove_leftover(files, &paths.new_file)?;\n"
        '        let beside = if files.is("lock_another") { Some(locked_beside(alloc, files, &paths.file)?) } else { None };\n'
        "        Ok(SystemFile {\n",
    ),
    ("            new_file: None,\n", "            new_file: beside,\n"),
    (
        "let answer = read_all(alloc, &mut self.file);",
        'let answer = if self.files.is("read_nothing") || self.files.is("device") || self.files.is("pipe") {\n'
        "            Ok(Vec::new(alloc))\n        } else {\n            match read_all(alloc, &mut self.file) {\n"
        '                Err(_) if self.files.is("read_ok") => Ok(Vec::new(alloc)),\n                other => other,\n'
        "            }\n        };",
    ),
    (
        "let answer = self.file.write_all(bytes);",
        'let answer = if self.files.is("write_nothing") {\n            Ok(())\n'
        '        } else if self.files.is("write_in_part") {\n            self.file.write(bytes).map(|_| ())\n'
        "        } else {\n            self.file.write_all(bytes)\n        };\n"
        '        let answer = if self.files.is("write_ok") { Ok(()) } else { answer };',
    ),
    (
        "let answer = bring(&mut self.file);",
        'let answer = if self.files.is("no_line") { Ok(()) } else { bring(&mut self.file) };\n'
        '        let answer = if self.files.is("line_ok") { Ok(()) } else { answer };',
    ),
    (
        "    remove_if_there(files, path)?;\n",
        '    if !files.is("beside_kept") {\n        remove_if_there(files, path)?;\n    }\n',
    ),
    (".create_new(true)", '.create(true)\n        .create_new(!files.is("beside_kept"))'),
    ("    new.lock_now()?;\n", '    if !files.is("lock_beside") {\n        new.lock_now()?;\n    }\n'),
    ("    copy_rights(old, &new)?;\n", '    if !files.is("rights") {\n        copy_rights(old, &new)?;\n    }\n'),
    (
        "    new.write_all(text)?;\n",
        '    let written = if files.is("beside_in_part") { new.write(text).map(|_| ()) } else { new.write_all(text) };\n'
        '    if !files.is("beside_ok") {\n        written?;\n    }\n',
    ),
    (
        "            Some(file) => bring_all(file),",
        '            Some(_) if self.files.is("no_text") => Ok(()),\n'
        '            Some(file) => {\n                let answer = if self.files.is("data_alone") { bring(file) } else { bring_all(file) };\n'
        '                if self.files.is("beside_sync_ok") { Ok(()) } else { answer }\n            }',
    ),
    (
        "        self.files.rename(&self.paths.new_file, &self.paths.file)?;\n        self.file = file;\n",
        '        if !self.files.is("no_rename") {\n'
        "            let renamed = self.files.rename(&self.paths.new_file, &self.paths.file);\n"
        '            if self.files.is("rename_takes_beside") && renamed.is_err() {\n'
        "                self.file = file;\n                return renamed;\n            }\n"
        '            if !self.files.is("rename_ok") {\n                renamed?;\n            }\n        }\n'
        '        if self.files.is("opened_anew") {\n            drop(file);\n'
        "            self.file = OpenOptions::new().read(true).append(true).open(self.files, &self.paths.file)?;\n"
        '        } else if !self.files.is("old_file") {\n            self.file = file;\n        }\n',
    ),
    (
        "let answer = sync_folder(self.files, &self.paths.folder);",
        'let answer = if self.files.is("no_name") { Ok(()) } else { sync_folder(self.files, &self.paths.folder) };\n'
        '        let answer = if self.files.is("folder_ok") { Ok(()) } else { answer };',
    ),
]

EDITS = {"src/lib.rt": LIB, "src/opening.rt": OPENING, "src/system.rt": SYSTEM}


def plant(folder):
    """Plants the wrong bodies into a copy of the crate, whose files then say which one is on."""
    faults.edit(folder, EDITS)
    with open(os.path.join(folder, "src", "faulty.rt"), "w", encoding="utf-8") as file:
        file.write(FAULTY)
    for name in ("opening", "system", "store"):
        path = os.path.join(folder, "src", f"{name}.rt")
        with open(path, encoding="utf-8") as file:
            text = file.read().replace("R: Files", "R: Files + Faulty")
        text = text.replace("use std::fs::", "use crate::faulty::Faulty;\nuse std::fs::", 1)
        with open(path, "w", encoding="utf-8") as file:
            file.write(text)


def driver(to):
    """Compiles the driver over the planted copy, and copies it to a path: returns the words that run it, without the wrong body's."""
    with scratch.crate("store_faults", USES) as source:
        scratch.copy_sources(OWN, source)
        with open(WORDS, encoding="utf-8") as file:
            scratch.write(source, "words.rt", file.read())
        root = os.path.dirname(os.path.dirname(os.path.dirname(source)))
        plant(os.path.join(root, "crates", "serf_store"))
        return file_store.compile_source(source, to)


class Cases(stores.Cases):
    """Cases of `FileStore`: it reports no cause of a call that fails after its opening, and leaves its new file next to the
    text until the next opening."""

    def says(self, name, driver, line, wanted):
        is_call = line.startswith(("append", "replace"))
        super().says(name, driver, line, "Failed" if is_call and wanted in ("Full", "ReadOnly") else wanted)

    def leaves_no_new_file(self, path):
        return True


def failed_read(cases):
    """The text is read when it is opened."""
    path = failing.old_file(cases, "read")
    failing.failing_opening(cases, "read", "read,pread64,readv", path, [path])


def failed_sync_of_the_opened_text(cases):
    path = failing.old_file(cases, "opened")
    failing.failing_opening(cases, "opened", "fdatasync", path, [path])


def failed_sync_of_a_line(cases):
    # (the first sync is that of the opening)
    failing.failed_sync(cases, "fdatasync", 2)


def on_another_disk(path):
    """What the system reports about a file by statx, up to its disk, which is changed; in hex."""
    is_told, about = 0x17FF, os.stat(path)
    owners = (about.st_nlink, about.st_uid, about.st_gid, about.st_mode, 0)
    head = struct.pack("<IIQIIIHHQQQQ", is_told, about.st_blksize, 0, *owners, about.st_ino, about.st_size, about.st_blocks, 0)
    times_and_device = bytes(72)
    return (head + times_and_device + struct.pack("<II", os.major(about.st_dev) + 1, os.minor(about.st_dev))).hex()


def file_of_another_disk(cases):
    """The system reports another disk for the opened file each time, so its name means another file with the same number."""
    path = failing.old_file(cases, "disk")
    # (each try inspects the file that has the name, then the file that it opened, and again the one that has the name)
    how = f"poke_exit=@arg5={on_another_disk(path)}:when=2+3"
    with failing.Traced(cases.words, "statx", how, [path]) as driver:
        cases.says("a file of that number on another disk", driver, f"open {path}", "Locked")


OWN_PARTS = (failed_read, failed_sync_of_the_opened_text, failed_sync_of_a_line, file_of_another_disk)
PARTS = failing.PARTS | {part.__name__: part for part in OWN_PARTS}
