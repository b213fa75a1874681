"""The edits that plant the wrong bodies (planted.py) into a copy of each binding's store: a text that is in the source exactly
once, and its replacement."""

C = {
    "serf_agent_store.c": [
        (
            "#define _GNU_SOURCE\n",
            """#define _GNU_SOURCE
#include <stdbool.h>
#include <stdlib.h>
#include <string.h>
static bool is(const char *fault) {
    const char *planted = getenv("STORE_FAULT");
    return planted != NULL && strcmp(planted, fault) == 0;
}
""",
        ),
        (
            "static enum serf_agent_store_error store_error_of(int error) {\n",
            "static enum serf_agent_store_error store_error_of(int error) {\n"
            '    if (error == EDQUOT && is("quota")) {\n        return SERF_AGENT_STORE_FAILED;\n    }\n',
        ),
        ("    if (store->file >= 0) {\n", '    if (store->file >= 0 && !is("opening_leaks")) {\n'),
        ("    if (store->folder >= 0) {\n        close(", '    if (store->folder >= 0 && !is("folder_open")) {\n        close('),
        ("O_CREAT | O_CLOEXEC | O_NOFOLLOW", 'O_CREAT | (is("child_has_lock") ? 0 : O_CLOEXEC) | O_NOFOLLOW'),
        (
            "    close(store->file);\n    store->file = file;\n",
            '    if (!is("old_file_open")) {\n        close(store->file);\n    }\n    store->file = file;\n',
        ),
        ("realpath(path, NULL)", 'is("link") || is("link_replaced") ? strdup(path) : realpath(path, NULL)'),
        ("&at_path, AT_SYMLINK_NOFOLLOW)", '&at_path, is("link_replaced") ? 0 : AT_SYMLINK_NOFOLLOW)'),
        (
            "opened.st_dev == at_path.st_dev && opened.st_ino == at_path.st_ino",
            '(is("stale") || (opened.st_dev == at_path.st_dev && (is("stale_device") || opened.st_ino == at_path.st_ino)))',
        ),
        (
            "if (!S_ISREG(info.st_mode)) {",
            'if (!S_ISREG(info.st_mode) && !(is("device") && S_ISCHR(info.st_mode)) &&' ' !(is("pipe") && S_ISFIFO(info.st_mode))) {',
        ),
        (
            "/* Closes the store's descriptors and frees its memory. */",
            "static bool remove_beside(const struct serf_agent_store *store) {\n    char new_name[NAME_MAX + 1];\n"
            "    return set_new_name(store, new_name) && (unlinkat(store->folder, new_name, 0) == 0 || errno == ENOENT);\n}\n\n"
            "/* Closes the store's descriptors and frees its memory. */",
        ),
        (
            "open_folder(store, path) && open_file(store)",
            'open_folder(store, path) && (!is("left_early") || remove_beside(store)) && open_file(store)',
        ),
        ("| O_EXCL |", '| (is("beside_kept") ? 0 : O_EXCL) |'),
        (
            "        int error = errno;\n        close(file);\n        unlinkat(",
            "        int error = errno;\n"
            '        if (is("rename_takes_beside")) {\n            close(store->file);\n            store->file = file;\n'
            "        } else {\n            close(file);\n        }\n        unlinkat(",
        ),
        ("| O_NOFOLLOW |", '| (is("link_replaced") ? 0 : O_NOFOLLOW) |'),
        ("store->name, flags, 0600)", 'store->name, flags, is("made_for_all") ? 0644 : 0600)'),
        ("flock(store->file, LOCK_EX | LOCK_NB) != 0", '(!is("lock") && flock(store->file, LOCK_EX | LOCK_NB) != 0)'),
        (
            "if (unlinkat(store->folder, new_name, 0) != 0 && errno != ENOENT) {",
            'if (!is("left") && unlinkat(store->folder, new_name, 0) != 0 && errno != ENOENT && !is("left_ok")) {',
        ),
        (
            "return fsync(store->file) == 0 && fsync(store->folder) == 0;",
            'return (fsync(store->file) == 0 || is("opened_text_ok")) &&' ' (fsync(store->folder) == 0 || is("opened_name_ok"));',
        ),
        (
            "size = (size_t)info.st_size,",
            'size = is("read_nothing") ? 0 : is("long_read_cut") && info.st_size > 65536 ? 65536 : (size_t)info.st_size,',
        ),
        (
            "if (count <= 0) {\n            free(bytes);",
            'if (count <= 0) {\n            if (is("read_ok")) {\n                size = read_len;\n'
            "                break;\n            }\n            free(bytes);",
        ),
        (
            "!write_all(store->file, bytes, len) || fdatasync(store->file) != 0",
            '(!(is("write_in_part") ? write(store->file, bytes, len) > 0 : write_all(store->file, bytes, len))'
            ' && !is("write_ok")) || (fdatasync(store->file) != 0 && !is("line_ok"))',
        ),
        (
            "if (flock(file, LOCK_EX | LOCK_NB) == 0 && fchmod(file, info.st_mode & 0777) == 0"
            " && write_all(file, bytes, len) &&\n        fsync(file) == 0) {",
            'if ((is("lock_beside") || flock(file, LOCK_EX | LOCK_NB) == 0) &&'
            ' fchmod(file, is("rights") ? 0600 : info.st_mode & 0777) == 0 &&'
            ' ((is("beside_in_part") ? write(file, bytes, len) > 0 : write_all(file, bytes, len)) || is("beside_ok")) &&'
            ' (fsync(file) == 0 || is("beside_sync_ok"))) {',
        ),
        (
            "if (renameat(store->folder, new_name, store->folder, store->name) != 0) {",
            'if (!is("no_rename") && renameat(store->folder, new_name, store->folder, store->name) != 0 && !is("rename_ok")) {',
        ),
        ("if (fsync(store->folder) != 0) {", 'if (fsync(store->folder) != 0 && !is("folder_ok")) {'),
        ("store->is_broken = true;", 'store->is_broken = !is("goes_on");'),
        (
            "        return SERF_AGENT_STORE_BROKEN;\n    }\n    if (len == 0) {",
            '        store->is_broken = store->is_broken && !is("refused_once");\n'
            '        if (store->is_open && is("writes_broken")) {\n            write_all(store->file, bytes, len);\n        }\n'
            "        return SERF_AGENT_STORE_BROKEN;\n    }\n    if (len == 0) {",
        ),
    ]
}

PYTHON = {
    "serf_agent/store.py": [
        (
            "\nclass Store:\n",
            '''
FAULT = os.environ.get("STORE_FAULT")


def but(fault, done, *words, **more):
    try:
        return done(*words, **more)
    except OSError:
        if FAULT != fault:
            raise


def put(file, data, in_part, failed):
    if FAULT == in_part:
        os.write(file, data)
    else:
        but(failed, write_all, file, data)


class Store:
''',
        ),
        ("    if os.path.exists(path):", '    if FAULT in ("link", "link_replaced"):\n        return path\n    if os.path.exists(path):'),
        (
            "                self._open_file()\n",
            '                if FAULT == "left_early" and os.path.exists(self.path + ".new"):\n'
            '                    os.unlink(self.path + ".new")\n                self._open_file()\n',
        ),
        ("os.O_CREAT | os.O_EXCL", 'os.O_CREAT | (0 if FAULT == "beside_kept" else os.O_EXCL)'),
        (
            "                os.close(file)\n                os.unlink(new_name",
            '                if FAULT == "rename_takes_beside":\n                    os.dup2(file, self._file)\n'
            "                os.close(file)\n                os.unlink(new_name",
        ),
        ("os.O_NOFOLLOW |", '(0 if FAULT == "link_replaced" else os.O_NOFOLLOW) |'),
        ("flags, 0o600, dir_fd", 'flags, 0o644 if FAULT == "made_for_all" else 0o600, dir_fd'),
        (
            "if not stat.S_ISREG(opened.st_mode):",
            'if not stat.S_ISREG(opened.st_mode) and not (FAULT == "device" and stat.S_ISCHR(opened.st_mode))'
            ' and not (FAULT == "pipe" and stat.S_ISFIFO(opened.st_mode)):',
        ),
        ("fcntl.flock(self._file,", 'FAULT == "lock" or fcntl.flock(self._file,'),
        (
            "if os.path.samestat(opened, os.stat(self._name, dir_fd=self._folder, follow_symlinks=False)):",
            'now = os.stat(self._name, dir_fd=self._folder, follow_symlinks=FAULT == "link_replaced")\n'
            '                if FAULT == "stale" or (FAULT == "stale_device" and opened.st_dev == now.st_dev)'
            " or os.path.samestat(opened, now):",
        ),
        (
            'os.unlink(self._name + ".new", dir_fd=self._folder)\n        os.fsync(self._file)\n        os.fsync(self._folder)',
            'FAULT == "left" or but("left_ok", os.unlink, self._name + ".new", dir_fd=self._folder)\n'
            '        but("opened_text_ok", os.fsync, self._file)\n        but("opened_name_ok", os.fsync, self._folder)',
        ),
        (
            "while part := os.pread(self._file, 1 << 20, offset):",
            'while part := FAULT != "read_nothing" and but("read_ok", os.pread, self._file, 1 << 20, offset):',
        ),
        (
            "        if self._file == CLOSED or self._is_broken:\n",
            "        if self._file == CLOSED or self._is_broken:\n"
            '            self._is_broken = self._is_broken and FAULT != "refused_once"\n'
            '            if self._file != CLOSED and FAULT == "writes_broken":\n                yield\n',
        ),
        (
            "                offset += len(part)\n",
            '                offset += len(part)\n                if FAULT == "long_read_cut":\n                    break\n',
        ),
        (
            "raise ERRORS_BY_NUMBER.get(error.errno or 0, StoreError)(",
            'is_quota = FAULT == "quota" and error.errno == errno.EDQUOT\n'
            "        raise (StoreError if is_quota else ERRORS_BY_NUMBER.get(error.errno or 0, StoreError))(",
        ),
        (
            "            except BaseException:\n                self.close()\n",
            '            except BaseException:\n                FAULT == "opening_leaks" or self.close()\n',
        ),
        (
            "                raise\n            os.close(self._file)\n",
            '                raise\n            FAULT == "old_file_open" or os.close(self._file)\n',
        ),
        ("self._is_broken = True\n", 'self._is_broken = FAULT != "goes_on"\n'),
        (
            "write_all(self._file, data)\n                os.fdatasync(self._file)",
            'put(self._file, data, "write_in_part", "write_ok")\n                but("line_ok", os.fdatasync, self._file)',
        ),
        ("fcntl.flock(file,", 'FAULT == "lock_beside" or fcntl.flock(file,'),
        ("os.fchmod(file, stat.S_IMODE", 'os.fchmod(file, 0o600 if FAULT == "rights" else stat.S_IMODE'),
        (
            "write_all(file, data)\n                os.fsync(file)\n",
            'put(file, data, "beside_in_part", "beside_ok")\n                but("beside_sync_ok", os.fsync, file)\n',
        ),
        ("os.rename(", 'FAULT == "no_rename" or but("rename_ok", os.rename, '),
        (
            "self._file = file\n            os.fsync(self._folder)",
            'self._file = file\n            but("folder_ok", os.fsync, self._folder)',
        ),
    ]
}

GO = {
    "store_driver/main.go": [
        # strace counts the calls of each thread
        ("\nfunc main() {\n", "\nfunc init() { runtime.LockOSThread() }\n\nfunc main() {\n"),
        ('\t"os/signal"\n', '\t"os/signal"\n\t"runtime"\n'),
    ],
    "serfagent/store.go": [
        (
            "\nfunc syncFolder(",
            """
func is(fault string) bool { return os.Getenv("STORE_FAULT") == fault }

// (Go closes a file that nobody can use any more)
var leaked []*os.File

func unless(fault string, done func() error) error {
	if is(fault) {
		return nil
	}
	return done()
}

func but(fault string, err error) error {
	if is(fault) {
		return nil
	}
	return err
}

func put(file *os.File, data []byte, at int64, inPart, failed string) error {
	if is(inPart) {
		_, err := syscall.Pwrite(int(file.Fd()), data, at)
		return err
	}
	_, err := file.WriteAt(data, at)
	return but(failed, err)
}

func isCurrent(own, now os.FileInfo) bool {
	isOfDisk := own.Sys().(*syscall.Stat_t).Dev == now.Sys().(*syscall.Stat_t).Dev
	return is("stale") || is("stale_device") && isOfDisk || os.SameFile(own, now)
}

func isOther(kind os.FileMode) bool {
	return is("device") && kind&os.ModeCharDevice != 0 || is("pipe") && kind&os.ModeNamedPipe != 0
}

func syncFolder(""",
        ),
        (
            "filepath.Abs(path)\n\tif err != nil {\n\t\treturn \"\", err",
            'filepath.Abs(path)\n\tif err != nil || is("link") || is("link_replaced") {\n\t\treturn absolute, err',
        ),
        (
            "\tfile, err := os.OpenFile(path, os.O_RDWR|os.O_CREATE|syscall.O_NOFOLLOW|syscall.O_NONBLOCK, 0600)",
            "\tfollow, rights, look := syscall.O_NOFOLLOW, os.FileMode(0600), os.Lstat\n"
            '\tif is("link_replaced") {\n\t\tfollow, look = 0, os.Stat\n\t}\n'
            '\tif is("made_for_all") {\n\t\trights = 0644\n\t}\n'
            "\tfile, err := os.OpenFile(path, os.O_RDWR|os.O_CREATE|follow|syscall.O_NONBLOCK, rights)",
        ),
        (
            "\tfile, err := openLocked(resolved)",
            '\tif is("left_early") {\n\t\tos.Remove(resolved + ".new")\n\t}\n\tfile, err := openLocked(resolved)',
        ),
        (
            "\tfile, err := os.OpenFile(temporary, os.O_RDWR|os.O_CREATE|os.O_EXCL, 0600)",
            '\talone := os.O_EXCL\n\tif is("beside_kept") {\n\t\talone = 0\n\t}\n'
            "\tfile, err := os.OpenFile(temporary, os.O_RDWR|os.O_CREATE|alone, 0600)",
        ),
        (
            "\t\tif err := step(); err != nil {\n\t\t\tfile.Close()\n",
            '\t\tif err := step(); err != nil {\n\t\t\tif is("rename_takes_beside") {\n\t\t\t\tfile, s.file = s.file, file\n'
            "\t\t\t}\n\t\t\tfile.Close()\n",
        ),
        (
            "\t\tswitch number {\n",
            '\t\tif is("quota") && number == syscall.EDQUOT {\n\t\t\tnumber = syscall.EIO\n\t\t}\n\t\tswitch number {\n',
        ),
        (
            "\tif err != nil {\n\t\tfile.Close()\n\t\treturn nil, err\n\t}\n",
            '\tif err != nil {\n\t\tif is("opening_leaks") {\n\t\t\tleaked = append(leaked, file)\n\t\t\treturn nil, err\n\t\t}\n'
            "\t\tfile.Close()\n\t\treturn nil, err\n\t}\n",
        ),
        (
            "\t\ts.file.Close()\n\t\ts.file = file\n",
            '\t\tif is("old_file_open") {\n\t\t\tleaked = append(leaked, s.file)\n\t\t} else {\n\t\t\ts.file.Close()\n\t\t}\n'
            "\t\ts.file = file\n",
        ),
        ("!info.Mode().IsRegular() {", "!info.Mode().IsRegular() && !isOther(info.Mode()) {"),
        ("\t\terr = lock(file)\n", '\t\terr = unless("lock", func() error { return lock(file) })\n'),
        (
            "current, err := os.Lstat(path); err == nil && os.SameFile(info, current) {",
            "current, err := look(path); err == nil && isCurrent(info, current) {",
        ),
        ('err = os.Remove(resolved + ".new")', 'err = unless("left", func() error { return os.Remove(resolved + ".new") })'),
        (
            "if err == nil || errors.Is(err, os.ErrNotExist) {\n\t\terr = store.findTextEnd()",
            'if err == nil || errors.Is(err, os.ErrNotExist) || is("left_ok") {\n\t\terr = but("end_ok", store.findTextEnd())',
        ),
        ("\t\terr = file.Sync()\n", '\t\terr = but("opened_text_ok", file.Sync())\n'),
        ("err = syncFolder(resolved)", 'err = but("opened_name_ok", syncFolder(resolved))'),
        (
            "text := make([]byte, s.end)\n",
            'text := make([]byte, s.end)\n\tif is("read_nothing") {\n\t\ttext = nil\n\t}\n'
            '\tif is("long_read_cut") && len(text) > 65536 {\n\t\ttext = text[:65536]\n\t}\n',
        ),
        ("return text, storeError(s.path, err)", 'return text, storeError(s.path, but("read_ok", err))'),
        (
            "\tif s.file == nil || s.isBroken {\n",
            '\tif s.file == nil || s.isBroken {\n\t\ts.isBroken = s.isBroken && !is("refused_once")\n'
            '\t\tif s.file != nil && is("writes_broken") {\n\t\t\toperation()\n\t\t}\n',
        ),
        ("s.isBroken = err != nil", 's.isBroken = err != nil && !is("goes_on")'),
        ("\t\treturn flushData(s.file)\n", '\t\treturn but("line_ok", flushData(s.file))\n'),
        ("return syncFolder(s.path)", 'return but("folder_ok", syncFolder(s.path))'),
        (
            "\tsteps := []func() error{\n\t\tfunc() error { return lock(file) },\n"
            "\t\tfunc() error { return file.Chmod(info.Mode().Perm()) },\n"
            "\t\tfunc() error { _, err := file.Write(data); return err },\n\t\tfile.Sync,\n",
            '\trights := info.Mode().Perm()\n\tif is("rights") {\n\t\trights = 0600\n\t}\n'
            '\tsteps := []func() error{\n\t\tfunc() error { return unless("lock_beside", func() error { return lock(file) }) },\n'
            "\t\tfunc() error { return file.Chmod(rights) },\n"
            '\t\tfunc() error { return put(file, data, 0, "beside_in_part", "beside_ok") },\n'
            '\t\tfunc() error { return but("beside_sync_ok", file.Sync()) },\n',
        ),
        (
            "return os.Rename(temporary, s.path)",
            'return but("rename_ok", unless("no_rename", func() error { return os.Rename(temporary, s.path) }))',
        ),
        ("if !s.isBroken && s.end < s.size {", 'if !s.isBroken && s.end < s.size && !is("filler_kept") {'),
    ],
    "serfagent/filler.go": [
        (
            "func (s *Store) writeWithoutFiller(data []byte) error {\n\tif _, err := s.file.WriteAt(data, s.end); err != nil {",
            "func (s *Store) writeWithoutFiller(data []byte) error {\n"
            '\tif err := put(s.file, data, s.end, "write_in_part", "write_ok"); err != nil {',
        ),
        ("\ts.isFull = true\n", '\tif is("filler_needed") {\n\t\treturn syscall.ENOSPC\n\t}\n\ts.isFull = true\n'),
        ("\t// (the first try may have written a part of the filler)\n", '\tif is("filler_left") {\n\t\treturn nil\n\t}\n'),
        (
            "\t\tif _, err := s.file.WriteAt(data, s.end); err != nil {\n\t\t\treturn err\n\t\t}\n\t\ts.end += length\n",
            '\t\tif is("filler_behind") {\n\t\t\ts.end = s.size\n\t\t\treturn s.writeWithoutFiller(data)\n\t\t}\n'
            "\t\tif _, err := s.file.WriteAt(data, s.end); err != nil {\n\t\t\treturn err\n\t\t}\n\t\ts.end += length\n",
        ),
        ("\tif endsLine && !s.isFull {", '\tif endsLine && !s.isFull && !is("no_filler") {'),
        (
            "\tif err := s.file.Truncate(s.end); err != nil {\n\t\treturn err\n\t}\n\ts.size = s.end\n\treturn flushData(s.file)\n",
            '\tif err := but("cut_ok", s.file.Truncate(s.end)); err != nil {\n\t\treturn err\n\t}\n\ts.size = s.end\n'
            '\treturn but("cut_sync_ok", flushData(s.file))\n',
        ),
        ("\tisFiller := false\n", '\tif is("filler_read") {\n\t\ts.end = s.size\n\t\treturn nil\n\t}\n\tisFiller := false\n'),
        ("err != nil || isFiller {", 'err != nil || isFiller || is("torn_filler") {'),
        ("size != s.size {", 'size != s.size && !is("any_length") {'),
        (
            "\tif err := s.checkSize(); errors.Is(err, ErrChanged) {\n\t\treturn nil\n",
            '\tif err := s.checkSize(); is("cut_anyway") {\n\t\treturn s.file.Truncate(1)\n'
            "\t} else if errors.Is(err, ErrChanged) {\n\t\treturn nil\n",
        ),
    ],
}

RUST = {
    "src/store.rs": [
        ("\nfn sync_folder(", """
fn is(fault: &str) -> bool {
    std::env::var("STORE_FAULT").as_deref() == Ok(fault)
}

fn but<T: Default>(fault: &str, done: io::Result<T>) -> io::Result<T> {
    if is(fault) { Ok(done.unwrap_or_default()) } else { done }
}

fn put(file: &mut File, bytes: &[u8], in_part: &str, failed: &str) -> io::Result<()> {
    if is(in_part) { file.write(bytes).map(|_| ()) } else { but(failed, file.write_all(bytes)) }
}

fn is_other(kind: fs::FileType) -> bool {
    use std::os::unix::fs::FileTypeExt;
    is("device") && kind.is_char_device() || is("pipe") && kind.is_fifo()
}

fn sync_folder("""),
        (
            "    match fs::canonicalize(path) {",
            '    if is("link") || is("link_replaced") {\n        return Ok(path.to_path_buf());\n    }\n'
            "    match fs::canonicalize(path) {",
        ),
        ("create(true).mode(0o600)", 'create(true).mode(if is("made_for_all") { 0o644 } else { 0o600 })'),
        ("custom_flags(O_NOFOLLOW | O_NONBLOCK)", 'custom_flags(if is("link_replaced") { O_NONBLOCK } else { O_NOFOLLOW | O_NONBLOCK })'),
        (
            "let file = open_locked(&path)?;",
            'if is("left_early") {\n            let _ = fs::remove_file(new_file_path(&path));\n        }\n'
            "        let file = open_locked(&path)?;",
        ),
        ("create_new(true)", 'create(true).create_new(!is("beside_kept"))'),
        (
            "let _ = fs::remove_file(&new_path);\n                    return Err(error);",
            'if let (true, Ok(file)) = (is("rename_takes_beside"), File::open(&new_path)) {\n'
            "                        store.file = file;\n                    }\n"
            "                    let _ = fs::remove_file(&new_path);\n                    return Err(error);",
        ),
        ("if !opened.is_file() {", "if !opened.is_file() && !is_other(opened.file_type()) {"),
        (
            "lock(&file)?;\n        match fs::symlink_metadata(path) {",
            'if !is("lock") {\n            if let Err(error) = lock(&file) {\n                if is("opening_leaks") {\n'
            "                    std::mem::forget(file);\n                }\n                return Err(error.into());\n            }\n        }\n"
            '        match if is("link_replaced") { fs::metadata(path) } else { fs::symlink_metadata(path) } {',
        ),
        (
            "if (at_path.dev(), at_path.ino()) == (opened.dev(), opened.ino()) =>",
            'if is("stale") || (at_path.dev() == opened.dev() && (is("stale_device") || at_path.ino() == opened.ino())) =>',
        ),
        (
            "match fs::remove_file(new_file_path(&path)) {\n            Err(error) if error.kind() != io::ErrorKind::NotFound =>",
            'match if is("left") { Ok(()) } else { fs::remove_file(new_file_path(&path)) } {\n'
            '            Err(error) if error.kind() != io::ErrorKind::NotFound && !is("left_ok") =>',
        ),
        (
            # (a device has no sync, and the system returns the same error for it as for a path that names no file)
            "file.sync_all()?;\n        sync_folder(&path)?;",
            'if !is("device") && !is("pipe") {\n            but("opened_text_ok", file.sync_all())?;\n        }\n'
            '        but("opened_name_ok", sync_folder(&path))?;',
        ),
        (
            "        loop {\n            match self.file.read_at(&mut part, text.len() as u64)? {",
            '        if is("read_nothing") {\n            return Ok(text);\n        }\n'
            '        loop {\n            match but("read_ok", self.file.read_at(&mut part, text.len() as u64))? {',
        ),
        (
            "store.file.write_all(bytes)?;\n                store.file.sync_data()?;",
            'put(&mut store.file, bytes, "write_in_part", "write_ok")?;\n'
            '                but("line_ok", store.file.sync_data())?;',
        ),
        (
            "count => text.extend_from_slice(&part[..count]),",
            "count => {\n                    text.extend_from_slice(&part[..count]);\n"
            '                    if is("long_read_cut") {\n                        return Ok(text);\n                    }\n                }',
        ),
        (
            "Some(27 | 28 | 122) => StoreErrorKind::Full,",
            'Some(122) if is("quota") => StoreErrorKind::Failed,\n            Some(27 | 28 | 122) => StoreErrorKind::Full,',
        ),
        (
            "Ok(file) => store.file = file,",
            'Ok(file) if is("old_file_open") => std::mem::forget(std::mem::replace(&mut store.file, file)),\n'
            "                Ok(file) => store.file = file,",
        ),
        ("Ok(sync_folder(&store.path)?)", 'Ok(but("folder_ok", sync_folder(&store.path))?)'),
        (
            "lock(&file)?;\n        let permissions = self.file.metadata()?.permissions().mode() & 0o777;",
            'if !is("lock_beside") {\n            lock(&file)?;\n        }\n'
            '        let permissions = if is("rights") { 0o600 } else { self.file.metadata()?.permissions().mode() & 0o777 };',
        ),
        (
            "file.write_all(bytes)?;\n        file.sync_all()?;\n        fs::rename(new_path, &self.path)?;",
            'put(&mut file, bytes, "beside_in_part", "beside_ok")?;\n'
            '        but("beside_sync_ok", file.sync_all())?;\n'
            '        if !is("no_rename") {\n            but("rename_ok", fs::rename(new_path, &self.path))?;\n        }',
        ),
        (
            "        if self.is_broken {\n            return",
            '        if self.is_broken {\n            self.is_broken = !is("refused_once");\n'
            '            if is("writes_broken") {\n                let _ = operation(self);\n            }\n            return',
        ),
        (
            "self.is_broken = true;\n        operation(self)?;\n        self.is_broken = false;",
            'let answer = operation(self);\n        self.is_broken = answer.is_err() && !is("goes_on");\n        answer?;',
        ),
    ]
}
