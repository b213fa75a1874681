//! The file of an agent's snapshot (Linux).

use std::ffi::OsString;
use std::fs::{self, File, OpenOptions};
use std::io::{self, Write};
use std::os::raw::c_int;
use std::os::unix::fs::{FileExt, MetadataExt, OpenOptionsExt, PermissionsExt};
use std::os::unix::io::AsRawFd;
use std::path::{Path, PathBuf};

/// The maximum number of attempts to open the file, if it is replaced each time after its opening and before its lock.
const TRIES: usize = 100;

/// The flag to open a file without following a symbolic link (`O_NOFOLLOW` of Linux, whose number on aarch64 differs
/// from that on x86-64).
const O_NOFOLLOW: i32 = if cfg!(target_arch = "aarch64") { 0o100_000 } else { 0o400_000 };

/// The flag to open a file without waiting for the other end of a pipe (`O_NONBLOCK` of Linux).
const O_NONBLOCK: i32 = 0o4_000;

/// The flags to lock a file exclusively, and not to wait for the lock (`LOCK_EX` and `LOCK_NB` of Linux).
const LOCK_EX: c_int = 2;
const LOCK_NB: c_int = 4;

extern "C" {
    fn flock(file: c_int, operation: c_int) -> c_int;
}

/// Why the file can't be opened, read or written. It has the kind of the error, the file's path, and the system's
/// error.
///
/// `{:?}` prints the same sentence as `{}`, and `{:#?}` prints the fields, as for [`Error`](crate::Error).
pub struct StoreError {
    path: PathBuf,
    kind: StoreErrorKind,
    owner: Option<u32>,
    cause: Option<io::Error>,
}

/// The kind of a [`StoreError`].
#[derive(Clone, Copy, Debug, PartialEq, Eq)]
#[non_exhaustive]
pub enum StoreErrorKind {
    /// Another store, in this process or another one, has locked the file. [`StoreError::owner`] returns that process.
    Locked,
    /// The folder that should contain the file doesn't exist.
    MissingFolder,
    /// The path is a folder, a device or anything else that is not a regular file.
    NotAFile,
    /// The file, its folder or its file system is not writable.
    ReadOnly,
    /// The disk, or this user's quota, is full.
    Full,
    /// An earlier call failed.
    Broken,
    /// Any other error of the system.
    Failed,
}

impl StoreError {
    /// The kind of the error.
    pub fn kind(&self) -> StoreErrorKind {
        self.kind
    }

    /// The path of the file.
    pub fn path(&self) -> &Path {
        &self.path
    }

    /// The process that has locked the file, if another store has locked it and `/proc/locks` shows the lock. Otherwise
    /// `None`.
    pub fn owner(&self) -> Option<u32> {
        self.owner
    }

    /// The system's error, if there is one.
    pub fn cause(&self) -> Option<&io::Error> {
        self.cause.as_ref()
    }
}

impl std::fmt::Display for StoreErrorKind {
    fn fmt(&self, to: &mut std::fmt::Formatter<'_>) -> std::fmt::Result {
        to.write_str(match self {
            StoreErrorKind::Locked => "another agent has the file",
            StoreErrorKind::MissingFolder => "the folder of the file doesn't exist",
            StoreErrorKind::NotAFile => "the path is not a regular file",
            StoreErrorKind::ReadOnly => "the file or its folder is not writable",
            StoreErrorKind::Full => "the disk is full",
            StoreErrorKind::Broken => "an earlier call failed, so open the file again",
            StoreErrorKind::Failed => "the system refused a call",
        })
    }
}

impl std::fmt::Display for StoreError {
    /// Writes the path, the kind and the cause. Because the text has the cause, the error has no source.
    fn fmt(&self, to: &mut std::fmt::Formatter<'_>) -> std::fmt::Result {
        write!(to, "{}: {}", self.path.display(), self.kind)?;
        match (self.kind, self.owner, &self.cause) {
            (StoreErrorKind::Locked, Some(pid), _) if pid == std::process::id() => write!(to, ", in this process"),
            (StoreErrorKind::Locked, Some(pid), _) => write!(to, ", in process {pid}"),
            (StoreErrorKind::Locked, None, _) => write!(to, "; /proc/locks doesn't show in which process"),
            (_, _, Some(cause)) => write!(to, ": {cause}"),
            (_, _, None) => Ok(()),
        }
    }
}

impl std::fmt::Debug for StoreError {
    fn fmt(&self, to: &mut std::fmt::Formatter<'_>) -> std::fmt::Result {
        if !to.alternate() {
            return std::fmt::Display::fmt(self, to);
        }
        let mut fields = to.debug_struct("StoreError");
        fields.field("path", &self.path).field("kind", &self.kind).field("owner", &self.owner).field("cause", &self.cause).finish()
    }
}

impl std::error::Error for StoreError {}

/// Why a step of the store failed.
struct Failure {
    kind: StoreErrorKind,
    cause: Option<io::Error>,
}

impl Failure {
    /// Returns the error of the store whose file is at `path`.
    fn at_path(self, path: &Path) -> StoreError {
        let owner = if self.kind == StoreErrorKind::Locked { lock_owner(path, Path::new("/proc/locks")) } else { None };
        StoreError { path: path.to_path_buf(), kind: self.kind, owner, cause: self.cause }
    }
}

impl From<StoreErrorKind> for Failure {
    fn from(kind: StoreErrorKind) -> Self {
        Failure { kind, cause: None }
    }
}

impl From<io::Error> for Failure {
    /// Converts a system's error by its error number. Linux has the same numbers on both processors. `InvalidInput`
    /// without a number means that no file can have this path.
    fn from(error: io::Error) -> Self {
        let kind = match error.raw_os_error() {
            // EWOULDBLOCK
            Some(11) => StoreErrorKind::Locked,
            // ENOENT, ENOTDIR
            Some(2 | 20) => StoreErrorKind::MissingFolder,
            // ENXIO of a socket or a pipe, EISDIR, EINVAL, ELOOP of a link
            Some(6 | 21 | 22 | 40) => StoreErrorKind::NotAFile,
            // EPERM, EACCES, EROFS
            Some(1 | 13 | 30) => StoreErrorKind::ReadOnly,
            // EFBIG, ENOSPC, EDQUOT
            Some(27 | 28 | 122) => StoreErrorKind::Full,
            None if error.kind() == io::ErrorKind::InvalidInput => StoreErrorKind::NotAFile,
            _ => StoreErrorKind::Failed,
        };
        Failure { kind, cause: Some(error) }
    }
}

/// Returns the process that locked a file by `flock`, according to the system's list of locks.
fn lock_owner(path: &Path, locks: &Path) -> Option<u32> {
    let metadata = fs::metadata(path).ok()?;
    let (device, lock_list) = (metadata.dev(), fs::read_to_string(locks).ok()?);
    let major = device >> 8 & 0xfff | device >> 32 & !0xfff;
    let minor = device & 0xff | device >> 12 & !0xff;
    let file_id = format!("{major:02x}:{minor:02x}:{}", metadata.ino());
    let mut lines = lock_list.lines().map(|line| line.split_whitespace().collect::<Vec<_>>());
    let line = lines.find(|words| words.get(1) == Some(&"FLOCK") && words.get(5) == Some(&file_id.as_str()))?;
    line[4].parse().ok()
}

/// Locks a file, unless another store has locked it.
fn lock(file: &File) -> Result<(), Failure> {
    // SAFETY: the descriptor is open as long as the file is.
    match unsafe { flock(file.as_raw_fd(), LOCK_EX | LOCK_NB) } {
        0 => Ok(()),
        _ => Err(io::Error::last_os_error().into()),
    }
}

/// The snapshot's file, which is created if it doesn't exist. It is locked, so only one store at a time has it open.
///
/// The system releases the lock when the process ends, however it ends. The file is close-on-exec. A forked child that runs no
/// other program shares the lock until it ends.
///
/// A replacement writes `FILE.new` next to the file, flushes it and renames it, so a crash leaves the old text or the new one.
/// The next opening removes a `FILE.new` that a crash left. After an error in an append or a replacement the store is broken: it
/// accepts no more bytes until it, and the agent with it, is opened again.
///
/// The store is not proved. It is tested.
#[derive(Debug)]
pub struct Store {
    path: PathBuf,
    file: File,
    is_broken: bool,
}

/// Returns the path of the file that a replacement writes first.
fn new_file_path(path: &Path) -> PathBuf {
    let mut name = OsString::from(path);
    name.push(".new");
    name.into()
}

/// Flushes the folder of a file, so that the file's name is on the disk.
fn sync_folder(path: &Path) -> io::Result<()> {
    let folder = path.parent().unwrap_or(Path::new("/"));
    File::open(folder)?.sync_all()
}

/// Returns the path without symbolic links. The file itself doesn't have to exist.
fn real_path(path: &Path) -> Result<PathBuf, Failure> {
    match fs::canonicalize(path) {
        Err(error) if error.kind() == io::ErrorKind::NotFound => {
            let name = path.file_name().ok_or(StoreErrorKind::NotAFile)?;
            let folder = match path.parent() {
                Some(folder) if !folder.as_os_str().is_empty() => folder,
                _ => Path::new("."),
            };
            Ok(fs::canonicalize(folder)?.join(name))
        }
        resolved => Ok(resolved?),
    }
}

/// Opens and locks the file that has this path now.
fn open_locked(path: &Path) -> Result<File, Failure> {
    for _ in 0..TRIES {
        let mut options = OpenOptions::new();
        options.read(true).append(true).create(true).mode(0o600);
        let file = options.custom_flags(O_NOFOLLOW | O_NONBLOCK).open(path)?;
        let opened = file.metadata()?;
        if !opened.is_file() {
            return Err(StoreErrorKind::NotAFile.into());
        }
        lock(&file)?;
        match fs::symlink_metadata(path) {
            Ok(at_path) if (at_path.dev(), at_path.ino()) == (opened.dev(), opened.ino()) => return Ok(file),
            _ => {}
        }
    }
    Err(StoreErrorKind::Locked.into())
}

impl Store {
    /// Opens or creates the file, and locks it. It follows a symbolic link to its file.
    pub fn open(path: impl AsRef<Path>) -> Result<Store, StoreError> {
        let path = path.as_ref();
        Store::open_at(path).map_err(|failure| failure.at_path(path))
    }

    /// Opens and locks the file, removes what a crash left, and flushes the file and its folder.
    fn open_at(path: &Path) -> Result<Store, Failure> {
        let path = real_path(path)?;
        let file = open_locked(&path)?;
        match fs::remove_file(new_file_path(&path)) {
            Err(error) if error.kind() != io::ErrorKind::NotFound => return Err(error.into()),
            _ => {}
        }
        file.sync_all()?;
        sync_folder(&path)?;
        Ok(Store { path, file, is_broken: false })
    }

    /// Returns the whole file, which is the text on which an agent is opened.
    pub fn read(&self) -> Result<Vec<u8>, StoreError> {
        self.read_text().map_err(|failure| failure.at_path(&self.path))
    }

    /// Reads the file from its start to its end.
    fn read_text(&self) -> Result<Vec<u8>, Failure> {
        let (mut text, mut part) = (Vec::new(), [0; 1 << 16]);
        loop {
            match self.file.read_at(&mut part, text.len() as u64)? {
                0 => return Ok(text),
                count => text.extend_from_slice(&part[..count]),
            }
        }
    }

    /// Appends these bytes and flushes them to the disk. It does nothing if there are none.
    pub fn append(&mut self, bytes: &[u8]) -> Result<(), StoreError> {
        let result = self.break_on_error(|store| {
            if !bytes.is_empty() {
                store.file.write_all(bytes)?;
                store.file.sync_data()?;
            }
            Ok(())
        });
        result.map_err(|failure| failure.at_path(&self.path))
    }

    /// Replaces the file's content with these bytes, durably.
    pub fn replace(&mut self, bytes: &[u8]) -> Result<(), StoreError> {
        let result = self.break_on_error(|store| {
            let new_path = new_file_path(&store.path);
            match store.write_and_rename(&new_path, bytes) {
                Ok(file) => store.file = file,
                Err(error) => {
                    let _ = fs::remove_file(&new_path);
                    return Err(error);
                }
            }
            Ok(sync_folder(&store.path)?)
        });
        result.map_err(|failure| failure.at_path(&self.path))
    }

    /// Writes, locks and flushes the new file of a replacement, and renames it to the old file's name. Returns it open.
    fn write_and_rename(&self, new_path: &Path, bytes: &[u8]) -> Result<File, Failure> {
        let mut options = OpenOptions::new();
        let mut file = options.read(true).append(true).create_new(true).mode(0o600).open(new_path)?;
        lock(&file)?;
        let permissions = self.file.metadata()?.permissions().mode() & 0o777;
        file.set_permissions(fs::Permissions::from_mode(permissions))?;
        file.write_all(bytes)?;
        file.sync_all()?;
        fs::rename(new_path, &self.path)?;
        Ok(file)
    }

    /// Runs an operation. If it fails, the store is broken.
    fn break_on_error(&mut self, operation: impl FnOnce(&mut Store) -> Result<(), Failure>) -> Result<(), Failure> {
        if self.is_broken {
            return Err(StoreErrorKind::Broken.into());
        }
        self.is_broken = true;
        operation(self)?;
        self.is_broken = false;
        Ok(())
    }
}

#[cfg(test)]
mod tests {
    use super::*;

    /// Texts of the system's list of locks, for a file at PLACE: an empty one, one with another kind of lock, one with
    /// a lock that a process still waits for, and one with the file's lock. Each text has the process that `lock_owner`
    /// has to return.
    const LOCKS: [(&str, Option<u32>); 4] = [
        ("", None),
        ("1: POSIX  ADVISORY  WRITE 71 PLACE 0 EOF\n", None),
        ("1: FLOCK  ADVISORY  WRITE 71 00:00:1 0 EOF\n1: -> FLOCK  ADVISORY  WRITE 72 PLACE 0 EOF\n\n", None),
        ("1: FLOCK  ADVISORY  WRITE 71 00:00:1 0 EOF\n2: FLOCK  ADVISORY  WRITE 73 PLACE 0 EOF\n", Some(73)),
    ];

    #[test]
    fn owners_in_a_list_of_locks() {
        let folder = std::env::temp_dir().join(format!("serf-agent-owners-{}", std::process::id()));
        fs::create_dir_all(&folder).unwrap();
        let (path, lock_list) = (folder.join("owned"), folder.join("lock_list"));
        let store = Store::open(&path).unwrap();
        let metadata = store.file.metadata().unwrap();
        // (each number of the device fits into a byte, as on the machines of the tests)
        let file_id = format!("{:02x}:{:02x}:{}", metadata.dev() >> 8, metadata.dev() & 0xff, metadata.ino());
        for (text, owner) in LOCKS {
            fs::write(&lock_list, text.replace("PLACE", &file_id)).unwrap();
            assert_eq!(lock_owner(&path, &lock_list), owner, "{text}");
        }
        assert_eq!(lock_owner(&path, &folder.join("none")), None);
        assert_eq!(lock_owner(&folder.join("none"), &lock_list), None);
        drop(store);
        fs::remove_dir_all(folder).unwrap();
    }
}
