//go:build linux

package serfagent

import (
	"errors"
	"fmt"
	"io"
	"os"
	"path/filepath"
	"syscall"
)

// These are the reasons why a snapshot's file can't be opened, read or written. Each error of a Store wraps one of
// them, for use with errors.Is.
var (
	// ErrLocked: another store, in this process or another one, has locked the file.
	ErrLocked = errors.New("another agent has the file")
	// ErrMissingFolder: the folder that should contain the file doesn't exist.
	ErrMissingFolder = errors.New("the folder of the file doesn't exist")
	// ErrNotAFile: the path is a folder, a device or anything else that is not a regular file.
	ErrNotAFile = errors.New("the path is not a regular file")
	// ErrReadOnly: the file, its folder or its file system is not writable.
	ErrReadOnly = errors.New("the file or its folder is not writable")
	// ErrFull: the disk, or this user's quota, is full.
	ErrFull = errors.New("the disk is full")
	// ErrBroken: an earlier call failed, or the store is closed.
	ErrBroken = errors.New("an earlier call failed, or the store is closed")
	// ErrFailed: any other error of the system.
	ErrFailed = errors.New("the system call failed")
)

// maxOpenTries is how often OpenStore tries again if the file was replaced after OpenStore opened it and before it
// locked it.
const maxOpenTries = 100

// Store is the file of an agent's snapshot. The store locks the file, so only one store at a time has it open.
//
// The system releases the lock when the process ends, however it ends. Replace writes FILE.new next to the file,
// flushes it and renames it, so a crash leaves either the old text or the new one. If a crash leaves a FILE.new, the
// next OpenStore removes it. After an error of an append or a replacement, the store is broken. It accepts no more
// bytes: open a new store, and the agent on it, again.
//
// While a store is open, the file has filler after the text: one line of `#`, which new lines overwrite, so that a
// flush takes less time (docs/HOST.md, "Filler"). Close removes the filler. After a kill, the filler stays, and the
// next store uses it. Read returns the text without filler.
//
// The Store is not proved. It is tested.
type Store struct {
	path     string
	file     *os.File
	isBroken bool
	// The first end bytes of the file are the text. The file has size bytes, and the bytes from end to size are filler.
	end, size int64
	// filler has the bytes that the store writes after the text when it prepares filler. isFull is true if the disk had
	// no room for them; the store doesn't try again before the file is replaced.
	filler []byte
	isFull bool
}

// storeError adds the path and the store's reason to an error of the system. It returns nil for nil.
func storeError(path string, err error) error {
	if err == nil {
		return nil
	}
	kind := ErrFailed
	if errors.Is(err, ErrChanged) {
		return fmt.Errorf("%s: %w", path, err)
	}
	var number syscall.Errno
	if errors.As(err, &number) {
		switch number {
		case syscall.EWOULDBLOCK:
			kind = ErrLocked
		case syscall.ENOENT, syscall.ENOTDIR:
			kind = ErrMissingFolder
		case syscall.EISDIR, syscall.ELOOP, syscall.ENXIO:
			kind = ErrNotAFile
		case syscall.EACCES, syscall.EPERM, syscall.EROFS:
			kind = ErrReadOnly
		case syscall.ENOSPC, syscall.EDQUOT, syscall.EFBIG:
			kind = ErrFull
		}
	}
	return fmt.Errorf("%s: %w (%v)", path, kind, err)
}

// realPath returns the path without symbolic links. The file itself doesn't have to exist.
func realPath(path string) (string, error) {
	absolute, err := filepath.Abs(path)
	if err != nil {
		return "", err
	}
	resolved, err := filepath.EvalSymlinks(absolute)
	if !errors.Is(err, os.ErrNotExist) {
		return resolved, err
	}
	folder, err := filepath.EvalSymlinks(filepath.Dir(absolute))
	return filepath.Join(folder, filepath.Base(absolute)), err
}

// syncFolder flushes the folder of a file, so that the file's name survives a power cut.
func syncFolder(path string) error {
	folder, err := os.Open(filepath.Dir(path))
	if err != nil {
		return err
	}
	defer folder.Close()
	return folder.Sync()
}

// lock locks a file, or returns EWOULDBLOCK if another program has locked it.
func lock(file *os.File) error {
	return syscall.Flock(int(file.Fd()), syscall.LOCK_EX|syscall.LOCK_NB)
}

// openOnce opens and locks the file. It returns nil if the path names another file by then.
func openOnce(path string) (*os.File, error) {
	file, err := os.OpenFile(path, os.O_RDWR|os.O_CREATE|syscall.O_NOFOLLOW|syscall.O_NONBLOCK, 0600)
	if err != nil {
		return nil, err
	}
	info, err := file.Stat()
	if err == nil && !info.Mode().IsRegular() {
		err = syscall.EISDIR
	}
	if err == nil {
		err = lock(file)
	}
	if err != nil {
		file.Close()
		return nil, err
	}
	if current, err := os.Lstat(path); err == nil && os.SameFile(info, current) {
		return file, nil
	}
	return nil, file.Close()
}

// openLocked opens and locks the file that the path names. It tries again if the file is replaced in the meantime.
func openLocked(path string) (*os.File, error) {
	for i := 0; i < maxOpenTries; i++ {
		if file, err := openOnce(path); file != nil || err != nil {
			return file, err
		}
	}
	return nil, syscall.EWOULDBLOCK
}

// OpenStore opens or creates the file, and locks it. If the path is a symbolic link, OpenStore opens the file to which
// it points.
func OpenStore(path string) (*Store, error) {
	resolved, err := realPath(path)
	if err != nil {
		return nil, storeError(path, err)
	}
	file, err := openLocked(resolved)
	if err != nil {
		return nil, storeError(path, err)
	}
	store := &Store{path: resolved, file: file, filler: fillerOf(fillerBytes)}
	err = os.Remove(resolved + ".new")
	if err == nil || errors.Is(err, os.ErrNotExist) {
		err = store.findTextEnd()
	}
	if err == nil {
		err = file.Sync()
	}
	if err == nil {
		err = syncFolder(resolved)
	}
	if err != nil {
		file.Close()
		return nil, storeError(path, err)
	}
	return store, nil
}

// Read returns the text on which an agent can be opened: the whole file without its filler.
func (s *Store) Read() ([]byte, error) {
	if s.file == nil {
		return nil, fmt.Errorf("%s: %w", s.path, ErrBroken)
	}
	text := make([]byte, s.end)
	_, err := io.ReadFull(io.NewSectionReader(s.file, 0, s.end), text)
	return text, storeError(s.path, err)
}

// attempt runs an operation. If it fails, the store is broken.
func (s *Store) attempt(operation func() error) error {
	if s.file == nil || s.isBroken {
		return fmt.Errorf("%s: %w", s.path, ErrBroken)
	}
	err := operation()
	s.isBroken = err != nil
	return storeError(s.path, err)
}

// Append appends data and flushes it to the disk. It does nothing if there is no data.
func (s *Store) Append(data []byte) error {
	return s.attempt(func() error {
		if len(data) == 0 {
			return nil
		}
		if err := s.write(data); err != nil {
			return err
		}
		return flushData(s.file)
	})
}

// Replace replaces the file's content durably.
func (s *Store) Replace(data []byte) error {
	return s.attempt(func() error {
		file, err := s.writeReplacement(s.path+".new", data)
		if err != nil {
			return err
		}
		s.file.Close()
		s.file = file
		s.end, s.size, s.isFull = int64(len(data)), int64(len(data)), false
		return syncFolder(s.path)
	})
}

// writeReplacement writes data to a temporary file, flushes it, and renames it to the store's path. It returns the
// locked file.
func (s *Store) writeReplacement(temporary string, data []byte) (*os.File, error) {
	info, err := s.file.Stat()
	if err != nil {
		return nil, err
	}
	file, err := os.OpenFile(temporary, os.O_RDWR|os.O_CREATE|os.O_EXCL, 0600)
	if err != nil {
		return nil, err
	}
	steps := []func() error{
		func() error { return lock(file) },
		func() error { return file.Chmod(info.Mode().Perm()) },
		func() error { _, err := file.Write(data); return err },
		file.Sync,
		func() error { return os.Rename(temporary, s.path) },
	}
	for _, step := range steps {
		if err := step(); err != nil {
			file.Close()
			os.Remove(temporary)
			return nil, err
		}
	}
	return file, nil
}

// Close removes the filler, unless the store is broken, and releases the lock. A closed store can't be used again.
func (s *Store) Close() error {
	if s.file == nil {
		return nil
	}
	var err error
	if !s.isBroken && s.end < s.size {
		err = s.removeFiller()
	}
	if closeErr := s.file.Close(); err == nil {
		err = closeErr
	}
	s.file = nil
	return err
}
