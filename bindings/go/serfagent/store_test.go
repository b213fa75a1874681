package serfagent

import (
	"bytes"
	"errors"
	"os"
	"path/filepath"
	"strings"
	"syscall"
	"testing"
)

// openFiles returns how many files below a folder this process has open, including removed files.
func openFiles(t *testing.T, folder string) (count int) {
	t.Helper()
	const handles = "/proc/self/fd"
	entries, err := os.ReadDir(handles)
	if err != nil {
		t.Skip(err)
	}
	for _, entry := range entries {
		// (a handle may have been closed since, such as the one through which the folder was listed)
		if target, err := os.Readlink(filepath.Join(handles, entry.Name())); err == nil && strings.HasPrefix(target, folder+"/") {
			count++
		}
	}
	return count
}

// A store has one file open, even after replacements and after failed attempts to open the same file. After it is closed, it has none.
func TestOpenFilesOfAStore(t *testing.T) {
	folder := t.TempDir()
	path := filepath.Join(folder, "file")
	store, err := OpenStore(path)
	if err != nil {
		t.Fatal(err)
	}
	// (Go's garbage collector closes files that nobody can use any more, so it must not run during this test)
	for i := 0; i < 3; i++ {
		if err := store.Replace([]byte("a\n")); err != nil {
			t.Error(err)
		}
		if _, err := OpenStore(path); !errors.Is(err, ErrLocked) {
			t.Error(err)
		}
	}
	if count := openFiles(t, folder); count != 1 {
		t.Errorf("%d files are open", count)
	}
	if err := store.Close(); err != nil || openFiles(t, folder) != 0 {
		t.Error(err, openFiles(t, folder))
	}
}

// Each error of the system has a matching error of the store.
func TestErrorsOfAStore(t *testing.T) {
	for number, want := range map[syscall.Errno]error{
		syscall.EWOULDBLOCK: ErrLocked, syscall.ENOENT: ErrMissingFolder, syscall.ENOTDIR: ErrMissingFolder, syscall.EISDIR: ErrNotAFile,
		syscall.ELOOP: ErrNotAFile, syscall.ENXIO: ErrNotAFile, syscall.EACCES: ErrReadOnly, syscall.EPERM: ErrReadOnly,
		syscall.EROFS: ErrReadOnly, syscall.ENOSPC: ErrFull, syscall.EDQUOT: ErrFull, syscall.EFBIG: ErrFull, syscall.EIO: ErrFailed,
	} {
		if err := storeError("file", &os.PathError{Op: "write", Path: "file", Err: number}); !errors.Is(err, want) {
			t.Errorf("%d: %v", number, err)
		}
	}
	if err := storeError("file", nil); err != nil {
		t.Error(err)
	}
}

// A text that is longer than any buffer is read whole.
func TestLongText(t *testing.T) {
	path, text := filepath.Join(t.TempDir(), "file"), bytes.Repeat([]byte("clock: 1\n"), 1<<18)
	if err := os.WriteFile(path, text, 0o600); err != nil {
		t.Fatal(err)
	}
	store, err := OpenStore(path)
	if err != nil {
		t.Fatal(err)
	}
	defer store.Close()
	if found, err := store.Read(); err != nil || !bytes.Equal(found, text) {
		t.Errorf("%d of %d bytes: %v", len(found), len(text), err)
	}
	if err := store.Append([]byte("clock: 2\n")); err != nil {
		t.Error(err)
	}
	if found, err := store.Read(); err != nil || len(found) != len(text)+9 {
		t.Errorf("%d bytes: %v", len(found), err)
	}
}
