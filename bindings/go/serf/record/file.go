package record

import (
	"errors"
	"fmt"
	"io"
	"os"
	"strconv"
	"syscall"
)

// KeptFiles is how many older files of a record are kept.
const KeptFiles = 8

// File is a record in a file. When the file is full, it becomes PATH.1, PATH.1 becomes PATH.2 and so on, and the oldest
// one is removed.
type File struct {
	path   string
	limit  int64
	file   *os.File
	length int64
}

// openFile opens or creates a file to append to, and locks it. It is an error if another agent has locked the file, or
// if it is not a record.
func openFile(path string) (*os.File, error) {
	file, err := os.OpenFile(path, os.O_RDWR|os.O_APPEND|os.O_CREATE|syscall.O_NONBLOCK, 0o600)
	if err != nil {
		return nil, err
	}
	if err := lockRecord(file); err != nil {
		file.Close()
		return nil, err
	}
	return file, nil
}

// lockRecord locks a file, and checks that it is a record.
func lockRecord(file *os.File) error {
	info, err := file.Stat()
	if err != nil {
		return err
	}
	if !info.Mode().IsRegular() {
		return fmt.Errorf("%s is not a regular file", file.Name())
	}
	if err := syscall.Flock(int(file.Fd()), syscall.LOCK_EX|syscall.LOCK_NB); errors.Is(err, syscall.EWOULDBLOCK) {
		return fmt.Errorf("another program has locked %s", file.Name())
	} else if err != nil {
		return err
	}
	head := make([]byte, len(title))
	if count, err := file.ReadAt(head, 0); err != nil && err != io.EOF {
		return err
	} else if string(head[:count]) != title[:count] {
		return fmt.Errorf("%s is not a record", file.Name())
	}
	return nil
}

// Open opens a record. Its file is rotated when it has reached limit bytes, so the last call in a file may exceed the
// limit.
func Open(path string, limit int64) (*File, error) {
	file, err := openFile(path)
	if err != nil {
		return nil, err
	}
	info, err := file.Stat()
	if err != nil {
		file.Close()
		return nil, err
	}
	return &File{path: path, limit: limit, file: file, length: info.Size()}, nil
}

// IsEmpty reports whether the file has no bytes.
func (f *File) IsEmpty() bool { return f.length == 0 }

// IsFull reports whether the file has reached its limit.
func (f *File) IsFull() bool { return f.length >= f.limit }

// Write appends to the file. It doesn't flush: if the program is killed, no bytes are lost, but a power failure may
// lose some.
func (f *File) Write(text []byte) (int, error) {
	count, err := f.file.Write(text)
	f.length += int64(count)
	return count, err
}

// Rotate starts a new file. If it fails, the old one is still used.
func (f *File) Rotate() error {
	numberedPath := func(number int) string { return f.path + "." + strconv.Itoa(number) }
	for number := KeptFiles; number > 1; number-- {
		if err := os.Rename(numberedPath(number-1), numberedPath(number)); err != nil && !errors.Is(err, os.ErrNotExist) {
			return err
		}
	}
	if err := os.Rename(f.path, numberedPath(1)); err != nil {
		return err
	}
	file, err := openFile(f.path)
	if err != nil {
		return err
	}
	f.file.Close()
	f.file, f.length = file, 0
	return nil
}

// Close closes the file.
func (f *File) Close() error { return f.file.Close() }
