//go:build linux

package serfagent

import (
	"fmt"
	"io"
	"os"
	"syscall"
)

// A host has other files next to the snapshot, for example its keys. WriteFile writes such a file as durably as the
// snapshot. OpenPlain and ReadFile read one safely, even if somebody has put a pipe or a huge file in its place.

// WriteFile replaces a file's content durably: after a crash, the file has either the old bytes or the new ones.
func WriteFile(path string, data []byte, mode os.FileMode) error {
	temporary := path + ".new"
	file, err := os.OpenFile(temporary, os.O_WRONLY|os.O_CREATE|os.O_TRUNC, mode)
	if err != nil {
		return err
	}
	_, err = file.Write(data)
	if err == nil {
		err = file.Sync()
	}
	if closeErr := file.Close(); err == nil {
		err = closeErr
	}
	if err == nil {
		err = os.Rename(temporary, path)
	}
	if err != nil {
		os.Remove(temporary)
		return err
	}
	return syncFolder(path)
}

// OpenPlain opens a regular file for reading. If the path is a pipe, it returns an error and doesn't block.
func OpenPlain(path string) (*os.File, error) {
	file, err := os.OpenFile(path, os.O_RDONLY|syscall.O_NONBLOCK, 0)
	if err != nil {
		return nil, err
	}
	if info, err := file.Stat(); err != nil || !info.Mode().IsRegular() {
		file.Close()
		return nil, fmt.Errorf("%s is not a regular file", path)
	}
	return file, nil
}

// ReadFile reads a regular file. It returns an error if the file has more than max bytes.
func ReadFile(path string, max int64) ([]byte, error) {
	file, err := OpenPlain(path)
	if err != nil {
		return nil, err
	}
	defer file.Close()
	data, err := io.ReadAll(io.LimitReader(file, max+1))
	if err == nil && int64(len(data)) > max {
		err = fmt.Errorf("%s has more than %d bytes", path, max)
	}
	return data, err
}
