//go:build linux

package serfagent

import (
	"bytes"
	"errors"
	"fmt"
	"io"
	"os"
	"syscall"
)

// If a write moves the end of a file, its flush has to wait for the file system's journal. So a Store keeps filler
// after its text: one line with only the character `#`, which every reader of snapshots ignores, ours and Serf's. New
// bytes overwrite the beginning of the filler, so the end of the file doesn't move. A power cut may interrupt such a
// write; docs/HOST.md ("Filler") says why that never produces a line that nobody wrote.

// fillerBytes is how many bytes of filler a Store writes after its text when it prepares new filler.
const fillerBytes = 64 << 10

// minFiller is the minimum length of filler in bytes: one `#` and the newline. If only the newline were left, an empty
// line would follow the text.
const minFiller = 2

// ErrChanged: somebody else changed the length of the file while the store had it open.
var ErrChanged = errors.New("the snapshot was changed from outside")

// fillerOf returns filler of a length in bytes.
func fillerOf(length int64) []byte {
	filler := bytes.Repeat([]byte("#"), int(length))
	filler[length-1] = '\n'
	return filler
}

// runStart returns the position at which the run of `#` that ends at end begins, and the byte before that run. If the
// run begins at the start of the file, that byte is a newline.
func runStart(file io.ReaderAt, end int64) (start int64, before byte, err error) {
	buffer := make([]byte, fillerBytes)
	for start = end; start > 0; {
		part := buffer
		if start < int64(len(part)) {
			part = part[:start]
		}
		if _, err := file.ReadAt(part, start-int64(len(part))); err != nil {
			return 0, 0, err
		}
		rest := bytes.TrimRight(part, "#")
		if start -= int64(len(part) - len(rest)); len(rest) > 0 {
			return start, rest[len(rest)-1], nil
		}
	}
	return 0, '\n', nil
}

// textEnd returns the end of the text of a file with this size, and whether the bytes after the text are filler. The
// last line of the file is filler if it has only `#`. If the file ends within a line, a run of `#` at its end is filler
// whose newline was not written yet.
func textEnd(file io.ReaderAt, size int64) (end int64, isFiller bool, err error) {
	if size == 0 {
		return 0, true, nil
	}
	last := make([]byte, 1)
	if _, err := file.ReadAt(last, size-1); err != nil {
		return 0, false, err
	}
	if last[0] != '\n' {
		end, _, err = runStart(file, size)
		return end, end == size, err
	}
	end, before, err := runStart(file, size-1)
	if before != '\n' || end == size-1 {
		end = size
	}
	return end, true, err
}

// findTextEnd finds the end of the text in a file that was just opened. If the bytes after the text are not filler, it
// removes them.
func (s *Store) findTextEnd() error {
	info, err := s.file.Stat()
	if err != nil {
		return err
	}
	s.size = info.Size()
	isFiller := false
	if s.end, isFiller, err = textEnd(s.file, s.size); err != nil || isFiller {
		return err
	}
	s.size = s.end
	return s.file.Truncate(s.end)
}

// checkSize returns ErrChanged if the file isn't as long as the store made it. It finds the length by a seek. After a
// stat, which reads the file's times, ext4 would store a new time with the next write, and the flush would take as long
// as if the file had grown.
func (s *Store) checkSize() error {
	size, err := s.file.Seek(0, io.SeekEnd)
	if err == nil && size != s.size {
		err = fmt.Errorf("%w: it has %d bytes, and had %d before", ErrChanged, size, s.size)
	}
	return err
}

// write writes data after the text, without a flush. It prepares new filler if there isn't enough.
func (s *Store) write(data []byte) error {
	if err := s.checkSize(); err != nil {
		return err
	}
	length := int64(len(data))
	endsLine := bytes.HasSuffix(data, []byte("\n"))
	if endsLine && s.end+length+minFiller <= s.size {
		if _, err := s.file.WriteAt(data, s.end); err != nil {
			return err
		}
		s.end += length
		return nil
	}
	if err := s.cutFiller(); err != nil {
		return err
	}
	if endsLine && !s.isFull {
		return s.writeWithFiller(data)
	}
	return s.writeWithoutFiller(data)
}

// writeWithFiller writes data, and filler after it, at the end of the file. If the disk has no room for the filler, it
// writes only the data.
func (s *Store) writeWithFiller(data []byte) error {
	dataAndFiller := append(data[:len(data):len(data)], s.filler...)
	if _, err := s.file.WriteAt(dataAndFiller, s.end); err == nil {
		s.end += int64(len(data))
		s.size += int64(len(dataAndFiller))
		return nil
	}
	s.isFull = true
	if err := s.writeWithoutFiller(data); err != nil {
		return err
	}
	// (the first try may have written a part of the filler)
	return s.file.Truncate(s.end)
}

// writeWithoutFiller writes data at the end of the file.
func (s *Store) writeWithoutFiller(data []byte) error {
	if _, err := s.file.WriteAt(data, s.end); err != nil {
		return err
	}
	s.end += int64(len(data))
	s.size = s.end
	return nil
}

// cutFiller removes the filler and flushes the new length of the file. Without this, new bytes could overwrite the
// filler's newline, and a power cut could leave the first part of a line with the old newline after it.
func (s *Store) cutFiller() error {
	if s.size == s.end {
		return nil
	}
	if err := s.file.Truncate(s.end); err != nil {
		return err
	}
	s.size = s.end
	return flushData(s.file)
}

// removeFiller removes the file's filler, if nobody else has changed the file's length.
func (s *Store) removeFiller() error {
	if err := s.checkSize(); errors.Is(err, ErrChanged) {
		return nil
	} else if err != nil {
		return err
	}
	end, _, err := textEnd(s.file, s.size)
	if err != nil || end == s.size {
		return err
	}
	return s.file.Truncate(end)
}

// flushData flushes a file's bytes, and its length if that has changed. It doesn't flush the file's timestamps.
func flushData(file *os.File) error { return syscall.Fdatasync(int(file.Fd())) }

// AppendUnflushed appends data without a flush. The next flush of the file flushes the data too.
func (s *Store) AppendUnflushed(data []byte) error {
	return s.attempt(func() error {
		if len(data) == 0 {
			return nil
		}
		return s.write(data)
	})
}

// Check returns ErrChanged if somebody else has changed the file's length or overwritten its filler. Each append also
// checks the length.
func (s *Store) Check() error {
	if s.file == nil {
		return fmt.Errorf("%s: %w", s.path, ErrBroken)
	}
	err := s.checkSize()
	if err == nil && s.end < s.size {
		var end int64
		if end, _, err = textEnd(s.file, s.size); err == nil && end != s.end {
			err = fmt.Errorf("%w: its text has %d bytes, and had %d before", ErrChanged, end, s.end)
		}
	}
	return storeError(s.path, err)
}

// TextSize returns the length of the text. In the file, filler may follow the text.
func (s *Store) TextSize() int64 { return s.end }
