//go:build linux

package serfagent

// #include <stdint.h>
// #include <stddef.h>
// struct serf_agent;
// void recorder_path(const struct serf_agent *handle, const uint8_t *path, size_t len);
import "C"

import (
	"bytes"
	"sync"
)

// tests/library/snapshot_lives.py adds this file to a copy of the package.

// recordPath reports the path of an agent's file to the recorder.
func recordPath(a *Agent, store textStore) {
	if file, ok := store.(*Store); ok {
		C.recorder_path(a.handle, ptr(file.path), size(file.path))
	}
}

// The rest of this file is for the wrong hosts of wrong/hosts.edits.

// firstTexts has, for each path, the text on which an agent was first opened there.
var firstTexts sync.Map

// olderCopy returns the text on which an agent was first opened at this path.
func olderCopy(path string, text []byte) []byte {
	first, _ := firstTexts.LoadOrStore(path, text)
	return first.([]byte)
}

// bytesBeforeEnd returns lines without the last newline.
func bytesBeforeEnd(lines []byte) []byte { return bytes.TrimSuffix(lines, []byte("\n")) }

// withoutLine returns a text without the last line that contains this word.
func withoutLine(text []byte, word string) []byte {
	lines := bytes.SplitAfter(text, []byte("\n"))
	for i := len(lines) - 1; i >= 0; i-- {
		if bytes.Contains(lines[i], []byte(word)) {
			return bytes.Join(append(append([][]byte{}, lines[:i]...), lines[i+1:]...), nil)
		}
	}
	return text
}
