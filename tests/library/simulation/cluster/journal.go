package main

import (
	"bufio"
	"fmt"
	"hash"
	"hash/fnv"
	"io"
	"sync"
	"time"
)

// journal is the log of a run. Each line has its virtual time. If there is no file, the journal keeps only the hash of
// all lines.
type journal struct {
	mu    sync.Mutex
	began time.Time
	hash  hash.Hash64
	file  *bufio.Writer
}

func newJournal(file io.Writer) *journal {
	j := &journal{began: time.Now(), hash: fnv.New64a()}
	if file != nil {
		j.file = bufio.NewWriterSize(file, 1<<20)
	}
	return j
}

// elapsed returns the virtual time since the run began.
func (j *journal) elapsed() time.Duration { return time.Since(j.began) }

// add appends a line.
func (j *journal) add(format string, values ...interface{}) {
	j.mu.Lock()
	defer j.mu.Unlock()
	fmt.Fprintf(j.hash, "%d ", j.elapsed())
	fmt.Fprintf(j.hash, format+"\n", values...)
	if j.file != nil {
		fmt.Fprintf(j.file, "%14.6f ", j.elapsed().Seconds())
		fmt.Fprintf(j.file, format+"\n", values...)
	}
}

// writerFor returns a writer for the log of a node. If there is no file, the writer drops everything.
func (j *journal) writerFor(name string) io.Writer {
	if j.file == nil {
		return io.Discard
	}
	return nodeLog{j, name}
}

// nodeLog writes each line of a node's log to the journal.
type nodeLog struct {
	journal *journal
	name    string
}

func (l nodeLog) Write(line []byte) (int, error) {
	l.journal.mu.Lock()
	defer l.journal.mu.Unlock()
	fmt.Fprintf(l.journal.file, "%14.6f %s: %s", l.journal.elapsed().Seconds(), l.name, line)
	return len(line), nil
}

// sum returns the hash of all lines, and writes the buffered lines to the file.
func (j *journal) sum() uint64 {
	j.mu.Lock()
	defer j.mu.Unlock()
	if j.file != nil {
		j.file.Flush()
	}
	return j.hash.Sum64()
}
