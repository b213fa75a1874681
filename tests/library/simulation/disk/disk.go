// Package disk simulates disks in memory. A disk keeps everything that was flushed. If a write was not flushed, a power
// cut may keep all of it, a prefix, single sectors, or nothing. The packages os, syscall and filepath next to this one
// have the functions of Go's own packages of these names that the stores call.
package disk

import (
	"io/fs"
	"math/rand"
	"path"
	"strings"
	"sync"
	"syscall"
	"time"
)

// sectorBytes is the unit in which a disk writes. If a power cut interrupts a write, each of its sectors may be old or
// new.
const sectorBytes = 512

var (
	mu         sync.Mutex
	disks      = map[string]*Disk{}
	openFiles  = map[int]*File{}
	lastNumber int
)

// Disk is the disk of one life of a node. Its files have paths below its root.
type Disk struct {
	root string
	rng  *rand.Rand
	// names has the files that processes see, and flushedNames those that a power cut leaves. changes has the changes
	// of names that were not flushed yet.
	names, flushedNames map[string]*content
	changes             []change

	minFlush, maxFlush time.Duration
	failing            float64
	isFull             bool
	whileFlushing      func()
}

// change is a change of names: path now names file, or names nothing if file is nil. If the file was renamed, the same
// change removes its earlier name.
type change struct {
	path    string
	file    *content
	earlier string
}

// applyTo applies the change to the names of a disk.
func (c change) applyTo(names map[string]*content) {
	if names[c.path] = c.file; c.file == nil {
		delete(names, c.path)
	}
	delete(names, c.earlier)
}

// content is the content of a file: the bytes that processes read, the bytes that were last flushed, and the writes
// that are pending since then.
type content struct {
	bytes, flushed []byte
	pending        []write
	mode           fs.FileMode
	lockedBy       *File
}

// write writes bytes at an offset. If isCut is set, it changes the file's length to the offset instead.
type write struct {
	offset int
	bytes  []byte
	isCut  bool
}

// applyTo applies the write to a file's bytes.
func (w write) applyTo(text []byte) []byte {
	if w.isCut {
		return resized(text, w.offset)
	}
	if end := w.offset + len(w.bytes); end > len(text) {
		text = resized(text, end)
	}
	copy(text[w.offset:], w.bytes)
	return text
}

// resized returns bytes that are cut off or extended by zeros to this length.
func resized(text []byte, length int) []byte {
	if length <= len(text) {
		return text[:length]
	}
	return append(text, make([]byte, length-len(text))...)
}

// New makes an empty disk with this root, for example "/n1.0". rng determines how long flushes take, which of them
// fail, and what power cuts leave.
func New(root string, rng *rand.Rand) *Disk {
	d := &Disk{root: root, rng: rng, names: map[string]*content{}, flushedNames: map[string]*content{}}
	mu.Lock()
	defer mu.Unlock()
	disks[root] = d
	return d
}

// Root returns the path of the disk's folder.
func (d *Disk) Root() string { return d.root }

// SetFlushTime sets the minimum and the maximum time of a flush.
func (d *Disk) SetFlushTime(min, max time.Duration) {
	mu.Lock()
	defer mu.Unlock()
	d.minFlush, d.maxFlush = min, max
}

// SetFailing sets the share of flushes that fail.
func (d *Disk) SetFailing(share float64) {
	mu.Lock()
	defer mu.Unlock()
	d.failing = share
}

// SetFull makes the disk full, or ends that. On a full disk, a write fails after it has written a part of its bytes or
// none.
func (d *Disk) SetFull(isFull bool) {
	mu.Lock()
	defer mu.Unlock()
	d.isFull = isFull
}

// WhileFlushing calls a function once, in the middle of the next flush.
func (d *Disk) WhileFlushing(call func()) {
	mu.Lock()
	defer mu.Unlock()
	d.whileFlushing = call
}

// Remove removes the disk. Files that are still open can be used as before.
func (d *Disk) Remove() {
	mu.Lock()
	defer mu.Unlock()
	delete(disks, d.root)
}

// AfterKill returns the disk of the next life after the process was killed. It has this root, and keeps everything that
// was written.
func (d *Disk) AfterKill(root string) *Disk {
	next := New(root, d.rng)
	mu.Lock()
	defer mu.Unlock()
	copies := map[*content]*content{nil: nil}
	copyOf := func(file *content) *content {
		if _, ok := copies[file]; !ok {
			copies[file] = &content{
				bytes: append([]byte(nil), file.bytes...), flushed: append([]byte(nil), file.flushed...),
				pending: append([]write(nil), file.pending...), mode: file.mode,
			}
		}
		return copies[file]
	}
	for name, file := range d.names {
		next.names[next.pathOnThisDisk(d, name)] = copyOf(file)
	}
	for name, file := range d.flushedNames {
		next.flushedNames[next.pathOnThisDisk(d, name)] = copyOf(file)
	}
	for _, changed := range d.changes {
		next.changes = append(
			next.changes, change{next.pathOnThisDisk(d, changed.path), copyOf(changed.file), next.pathOnThisDisk(d, changed.earlier)},
		)
	}
	return next
}

// AfterPowerCut returns the disk of the next life after a power cut at this moment. It has this root.
func (d *Disk) AfterPowerCut(root string) *Disk {
	next := New(root, d.rng)
	mu.Lock()
	defer mu.Unlock()
	names := map[string]*content{}
	for name, file := range d.flushedNames {
		names[name] = file
	}
	for _, changed := range d.changes[:d.rng.Intn(len(d.changes)+1)] {
		changed.applyTo(names)
	}
	for _, name := range sortedNames(names) {
		remaining := names[name].afterPowerCut(d.rng)
		file := &content{bytes: remaining, flushed: append([]byte(nil), remaining...), mode: names[name].mode}
		next.names[next.pathOnThisDisk(d, name)], next.flushedNames[next.pathOnThisDisk(d, name)] = file, file
	}
	return next
}

// pathOnThisDisk converts a path on another disk to the same path on this disk.
func (d *Disk) pathOnThisDisk(from *Disk, name string) string {
	return d.root + strings.TrimPrefix(name, from.root)
}

// sortedNames returns the names, sorted.
func sortedNames(names map[string]*content) []string {
	var sorted []string
	for name := range names {
		at := len(sorted)
		for at > 0 && sorted[at-1] > name {
			at--
		}
		sorted = append(sorted[:at], append([]string{name}, sorted[at:]...)...)
	}
	return sorted
}

// afterPowerCut returns the file's bytes after a power cut: the flushed bytes, and any part of each pending write.
func (c *content) afterPowerCut(rng *rand.Rand) []byte {
	text := append([]byte(nil), c.flushed...)
	for _, pending := range c.pending {
		switch kind := rng.Intn(4); {
		case kind == 0:
			text = pending.applyTo(text)
		case pending.isCut || kind == 1:
		case kind == 2:
			text = write{offset: pending.offset, bytes: pending.bytes[:rng.Intn(len(pending.bytes)+1)]}.applyTo(text)
		default:
			text = pending.sectorsAppliedTo(text, rng)
		}
	}
	return text
}

// sectorsAppliedTo applies some of the sectors of a write.
func (w write) sectorsAppliedTo(text []byte, rng *rand.Rand) []byte {
	for from := 0; from < len(w.bytes); {
		to := from + sectorBytes - (w.offset+from)%sectorBytes
		if to > len(w.bytes) {
			to = len(w.bytes)
		}
		if rng.Intn(2) == 0 {
			text = write{offset: w.offset + from, bytes: w.bytes[from:to]}.applyTo(text)
		}
		from = to
	}
	return text
}

// FlushedTexts returns the flushed text of each file that may have this path after a power cut. If there may be no file
// at this path, one of the texts is nil.
func (d *Disk) FlushedTexts(name string) [][]byte {
	mu.Lock()
	defer mu.Unlock()
	files := []*content{d.flushedNames[name]}
	for _, changed := range d.changes {
		if changed.path == name {
			files = append(files, changed.file)
		}
	}
	var texts [][]byte
	for _, file := range files {
		if file == nil {
			texts = append(texts, nil)
		} else {
			texts = append(texts, file.flushed)
		}
	}
	return texts
}

// Size returns how many bytes the file at a path has, or 0 if there is none.
func (d *Disk) Size(name string) int {
	mu.Lock()
	defer mu.Unlock()
	if file := d.names[name]; file != nil {
		return len(file.bytes)
	}
	return 0
}

// OpenFiles returns how many files are open on all disks.
func OpenFiles() int {
	mu.Lock()
	defer mu.Unlock()
	return len(openFiles)
}

// diskOf returns the disk to which a path belongs.
func diskOf(name string) (*Disk, error) {
	if parts := strings.SplitN(name, "/", 3); len(parts) > 1 && parts[0] == "" {
		if d := disks["/"+parts[1]]; d != nil {
			return d, nil
		}
	}
	return nil, syscall.ENOENT
}

// recordChange changes names. The next flush of the folder makes the change durable.
func (d *Disk) recordChange(changed change) {
	changed.applyTo(d.names)
	d.changes = append(d.changes, changed)
}

// flush waits as long as a flush takes. Then it calls done, or returns an error. In the middle of the wait, it calls
// the function that WhileFlushing was given.
func (d *Disk) flush(done func()) error {
	mu.Lock()
	flushTime := d.minFlush
	if d.maxFlush > d.minFlush {
		flushTime += time.Duration(d.rng.Int63n(int64(d.maxFlush - d.minFlush)))
	}
	isFailing := d.failing > 0 && d.rng.Float64() < d.failing
	duringFlush := d.whileFlushing
	d.whileFlushing = nil
	mu.Unlock()
	time.Sleep(flushTime / 2)
	if duringFlush != nil {
		duringFlush()
	}
	time.Sleep(flushTime - flushTime/2)
	mu.Lock()
	defer mu.Unlock()
	if isFailing {
		return syscall.EIO
	}
	done()
	return nil
}

// Info describes a file.
type Info struct {
	name     string
	file     *content
	size     int64
	mode     fs.FileMode
	isFolder bool
}

func (i *Info) Name() string       { return path.Base(i.name) }
func (i *Info) Size() int64        { return i.size }
func (i *Info) Mode() fs.FileMode  { return i.mode }
func (i *Info) ModTime() time.Time { return time.Time{} }
func (i *Info) IsDir() bool        { return i.isFolder }
func (i *Info) Sys() interface{}   { return nil }

// SameFile reports whether both describe the same file.
func SameFile(a, b fs.FileInfo) bool {
	first, isFirst := a.(*Info)
	second, isSecond := b.(*Info)
	return isFirst && isSecond && first.file == second.file && first.file != nil
}
