package disk

import (
	"io"
	"io/fs"
	"os"
	"path"
	"syscall"
)

// File is an open file, or an open folder.
type File struct {
	disk *Disk
	name string
	// file is nil for a folder.
	file       *content
	number     int
	offset     int
	isAppended bool
	isClosed   bool
}

// pathError returns an error of an operation as Go's package os would, or nil for nil.
func pathError(operation, name string, err error) error {
	if err == nil {
		return nil
	}
	return &fs.PathError{Op: operation, Path: name, Err: err}
}

// OpenFile does what os.OpenFile does.
func OpenFile(name string, flags int, mode fs.FileMode) (*File, error) {
	mu.Lock()
	defer mu.Unlock()
	d, err := diskOf(name)
	if err != nil {
		return nil, pathError("open", name, err)
	}
	file := d.names[name]
	switch {
	case name == d.root:
		return registerOpen(&File{disk: d, name: name}), nil
	case file == nil && flags&os.O_CREATE == 0:
		return nil, pathError("open", name, syscall.ENOENT)
	case file != nil && flags&os.O_EXCL != 0:
		return nil, pathError("open", name, syscall.EEXIST)
	case file == nil:
		file = &content{mode: mode}
		d.recordChange(change{path: name, file: file})
	case flags&os.O_TRUNC != 0:
		file.addWrite(write{isCut: true})
	}
	return registerOpen(&File{disk: d, name: name, file: file, isAppended: flags&os.O_APPEND != 0}), nil
}

// registerOpen numbers a file, and counts it as open. The caller holds mu.
func registerOpen(f *File) *File {
	lastNumber++
	f.number = lastNumber
	openFiles[f.number] = f
	return f
}

// addWrite applies a write. The next flush makes the write durable.
func (c *content) addWrite(w write) {
	c.bytes = w.applyTo(c.bytes)
	c.pending = append(c.pending, w)
}

// Remove does what os.Remove does.
func Remove(name string) error {
	mu.Lock()
	defer mu.Unlock()
	d, err := diskOf(name)
	if err == nil && d.names[name] == nil {
		err = syscall.ENOENT
	}
	if err != nil {
		return pathError("remove", name, err)
	}
	d.recordChange(change{path: name})
	return nil
}

// Rename does what os.Rename does, within a disk.
func Rename(from, to string) error {
	mu.Lock()
	defer mu.Unlock()
	d, err := diskOf(from)
	if err == nil && d.names[from] == nil {
		err = syscall.ENOENT
	}
	if err != nil {
		return pathError("rename", from, err)
	}
	d.recordChange(change{path: to, file: d.names[from], earlier: from})
	return nil
}

// Stat does what os.Stat does.
func Stat(name string) (fs.FileInfo, error) {
	mu.Lock()
	defer mu.Unlock()
	d, err := diskOf(name)
	if err != nil {
		return nil, pathError("stat", name, err)
	}
	if name == d.root {
		return &Info{name: name, mode: fs.ModeDir | 0o700, isFolder: true}, nil
	}
	file := d.names[name]
	if file == nil {
		return nil, pathError("stat", name, syscall.ENOENT)
	}
	return &Info{name: name, file: file, size: int64(len(file.bytes)), mode: file.mode}, nil
}

// Lock locks the file with this number, or returns EWOULDBLOCK if another open file has locked it.
func Lock(number int) error {
	mu.Lock()
	defer mu.Unlock()
	f := openFiles[number]
	if f == nil || f.file == nil {
		return syscall.EBADF
	}
	if f.file.lockedBy != nil && f.file.lockedBy != f {
		return syscall.EWOULDBLOCK
	}
	f.file.lockedBy = f
	return nil
}

// Flush flushes the file with this number.
func Flush(number int) error {
	mu.Lock()
	f := openFiles[number]
	mu.Unlock()
	if f == nil {
		return syscall.EBADF
	}
	return f.flush()
}

// check returns an error if the file can't be read and written. The caller holds mu.
func (f *File) check() error {
	switch {
	case f.isClosed:
		return fs.ErrClosed
	case f.file == nil:
		return syscall.EISDIR
	}
	return nil
}

// Write does what Write of os.File does.
func (f *File) Write(data []byte) (int, error) {
	mu.Lock()
	defer mu.Unlock()
	if err := f.check(); err != nil {
		return 0, pathError("write", f.name, err)
	}
	if f.isAppended {
		f.offset = len(f.file.bytes)
	}
	count, err := f.writeAt(data, f.offset)
	f.offset += count
	return count, err
}

// WriteAt does what WriteAt of os.File does.
func (f *File) WriteAt(data []byte, offset int64) (int, error) {
	mu.Lock()
	defer mu.Unlock()
	if err := f.check(); err != nil {
		return 0, pathError("write", f.name, err)
	}
	return f.writeAt(data, int(offset))
}

// writeAt writes data at an offset, or a part of it if the disk is full. The caller holds mu.
func (f *File) writeAt(data []byte, offset int) (int, error) {
	var err error
	if f.disk.isFull && offset+len(data) > len(f.file.bytes) {
		data, err = data[:f.disk.rng.Intn(len(data)+1)/2], syscall.ENOSPC
	}
	if len(data) > 0 {
		f.file.addWrite(write{offset: offset, bytes: append([]byte(nil), data...)})
	}
	return len(data), pathError("write", f.name, err)
}

// Truncate does what Truncate of os.File does.
func (f *File) Truncate(length int64) error {
	mu.Lock()
	defer mu.Unlock()
	if err := f.check(); err != nil {
		return pathError("truncate", f.name, err)
	}
	f.file.addWrite(write{offset: int(length), isCut: true})
	return nil
}

// Read does what Read of os.File does.
func (f *File) Read(data []byte) (int, error) {
	count, err := f.ReadAt(data, int64(f.offset))
	f.offset += count
	if count > 0 {
		err = nil
	}
	return count, err
}

// ReadAt does what ReadAt of os.File does.
func (f *File) ReadAt(data []byte, offset int64) (int, error) {
	mu.Lock()
	defer mu.Unlock()
	if err := f.check(); err != nil {
		return 0, pathError("read", f.name, err)
	}
	if offset >= int64(len(f.file.bytes)) && len(data) > 0 {
		return 0, io.EOF
	}
	count := copy(data, f.file.bytes[offset:])
	if count < len(data) {
		return count, io.EOF
	}
	return count, nil
}

// Seek does what Seek of os.File does.
func (f *File) Seek(offset int64, whence int) (int64, error) {
	mu.Lock()
	defer mu.Unlock()
	if err := f.check(); err != nil {
		return 0, pathError("seek", f.name, err)
	}
	switch whence {
	case io.SeekCurrent:
		offset += int64(f.offset)
	case io.SeekEnd:
		offset += int64(len(f.file.bytes))
	}
	f.offset = int(offset)
	return offset, nil
}

// Sync does what Sync of os.File does.
func (f *File) Sync() error { return pathError("sync", f.name, f.flush()) }

// flush makes all earlier writes to the file durable or, for a folder, all earlier changes of names in it. If a flush
// fails, its writes can still be read, but no later flush makes them durable.
func (f *File) flush() error {
	mu.Lock()
	if f.isClosed {
		mu.Unlock()
		return fs.ErrClosed
	}
	pending := 0
	if f.file != nil {
		pending = len(f.file.pending)
	}
	changes := len(f.disk.changes)
	mu.Unlock()
	err := f.disk.flush(func() {
		if f.file == nil {
			f.disk.flushNames(changes)
		} else {
			f.file.flush(pending)
		}
	})
	if err != nil && f.file != nil {
		mu.Lock()
		defer mu.Unlock()
		f.file.dropPending(pending)
	}
	return err
}

// flushNames makes the first changes of names durable (count of them). Another flush may have done this for some of
// them meanwhile.
func (d *Disk) flushNames(count int) {
	if count > len(d.changes) {
		count = len(d.changes)
	}
	for _, changed := range d.changes[:count] {
		changed.applyTo(d.flushedNames)
	}
	d.changes = append([]change(nil), d.changes[count:]...)
}

// flush makes the first pending writes durable (count of them). Another flush may have done this for some of them
// meanwhile.
func (c *content) flush(count int) {
	if count > len(c.pending) {
		count = len(c.pending)
	}
	for _, pending := range c.pending[:count] {
		c.flushed = pending.applyTo(c.flushed)
	}
	c.pending = append([]write(nil), c.pending[count:]...)
}

// dropPending drops the first pending writes (count of them), so no flush makes them durable.
func (c *content) dropPending(count int) {
	if count > len(c.pending) {
		count = len(c.pending)
	}
	c.pending = append([]write(nil), c.pending[count:]...)
}

// Stat does what Stat of os.File does.
func (f *File) Stat() (fs.FileInfo, error) {
	mu.Lock()
	defer mu.Unlock()
	if err := f.check(); err != nil {
		return nil, pathError("stat", f.name, err)
	}
	return &Info{name: f.name, file: f.file, size: int64(len(f.file.bytes)), mode: f.file.mode}, nil
}

// Chmod does what Chmod of os.File does.
func (f *File) Chmod(mode fs.FileMode) error {
	mu.Lock()
	defer mu.Unlock()
	if err := f.check(); err != nil {
		return pathError("chmod", f.name, err)
	}
	f.file.mode = mode
	return nil
}

// Fd does what Fd of os.File does. The number is valid only for this package.
func (f *File) Fd() uintptr { return uintptr(f.number) }

// SyscallConn does what SyscallConn of os.File does. It passes on the same number as Fd.
func (f *File) SyscallConn() (syscall.RawConn, error) {
	mu.Lock()
	defer mu.Unlock()
	if f.isClosed {
		return nil, pathError("SyscallConn", f.name, fs.ErrClosed)
	}
	return rawFile{f}, nil
}

// rawFile is the syscall.RawConn of a file: it passes on the number of the file, and nothing else.
type rawFile struct{ file *File }

func (r rawFile) Control(call func(number uintptr)) error {
	call(r.file.Fd())
	return nil
}

func (rawFile) Read(func(uintptr) bool) error  { return syscall.ENOTSUP }
func (rawFile) Write(func(uintptr) bool) error { return syscall.ENOTSUP }

// Name does what Name of os.File does.
func (f *File) Name() string { return path.Clean(f.name) }

// Close does what Close of os.File does. It releases the file's lock.
func (f *File) Close() error {
	mu.Lock()
	defer mu.Unlock()
	if f.isClosed {
		return pathError("close", f.name, fs.ErrClosed)
	}
	f.isClosed = true
	delete(openFiles, f.number)
	if f.file != nil && f.file.lockedBy == f {
		f.file.lockedBy = nil
	}
	return nil
}
