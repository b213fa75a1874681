// Package os replaces the part of Go's package os that the stores use. It works on simulated disks.
package os

import (
	"io/fs"
	"os"

	"kitchenrue.example/simulation/disk"
)

// These types, and the constants and errors below, are those of Go's package.
type (
	File     = disk.File
	FileInfo = fs.FileInfo
	FileMode = fs.FileMode
)

const (
	O_RDONLY = os.O_RDONLY
	O_WRONLY = os.O_WRONLY
	O_RDWR   = os.O_RDWR
	O_APPEND = os.O_APPEND
	O_CREATE = os.O_CREATE
	O_EXCL   = os.O_EXCL
	O_TRUNC  = os.O_TRUNC
)

var (
	ErrClosed   = os.ErrClosed
	ErrExist    = os.ErrExist
	ErrNotExist = os.ErrNotExist
)

// Open opens a file or a folder for reading.
func Open(name string) (*File, error) { return disk.OpenFile(name, O_RDONLY, 0) }

// The other functions do what the functions of Go's package do. A simulated disk has no symbolic links, so Lstat is
// Stat.
var (
	OpenFile = disk.OpenFile
	Remove   = disk.Remove
	Rename   = disk.Rename
	Stat     = disk.Stat
	Lstat    = disk.Stat
	SameFile = disk.SameFile
)
