// Package syscall replaces the part of Go's package syscall that the stores use. It works on simulated disks.
package syscall

import (
	"syscall"

	"kitchenrue.example/simulation/disk"
)

// Errno, and the constants below, are those of Go's package.
type Errno = syscall.Errno

const (
	O_NOFOLLOW = syscall.O_NOFOLLOW
	O_NONBLOCK = syscall.O_NONBLOCK
	LOCK_EX    = syscall.LOCK_EX
	LOCK_NB    = syscall.LOCK_NB

	EACCES      = syscall.EACCES
	EDQUOT      = syscall.EDQUOT
	EFBIG       = syscall.EFBIG
	EIO         = syscall.EIO
	EISDIR      = syscall.EISDIR
	ELOOP       = syscall.ELOOP
	ENOENT      = syscall.ENOENT
	ENOSPC      = syscall.ENOSPC
	ENOTDIR     = syscall.ENOTDIR
	ENXIO       = syscall.ENXIO
	EPERM       = syscall.EPERM
	EROFS       = syscall.EROFS
	EWOULDBLOCK = syscall.EWOULDBLOCK
)

// Flock locks a file exclusively and without waiting, whatever operation is requested.
func Flock(number, _ int) error { return disk.Lock(number) }

// Fdatasync flushes a file.
func Fdatasync(number int) error { return disk.Flush(number) }
