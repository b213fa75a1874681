package serf

import (
	"bytes"
	"fmt"
	"os"
	"strconv"
	"strings"
	"sync"
	"syscall"
)

// HandlerProcess is the process of a handler. A later process may have the same PID, but it has another Start or Boot.
type HandlerProcess struct {
	// Handler is the name of the handler.
	Handler string
	PID     int
	// Start is when the process started, in clock ticks since the machine booted. Boot is the ID of that boot.
	Start uint64
	Boot  string
}

// boot has the ID of the machine's last boot, or the error if that ID can't be read.
var boot struct {
	once sync.Once
	id   string
	err  error
}

// bootID returns the ID of the machine's last boot.
func bootID() (string, error) {
	boot.once.Do(func() {
		var text []byte
		text, boot.err = os.ReadFile("/proc/sys/kernel/random/boot_id")
		boot.id = strings.TrimSpace(string(text))
	})
	return boot.id, boot.err
}

// ProcessOf describes a process that is running, or that has ended and for which its parent has not waited yet. Serf
// has no such function.
func ProcessOf(handler string, pid int) (HandlerProcess, error) {
	_, start, err := processStat(pid)
	if err != nil {
		return HandlerProcess{}, err
	}
	boot, err := bootID()
	return HandlerProcess{handler, pid, start, boot}, err
}

// IsRunning reports whether the process is running on this machine.
func (p HandlerProcess) IsRunning() bool {
	state, start, err := processStat(p.PID)
	if err != nil || start != p.Start || state == 'Z' || state == 'X' {
		return false
	}
	return p.IsOfThisBoot()
}

// IsOfThisBoot reports whether the process started on this machine since the machine's last boot.
func (p HandlerProcess) IsOfThisBoot() bool {
	boot, err := bootID()
	return err == nil && boot == p.Boot
}

// These are the positions of the process's state and start among the fields of /proc/PID/stat that follow the program's
// name.
const (
	statState = 0
	statStart = 19
)

// maxStat is the size in bytes of the buffer for /proc/PID/stat, which is always shorter.
const maxStat = 4096

// readProc reads a file of /proc into a buffer. It doesn't use an os.File, which would take several times as long,
// since the node calls it for each handler.
func readProc(path string, buffer []byte) ([]byte, error) {
	fd, err := syscall.Open(path, syscall.O_RDONLY|syscall.O_CLOEXEC, 0)
	if err != nil {
		return nil, &os.PathError{Op: "open", Path: path, Err: err}
	}
	defer syscall.Close(fd)
	length, err := syscall.Read(fd, buffer)
	if err != nil {
		return nil, &os.PathError{Op: "read", Path: path, Err: err}
	}
	return buffer[:length], nil
}

// processStat returns the state of a process, and when it started.
func processStat(pid int) (state byte, start uint64, err error) {
	var buffer [maxStat]byte
	text, err := readProc("/proc/"+strconv.Itoa(pid)+"/stat", buffer[:])
	if err != nil {
		return 0, 0, err
	}
	// (the program's name is in parentheses, and may contain any character)
	fields := bytes.Fields(text[bytes.LastIndexByte(text, ')')+1:])
	if len(fields) <= statStart {
		return 0, 0, fmt.Errorf("/proc/%d/stat has %d fields after the name", pid, len(fields))
	}
	start, err = strconv.ParseUint(string(fields[statStart]), 10, 64)
	return fields[statState][0], start, err
}
