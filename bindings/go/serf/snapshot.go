package serf

import (
	"bytes"
	"errors"
	"fmt"
	"os"
	"path/filepath"
	"strings"

	"kitchenrue.example/serfagent"
)

// snapshotLimit is how many bytes the file may have before the node considers a compaction. Serf has the same number.
const snapshotLimit = 128 << 10

// maxSnapshotMembers is the maximum number of members that the node reads from a file. maxMembersFile is the maximum
// size in bytes of the file that keeps the member lines during a compaction.
const (
	maxSnapshotMembers = 1 << 16
	maxMembersFile     = 256 << 20
)

// PreviousNode is a member that was alive at the end of the last life according to the file, with its address.
type PreviousNode struct {
	Name string
	Addr string
}

func (p PreviousNode) String() string { return p.Name + ": " + p.Addr }

// snapshotFile writes the lines of members to the file in which the proved library keeps its clocks, so that a stock
// agent and this one can continue with each other's file. The library holds the file's lock. It appends both its own
// lines and the lines of members, which reach the disk with its next flush. The caller ensures that nothing else is
// written in the meantime.
type snapshotFile struct {
	// configuredPath is the path as it was configured, and path is the same path without symbolic links.
	configuredPath, path string
	lines                lineAppender
	// file is the open file. This package reads and flushes it, but does not write to it.
	file *os.File
	// checkedSize is the size of the file's text at the last check, and tail has the last bytes of the text at that
	// check.
	checkedSize int64
	tail        []byte
	// libraryBytes is how many bytes the library's lines had when the library last replaced the file. Before the first
	// replacement, it is the maximum length of the clock lines.
	libraryBytes int64
	// marksOldEvents: the file says which events are old, because an earlier life received events, or ignored old
	// events at a join.
	marksOldEvents bool
}

// lineAppender appends lines to a file's text, which filler may follow. In a node, it is the serfagent.Agent.
type lineAppender interface {
	AppendLines(lines []byte) error
	TextSize() int64
	Check() error
}

// maxClockLines is the maximum number of bytes of the lines of the clocks.
const maxClockLines = 3 * 35

// These prefixes begin the lines that say which events are old: the line of the event clock, and the line of a join
// that ignored old events.
const (
	eventClockPrefix   = "event-clock: "
	eventMinimumPrefix = "#least event-clock: "
)

// openSnapshot opens a file that the library has already opened and locked, and returns the members that are alive
// according to its lines. If the last life ended during a compaction, openSnapshot restores the members of that
// compaction. A leave line removes the members before it, unless rejoinsAfterLeave is set.
func openSnapshot(path string, rejoinsAfterLeave bool, lines lineAppender) (*snapshotFile, []PreviousNode, error) {
	resolved, err := filepath.EvalSymlinks(path)
	if err != nil {
		return nil, nil, err
	}
	f := &snapshotFile{configuredPath: path, path: resolved, lines: lines, libraryBytes: maxClockLines}
	alive := aliveMembers{rejoinsAfterLeave: rejoinsAfterLeave, addrs: map[string]string{}}
	if err := readFileLines(resolved, func(line string) {
		alive.applyLine(line)
		f.marksOldEvents = f.marksOldEvents || isOldEventMark(line)
	}); err != nil {
		return nil, nil, err
	}
	if err := f.reopen(); err != nil {
		return nil, nil, err
	}
	members, err := serfagent.ReadFile(f.membersPath(), maxMembersFile)
	if err == nil {
		_ = readLines(bytes.NewReader(members), alive.applyLine)
		err = f.appendMembers(members)
	}
	if errors.Is(err, os.ErrNotExist) {
		err = nil
	}
	if err == nil {
		err = f.recordEnd()
	}
	if err != nil {
		f.close()
		return nil, nil, err
	}
	return f, alive.previousNodes(), nil
}

// aliveMembers collects the members that are alive, line by line.
type aliveMembers struct {
	rejoinsAfterLeave bool
	names             []string
	addrs             map[string]string
}

// applyLine applies a line of the file: a member is alive or not alive, or this node left.
func (a *aliveMembers) applyLine(line string) {
	if name, ok := stripPrefix(line, "not-alive: "); ok {
		delete(a.addrs, name)
	} else if member, ok := stripPrefix(line, "alive: "); ok {
		// (a name may contain spaces. A line that ends with `#` was only partly written)
		lastSpace := strings.LastIndexByte(member, ' ')
		if lastSpace > 0 && !strings.HasSuffix(member, "#") && (len(a.addrs) < maxSnapshotMembers || a.addrs[member[:lastSpace]] != "") {
			a.addrs[member[:lastSpace]] = member[lastSpace+1:]
			a.names = append(a.names, member[:lastSpace])
		}
	} else if line == "leave" && !a.rejoinsAfterLeave {
		a.addrs, a.names = map[string]string{}, nil
	}
}

// previousNodes returns the members that are alive. The member with the latest line is the first.
func (a *aliveMembers) previousNodes() []PreviousNode {
	var found []PreviousNode
	for i := len(a.names) - 1; i >= 0; i-- {
		if addr := a.addrs[a.names[i]]; addr != "" {
			found = append(found, PreviousNode{a.names[i], addr})
			delete(a.addrs, a.names[i])
		}
	}
	return found
}

// isOldEventMark reports whether a line says which events are old.
func isOldEventMark(line string) bool {
	return strings.HasPrefix(line, eventClockPrefix) || strings.HasPrefix(line, eventMinimumPrefix)
}

// stripPrefix returns the line without a prefix. ok is false if the line does not begin with it.
func stripPrefix(line, prefix string) (string, bool) {
	if !strings.HasPrefix(line, prefix) {
		return "", false
	}
	return line[len(prefix):], true
}

// membersPath is the path of the file that keeps the lines of members during a compaction.
func (f *snapshotFile) membersPath() string { return f.path + ".members" }

// appendMembers appends the lines that a compaction kept in a separate file. It flushes them before it removes that
// file.
func (f *snapshotFile) appendMembers(lines []byte) error {
	if err := f.appendLines(lines); err != nil {
		return err
	}
	if err := f.file.Sync(); err != nil {
		return err
	}
	return os.Remove(f.membersPath())
}

// reopen opens the file at the path, at the start and after each replacement by the library.
func (f *snapshotFile) reopen() error {
	file, err := os.OpenFile(f.path, os.O_RDWR, 0)
	if err != nil {
		return err
	}
	if f.file != nil {
		f.file.Close()
	}
	f.file = file
	return nil
}

// appendLines appends whole lines.
func (f *snapshotFile) appendLines(lines []byte) error { return f.lines.AppendLines(lines) }

// joinLines joins those texts that are exactly one line. A member's name is chosen by whoever sends it. A name with a
// newline could forge other lines, even clocks, so joinLines leaves out its line.
func joinLines(lines []string) []byte {
	var text []byte
	for _, line := range lines {
		if strings.IndexAny(line, "\n\r\x00") == len(line)-1 && strings.HasSuffix(line, "\n") {
			text = append(text, line...)
		}
	}
	return text
}

// appendMemberLines appends lines, each of which ends with its newline. It leaves out texts that are not exactly one line.
func (f *snapshotFile) appendMemberLines(lines ...string) error {
	text := joinLines(lines)
	if len(text) == 0 {
		return nil
	}
	return f.appendLines(text)
}

// shouldCompact reports whether a compaction is worthwhile: the text is longer than snapshotLimit, and a compaction
// would probably remove at least half of it. lines are the lines of members that the compaction would write. Nobody
// knows the length of the library's lines before the compaction, so shouldCompact assumes libraryBytes.
func (f *snapshotFile) shouldCompact(lines []string) bool {
	size := f.lines.TextSize()
	if size <= snapshotLimit {
		return false
	}
	remaining := f.libraryBytes
	for _, line := range lines {
		remaining += int64(len(line))
	}
	return size >= 2*remaining
}

// compact makes the library replace the file by one with the library's own lines, and then appends these lines of
// members. During that, a separate file keeps the lines of members, so that a crash loses nothing.
func (f *snapshotFile) compact(lines []string, replaceFile func() error) error {
	text := joinLines(lines)
	if err := serfagent.WriteFile(f.membersPath(), text, 0o600); err != nil {
		return err
	}
	if err := replaceFile(); err != nil {
		return err
	}
	if err := f.reopen(); err != nil {
		return err
	}
	f.libraryBytes = f.lines.TextSize()
	if err := f.appendMembers(text); err != nil {
		return err
	}
	return f.recordEnd()
}

// ErrSnapshotChanged is the error that Fault wraps if a node's file was removed, replaced or truncated while the node
// ran. If you start the node without the old file, it may hand out events again.
var ErrSnapshotChanged = serfagent.ErrChanged

// tailLength is how many bytes at the end of the text checkUnchanged compares.
const tailLength = 256

// checkUnchanged checks that the path still names the same file, that the file is as long as the library made it, and
// that the text still ends with the bytes that recordEnd recorded.
func (f *snapshotFile) checkUnchanged() error {
	changedError := func(what string) error { return fmt.Errorf("%w: %s %s", ErrSnapshotChanged, f.configuredPath, what) }
	current, err := f.file.Stat()
	if err != nil {
		return err
	}
	atPath, err := os.Stat(f.configuredPath)
	switch {
	case errors.Is(err, os.ErrNotExist):
		return changedError("isn't there any more")
	case err != nil:
		return err
	case !os.SameFile(current, atPath):
		return changedError("was replaced by another file")
	}
	if err := f.lines.Check(); err != nil {
		return err
	}
	tail := make([]byte, len(f.tail))
	if _, err := f.file.ReadAt(tail, f.checkedSize-int64(len(tail))); err != nil {
		return err
	}
	if !bytes.Equal(tail, f.tail) {
		return changedError("has other content now")
	}
	return f.recordEnd()
}

// recordEnd records the end of the text for the next check.
func (f *snapshotFile) recordEnd() error {
	f.checkedSize = f.lines.TextSize()
	length := f.checkedSize
	if length > tailLength {
		length = tailLength
	}
	f.tail = make([]byte, length)
	_, err := f.file.ReadAt(f.tail, f.checkedSize-length)
	return err
}

// sync flushes all lines to the disk.
func (f *snapshotFile) sync() error { return f.file.Sync() }

// close closes this package's handle of the file. The library closes its own handle.
func (f *snapshotFile) close() error { return f.file.Close() }
