package logs

import (
	"fmt"
	"io"
	"os"
	"strings"
	"syscall"
	"time"
)

// priorities are the journal's priorities of the levels. They are syslog's numbers for the severities.
var priorities = map[Level]string{Trace: "<7>", Debug: "<7>", Info: "<6>", Warn: "<4>", Err: "<3>"}

// IsJournal reports whether out is connected to systemd's journal.
func IsJournal(out io.Writer) bool {
	file, ok := out.(*os.File)
	if !ok {
		return false
	}
	// systemd sets the variable to the device and the inode of the standard output and error of a service.
	var device, inode uint64
	if _, err := fmt.Sscanf(os.Getenv("JOURNAL_STREAM"), "%d:%d", &device, &inode); err != nil {
		return false
	}
	info, err := file.Stat()
	if err != nil {
		return false
	}
	stat, ok := info.Sys().(*syscall.Stat_t)
	return ok && stat.Dev == device && stat.Ino == inode
}

// timeLayout is the format of the time that the Logger writes in front of a line.
const timeLayout = "2006/01/02 15:04:05 "

// journalLine returns a line for the journal: with its priority, and without its time, since the journal adds one. Each
// line of a message begins with the priority, because the journal reads the lines one at a time.
func journalLine(level Level, text string) string {
	if len(text) > len(timeLayout) {
		if _, err := time.Parse(timeLayout, text[:len(timeLayout)]); err == nil {
			text = text[len(timeLayout):]
		}
	}
	priority := priorities[level]
	return priority + strings.ReplaceAll(text, "\n", "\n"+priority+"| ") + "\n"
}

// Sentence returns a sentence for the program's standard error. If the journal reads it, the sentence begins with the
// priority of an error.
func Sentence(errs io.Writer, text string) string {
	if IsJournal(errs) {
		return priorities[Err] + text
	}
	return text
}
