// Package logs is the agent's log. It writes lines of a level and above to an output, and passes lines on to followers.
package logs

import (
	"bytes"
	"fmt"
	"io"
	"log"
	"strings"
	"sync"
	"time"
)

// keptLines is the number of lines that are kept for followers that start later.
const keptLines = 512

// MaxWaiting is the maximum number of lines that wait for a follower. Further lines are dropped for this follower.
const MaxWaiting = 512

// MaxLine is the maximum length of a line in bytes. The rest is cut off.
const MaxLine = 8 << 10

// Level is the level of a line.
type Level int

// The levels, from the least important one to the most important one.
const (
	Trace Level = iota
	Debug
	Info
	Warn
	Err
)

// Levels are the names of the levels.
var Levels = []string{"TRACE", "DEBUG", "INFO", "WARN", "ERR"}

func (l Level) String() string { return Levels[l] }

// LevelOf returns the level with a name in capitals. The second result is false if there is none.
func LevelOf(name string) (Level, bool) {
	for i, level := range Levels {
		if level == name {
			return Level(i), true
		}
	}
	return 0, false
}

// lineLevel returns the level in the brackets of a line, or Info if there is none.
func lineLevel(line string) Level {
	from := strings.IndexByte(line, '[')
	if from >= 0 {
		if to := strings.IndexByte(line[from:], ']'); to > 0 {
			if level, ok := LevelOf(line[from+1 : from+to]); ok {
				return level
			}
		}
	}
	return Info
}

// replaceControl replaces control characters, so that a name from the network can't control a terminal. The output
// starts further lines of the same message with a bar, so that a name can't forge a line either.
func replaceControl(r rune) rune {
	if r < ' ' && r != '\n' && r != '\t' || r == 0x7f {
		return '?'
	}
	return r
}

// Log is a log. It writes each line with one call, and followers don't delay it.
type Log struct {
	// Logger writes to the log, with the time in front of each line.
	*log.Logger

	mu        sync.Mutex
	out       io.Writer
	level     Level
	ring      []line
	oldest    int
	followers map[*Follower]struct{}
	// syslog receives the lines that are written. It is nil if the log isn't sent to syslog.
	syslog chan string
	// isJournal is true if the output is connected to systemd's journal. Each line then begins with its priority, and
	// has no time.
	isJournal bool
	// limits has the limit of each kind of line that packets can cause, and interval is how long it holds.
	limits   map[string]*limit
	interval time.Duration
}

// New makes a log that writes the lines of this level and above to out.
func New(out io.Writer, level Level) *Log {
	l := &Log{
		out:       out,
		level:     level,
		followers: map[*Follower]struct{}{},
		limits:    map[string]*limit{},
		interval:  limitInterval,
		isJournal: IsJournal(out),
	}
	l.Logger = log.New(l, "", log.LstdFlags)
	return l
}

// SetLevel sets the lowest level of the lines that are written.
func (l *Log) SetLevel(level Level) {
	l.mu.Lock()
	defer l.mu.Unlock()
	l.level = level
}

// line is a kept line. It has its text or, until it is rendered, the arguments for its text.
type line struct {
	text     string
	loggedAt time.Time
	format   string
	args     []interface{}
}

// textOf returns a line as it is shown.
func textOf(line []byte) string {
	line = bytes.TrimRight(line, "\n")
	if len(line) > MaxLine {
		line = append(append([]byte(nil), line[:MaxLine]...), "..."...)
	}
	return strings.Map(replaceControl, string(line))
}

// render returns the line's text. If there is no text yet, it formats it first.
func (l *line) render() string {
	if l.format != "" {
		text := textOf([]byte(l.loggedAt.Format("2006/01/02 15:04:05 ") + fmt.Sprintf(l.format, l.args...)))
		*l = line{text: text}
	}
	return l.text
}

// keepForFollowers keeps a line for followers that start later. The caller holds mu.
func (l *Log) keepForFollowers(kept line) {
	if len(l.ring) < keptLines {
		l.ring = append(l.ring, kept)
	} else {
		l.ring[l.oldest] = kept
		l.oldest = (l.oldest + 1) % keptLines
	}
}

// Lazyf is Printf for lines that are written often. It formats the text only if the line is written or followed. The
// arguments must not change later.
func (l *Log) Lazyf(format string, args ...interface{}) {
	level := lineLevel(format)
	l.mu.Lock()
	isWanted := level >= l.level || len(l.followers) > 0
	if !isWanted {
		l.keepForFollowers(line{loggedAt: time.Now(), format: format, args: args})
	}
	l.mu.Unlock()
	if isWanted {
		l.Printf(format, args...)
	}
}

// LimitedLazyf is Lazyf for lines of a kind that are limited, because packets can cause them.
func (l *Log) LimitedLazyf(kind, format string, args ...interface{}) {
	level := lineLevel(format)
	l.mu.Lock()
	isAbove := l.isAboveLimit(kind, level, func() string { return fmt.Sprintf(format, args...) })
	l.mu.Unlock()
	if !isAbove {
		l.Lazyf(format, args...)
	}
}

// Write implements io.Writer for the Logger, which passes one line in each call.
func (l *Log) Write(written []byte) (int, error) {
	text := textOf(written)
	level := lineLevel(text)
	l.mu.Lock()
	defer l.mu.Unlock()
	if l.isAboveLimit(kindOf(level, text), level, func() string { return text }) {
		return len(written), nil
	}
	l.write(level, text)
	return len(written), nil
}

// write keeps a line, and passes it on to followers, syslog and the output. The caller holds mu.
func (l *Log) write(level Level, text string) {
	l.keepForFollowers(line{text: text})
	for follower := range l.followers {
		follower.offer(level, text)
	}
	if level >= l.level {
		select {
		case l.syslog <- text:
		default:
		}
		// There is no place to report that the log can't be written.
		_, _ = io.WriteString(l.out, l.formatForOutput(level, text))
	}
}

// formatForOutput returns a line in the form that the output needs.
func (l *Log) formatForOutput(level Level, text string) string {
	if l.isJournal {
		return journalLine(level, text)
	}
	return "    " + strings.ReplaceAll(text, "\n", "\n    | ") + "\n"
}

// Follower receives the lines of a level and above.
type Follower struct {
	// Lines receives the lines. A follower that is too slow misses some of them.
	Lines chan string

	level Level
	log   *Log
}

// offer passes a line of the follower's level or above to the follower, and drops it if the follower is too slow.
func (f *Follower) offer(level Level, text string) {
	if level >= f.level {
		select {
		case f.Lines <- text:
		default:
		}
	}
}

// Follow returns a follower. It receives the lines that are kept, and new ones until Close.
func (l *Log) Follow(level Level) *Follower {
	f := &Follower{Lines: make(chan string, MaxWaiting), level: level, log: l}
	l.mu.Lock()
	defer l.mu.Unlock()
	for i := range l.ring {
		text := l.ring[(l.oldest+i)%len(l.ring)].render()
		f.offer(lineLevel(text), text)
	}
	l.followers[f] = struct{}{}
	return f
}

// Close ends the follower. It may be called twice.
func (f *Follower) Close() {
	f.log.mu.Lock()
	defer f.log.mu.Unlock()
	delete(f.log.followers, f)
}
