package logs

import (
	"bytes"
	"fmt"
	"net"
	"os"
	"path/filepath"
	"strings"
	"syscall"
	"testing"
	"time"

	"kitchenrue.example/agent/internal/testkit"
)

func TestLevels(t *testing.T) {
	var out bytes.Buffer
	l := New(&out, Warn)
	l.SetFlags(0)
	for _, line := range []string{"[DEBUG] a", "[INFO] b", "none", "[WARN] c", "[ERR] d [DEBUG]", "[x"} {
		l.Print(line)
	}
	if out.String() != "    [WARN] c\n    [ERR] d [DEBUG]\n" {
		t.Errorf("%q", out.String())
	}
	l.SetLevel(Debug)
	l.Print("[TRACE] e")
	l.Print("[DEBUG] f")
	if !strings.HasSuffix(out.String(), "d [DEBUG]\n    [DEBUG] f\n") {
		t.Errorf("%q", out.String())
	}
}

func TestFollower(t *testing.T) {
	l := New(&bytes.Buffer{}, Err)
	l.SetFlags(0)
	for i := 0; i < keptLines+10; i++ {
		l.Printf("[INFO] %d", i)
	}
	f := l.Follow(Info)
	defer f.Close()
	if first := <-f.Lines; first != "[INFO] 10" {
		t.Error(first)
	}
	l.Print("[DEBUG] x")
	l.Print("[WARN] y")
	var last string
	for len(f.Lines) > 0 {
		last = <-f.Lines
	}
	if last != "[WARN] y" {
		t.Error(last)
	}
}

// countedValue counts how often it was formatted.
type countedValue int

func (s *countedValue) String() string {
	*s++
	return "shown\x1b"
}

// Lazyf formats a line only if it is written or followed, and only once.
func TestLazyf(t *testing.T) {
	var out bytes.Buffer
	var times countedValue
	l := New(&out, Info)
	l.Lazyf("[DEBUG] a %v", &times)
	if times != 0 || out.Len() > 0 {
		t.Error(times, out.String())
	}
	for i := 0; i < 2; i++ {
		f := l.Follow(Debug)
		if line := <-f.Lines; len(line) != len("2006/01/02 15:04:05 [DEBUG] a shown?") || !strings.HasSuffix(line, " [DEBUG] a shown?") {
			t.Errorf("%q", line)
		}
		l.Lazyf("[INFO] b")
		if line := <-f.Lines; !strings.HasSuffix(line, " [INFO] b") || strings.Count(out.String(), "[INFO] b\n") != i+1 {
			t.Errorf("%q, %q", line, out.String())
		}
		f.Close()
	}
	if times != 1 {
		t.Error(times)
	}
}

func TestSlowFollower(t *testing.T) {
	l := New(&bytes.Buffer{}, Err)
	f := l.Follow(Trace)
	for i := 0; i < 3*MaxWaiting; i++ {
		l.Print(fmt.Sprint(i))
	}
	if len(f.Lines) != MaxWaiting {
		t.Error(len(f.Lines))
	}
	f.Close()
	f.Close()
	l.Print("late")
	if len(l.followers) != 0 {
		t.Error("the follower is still registered")
	}
}

func TestLongLine(t *testing.T) {
	var out bytes.Buffer
	l := New(&out, Trace)
	l.Print(strings.Repeat("x", 10*MaxLine))
	if out.Len() > MaxLine+100 {
		t.Error(out.Len())
	}
}

func TestControlCharacters(t *testing.T) {
	var out bytes.Buffer
	l := New(&out, Warn)
	l.SetFlags(0)
	l.Print("[WARN] a\n    [ERR] forged\x1b[2J\x7f\r\tb")
	l.Print("[INFO] a\n[ERR] forged")
	if out.String() != "    [WARN] a\n    |     [ERR] forged?[2J??\tb\n" {
		t.Errorf("%q", out.String())
	}
}

// Syslog receives the lines that are written, with Serf's severities, and without their time and level.
func TestSyslog(t *testing.T) {
	path := filepath.Join(t.TempDir(), "log")
	syslogd, err := net.ListenUnixgram("unixgram", &net.UnixAddr{Name: path, Net: "unixgram"})
	testkit.Must(t, err)
	defer syslogd.Close()
	l := New(&bytes.Buffer{}, Debug)
	l.Print("[ERR] too early")
	end, err := l.ToSyslog("unixgram", path, "local3")
	testkit.Must(t, err)
	for _, line := range []string{"[TRACE] x", "[DEBUG] a: b", "[INFO] serf: [WARN] c", "none", "[WARN] d\n[ERR] e", "[ERR] f"} {
		l.Print(line)
	}
	l.SetLevel(Trace)
	l.Print("[TRACE] g")
	end()
	// local3 is 19 * 8.
	for _, want := range []string{"<158> a: b", "<157> serf: [WARN] c", "<157> none", "<156> d | [ERR] e", "<155> f", "<159> g"} {
		buffer := make([]byte, 1024)
		count, err := syslogd.Read(buffer)
		got := string(buffer[:count])
		head, text, _ := strings.Cut(want, " ")
		if err != nil || !strings.HasPrefix(got, head) || !strings.HasSuffix(strings.TrimSpace(got), text) ||
			!strings.Contains(got, " serf[") {
			t.Errorf("%q: %q %v", want, got, err)
		}
	}
	for _, bad := range [][2]string{{path, "local9"}, {path + ".none", "local0"}} {
		if _, err := l.ToSyslog("unixgram", bad[0], bad[1]); err == nil {
			t.Error(bad)
		}
	}
}

// A line for systemd's journal begins with its priority, and has no time. Another output has neither.
func TestJournal(t *testing.T) {
	file, err := os.Create(filepath.Join(t.TempDir(), "out"))
	testkit.Must(t, err)
	defer file.Close()
	info, err := file.Stat()
	testkit.Must(t, err)
	stat := info.Sys().(*syscall.Stat_t)
	for stream, want := range map[string]bool{
		fmt.Sprint(stat.Dev, ":", stat.Ino): true, fmt.Sprint(stat.Dev, ":", stat.Ino+1): false, "": false, "x": false,
	} {
		t.Setenv("JOURNAL_STREAM", stream)
		if IsJournal(file) != want || IsJournal(&bytes.Buffer{}) {
			t.Error(stream)
		}
	}
	t.Setenv("JOURNAL_STREAM", fmt.Sprint(stat.Dev, ":", stat.Ino))
	l := New(file, Trace)
	for _, line := range []string{"[TRACE] a", "[DEBUG] b", "[INFO] c", "d", "[WARN] e\nf", "[ERR] g"} {
		l.Print(line)
	}
	l.SetFlags(0)
	l.Print("[ERR] a line without a time")
	want := "<7>[TRACE] a\n<7>[DEBUG] b\n<6>[INFO] c\n<6>d\n<4>[WARN] e\n<4>| f\n<3>[ERR] g\n<3>[ERR] a line without a time\n"
	if text := testkit.Read(t, file.Name()); text != want {
		t.Errorf("%q", text)
	}
	if text := Sentence(file, "x"); text != "<3>x" || Sentence(&bytes.Buffer{}, "x") != "x" {
		t.Error(text)
	}
}

// Lines whose kind is named are limited too, whether they are written or only kept.
func TestNamedKinds(t *testing.T) {
	for _, level := range []Level{Info, Warn} {
		var out testkit.Output
		l := New(&out, level)
		l.interval = time.Hour
		for i := 0; i < 3*maxLines; i++ {
			l.LimitedLazyf("agent: Received event without a handler", "[INFO] agent: Received event: %s", fmt.Sprint("x", i))
			l.Lazyf("[INFO] agent: Received event: %s", "deploy")
		}
		kept := strings.Join(linesForFollower(l, Info), "\n")
		if count := strings.Count(kept, ": x"); count != maxLines || strings.Count(kept, ": deploy") != 3*maxLines {
			t.Error(level, count, kept)
		}
		if written := strings.Count(out.String(), "Received event"); written != strings.Count(kept, "Received event") && level == Info ||
			written > 0 && level == Warn {
			t.Error(level, written)
		}
		l.endInterval("agent: Received event without a handler")
		says := fmt.Sprint(2*maxLines, " more lines of this kind were left out within 1h0m0s, the latest: agent: Received event: x29")
		if out.Has(says) != (level == Info) {
			t.Error(level, &out)
		}
	}
}

// linesForFollower returns the lines that are kept for a new follower.
func linesForFollower(l *Log, level Level) (lines []string) {
	f := l.Follow(level)
	defer f.Close()
	for len(f.Lines) > 0 {
		lines = append(lines, <-f.Lines)
	}
	return lines
}

// In a flood, the lines of one kind are limited, and lines of other kinds aren't. After the interval, one line has the
// number of lines that were left out.
func TestLimits(t *testing.T) {
	var out testkit.Output
	l := New(&out, Info)
	l.SetFlags(0)
	l.interval = time.Hour
	const flood = 3 * maxLines
	for i := 0; i < flood; i++ {
		l.Printf("[WARN] memberlist: Got ping for unexpected node 'x%d' from=%d", i, i)
		l.Printf("[WARN] serf: Name conflict for 'x%d'", i)
		l.Printf("[INFO] serf: EventMemberJoin: x%d 127.0.0.1", i)
		l.Printf("[WARN] agent: the handler %d", i)
	}
	for what, want := range map[string]int{
		"Got ping": maxLines, "Name conflict": maxLines, "EventMemberJoin": flood, "the handler": flood,
	} {
		if count := strings.Count(out.String(), what); count != want {
			t.Error(what, count)
		}
	}
	l.endInterval("memberlist: Got ping for")
	if says := fmt.Sprint(
		"[WARN] agent: ", flood-maxLines,
		" more lines of this kind were left out within 1h0m0s, the latest: memberlist: Got ping for unexpected node 'x29'",
	); !out.Has(says) {
		t.Error(out.String())
	}
	l.Print("[WARN] memberlist: Got ping for unexpected node again")
	if !out.Has("node again") {
		t.Error("a kind stays limited after its interval")
	}
	l.SetLevel(Debug)
	for i := 0; i < flood; i++ {
		l.Print("[DEBUG] memberlist: detail")
		l.Printf("[INFO] memberlist: kind%d", i*maxKinds)
	}
	if count := strings.Count(out.String(), "detail"); count != flood {
		t.Error("lines of the level debug are limited:", count)
	}
	for i := 0; i < 2*maxKinds; i++ {
		l.Printf("[INFO] memberlist: other%d", i)
	}
	if len(l.limits) != maxKinds+1 {
		t.Error("the number of kinds is not limited:", len(l.limits))
	}
}
