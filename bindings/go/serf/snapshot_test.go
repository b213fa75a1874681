package serf

import (
	"errors"
	"fmt"
	"os"
	"path/filepath"
	"strings"
	"testing"
	"time"

	"kitchenrue.example/serfagent"
)

// writeFile replaces the content of a file, and records that the test did so.
func writeFile(t *testing.T, path, text string) {
	t.Helper()
	must(t, os.WriteFile(path, []byte(text), 0o600))
	recordChange(t, "changed", path)
}

// recordChange records for tests/library/snapshot_lives.py that a test itself changes a file. "changed" means that the test
// has written the file, and "killed" that the test will later restore the file's present content.
func recordChange(t *testing.T, what, path string) {
	t.Helper()
	folder := os.Getenv("KITCHENRUE_LIVES")
	if folder == "" {
		return
	}
	moment := time.Now().UnixNano()
	resolved, err := filepath.EvalSymlinks(path)
	must(t, err)
	file, err := os.OpenFile(filepath.Join(folder, "notes"), os.O_WRONLY|os.O_CREATE|os.O_APPEND, 0o600)
	must(t, err)
	_, err = fmt.Fprintf(file, "%s %d %s\n", what, moment, resolved)
	must(t, err)
	must(t, file.Close())
}

func readFile(t *testing.T, path string) string {
	t.Helper()
	data, err := os.ReadFile(path)
	must(t, err)
	return string(data)
}

// readText returns the text of a file without its filler.
func readText(t *testing.T, path string) string {
	t.Helper()
	text := readFile(t, path)
	if kept := strings.TrimRight(strings.TrimSuffix(text, "\n"), "#"); len(kept)+1 < len(text) &&
		(kept == "" || strings.HasSuffix(kept, "\n")) {
		return kept
	}
	return text
}

// plainLines appends lines to the end of a file, as an agent without filler does.
type plainLines struct {
	t    *testing.T
	path string
}

func (p plainLines) AppendLines(lines []byte) error {
	file, err := os.OpenFile(p.path, os.O_WRONLY|os.O_APPEND, 0)
	if err != nil {
		return err
	}
	defer file.Close()
	_, err = file.Write(lines)
	return err
}

func (p plainLines) TextSize() int64 { return fileSize(p.t, p.path) }
func (p plainLines) Check() error    { return nil }

func TestPreviousNodes(t *testing.T) {
	for _, test := range []struct {
		text              string
		rejoinsAfterLeave bool
		want              string
	}{
		{"", false, "[]"},
		{"alive: a 1.2.3.4:5\nclock: 3\n", false, "[a: 1.2.3.4:5]"},
		{"alive: a 1:1\nalive: b 2:2\nnot-alive: a\n", false, "[b: 2:2]"},
		{"alive: a 1:1\nalive: b 2:2\nalive: a 3:3\n", false, "[a: 3:3 b: 2:2]"},
		{"alive: a b 1:1\nnot-alive: a\n", false, "[a b: 1:1]"},
		{"alive: a 1:1\nleave\nalive: b 2:2\n", false, "[b: 2:2]"},
		{"alive: a 1:1\nleave\n", true, "[a: 1:1]"},
		{"alive: a\nalive:  1:1\nalive: \n# alive: c 1:1\ncoordinate: {}\nxalive: d 1:1\n", false, "[]"},
		{"alive: a 1:1\nalive: b 2:", false, "[b: 2: a: 1:1]"},
		{"alive: a 1:1\nalive: a 2:2###\nalive: b 2:#\nalive: c# 3:3\nnot-alive: a##\n", false, "[c#: 3:3 a: 1:1]"},
	} {
		alive := aliveMembers{rejoinsAfterLeave: test.rejoinsAfterLeave, addrs: map[string]string{}}
		must(t, readLines(strings.NewReader(test.text), alive.applyLine))
		if found := fmt.Sprint(alive.previousNodes()); found != test.want {
			t.Errorf("%q: %s", test.text, found)
		}
	}
}

func TestCompaction(t *testing.T) {
	path := filepath.Join(t.TempDir(), "file")
	writeFile(t, path, "alive: a 1:1\nevent-clock: 3\n")
	f, _, err := openSnapshot(path, false, plainLines{t, path})
	must(t, err)
	defer f.close()
	lines := []string{"alive: a 1:1\n", "alive: b 2:2\n"}
	for !f.shouldCompact(lines) {
		must(t, f.appendMemberLines("alive: b 2:2\n", "not-alive: b\n"))
	}
	if size := len(readFile(t, path)); size < snapshotLimit || size > snapshotLimit+100 {
		t.Error(size)
	}
	// the function library replaces the file under the same name, as the proved library does
	replaceFile := func() error {
		if text := readFile(t, path+".members"); text != strings.Join(lines, "") {
			t.Errorf("the file of the members has %q", text)
		}
		writeFile(t, path+".new", "event-clock: 3\n")
		return os.Rename(path+".new", path)
	}
	must(t, f.compact(lines, replaceFile))
	must(t, f.appendMemberLines("not-alive: b\n"))
	if text := readFile(t, path); text != "event-clock: 3\nalive: a 1:1\nalive: b 2:2\nnot-alive: b\n" {
		t.Errorf("%q", text)
	}
	if _, err := os.Stat(path + ".members"); !errors.Is(err, os.ErrNotExist) {
		t.Error(err)
	}
}

// shouldCompact assumes that the library's lines are as long as after the last replacement, so the node doesn't replace
// a file with kept events needlessly.
func TestCompactionWithKeptEvents(t *testing.T) {
	path := filepath.Join(t.TempDir(), "file")
	kept := "event-clock: 03\n" + strings.Repeat("#event 3 61 62\n", snapshotLimit/15)
	writeFile(t, path, kept+kept)
	f, _, err := openSnapshot(path, false, plainLines{t, path})
	must(t, err)
	defer f.close()
	lines := []string{"alive: a 1:1\n"}
	if !f.marksOldEvents || !f.shouldCompact(lines) {
		t.Error("the file does not mark old events, or needs no compaction")
	}
	replaceFile := func() error {
		writeFile(t, path+".new", kept)
		return os.Rename(path+".new", path)
	}
	must(t, f.compact(lines, replaceFile))
	size, left := len(kept)+len(lines[0]), len(kept)+len(lines[0])
	for ; size < 2*left; size += len(lines[0]) {
		if f.shouldCompact(lines) {
			t.Fatalf("%d bytes, of which a compaction leaves %d", size, left)
		}
		must(t, f.appendMemberLines(lines...))
	}
	if !f.shouldCompact(lines) {
		t.Errorf("%d bytes, of which a compaction leaves %d", size, left)
	}
}

// A crash at any point of a compaction loses neither clocks nor members.
func TestCrashesDuringCompaction(t *testing.T) {
	for name, left := range map[string]struct{ file, members string }{
		"before the library":           {"alive: a 1:1\nevent-clock: 3\n", "alive: a 1:1\n"},
		"after the library":            {"event-clock: 3\n", "alive: a 1:1\n"},
		"after the members":            {"event-clock: 3\nalive: a 1:1\n", "alive: a 1:1\n"},
		"in the middle of the members": {"event-clock: 3\nalive: a", "alive: a 1:1\n"},
	} {
		path := filepath.Join(t.TempDir(), "file")
		writeFile(t, path, left.file)
		writeFile(t, path+".members", left.members)
		// (when the library opens the file, it ends a partly written line with a newline)
		if !strings.HasSuffix(left.file, "\n") {
			writeFile(t, path, left.file+"\n")
		}
		f, found, err := openSnapshot(path, false, plainLines{t, path})
		must(t, err)
		f.close()
		if fmt.Sprint(found) != "[a: 1:1]" || !strings.Contains(readFile(t, path), "event-clock: 3\n") {
			t.Errorf("%s: %v", name, found)
		}
		if _, err := os.Stat(path + ".members"); !errors.Is(err, os.ErrNotExist) {
			t.Errorf("%s: %v", name, err)
		}
		f, found, err = openSnapshot(path, false, plainLines{t, path})
		if err != nil || fmt.Sprint(found) != "[a: 1:1]" {
			t.Errorf("%s: opened again: %v %v", name, found, err)
		}
		f.close()
	}
}

func TestSnapshotErrors(t *testing.T) {
	folder := t.TempDir()
	if _, _, err := openSnapshot(filepath.Join(folder, "none"), false, nil); !errors.Is(err, os.ErrNotExist) {
		t.Error(err)
	}
	if _, _, err := openSnapshot(folder, false, plainLines{t, folder}); err == nil {
		t.Error("a folder was opened as a file")
	}
	path := filepath.Join(folder, "file")
	writeFile(t, path, "")
	f, _, err := openSnapshot(path, false, plainLines{t, path})
	must(t, err)
	defer f.close()
	bad := []string{"alive: a\x00b 1:1\n", "alive: a 1:1\r\n", "alive: a\nevent-clock: 9 1:1\n", "alive: a 1:1", "", "\n\n"}
	if err := f.appendMemberLines(bad...); err != nil || readFile(t, path) != "" {
		t.Errorf("%q %v", readFile(t, path), err)
	}
	failed := errors.New("failed")
	if err := f.compact([]string{"alive: a 1:1\n"}, func() error { return failed }); !errors.Is(err, failed) {
		t.Error(err)
	}
	if _, found, err := openSnapshot(path, false, plainLines{t, path}); err != nil || fmt.Sprint(found) != "[a: 1:1]" {
		t.Error(found, err)
	}
}

func TestIsOldEventMark(t *testing.T) {
	for text, want := range map[string]bool{
		"": false, "clock: 3\nalive: a 1:1\n": false, "event-clock: 3\n": true, "clock: 1\n#least event-clock: 9\n": true,
		"query-clock: 2\n": false, "#event-clock: 3\n": false,
	} {
		found := false
		if err := readLines(strings.NewReader(text), func(line string) { found = found || isOldEventMark(line) }); err != nil ||
			found != want {
			t.Errorf("%q %v", text, err)
		}
	}
}

// The file of the members is removed only after its lines are on the disk. (A pipe accepts bytes, but can't be synced.)
func TestMembersFileStaysUntilSync(t *testing.T) {
	reader, writer, err := os.Pipe()
	must(t, err)
	defer reader.Close()
	path := filepath.Join(t.TempDir(), "file")
	writeFile(t, path, "")
	f := &snapshotFile{path: path, lines: plainLines{t, path}, file: writer}
	defer f.close()
	writeFile(t, f.membersPath(), "alive: a 1:1\n")
	if err := f.appendMembers([]byte("alive: a 1:1\n")); err == nil {
		t.Error("no error, although the lines are not on the disk")
	}
	if text := readFile(t, f.membersPath()); text != "alive: a 1:1\n" {
		t.Errorf("%q", text)
	}
}

// If the last life keeps the file locked for a moment, the node waits for it. If another node has locked the file, the
// node stops waiting after the timeout.
func TestLockedFileIsAwaited(t *testing.T) {
	path := filepath.Join(t.TempDir(), "file")
	for tries := 0; tries < 5; tries++ {
		store, err := serfagent.OpenStore(path)
		must(t, err)
		if _, _, err := openWhenUnlocked("a", path, serfagent.DefaultSettings()); !errors.Is(err, serfagent.ErrLocked) {
			t.Fatal(err)
		}
		closed := make(chan error)
		time.AfterFunc(lockTimeout/10, func() { closed <- store.Close() })
		agent, _, err := openWhenUnlocked("a", path, serfagent.DefaultSettings())
		<-closed
		if err == nil {
			_ = agent.Close()
			return
		}
		// (on a busy machine, the lock may have been released too late)
		t.Log(err)
	}
	t.Error("the lock was released in time, but the file was not opened")
}
