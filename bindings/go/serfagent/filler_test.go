package serfagent

import (
	"bytes"
	"errors"
	"fmt"
	"os"
	"os/exec"
	"os/signal"
	"path/filepath"
	"strings"
	"syscall"
	"testing"
)

// storeOn writes a file with this data and opens a store on it. The store prepares filler bytes of filler at a time.
func storeOn(t *testing.T, path, data string, filler int64) *Store {
	t.Helper()
	if err := os.WriteFile(path, []byte(data), 0o600); err != nil {
		t.Fatal(err)
	}
	return openAgain(t, path, filler)
}

// openAgain opens a store on an existing file. The store prepares filler bytes of filler at a time.
func openAgain(t *testing.T, path string, filler int64) *Store {
	t.Helper()
	store, err := OpenStore(path)
	if err != nil {
		t.Fatal(err)
	}
	store.filler = fillerOf(filler)
	return store
}

func fileText(t *testing.T, path string) string {
	t.Helper()
	data, err := os.ReadFile(path)
	if err != nil {
		t.Fatal(err)
	}
	return string(data)
}

// checkFile checks that a file has this text, followed by this many bytes of filler.
func checkFile(t *testing.T, path, text string, filler int) {
	t.Helper()
	want := text
	if filler > 0 {
		want += strings.Repeat("#", filler-1) + "\n"
	}
	if found := fileText(t, path); found != want {
		t.Fatalf(
			"%d bytes %q..%q, want %d with %d bytes of filler", len(found), found[:len(found)/2], found[len(found)/2:], len(want), filler,
		)
	}
}

func (s *Store) mustAppend(t *testing.T, lines string) {
	t.Helper()
	if err := s.Append([]byte(lines)); err != nil {
		t.Fatal(err)
	}
}

// New lines overwrite the filler, so the file keeps its length. If there isn't enough filler, the store removes it, and
// writes new filler after the next lines. It never leaves filler that is only a newline.
func TestLinesOverFiller(t *testing.T) {
	path := filepath.Join(t.TempDir(), "file")
	store := storeOn(t, path, "", 20)
	defer store.Close()
	text := ""
	for _, step := range []struct {
		lines string
		left  int
	}{
		{"clock: 1\n", 20}, {"clock: 2\n", 11}, {"clock: 3\n", 2}, {"clock: 4\n", 20}, {"0123456789abcdefg\n", 2},
		{"clock: 5\n", 20}, {"0123456789abcdefgh\n", 20}, {strings.Repeat("long ", 100) + "\n", 20}, {"", 20},
	} {
		store.mustAppend(t, step.lines)
		text += step.lines
		checkFile(t, path, text, step.left)
		if found, err := store.Read(); err != nil || string(found) != text || store.TextSize() != int64(len(text)) {
			t.Errorf("%q: %q, %v", step.lines, found, err)
		}
		if err := store.Check(); err != nil {
			t.Error(err)
		}
	}
	if err := store.Replace([]byte("clock: 6\n")); err != nil {
		t.Fatal(err)
	}
	checkFile(t, path, "clock: 6\n", 0)
	store.mustAppend(t, "clock: 7\n")
	checkFile(t, path, "clock: 6\nclock: 7\n", 20)
	if err := store.AppendUnflushed([]byte("alive: a 1:1\n")); err != nil {
		t.Error(err)
	}
	checkFile(t, path, "clock: 6\nclock: 7\nalive: a 1:1\n", 7)
}

// A store that is closed leaves no filler. After a kill, the filler is still there, and the next store overwrites it.
func TestFillerOfAnotherLife(t *testing.T) {
	path := filepath.Join(t.TempDir(), "file")
	store := storeOn(t, path, "", 100)
	store.mustAppend(t, "clock: 1\n")
	killed := fileText(t, path)
	if err := store.Close(); err != nil {
		t.Error(err)
	}
	checkFile(t, path, "clock: 1\n", 0)
	store = storeOn(t, path, killed, 50)
	if text, err := store.Read(); err != nil || string(text) != "clock: 1\n" {
		t.Errorf("%q, %v", text, err)
	}
	store.mustAppend(t, "clock: 2\n")
	checkFile(t, path, "clock: 1\nclock: 2\n", 91)
	if err := store.Close(); err != nil {
		t.Error(err)
	}
	checkFile(t, path, "clock: 1\nclock: 2\n", 0)
}

// OpenStore reads the text of a file, and removes torn filler.
func TestTextOfAFile(t *testing.T) {
	path := filepath.Join(t.TempDir(), "file")
	long := strings.Repeat("#", 3*fillerBytes)
	for _, test := range []struct{ file, text, left string }{
		{"", "", ""},
		{"a\n", "a\n", "a\n"},
		{"a\n#\n", "a\n", "a\n#\n"},
		{"a\n###\n", "a\n", "a\n###\n"},
		{"###\n", "", "###\n"},
		{"a\n" + long + "\n", "a\n", "a\n" + long + "\n"},
		// a line that was partly written over filler, and a sealed line, are kept, although readers ignore them
		{"a\nclock: 1###\n", "a\nclock: 1###\n", "a\nclock: 1###\n"},
		{"a\nclock: 1#\n", "a\nclock: 1#\n", "a\nclock: 1#\n"},
		{"a\nclock: 1#\n###\n", "a\nclock: 1#\n", "a\nclock: 1#\n###\n"},
		{"a\n\n", "a\n\n", "a\n\n"},
		{"\n", "\n", "\n"},
		// filler without its newline
		{"a\n###", "a\n", "a\n"},
		{"a\n" + long, "a\n", "a\n"},
		{"#", "", ""},
		{"clock: 1###", "clock: 1", "clock: 1"},
		{"clock: 1", "clock: 1", "clock: 1"},
		// filler in the middle of the file is an ordinary line
		{"a\n###\nb\n", "a\n###\nb\n", "a\n###\nb\n"},
		{"a\n###\nb\n##\n", "a\n###\nb\n", "a\n###\nb\n##\n"},
	} {
		store := storeOn(t, path, test.file, 10)
		if text, err := store.Read(); err != nil || string(text) != test.text {
			t.Errorf("%.40q: %.40q, %v", test.file, text, err)
		}
		if left := fileText(t, path); left != test.left {
			t.Errorf("%.40q: an opening leaves %.40q", test.file, left)
		}
		if err := store.file.Close(); err != nil {
			t.Error(err)
		}
	}
}

// hasMeaning reports whether an agent or Serf may read something from a line. No line that they write has a `#`
// after its first byte.
func hasMeaning(line string) bool {
	for _, word := range []string{
		"clock: ", "event-clock: ", "query-clock: ", "alive: ", "not-alive: ", "leave", "coordinate: ",
		"#event ", "#query ", "#least ", "#open ", "#begun ", "#done ",
	} {
		if strings.HasPrefix(line, word) && strings.LastIndexByte(line, '#') <= 0 {
			return true
		}
	}
	return false
}

// A power cut may leave old filler in place of any run of new bytes. Even then, each line that says something was
// written whole, and the text that the next store reads begins with the flushed bytes.
func TestTornOverFiller(t *testing.T) {
	flushed := "clock: 1\nevent-clock: 011\nalive: a 1:1\n"
	lines := "event-clock: 012\n#event 12 6162 63\nalive: event 5 61 10.0.0.1:7946\nquery-clock: 7\n#query 7 12\nclock: 123456\n" +
		"#done 12 6162 63\n#least event-clock: 5\n#begun 13 61 \n#event 13 61 62\n"
	written := map[string]bool{}
	for _, line := range strings.Split(flushed+lines, "\n") {
		written[line] = true
	}
	filler := string(fillerOf(int64(len(lines)) + 5))
	path := filepath.Join(t.TempDir(), "file")
	for from := 0; from <= len(lines); from++ {
		for to := from; to <= len(lines); to++ {
			mixed := lines[:from] + filler[from:to] + lines[to:]
			if from > 40 && to%7 > 0 && to < len(lines) {
				continue
			}
			for _, line := range strings.Split(strings.TrimSuffix(mixed, "\n"), "\n") {
				if line == "" || hasMeaning(line) && !written[line] {
					t.Fatalf("%q is in %q", line, mixed)
				}
			}
			if (from+to)%11 > 0 && to < len(lines) {
				continue
			}
			store := storeOn(t, path, flushed+mixed+filler[len(lines):], 10)
			text, err := store.Read()
			if err != nil || !strings.HasPrefix(string(text), flushed) || !strings.HasSuffix(string(text), "\n") {
				t.Fatalf("%q: %q, %v", mixed, text, err)
			}
			store.mustAppend(t, "clock: 9\n")
			if left := fileText(t, path); !strings.HasPrefix(left, string(text)+"clock: 9\n") {
				t.Fatalf("%q: %q", mixed, left)
			}
			store.file.Close()
		}
	}
}

// inChild runs the test in a child process. It reports whether this process is the child. If the tests run in an
// emulator of another processor, TEST_EXEC has the words that start a program in it; otherwise it is empty.
func inChild(t *testing.T) bool {
	t.Helper()
	if os.Getenv("IN_CHILD") != "" {
		signal.Ignore(syscall.SIGXFSZ)
		return true
	}
	words := append(strings.Fields(os.Getenv("TEST_EXEC")), os.Args[0], "-test.run", "^"+t.Name()+"$")
	child := exec.Command(words[0], words[1:]...)
	child.Env = append(os.Environ(), "IN_CHILD=1")
	if said, err := child.CombinedOutput(); err != nil {
		t.Errorf("%v: %s", err, said)
	}
	return false
}

// limitFiles limits the size of files that this process writes, so that the disk seems full.
func limitFiles(t *testing.T, size uint64) {
	t.Helper()
	var limit syscall.Rlimit
	if err := syscall.Getrlimit(syscall.RLIMIT_FSIZE, &limit); err != nil {
		t.Fatal(err)
	}
	limit.Cur = size
	if err := syscall.Setrlimit(syscall.RLIMIT_FSIZE, &limit); err != nil {
		t.Fatal(err)
	}
}

// If a disk has room for a line but not for filler, the line is appended. If the disk has no room for the line either,
// the store is broken.
func TestFullDiskWithoutFiller(t *testing.T) {
	if !inChild(t) {
		return
	}
	path := filepath.Join(t.TempDir(), "file")
	store := storeOn(t, path, "", 1000)
	defer store.Close()
	limitFiles(t, 100)
	text := ""
	for len(text) < 90 {
		store.mustAppend(t, "clock: 1\n")
		text += "clock: 1\n"
		checkFile(t, path, text, 0)
	}
	// (the shorter text leaves more room, so the store tries to write filler again)
	if err := store.Replace([]byte("clock: 2\n")); err != nil {
		t.Fatal(err)
	}
	store.mustAppend(t, "clock: 3\n")
	checkFile(t, path, "clock: 2\nclock: 3\n", 0)
	if err := store.Append([]byte(strings.Repeat("a", 90) + "\n")); !errors.Is(err, ErrFull) {
		t.Error(err)
	}
	limitFiles(t, 10000)
	if err := store.Append([]byte("clock: 5\n")); !errors.Is(err, ErrBroken) {
		t.Error(err)
	}
	if found := fileText(t, path); !strings.HasPrefix(found, "clock: 2\nclock: 3\n") || strings.Contains(found, "clock: 5") {
		t.Errorf("%q", found)
	}
}

// If the disk had no room for filler, the store writes filler again when the file is replaced.
func TestFillerAfterAFullDisk(t *testing.T) {
	if !inChild(t) {
		return
	}
	path := filepath.Join(t.TempDir(), "file")
	store := storeOn(t, path, "", 1000)
	defer store.Close()
	limitFiles(t, 500)
	store.mustAppend(t, "clock: 1\n")
	checkFile(t, path, "clock: 1\n", 0)
	limitFiles(t, 10000)
	store.mustAppend(t, "clock: 2\n")
	checkFile(t, path, "clock: 1\nclock: 2\n", 0)
	if err := store.Replace([]byte("clock: 2\n")); err != nil {
		t.Fatal(err)
	}
	store.mustAppend(t, "clock: 3\n")
	checkFile(t, path, "clock: 2\nclock: 3\n", 1000)
}

// If the appended bytes don't end with a newline, the store writes no filler after them, so that the next bytes
// continue the line.
func TestBytesWithinALine(t *testing.T) {
	path := filepath.Join(t.TempDir(), "file")
	store := storeOn(t, path, "", 100)
	defer store.Close()
	store.mustAppend(t, "clock: 1\n")
	store.mustAppend(t, "clo")
	checkFile(t, path, "clock: 1\nclo", 0)
	store.mustAppend(t, "ck: 2\n")
	checkFile(t, path, "clock: 1\nclock: 2\n", 100)
}

// If somebody else changes the file's length, the store writes nothing more, and the file stays as it is. If somebody
// overwrites the filler, Check finds that.
func TestFileOfAnother(t *testing.T) {
	folder := t.TempDir()
	for name, change := range map[string]func(text string) string{
		"longer":  func(text string) string { return text + "clock: 9\n" },
		"shorter": func(text string) string { return text[:4] },
		"empty":   func(string) string { return "" },
		"filler":  func(text string) string { return strings.Replace(text, "#########", "clock: 9\n", 1) },
		"older":   func(text string) string { return strings.Replace(text, "clock: 2\n", "#########", 1) },
	} {
		path := filepath.Join(folder, name)
		store := storeOn(t, path, "", 100)
		store.mustAppend(t, "clock: 1\nclock: 2\n")
		if err := store.Check(); err != nil {
			t.Error(name, err)
		}
		left := change(fileText(t, path))
		if err := os.WriteFile(path, []byte(left), 0o600); err != nil {
			t.Fatal(err)
		}
		if err := store.Check(); !errors.Is(err, ErrChanged) || !strings.Contains(err.Error(), path) {
			t.Error(name, err)
		}
		if name != "filler" && name != "older" {
			for _, want := range []error{ErrChanged, ErrBroken} {
				if err := store.Append([]byte("clock: 3\n")); !errors.Is(err, want) {
					t.Error(name, err)
				}
			}
		}
		if err := store.Close(); err != nil {
			t.Error(name, err)
		}
		want := left
		if name == "filler" || name == "older" {
			want = strings.TrimRight(strings.TrimSuffix(left, "\n"), "#")
		}
		if found := fileText(t, path); found != want {
			t.Errorf("%s: %q is left of %q", name, found, left)
		}
	}
}

// The file has an agent's lines and the host's own lines in the order in which they were appended, in front of the
// filler. The next life opens on these lines.
func TestLinesOfTheHost(t *testing.T) {
	path := filepath.Join(t.TempDir(), "file")
	for life := 0; life < 2; life++ {
		agent, err := Open("a", path, DefaultSettings())
		if err != nil {
			t.Fatal(err)
		}
		for i := 0; i < 3; i++ {
			if _, _, err := agent.Fire("e", nil, false); err != nil {
				t.Fatal(err)
			}
			if err := agent.AppendLines([]byte(fmt.Sprintf("alive: m%d.%d 1:1\n", life, i))); err != nil {
				t.Fatal(err)
			}
		}
		killed := fileText(t, path)
		text := strings.TrimRight(strings.TrimSuffix(killed, "\n"), "#")
		if size := agent.TextSize(); size != int64(len(text)) || len(killed) != len(text)+fillerBytes-overwrittenBytes(life, len(text)) {
			t.Errorf("%d bytes, of which %d are text, and not %d", len(killed), len(text), size)
		}
		if err := agent.Check(); err != nil {
			t.Error(err)
		}
		if err := agent.Close(); err != nil {
			t.Error(err)
		}
		if found := fileText(t, path); found != text {
			t.Errorf("%q is left of %q", found, text)
		}
		if err := os.WriteFile(path, []byte(killed), 0o600); err != nil {
			t.Fatal(err)
		}
	}
	want := ""
	for i := 1; i <= 6; i++ {
		want += fmt.Sprintf("event-clock: %d\nalive: m%d.%d 1:1\n", i, (i-1)/3, (i-1)%3)
	}
	if text := fileText(t, path); !strings.HasPrefix(text, want) || bytes.Count([]byte(text), []byte("\n")) != 13 {
		t.Errorf("%.300q", text)
	}
}

// overwrittenBytes returns how many bytes of the first filler the lines have overwritten. In either life, these are all bytes of
// the text except those of its first line.
func overwrittenBytes(life, text int) int { return text - len("event-clock: 1\n") }
