package serf

import (
	"errors"
	"fmt"
	"io"
	"os"
	"path/filepath"
	"strings"
	"testing"
	"time"
)

// withFrequentChecks makes the node check its file every millisecond.
func withFrequentChecks(o *nodeOptions) { o.snapshotCheckInterval = time.Millisecond }

// copyFile copies a file as `cp` does: it writes into the existing file with the target's name.
func copyFile(t *testing.T, from, to string) {
	t.Helper()
	writeFile(t, to, readFile(t, from))
}

// If a node's file is removed, replaced or truncated, the node ends with an error that says so, and hands out nothing more.
func TestFileChangedFromOutside(t *testing.T) {
	for what, test := range map[string]struct {
		change  func(path string) error
		wantErr string
	}{
		"rm": {os.Remove, "isn't there any more"},
		"mv": {func(path string) error { return os.Rename(path, path+".1") }, "isn't there any more"},
		"mv of its folder": {func(path string) error {
			return os.Rename(filepath.Dir(path), filepath.Dir(path)+".1")
		}, "isn't there any more"},
		"copytruncate": {func(path string) error { copyFile(t, path, path+".1"); return os.Truncate(path, 0) }, "bytes, and had"},
		// (including its filler, the older copy is as long as the present file)
		"an older copy": {func(path string) error { copyFile(t, path+".old", path); return nil }, "bytes, and had"},
		"a line after its end": {func(path string) error {
			writeFile(t, path, readFile(t, path)+"# a note\n")
			return nil
		}, "bytes, and had"},
		"a line in place of filler": {func(path string) error {
			text := readText(t, path)
			writeFile(t, path, text+"# a note\n"+readFile(t, path)[len(text)+9:])
			return nil
		}, "bytes, and had"},
		"an older copy in its place": {func(path string) error {
			copyFile(t, path+".old", path+".2")
			return os.Rename(path+".2", path)
		}, "was replaced by another file"},
		"another text that is longer": {func(path string) error {
			writeFile(t, path, strings.Repeat("# nothing\n", 4096))
			return nil
		}, "has "},
	} {
		test := test
		t.Run(what, func(t *testing.T) {
			t.Parallel()
			folder := filepath.Join(t.TempDir(), "in")
			must(t, os.Mkdir(folder, 0o700))
			a := startNode(t, "a", folder, withFrequentChecks)
			path := filepath.Join(folder, "a")
			copyFile(t, path, path+".old")
			must(t, a.UserEvent("deploy", []byte("v1"), false))
			eventually(t, "the file was checked", func() bool { return a.checkedSize() == textSize(t, path) })
			must(t, test.change(path))
			promptly(t, "the node ends", func() { <-a.ShutdownCh() })
			if err := a.Fault(); !errors.Is(err, ErrSnapshotChanged) || !strings.Contains(err.Error(), test.wantErr) ||
				!strings.Contains(err.Error(), path) {
				t.Error(err)
			}
			if err := a.UserEvent("deploy", []byte("v2"), false); err != ErrEnded {
				t.Error(err)
			}
		})
	}
}

// checkedSize returns the size of the file at the last check.
func (n *testNode) checkedSize() int64 {
	n.agentMu.Lock()
	defer n.agentMu.Unlock()
	return n.snapshot.checkedSize
}

// textSize returns how many bytes a file has in front of its filler.
func textSize(t *testing.T, path string) int64 {
	t.Helper()
	return int64(len(readText(t, path)))
}

func fileSize(t *testing.T, path string) int64 {
	t.Helper()
	info, err := os.Stat(path)
	must(t, err)
	return info.Size()
}

// The node does not report its own changes of the file: when it appends, compacts, ends and starts again. This also
// holds if the path is a symbolic link.
func TestOwnChangesOfFile(t *testing.T) {
	folder := t.TempDir()
	writeFile(t, filepath.Join(folder, "real"), "")
	must(t, os.Symlink(filepath.Join(folder, "real"), filepath.Join(folder, "a")))
	for life := 0; life < 2; life++ {
		a := startNode(t, "a", folder, withFrequentChecks, func(o *nodeOptions) { o.KeepEvents, o.LogOutput = true, io.Discard })
		for i := 0; i < 60; i++ {
			if err := a.UserEvent("deploy", []byte(fmt.Sprint(i)), false); err != nil {
				t.Fatal(err, a.Fault())
			}
			a.memberLines.add(fmt.Sprintf("alive: m%d 127.0.0.1:1\n", i))
			if i%3 > 0 {
				continue
			}
			must(t, a.useAgent(func() error { return a.snapshot.compact(a.members.aliveLines(), a.compactLibrary) }))
		}
		time.Sleep(20 * time.Millisecond)
		must(t, a.Fault())
		must(t, a.Shutdown())
	}
}

// If the file was removed since the last check, Shutdown finds that too.
func TestFileRemovedBeforeShutdown(t *testing.T) {
	folder := t.TempDir()
	a := startNode(t, "a", folder)
	must(t, os.Remove(filepath.Join(folder, "a")))
	err := a.Shutdown()
	if err == nil {
		err = a.Fault()
	}
	if !errors.Is(err, ErrSnapshotChanged) {
		t.Error(err)
	}
}
