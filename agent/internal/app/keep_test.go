package app

import (
	"context"
	"fmt"
	"os"
	"path/filepath"
	"strings"
	"testing"
	"time"

	"kitchenrue.example/agent/internal/testkit"
)

// restartedNode is a node b that writes handled events to a file. All its lives have the same snapshot and address.
type restartedNode struct {
	*App
	t                *testing.T
	args             []string
	handled, address string
}

// startRestarted starts b with these flags. It joins the node at this address, if there is one.
func startRestarted(t *testing.T, address string, words ...string) *restartedNode {
	folder := t.TempDir()
	b := &restartedNode{t: t, handled: filepath.Join(folder, "handled")}
	b.args = append(
		[]string{"-node", "b", "-snapshot", filepath.Join(folder, "snapshot"), "-event-handler", "user=(cat; echo) >> " + b.handled},
		words...,
	)
	b.start(address)
	t.Cleanup(func() { b.Close() })
	return b
}

func (b *restartedNode) start(address string) {
	b.t.Helper()
	words := append([]string(nil), b.args...)
	if address != "" {
		words = append(words, "-join", address)
	}
	if b.address != "" {
		words = append(words, "-bind", b.address)
	}
	b.App, _ = startApp(b.t, words...)
	b.address = b.node.Memberlist().LocalNode().Address()
	testkit.Must(b.t, b.JoinAtStart(context.Background()))
}

// waitForHandled waits until the file of handled events ends with this one, and returns the words in the file.
func (b *restartedNode) waitForHandled(last string) string {
	b.t.Helper()
	found := ""
	testkit.Eventually(b.t, last, func() bool {
		text, err := os.ReadFile(b.handled)
		found = strings.Join(strings.Fields(string(text)), " ")
		return err == nil && strings.HasSuffix(found, last)
	})
	return found
}

func fire(t *testing.T, a *App, payload string) {
	t.Helper()
	testkit.Must(t, a.Fire("x", []byte(payload), false))
}

// With -keep-events, events that were fired while the agent was down are handled after its restart. The first join of
// its first life ignores old events.
func TestEventsMissedWhileDown(t *testing.T) {
	for _, test := range []struct {
		words []string
		want  string
	}{{[]string{"-keep-events"}, "present missed back"}, {nil, "present back"}} {
		// (an event of this size is too long to be gossiped. Otherwise, it could reach b while b still joins)
		a, _ := startApp(t, "-config-file", testkit.Write(t, filepath.Join(t.TempDir(), "limit"), `{"user_event_size_limit": 2000}`))
		address := a.node.Memberlist().LocalNode().Address()
		fire(t, a, strings.Repeat("old", 500))
		b := startRestarted(t, address, test.words...)
		fire(t, a, "present")
		b.waitForHandled("present")
		testkit.Check(t, b.Close())
		fire(t, a, "missed")
		b.start(address)
		if test.words != nil {
			b.waitForHandled("missed")
		}
		fire(t, a, "back")
		// Without the flag, the snapshot's rejoin, which ignores nothing, may be faster than the join that ignores old
		// events.
		if found := b.waitForHandled("back"); found != test.want && (test.words != nil || found != "present missed back") {
			t.Errorf("%v: %q", test.words, found)
		}
		a.Close()
	}
}

// With -keep-events, an event with a time below the snapshot's last line is handled after a restart if it was not
// handed out before, and no event is handled twice.
func TestEventBelowLastLine(t *testing.T) {
	for _, test := range []struct {
		word, want string
	}{{"-keep-events", "own1 own2 early late"}, {"-replay", "own1 own2 late"}} {
		a, _ := startApp(t)
		address := a.node.Memberlist().LocalNode().Address()
		fire(t, a, "early")
		b := startRestarted(t, "", test.word)
		fire(t, b.App, "own1")
		fire(t, b.App, "own2")
		b.waitForHandled("own2")
		for i := 0; i < 2; i++ {
			testkit.Check(t, b.Close())
			b.start(address)
		}
		testkit.Eventually(t, "a received b's clock", func() bool { return a.Stats()["serf"]["event_time"] != "2" })
		if strings.Contains(test.want, "early") {
			b.waitForHandled("early")
		}
		fire(t, a, "late")
		if found := b.waitForHandled("late"); found != test.want {
			t.Errorf("%s: %q", test.word, found)
		}
		a.Close()
	}
}

// A life resumes if its snapshot shows an event's time or another member.
func TestResumedLife(t *testing.T) {
	for text, want := range map[string]bool{
		"": false, "clock: 3\n": false, "alive: b 127.0.0.1:1\n": false, "alive: c 127.0.0.1:1\n": true, "event-clock: 3\n": true,
		"event-clock: 03\n#event 3 61 \n": true, "#least event-clock: 1\n": true, "#event-clock: 3\n": false,
	} {
		path := filepath.Join(t.TempDir(), "snapshot")
		for _, keeps := range []string{"-keep-events", "-keep-events=false"} {
			writeSnapshot(t, path, text)
			b, _ := startApp(t, "-node", "b", "-snapshot", path, keeps)
			if b.ignoresOld() == (want && keeps == "-keep-events") {
				t.Errorf("%q, %s: %v", text, keeps, b.ignoresOld())
			}
			b.Close()
		}
	}
}

// writeSnapshot writes a snapshot, and records for tests/library/snapshot_lives.py that the test itself wrote it. The
// next life on this snapshot has another record than the lives before.
func writeSnapshot(t testing.TB, path, text string) {
	t.Helper()
	testkit.Write(t, path, text)
	beginRecord(path)
	folder := os.Getenv("KITCHENRUE_LIVES")
	if folder == "" {
		return
	}
	resolved, err := filepath.EvalSymlinks(path)
	testkit.Must(t, err)
	file, err := os.OpenFile(filepath.Join(folder, "notes"), os.O_WRONLY|os.O_CREATE|os.O_APPEND, 0o600)
	testkit.Must(t, err)
	_, err = fmt.Fprintf(file, "changed %d %s\n", time.Now().UnixNano(), resolved)
	testkit.Must(t, err)
	testkit.Must(t, file.Close())
}
