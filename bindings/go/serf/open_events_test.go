package serf

import (
	"bytes"
	"fmt"
	"os"
	"path/filepath"
	"strings"
	"testing"
	"time"

	"kitchenrue.example/serfagent"
)

// withTracking makes a node track handlers. The test calls Begin and Done.
func withTracking(o *nodeOptions) { o.TrackHandlers, o.EventBuffer = true, 8 }

// unfinished lists the events that a node's earlier lives left open: their names, with a `+` for each time that the
// handler began.
func (n *testNode) unfinished() string {
	var names []string
	for _, e := range n.Unfinished() {
		name := e.Name
		if e.HasBegun {
			name += "+"
		}
		if e.HasBegunAgain {
			name += "+"
		}
		names = append(names, name)
	}
	return strings.Join(names, " ")
}

// fireNew fires an event, and returns it as it was handed out.
func (n *testNode) fireNew(name string, payload []byte) UserEvent {
	n.t.Helper()
	time, err := n.Fire(name, payload, false)
	must(n.t, err)
	return UserEvent{LTime: time, Name: name, Payload: payload}
}

// waitForLines waits until the file has all lines about handlers. (While another goroutine uses the agent, Done leaves its
// lines to appendDeferredLines.)
func (n *testNode) waitForLines() {
	n.t.Helper()
	eventually(n.t, "the lines about handlers are in the file", func() bool {
		n.agentMu.Lock()
		defer n.agentMu.Unlock()
		n.openEvents.mu.Lock()
		defer n.openEvents.mu.Unlock()
		return len(n.openEvents.lines) == 0 && len(n.openEvents.skipped) == 0
	})
}

// kill ends a node as SIGKILL would: nothing more is written to the file. It returns the file's text.
func (n *testNode) kill() string {
	n.t.Helper()
	n.agentMu.Lock()
	recordChange(n.t, "killed", n.snapshot.path)
	text := readFile(n.t, n.snapshot.path)
	n.agentMu.Unlock()
	check(n.t, n.Shutdown())
	must(n.t, os.WriteFile(n.snapshot.path, []byte(text), 0o600))
	return text
}

// Unfinished returns exactly the events that earlier lives handed out and did not finish, in order, and says whether
// the handler of each had begun.
func TestUnfinishedEvents(t *testing.T) {
	folder := t.TempDir()
	a := startNode(t, "a", folder, withTracking)
	done, begun, waiting := a.fireNew("done", nil), a.fireNew("begun", []byte("v1")), a.fireNew("waiting", []byte{0, 0xff})
	must(t, a.Begin(done))
	must(t, a.Done(done))
	must(t, a.Begin(begun))
	for what, err := range map[error]error{
		a.Begin(done): ErrNotOpen, a.Done(done): ErrNotOpen, a.Begin(begun): ErrAlreadyBegun, a.BeginAgain(waiting): ErrNotBegun,
		a.Begin(UserEvent{LTime: 9, Name: "waiting"}): ErrNotOpen, a.BeginAgain(done): ErrNotOpen,
	} {
		if what != err {
			t.Errorf("%v, and not %v", what, err)
		}
	}
	if stats := a.Stats(); stats["events_open"] != "2" {
		t.Error(stats["events_open"])
	}
	a.kill()

	a = startNode(t, "a", folder, withTracking)
	if found := a.unfinished(); found != "begun+ waiting" {
		t.Fatalf("%q", found)
	}
	if e := a.Unfinished()[1].UserEvent; fmt.Sprint(e) != fmt.Sprint(waiting) || !bytes.Equal(e.Payload, waiting.Payload) ||
		e.LTime != waiting.LTime {
		t.Error(e)
	}
	if err := a.Begin(begun); err != ErrAlreadyBegun {
		t.Error("an event began in two lives:", err)
	}
	must(t, a.BeginAgain(begun))
	if err := a.BeginAgain(begun); err != ErrAlreadyBegun {
		t.Error("an event began three times:", err)
	}
	must(t, a.Begin(waiting))
	a.kill()

	a = startNode(t, "a", folder, withTracking)
	if found := a.unfinished(); found != "begun++ waiting+" {
		t.Fatalf("%q", found)
	}
	if err := a.BeginAgain(begun); err != ErrAlreadyBegun {
		t.Error("an event began again in two lives:", err)
	}
	for _, e := range a.Unfinished() {
		must(t, a.Done(e.UserEvent))
	}
	a.waitForLines()
	a.kill()
	a = startNode(t, "a", folder, withTracking)
	if found := a.unfinished(); found != "" {
		t.Errorf("%q", found)
	}
	check(t, a.Shutdown())
}

// After Shutdown was called, Begin and RecordProcess return an error, but Done still works for the handlers that are
// running.
func TestDoneDuringShutdown(t *testing.T) {
	folder := t.TempDir()
	a := startNode(t, "a", folder, withTracking)
	running, waiting := a.fireNew("running", nil), a.fireNew("waiting", nil)
	must(t, a.Begin(running))
	// (Shutdown sets this first, and writes to the file last)
	a.agentMu.Lock()
	a.isEnded = true
	a.agentMu.Unlock()
	if err := a.Begin(waiting); err != ErrEnded {
		t.Error(err)
	}
	if err := a.RecordProcess(running, HandlerProcess{"deploy", 4711, 12345, "0d-1"}); err != ErrEnded {
		t.Error(err)
	}
	check(t, a.Done(running))
	a.agentMu.Lock()
	a.isEnded = false
	a.agentMu.Unlock()
	check(t, a.Shutdown())
	if err := a.Done(waiting); err != ErrEnded {
		t.Error(err)
	}
	a = startNode(t, "a", folder, withTracking)
	if found := a.unfinished(); found != "waiting" {
		t.Errorf("%q", found)
	}
}

// With one replacement of the file, a compaction keeps the open events and how often the handler of each began. It also
// keeps open events that left the window long ago.
func TestOpenEventsOverCompactions(t *testing.T) {
	folder := t.TempDir()
	payload := bytes.Repeat([]byte("z"), 400)
	left := ""
	for life := 0; life < 3; life++ {
		a := startNode(t, "a", folder, withTracking)
		if found := a.unfinished(); found != left {
			t.Fatalf("life %d: %q, and not %q", life, found, left)
		}
		compactions, size := 0, int64(0)
		for i := 0; i < 600; i++ {
			e := a.fireNew(fmt.Sprintf("e%d-%d", life, i), payload)
			switch i % 200 {
			case 17:
				must(t, a.Begin(e))
				left = strings.TrimSpace(left + " " + e.Name + "+")
			case 18:
				left += " " + e.Name
			default:
				must(t, a.Begin(e))
				must(t, a.Done(e))
			}
			if i%100 == 99 {
				must(t, a.useAgent(a.writeMemberLines))
			}
			a.waitForLines()
			now := textSize(t, a.snapshot.path)
			if now < size {
				compactions++
				checkCompacted(t, readFile(t, a.snapshot.path), left)
			}
			size = now
		}
		if compactions == 0 {
			t.Error("the file was never compacted")
		}
		a.kill()
	}
	a := startNode(t, "a", folder, withTracking)
	for _, e := range a.Unfinished() {
		must(t, a.Done(e.UserEvent))
	}
	must(t, a.useAgent(func() error { return a.snapshot.compact(nil, a.compactLibrary) }))
	if text := readFile(t, a.snapshot.path); strings.Contains(text, "#open") || strings.Contains(text, "#begun") {
		t.Error(text)
	}
}

// namesOfOpen lists open events: the names, with `+` if the handler began.
func namesOfOpen(events []serfagent.OpenEvent) string {
	var names []string
	for _, e := range events {
		name := e.Name
		if e.HasBegun {
			name += "+"
		}
		names = append(names, name)
	}
	return strings.Join(names, " ")
}

// checkCompacted checks that the events in left are open according to a text that begins with the lines of a
// compaction.
func checkCompacted(t *testing.T, text, wantOpen string) {
	t.Helper()
	events, isTracked, err := serfagent.OpenEventsOf([]byte(text))
	must(t, err)
	if found := namesOfOpen(events); !isTracked || found != wantOpen {
		t.Errorf("%q, and not %q", found, wantOpen)
	}
	if strings.Count(text, "#open ") < strings.Count(wantOpen, " ") {
		t.Error("open events are missing in the text of the compaction")
	}
}

// If a file is cut off at any byte after the last flush, an event is open if its `#done` line is cut, and not open if
// that line is whole. A flushed `#begun` line is never lost.
func TestCutOffLines(t *testing.T) {
	folder := t.TempDir()
	a := startNode(t, "a", folder, withTracking)
	first, second := a.fireNew("first", nil), a.fireNew("second", []byte("v2"))
	must(t, a.Begin(first))
	must(t, a.Begin(second))
	// (agentMu is held so that no other goroutine appends lines)
	a.agentMu.Lock()
	flushed := textSize(t, a.snapshot.path)
	check(t, a.Done(second))
	check(t, a.appendWaitingLines())
	afterSecond := textSize(t, a.snapshot.path)
	check(t, a.Done(first))
	check(t, a.appendWaitingLines())
	text := readText(t, a.snapshot.path)
	a.agentMu.Unlock()
	check(t, a.Shutdown())
	// (the `#ran` line follows the `#done` line)
	afterFirst := len(text) - len(ranLine(keyOf(first), nil))
	afterSecond -= int64(len(ranLine(keyOf(second), nil)))
	if !strings.HasSuffix(text[:afterSecond], "#done 2 7365636f6e64 7632\n") || afterSecond <= flushed ||
		!strings.HasSuffix(text[:afterFirst], "#done 1 6669727374 \n") {
		t.Fatalf("%q", text)
	}
	path := filepath.Join(folder, "cut")
	for length := int(flushed); length <= len(text); length++ {
		writeFile(t, path, text[:length])
		agent, err := serfagent.Open("a", path, (&Config{KeepEvents: true, EventBuffer: 8, QueryBuffer: 8}).agentSettings())
		must(t, err)
		check(t, agent.Close())
		left := "first+ second+"
		if int64(length) >= afterSecond {
			left = "first+"
		}
		if length >= afterFirst {
			left = ""
		}
		events, isTracked, err := serfagent.OpenEventsOf([]byte(readFile(t, path)))
		if found := namesOfOpen(events); err != nil || !isTracked || found != left {
			t.Errorf("%d of %d bytes: %q, and not %q, %v", length, len(text), found, left, err)
		}
	}
}

// watchedAgent calls a function after each replacement of the file.
type watchedAgent struct {
	Agent
	onCompacted func()
}

func (w *watchedAgent) CompactWith(lines []byte) error {
	err := w.Agent.CompactWith(lines)
	w.onCompacted()
	return err
}

// The file that a compaction writes already has the open events, so a crash right after the replacement loses none of
// them.
func TestCompactionIsOneStep(t *testing.T) {
	var left string
	watched := &watchedAgent{}
	a := startNode(t, "a", t.TempDir(), withTracking, func(o *nodeOptions) {
		o.Wrap = func(agent Agent, _ Opening) (Agent, error) {
			watched.Agent, watched.onCompacted = agent, func() { left = readFile(t, o.SnapshotPath) }
			return watched, nil
		}
	})
	must(t, a.Begin(a.fireNew("open", nil)))
	must(t, a.useAgent(func() error { return a.snapshot.compact(a.members.aliveLines(), a.compactLibrary) }))
	checkCompacted(t, left, "open+")
	checkCompacted(t, readFile(t, a.snapshot.path), "open+")
}

// fullLines is a lineAppender that refuses all lines, as if the disk were full.
type fullLines struct{ lineAppender }

func (fullLines) AppendLines([]byte) error { return serfagent.ErrFull }

// If the `#begun` line can't be written or flushed, Begin returns an error and the node ends.
func TestBeginOnAFailedDisk(t *testing.T) {
	for _, what := range []string{"write", "flush"} {
		a := startNode(t, "a", t.TempDir(), withTracking, func(o *nodeOptions) { o.snapshotCheckInterval = time.Hour })
		e := a.fireNew("deploy", nil)
		// (after this line, no other goroutine uses the file)
		eventually(t, "the node's own line is written", func() bool { return strings.Contains(readFile(t, a.snapshot.path), "alive: a ") })
		reader, writer, err := os.Pipe()
		must(t, err)
		defer reader.Close()
		a.agentMu.Lock()
		if what == "write" {
			a.snapshot.lines = fullLines{a.snapshot.lines}
		} else {
			// (a pipe can't be flushed)
			a.snapshot.file = writer
		}
		a.agentMu.Unlock()
		if err := a.Begin(e); err == nil || err == ErrEnded {
			t.Errorf("%s: %v", what, err)
		}
		<-a.ShutdownCh()
		if a.Fault() == nil {
			t.Errorf("%s: Fault returns nil", what)
		}
		if err := a.Begin(e); err == nil {
			t.Error("a handler began after the end")
		}
	}
}

// A life without TrackHandlers forgets the open events, and logs how many there were. The events that this life handles
// are not open in a later life with TrackHandlers.
func TestLifeWithoutTracking(t *testing.T) {
	folder := t.TempDir()
	a := startNode(t, "a", folder, withTracking)
	a.fireNew("open", nil)
	a.kill()
	log := &logBuffer{}
	a = startNode(t, "a", folder, withKeptEvents, withLog(log), func(o *nodeOptions) { o.EventBuffer = 8 })
	if logged := log.String(); !strings.Contains(logged, "1 events that an earlier life was handed") {
		t.Error(logged)
	}
	a.fireNew("handled", nil)
	if err := a.Begin(UserEvent{Name: "handled"}); err != nil || a.Unfinished() != nil {
		t.Error(err)
	}
	a.kill()
	a = startNode(t, "a", folder, withTracking)
	if found := a.unfinished(); found != "" {
		t.Errorf("%q", found)
	}
}

// A node that has the maximum number of open events accepts no more until one is done.
func TestOpenEventsAreBounded(t *testing.T) {
	a := startNode(t, "a", t.TempDir(), withTracking, func(o *nodeOptions) { o.MaxOpenEvents, o.BroadcastTimeout = 2, 1 })
	first := a.fireNew("e1", nil)
	// (the node may already be waiting for its next packet, which it then accepts even without room, so the test sends
	// one that takes the last place)
	a.delegate().NotifyMsg(encode(eventMessage{LTime: 8, Name: "e2"}, eventType))
	eventually(t, "no room is left", func() bool { return len(a.payloads("e2")) == 1 && !a.pipe.hasRoom() })
	if err := a.UserEvent("e3", nil, false); err != ErrBusy {
		t.Error(err)
	}
	a.delegate().NotifyMsg(encode(eventMessage{LTime: 9, Name: "packet"}, eventType))
	if open := a.Stats()["events_open"]; a.pipe.hasRoom() || open != "2" {
		t.Errorf("there is room, and %s events are open", open)
	}
	must(t, a.Done(first))
	eventually(t, "the packet is processed", func() bool { return len(a.payloads("packet")) == 1 })
	if a.pipe.hasRoom() {
		t.Error("there is room for a third event")
	}
}

// If events of one name are coalesced, the events that are not delivered are done.
func TestCoalescedEventsAreDone(t *testing.T) {
	folder := t.TempDir()
	a := startNode(t, "a", folder, withTracking, func(o *nodeOptions) {
		o.UserCoalescePeriod, o.UserQuiescentPeriod = longPeriods().UserCoalescePeriod, longPeriods().UserQuiescentPeriod
	})
	for i := 0; i < 3; i++ {
		must(t, a.UserEvent("deploy", []byte{byte('0' + i)}, true))
	}
	must(t, a.UserEvent("other", nil, true))
	if open := a.Stats()["events_open"]; open != "2" {
		t.Error(open)
	}
	check(t, a.Shutdown())
	a = startNode(t, "a", folder, withTracking)
	if found := a.unfinished(); found != "deploy other" || string(a.Unfinished()[0].Payload) != "2" {
		t.Errorf("%q", found)
	}
}

func TestTrackingNeedsAFile(t *testing.T) {
	events := make(chan Event)
	for want, change := range map[string]func(*Config){
		"TrackHandlers: SnapshotPath must be set too": func(c *Config) { c.EventCh = events },
		"TrackHandlers: EventCh must be set too":      func(c *Config) { c.SnapshotPath = filepath.Join(t.TempDir(), "a") },
		"MaxOpenEvents: 65537 is not between 1 and 65536": func(c *Config) {
			c.EventCh, c.SnapshotPath, c.MaxOpenEvents = events, filepath.Join(t.TempDir(), "a"), 65537
		},
	} {
		c := loopbackConfig("a")
		c.TrackHandlers = true
		change(&c)
		if _, err := Create(&c); err == nil || err.Error() != want {
			t.Errorf("%v, and not %s", err, want)
		}
	}
}
