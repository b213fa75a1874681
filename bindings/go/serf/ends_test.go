package serf

import (
	"errors"
	"fmt"
	"net"
	"path/filepath"
	"reflect"
	"strings"
	"testing"
	"time"

	"kitchenrue.example/serfagent"
)

// failureCauses has a function for each method of the agent that may fail. The function makes a node call that method.
// (A node calls CloseDue every second anyway.)
var failureCauses = map[string]func(t *testing.T, a *testNode){
	"TakeAll":         func(t *testing.T, a *testNode) { a.delegate().NotifyMsg([]byte("\x03\x80")) },
	"Merge":           func(t *testing.T, a *testNode) { a.delegate().MergeRemoteState([]byte("\x02\x80"), false) },
	"ObserveMember":   func(t *testing.T, a *testNode) { a.delegate().NotifyMsg(intentPacket(t, 9, "b", false)) },
	"NextMemberTime":  func(t *testing.T, a *testNode) { _ = a.RemoveFailedNode("b") },
	"SaveMemberClock": func(t *testing.T, a *testNode) { a.memberLines.add("alive: b 127.0.0.1:1\n") },
	"CompactWith":     func(t *testing.T, a *testNode) { a.memberLines.rewriteAll() },
	"CloseDue":        func(t *testing.T, a *testNode) {},
}

// withSnapshotFile adds a snapshot file for the members to a node that uses a test's agent.
func withSnapshotFile(t *testing.T, path string) option {
	t.Helper()
	writeFile(t, path, "")
	file, _, err := openSnapshot(path, false, plainLines{t, path})
	must(t, err)
	return func(o *nodeOptions) { o.file = file }
}

// If any call returns an error that means that the agent is closed, the node ends, and Fault returns the reason.
func TestEachFileErrorEndsNode(t *testing.T) {
	for call, cause := range failureCauses {
		for _, fault := range []error{serfagent.Empty, fmt.Errorf("test: %w", serfagent.ErrFull)} {
			f := &failingAgent{call: call, err: fault}
			f.failures.Store(1 << 40)
			a := startNode(t, "a", "", withAgent(f), withSnapshotFile(t, filepath.Join(t.TempDir(), "file")))
			cause(t, a)
			promptly(t, "the end after "+call, func() { <-a.ShutdownCh() })
			if err := a.Fault(); !errors.Is(err, fault) || a.State() != SerfShutdown {
				t.Error(call, err, a.State())
			}
			if err := a.UserEvent("x", nil, false); err != ErrEnded {
				t.Error(call, err)
			}
		}
	}
}

// If memory runs out, the node continues and processes later packets. The node hands out the events that a merge had
// accepted before memory ran out.
func TestNodeSurvivesOutOfMemory(t *testing.T) {
	for call, cause := range failureCauses {
		path, logs := filepath.Join(t.TempDir(), "file"), &logBuffer{}
		f := &failingAgent{call: call, err: serfagent.OutOfMemory}
		f.failures.Store(1)
		a := startNode(t, "a", "", withAgent(f), withSnapshotFile(t, path), withLog(logs))
		cause(t, a)
		eventually(
			t, call+" runs out of memory", func() bool { return f.failures.Load() < 0 || f.failures.Load() == 0 && call != "CompactWith" },
		)
		a.delegate().NotifyMsg([]byte("\x03\x80"))
		a.delegate().NotifyJoin(nodeB())
		eventually(t, call+": an event is delivered", func() bool { return len(a.payloads("fake")) == 1 })
		eventually(t, call+": a member is written", func() bool { return strings.Contains(readFile(t, path), "alive: b 127.0.0.9:1\n") })
		if err := a.UserEvent("x", nil, false); err != nil || a.Fault() != nil {
			t.Error(call, err, a.Fault())
		}
		text := logs.String()
		if call == "TakeAll" && !strings.Contains(text, "1 packets were not processed") ||
			call == "Merge" && !strings.Contains(text, "a state was not processed") {
			t.Error(call, text)
		}
		if merged := len(a.payloads("merged")); (merged == 1) != (call == "Merge") {
			t.Error(call, merged)
		}
		if call == "SaveMemberClock" && !strings.Contains(readFile(t, path), "alive: b 127.0.0.1:1\n") {
			t.Errorf("the line is lost: %q", readFile(t, path))
		}
	}
}

// A flood of intents that can't be processed because memory runs out does not delay events.
func TestFailingIntentsDoNotDelayEvents(t *testing.T) {
	f := &failingAgent{call: "ObserveMember", err: serfagent.OutOfMemory}
	f.failures.Store(1 << 40)
	a := startNode(t, "a", "", withAgent(f))
	word := intentPacket(t, 9, "b", false)
	f.onObserve = func(uint64) { a.delegate().NotifyMsg(word) }
	a.agentMu.Lock()
	a.delegate().NotifyMsg(word)
	a.delegate().NotifyMsg([]byte("\x03\x80"))
	a.agentMu.Unlock()
	eventually(t, "the event is delivered", func() bool { return len(a.payloads("fake")) == 1 })
}

// Events that were handed out are delivered during Shutdown, before ShutdownCh is closed. After that nothing is accepted or fired.
func TestShutdown(t *testing.T) {
	f, logs := &fakeAgent{}, &logBuffer{}
	// (the reader gets the processor late if the machine is busy)
	a := startNode(t, "a", "", withAgent(f), withLog(logs), func(o *nodeOptions) { o.endGrace = patience })
	var want []string
	for i := 0; i < 10; i++ {
		want = append(want, fmt.Sprint(i))
		must(t, a.UserEvent("x", []byte(want[i]), false))
	}
	for i := 0; i < 2; i++ {
		if err := a.Shutdown(); err != nil || a.State() != SerfShutdown || a.Fault() != nil {
			t.Error(err, a.State(), a.Fault())
		}
	}
	<-a.ShutdownCh()
	eventually(t, "all are delivered", func() bool { return reflect.DeepEqual(a.payloads("x"), want) })
	a.delegate().NotifyMsg([]byte("\x03\x80"))
	a.delegate().MergeRemoteState([]byte("\x02\x80"), false)
	for i := 0; i < 1000; i++ {
		if err := a.UserEvent("x", nil, false); err != ErrEnded {
			t.Fatal(err)
		}
	}
	_, queryErr := a.Query("x", nil, nil)
	_, joinErr := a.Join([]string{"127.0.0.1:1"}, false)
	if queryErr != ErrEnded || joinErr != ErrLeft || a.RemoveFailedNode("b") != ErrEnded || a.Leave() != ErrEnded {
		t.Error(queryErr, joinErr)
	}
	if len(a.firings.waiting) > 0 || f.time != 10 || strings.Contains(logs.String(), "never received") {
		t.Error(len(a.firings.waiting), f.time, logs.String())
	}
}

// Firings that wait when the node ends are refused.
func TestShutdownRefusesWaitingFirings(t *testing.T) {
	a, results := startNode(t, "a", "", withAgent(&fakeAgent{})), make(chan error)
	a.agentMu.Lock()
	for i := 0; i < 3; i++ {
		go func() { results <- a.UserEvent("x", nil, false) }()
	}
	eventually(t, "all are waiting", func() bool { return a.waitingFirings() == 3 })
	a.isEnded = true
	a.agentMu.Unlock()
	for i := 0; i < 3; i++ {
		select {
		case err := <-results:
			if err != ErrEnded {
				t.Error(err)
			}
		case <-time.After(time.Minute):
			t.Fatal("a firing is still waiting")
		}
	}
}

// If a member of the snapshot accepts a connection and never answers, it does not delay Shutdown. The node does not
// look up its name.
func TestShutdownDoesNotWaitForJoin(t *testing.T) {
	silent, err := net.ListenTCP("tcp", &net.TCPAddr{IP: net.IPv4(127, 0, 0, 1)})
	must(t, err)
	defer silent.Close()
	_ = silent.SetDeadline(time.Now().Add(2 * time.Minute))
	folder := t.TempDir()
	writeFile(t, filepath.Join(folder, "a"), fmt.Sprintf("alive: b/c.invalid %s\n", silent.Addr()))
	a := startNode(t, "a", folder, func(o *nodeOptions) { o.MemberlistConfig.TCPTimeout = time.Hour })
	conn, err := silent.Accept()
	must(t, err)
	defer conn.Close()
	promptly(t, "Shutdown", func() { _ = a.Shutdown() })
}

// If nobody receives the events, the node ends half a second after Shutdown, and logs how many were not received.
func TestShutdownWithoutReader(t *testing.T) {
	logs := &logBuffer{}
	a := startNode(t, "a", "", withAgent(&fakeAgent{}), withLog(logs))
	a.pauseReading(true)
	for i := 0; i < 10; i++ {
		must(t, a.UserEvent("x", nil, false))
	}
	promptly(t, "Shutdown", func() { _ = a.Shutdown() })
	count, text := 0, logs.String()
	if at := strings.Index(text, " events were handed out but never received"); at > 0 {
		fmt.Sscan(text[strings.LastIndex(text[:at], " "):], &count)
	}
	// (the reader may have received the node's own join before)
	if count < 10 || count > 11 {
		t.Error(text)
	}
}

// starvedSource has one outcome. Reading it fails as often as failures says, and then succeeds.
type starvedSource struct{ failures int }

func (h *starvedSource) UnreadOutcomes() (int, error) {
	if h.failures < 0 {
		return 0, nil
	}
	return 1, nil
}

func (h *starvedSource) Outcomes() ([]serfagent.Outcome, error) {
	if h.failures--; h.failures >= 0 {
		return nil, serfagent.OutOfMemory
	}
	return []serfagent.Outcome{{Err: serfagent.NoMessage}}, nil
}

// If memory runs out while a node reads outcomes, the node tries again until it has read all of them.
func TestOutcomesAreReadEventually(t *testing.T) {
	for failures := 0; failures < 4; failures++ {
		if found, err := readOutcomes(&starvedSource{failures}, make([]serfagent.Outcome, 2), serfagent.OutOfMemory); len(found) != 3 ||
			err != serfagent.OutOfMemory {
			t.Error(failures, found, err)
		}
	}
	if found, err := readOutcomes(&starvedSource{}, nil, nil); len(found) != 0 || err != nil {
		t.Error(found, err)
	}
}

// mergeRunsOut is an agent whose merges run out of memory after one event.
type mergeRunsOut struct{ *fakeAgent }

func (mergeRunsOut) Merge([]byte, bool) ([]*serfagent.Event, error) {
	return []*serfagent.Event{{Time: 3, Name: "merged", Payload: []byte("x"), Coalesce: true}}, serfagent.OutOfMemory
}

// If a merge runs out of memory, the node hands out the events that the merge accepted before that, with the right
// value of Coalesce.
func TestMergeThatRunsOutOfMemory(t *testing.T) {
	a := startNode(t, "a", "", withAgent(mergeRunsOut{&fakeAgent{}}))
	a.delegate().MergeRemoteState([]byte("\x02\x80"), false)
	eventually(t, "the event is delivered", func() bool { return len(a.payloads("merged")) == 1 })
	a.mu.Lock()
	defer a.mu.Unlock()
	for _, e := range a.received {
		if e, ok := e.(UserEvent); ok && !e.Coalesce {
			t.Error("the event lost its mark for coalescing:", e)
		}
	}
}

// If a node ends by itself, the last line of its log is an error that says why. Serf's command exits with status 0 in
// that case, so the exit status doesn't show it.
func TestLogSaysWhyNodeEnded(t *testing.T) {
	logs := &logBuffer{}
	a := startNode(t, "a", "", withAgent(&fakeAgent{receiveErr: fmt.Errorf("/file: %w", serfagent.ErrFull)}), withLog(logs))
	a.delegate().NotifyMsg([]byte{3})
	promptly(t, "the node ends", func() { <-a.ShutdownCh() })
	var errs []string
	lines := strings.Split(strings.TrimSpace(logs.String()), "\n")
	for _, line := range lines {
		if strings.Contains(line, "[ERR]") && strings.Contains(line, "/file: the disk is full") {
			errs = append(errs, line)
		}
	}
	if len(errs) != 2 || !reflect.DeepEqual(errs[1], lines[len(lines)-1]) {
		t.Error(lines)
	}
}
