package serf

import (
	"bytes"
	"fmt"
	"os"
	"os/exec"
	"path/filepath"
	"reflect"
	"strings"
	"testing"
	"time"

	"kitchenrue.example/serfagent"
)

// describeRuns describes the events of a snapshot's text and their handlers, with one line for each event.
func describeRuns(t *testing.T, text string) string {
	t.Helper()
	found, err := EventRunsOf([]byte(text))
	must(t, err)
	var lines strings.Builder
	for _, e := range found.Events {
		fmt.Fprintf(&lines, "%d %s: %v", e.LTime, e.Name, e.State)
		for _, run := range e.Runs {
			fmt.Fprintf(&lines, " %s=%s", run.Handler, run.Status)
		}
		if e.Process != nil {
			fmt.Fprintf(&lines, " %s %d", e.Process.Handler, e.Process.PID)
		}
		if e.HasBegunAgain {
			lines.WriteString(" again")
		}
		lines.WriteString("\n")
	}
	return lines.String()
}

// sameRuns checks the description that describeRuns returns for a snapshot's text.
func sameRuns(t *testing.T, what, text, want string) {
	t.Helper()
	if found := describeRuns(t, text); found != want {
		t.Errorf("%s:\n%s, and not\n%s", what, found, want)
	}
}

// compactNow compacts the node's file and returns the new content.
func (n *testNode) compactNow() string {
	n.t.Helper()
	must(n.t, n.useAgent(func() error { return n.snapshot.compact(n.members.aliveLines(), n.compactLibrary) }))
	return readFile(n.t, n.snapshot.path)
}

// handle calls Begin for an event, and then DoneWith with these runs.
func (n *testNode) handle(e UserEvent, runs ...HandlerRun) {
	n.t.Helper()
	must(n.t, n.Begin(e))
	must(n.t, n.DoneWith(e, runs))
}

// For each event, the file says how its handlers ended, which process runs, or that none began. This holds while the
// node runs, after a kill, and across lives and compactions.
func TestEventRuns(t *testing.T) {
	folder := t.TempDir()
	a := startNode(t, "a", folder, withTracking)
	good, bad, plain, none := a.fireNew("good", nil), a.fireNew(
		"bad", []byte{0, ' ', '\n', 0xff},
	), a.fireNew("plain", nil), a.fireNew("none", nil)
	begun, waiting := a.fireNew("begun", []byte("v1")), a.fireNew("waiting", nil)
	a.handle(good, HandlerRun{"deploy", "0"})
	a.handle(bad, HandlerRun{"deploy", "3"}, HandlerRun{"rerun:odd name=\n", RanSignal + "9"})
	a.handle(plain)
	must(t, a.Done(none))
	process := HandlerProcess{"deploy", 4711, 12345, "0d-1"}
	if err := a.RecordProcess(begun, process); err != ErrNotBegun {
		t.Error(err)
	}
	must(t, a.Begin(begun))
	must(t, a.RecordProcess(begun, HandlerProcess{"first", 1, 2, "x"}))
	must(t, a.RecordProcess(begun, process))
	for what, err := range map[error]error{
		a.RecordProcess(good, process): ErrNotOpen, a.RecordProcess(waiting, process): ErrNotBegun, a.DoneWith(good, nil): ErrNotOpen,
	} {
		if what != err {
			t.Errorf("%v, and not %v", what, err)
		}
	}
	want := "1 good: done deploy=0\n2 bad: done deploy=3 rerun:odd_name__=signal-9\n3 plain: done\n4 none: never began\n5 begun: begun deploy 4711\n6 waiting: waiting\n"
	a.waitForLines()
	sameRuns(t, "running", readFile(t, a.snapshot.path), want)
	sameRuns(t, "compacted", a.compactNow(), want)
	later := a.fireNew("later", nil)
	must(t, a.Done(later))
	must(t, a.useAgent(a.appendWaitingLines))
	sameRuns(t, "killed", a.kill(), want+"7 later: never began\n")

	a = startNode(t, "a", folder, withTracking)
	if found := a.Unfinished(); len(found) != 2 || found[0].Process == nil || *found[0].Process != process || found[1].Process != nil {
		t.Errorf("%+v", found)
	}
	must(t, a.BeginAgain(begun))
	sameRuns(t, "again", a.compactNow(), strings.Replace(want, "4711", "4711 again", 1)+"7 later: never began\n")
	must(t, a.DoneWith(begun, []HandlerRun{{"deploy", RanCutOff}, {"rerun:deploy", "0"}}))
	a.handle(waiting, HandlerRun{"deploy", RanTimedOut})
	want = strings.NewReplacer(
		"begun: begun deploy 4711", "begun: done deploy=cut-off rerun:deploy=0", "waiting: waiting", "waiting: done deploy=timed-out",
	).Replace(want) + "7 later: never began\n"
	a.waitForLines()
	sameRuns(t, "the second life", a.kill(), want)
	a = startNode(t, "a", folder, withTracking)
	sameRuns(t, "the third life", a.compactNow(), want)
	check(t, a.Shutdown())
}

// RecordProcess returns after its line is in the file, even if the node is busy, so that a kill right after that leaves
// the line.
func TestRecordProcessWaitsForItsLine(t *testing.T) {
	a := startNode(t, "a", t.TempDir(), withTracking)
	e := a.fireNew("deploy", nil)
	must(t, a.Begin(e))
	a.agentMu.Lock()
	recorded := make(chan string)
	go func() {
		err := a.RecordProcess(e, HandlerProcess{"deploy", 4711, 12345, "0d-1"})
		text, _ := os.ReadFile(a.snapshot.path)
		recorded <- fmt.Sprint(err, " ", strings.Count(string(text), "\n#process 1 6465706c6f79  deploy 4711 12345 0d-1\n"))
	}()
	select {
	case found := <-recorded:
		t.Errorf("it doesn't wait: %s", found)
	case <-time.After(100 * time.Millisecond):
	}
	a.agentMu.Unlock()
	if found := <-recorded; found != "<nil> 1" {
		t.Error(found)
	}
}

// A compaction keeps the lines of the last handled events, up to a maximum number of events and of bytes. Earlier
// handled events become unknown, and are never reported as events that did not begin.
func TestKeptRunsAreBounded(t *testing.T) {
	var runs keptRuns
	for i := 1; i <= MaxKeptRuns+3; i++ {
		runs.add(LamportTime(i), ranLine(eventKey{LamportTime(i), "n", ""}, nil))
	}
	if text := string(runs.text()); len(runs.lines) != MaxKeptRuns || !strings.HasPrefix(text, "#ran 3\n#ran 4 6e \n") ||
		len(text) != runs.bytes+len("#ran 3\n") {
		t.Error(len(runs.lines), text[:40])
	}
	long := strings.Repeat("x", 10000)
	for i := 1; i <= 100; i++ {
		// (the times decrease, since an event may be handled after a later one)
		runs.add(LamportTime(9999-i), ranLine(eventKey{LamportTime(9999 - i), long, ""}, nil))
	}
	if runs.bytes > maxKeptRunBytes || runs.bytes < maxKeptRunBytes-2*len(long)-100 || runs.completeAfter != 9998 {
		t.Error(runs.bytes, runs.completeAfter)
	}

	a := startNode(t, "a", t.TempDir(), withTracking)
	var first, last UserEvent
	for i := 0; i < MaxKeptRuns+10; i++ {
		e := a.fireNew("n", nil)
		a.handle(e, HandlerRun{"true", "0"})
		if last = e; i == 0 {
			first = e
		}
	}
	found, err := EventRunsOf([]byte(a.compactNow()))
	must(t, err)
	if len(found.Events) != MaxKeptRuns || found.Events[0].LTime != first.LTime+10 || found.Events[MaxKeptRuns-1].LTime != last.LTime {
		t.Error(len(found.Events))
	}
	// (the window has 8 times)
	if found.Minimum != last.LTime+1-8 {
		t.Error(found.Minimum, last.LTime)
	}
}

// EventRunsOf reads any text: one without lines about handlers, one of a program that does not record how handlers
// ended, and one with malformed lines.
func TestTextsOfOtherPrograms(t *testing.T) {
	lines := "#event 1 61 \n#begun 1 61 \n#done 1 61 \n#event 2 62 \n#done 2 62 \n#event 3 63 \n#begun 3 63 \n"
	for _, test := range []struct{ what, text, want string }{
		{"an empty file", "", ""},
		{"a file of Serf", "alive: a 127.0.0.1:7946\nevent-clock: 7\nclock: 3\nleave\n", ""},
		{"untracked", lines, "1 a: unknown\n2 b: unknown\n3 c: unknown\n"},
		{"without ends", "#done 0\n" + lines, "1 a: done\n2 b: unknown\n3 c: begun\n"},
		{"with ends", "#done 0\n#ran 0\n" + lines, "1 a: done\n2 b: never began\n3 c: begun\n"},
		{"with ends of later events", "#done 0\n#ran 2\n" + lines, "1 a: done\n2 b: unknown\n3 c: begun\n"},
		{"ends before the first line", "#ran 0\n#ran 1 61  x=0\n#done 0\n" + lines, "1 a: done\n2 b: unknown\n3 c: begun\n"},
		{"a window from before", "#event 1 61 \n#event 2 62 \n#done 2\n#ran 1\n#ran 1 61  x=1\n", "1 a: done x=1\n2 b: never began\n"},
		{"the last line counts", "#done 0\n" + lines + "#ran 1 61  x=1\n#ran 001 61  y=2\n", "1 a: done y=2\n2 b: unknown\n3 c: begun\n"},
		{"an open event's end", "#done 0\n" + lines + "#ran 3 63  x=1\n", "1 a: done\n2 b: unknown\n3 c: begun\n"},
		{"only its end is left", "#done 5\n#ran 0\n#ran 4 64  x=0\n", "4 d: done x=0\n"},
		{"a torn line", "#done 0\n#ran 0\n#event 1 61 \n#begun 1 61 \n#done 1 61 \n#ran 1 61  x=1", "1 a: done\n"},
		{"it is still open", "#done 5\n#open 2 62 \n#begun 2 62 \n#process 2 62  x 7 8 9\n", "2 b: begun x 7\n"},
		{
			"lines that are none",
			"#done 0\n#ran 0\n#event 1 61 \n#ran 1 61  x\n#ran 1 61  =\n#ran 1 61  x=\x1b[0m\n#ran 1 6 x=0\n#ran 0 61  x=0\n" +
				"#ran 18446744073709551615 61  x=0\n#ran\n#ran \n#ran x\n#process 1 61  x 0 1 1\n#process 1 61  x 1 1\n" +
				"#process 1 61  \x1b 1 1 1\n#begun 1 61  x\n#ran 1 61  x=0",
			"1 a: waiting\n",
		},
	} {
		sameRuns(t, test.what, test.text, test.want)
	}
	for text, minimum := range map[string]LamportTime{
		"": 1, "event-clock: 7\n": 8, "event-clock: 07\n": 1, "#least event-clock: 9\nevent-clock: 012\n": 9,
		"#least event-clock: 9\nevent-clock: 12\nevent-clock: 3\n":              13,
		"event-clock: \nevent-clock: x\n#least event-clock: \nquery-clock: 8\n": 1,
		"event-clock: 18446744073709551615\n":                                   18446744073709551615,
	} {
		if found, err := EventRunsOf([]byte(text)); err != nil || found.Minimum != minimum {
			t.Errorf("%q: %v, %v", text, found, err)
		}
	}
	if found, err := EventRunsOf([]byte("#done 0\n")); err != nil || !found.IsTracked {
		t.Error(found, err)
	}
}

// If a file is cut at any byte, it says less, but nothing false. No event that isn't done is reported as done, and no
// event whose handler began is reported as one that never began.
func TestCutTextsOfRuns(t *testing.T) {
	whole := "#done 0\n#ran 0\n#event 1 61 \n#begun 1 61 \n#process 1 61  x 7 8 9\n#done 1 61 \n#ran 1 61  x=17\n" +
		"#event 2 62 \n#begun 2 62 \n"
	allowed := map[string]bool{
		"": true, "1 a: unknown": true, "1 a: waiting": true, "1 a: begun": true, "1 a: begun x 7": true, "1 a: done": true,
		"1 a: done x=17":               true,
		"1 a: done x=17\n2 b: waiting": true, "1 a: done x=17\n2 b: begun": true,
	}
	last := ""
	for length := 0; length <= len(whole); length++ {
		last = strings.TrimSpace(describeRuns(t, whole[:length]))
		if !allowed[last] {
			t.Errorf("%q: %q", whole[:length], last)
		}
	}
	if last != "1 a: done x=17\n2 b: begun" {
		t.Error(last)
	}
}

// The library ignores the lines about runs and processes: it reads the same from a file with them as from one without
// them.
func TestLinesOfRunsAreOtherLines(t *testing.T) {
	key := eventKey{2, "bb", "\x00v"}
	with := []string{
		"#done 0\n", completeAfterLine(18446744073709551615), "clock: 3\n", "event-clock: 02\n", "#event 1 61 \n",
		ranLine(eventKey{1, "a", ""}, []HandlerRun{{"x", "0"}}), "#event 2 6262 0076\n",
		"#begun 2 6262 0076\n", processLine(key, HandlerProcess{"event-clock: 9", 1, 2, "b"}), ranLine(key, nil), "query-clock: 05\n",
		ranLine(key, []HandlerRun{{"#done 5\n", "#event 1"}}),
	}
	var without []string
	for _, line := range with {
		if !strings.HasPrefix(line, ranPrefix) && !strings.HasPrefix(line, processPrefix) {
			without = append(without, line)
		}
	}
	if len(without) != len(with)-5 {
		t.Fatal(without)
	}
	var found []string
	for _, lines := range [][]string{with, without} {
		text := strings.Join(lines, "")
		if strings.Count(text, "\n") != len(lines) {
			t.Errorf("a line is none: %q", text)
		}
		open, isTracked, err := serfagent.OpenEventsOf([]byte(text))
		must(t, err)
		path := filepath.Join(t.TempDir(), "snapshot")
		writeFile(t, path, text)
		agent, err := serfagent.Open("a", path, (&Config{KeepEvents: true, EventBuffer: 8, QueryBuffer: 8}).agentSettings())
		must(t, err)
		state, err := agent.LocalState(nil, nil)
		must(t, err)
		clocks, err := agent.Clocks()
		must(t, err)
		check(t, agent.Close())
		found = append(found, fmt.Sprintf("%+v %v %v %x", open, isTracked, clocks, state))
	}
	if found[0] != found[1] {
		t.Error(found)
	}
}

// A node can continue a file of the previous version, which does not say how handlers ended. Events that the previous
// version handled are unknown or done. For events that are handled now, the file says how their handlers ended.
func TestFileOfTheVersionBefore(t *testing.T) {
	folder := t.TempDir()
	a := startNode(t, "a", folder, withTracking)
	handled, none := a.fireNew("handled", nil), a.fireNew("none", nil)
	a.handle(handled)
	must(t, a.Done(none))
	must(t, a.useAgent(a.appendWaitingLines))
	var kept []string
	for _, line := range strings.SplitAfter(a.kill(), "\n") {
		if !strings.HasPrefix(line, ranPrefix) {
			kept = append(kept, line)
		}
	}
	writeFile(t, a.snapshot.path, strings.Join(kept, ""))
	a = startNode(t, "a", folder, withTracking)
	must(t, a.Done(a.fireNew("new", nil)))
	must(t, a.useAgent(a.appendWaitingLines))
	want := "1 handled: done\n2 none: unknown\n3 new: never began\n"
	sameRuns(t, "continued", readFile(t, a.snapshot.path), want)
	sameRuns(t, "compacted", a.compactNow(), want)
	check(t, a.Shutdown())
}

// A process that has ended is no longer running, even if its parent has not waited for it yet. A process with the same
// PID that started at another time, or in another boot of the machine, is a different process.
func TestProcesses(t *testing.T) {
	command := exec.Command("/bin/sh", "-c", "read line")
	input, err := command.StdinPipe()
	must(t, err)
	must(t, command.Start())
	process, err := ProcessOf("read", command.Process.Pid)
	must(t, err)
	if !process.IsRunning() || process.Handler != "read" || process.PID != command.Process.Pid {
		t.Errorf("%+v", process)
	}
	other := process
	if other.Start++; other.IsRunning() || !other.IsOfThisBoot() {
		t.Error("a process with another start is the same")
	}
	other = process
	if other.Boot = "another"; other.IsRunning() || other.IsOfThisBoot() {
		t.Error("a process of another boot is the same")
	}
	key := eventKey{1, "a", ""}
	read := readHandlerText([]byte("#done 0\n" + processLine(key, process))).processes[key]
	if !reflect.DeepEqual(read, process) {
		t.Error(processLine(key, process))
	}
	check(t, input.Close())
	eventually(t, "it has ended", func() bool {
		stat, _ := os.ReadFile(fmt.Sprintf("/proc/%d/stat", command.Process.Pid))
		return bytes.Contains(stat, []byte(") Z "))
	})
	if process.IsRunning() {
		t.Error("a process that has ended is running")
	}
	_ = command.Wait()
	if _, err := ProcessOf("read", command.Process.Pid); err == nil || process.IsRunning() {
		t.Error("a process that isn't there is running")
	}
}

// The name of a program may contain any character.
func TestProcessWithAnOddName(t *testing.T) {
	program := filepath.Join(t.TempDir(), "a) Z 1 (b")
	sleep, err := exec.LookPath("sleep")
	must(t, err)
	text, err := os.ReadFile(sleep)
	must(t, err)
	must(t, os.WriteFile(program, text, 0o700))
	command := exec.Command(program, "100")
	must(t, command.Start())
	process, err := ProcessOf("x", command.Process.Pid)
	if err != nil || !process.IsRunning() {
		t.Error(process, err)
	}
	check(t, command.Process.Kill())
	_ = command.Wait()
}

// Events that are done without a handler share one line if no event up to the last of their times is open. Open events
// stay open.
func TestSkippedEventsShareALine(t *testing.T) {
	for open, want := range map[int]string{
		0: "#done 4\n", 5: "#done 4\n", 1: "#done 2 6e \n#done 3 6e \n#done 4 6e \n", 3: "#done 1 6e \n#done 2 6e \n#done 4 6e \n",
		4: "#done 3\n",
	} {
		a := startNode(t, "a", t.TempDir(), withTracking)
		var events []UserEvent
		for time := 1; time <= 5; time++ {
			events = append(events, a.fireNew("n", nil))
		}
		// (the line of the node itself is appended in another goroutine, without agentMu)
		eventually(t, "the node's own line is in the file", func() bool {
			return strings.Contains(readText(t, a.snapshot.path), "alive: a ")
		})
		must(t, a.Begin(events[4]))
		if open != 5 {
			must(t, a.Done(events[4]))
		}
		// (agentMu is held so that no other goroutine appends the lines)
		a.agentMu.Lock()
		check(t, a.appendWaitingLines())
		before := readText(t, a.snapshot.path)
		for _, e := range events[:4] {
			if int(e.LTime) != open {
				check(t, a.Done(e))
			}
		}
		check(t, a.appendWaitingLines())
		text := readText(t, a.snapshot.path)
		a.agentMu.Unlock()
		if found := strings.TrimPrefix(text, before); found != want {
			t.Errorf("%d is open: %q, and not %q", open, found, want)
		}
		left, _, err := serfagent.OpenEventsOf([]byte(text))
		if err != nil || open == 0 && len(left) > 0 || open > 0 && (len(left) != 1 || left[0].Time != uint64(open)) {
			t.Errorf("%d is open: %v %v", open, left, err)
		}
		check(t, a.Shutdown())
	}
}
