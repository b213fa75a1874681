package handlers

import (
	"context"
	"errors"
	"fmt"
	"path/filepath"
	"reflect"
	"strings"
	"sync"
	"testing"
	"time"

	"kitchenrue.example/agent/internal/testkit"
	"kitchenrue.example/serf"
)

// fakeTracker lists the calls that a runner makes.
type fakeTracker struct {
	mu    sync.Mutex
	calls []string
	// processes are those that were recorded.
	processes []serf.HandlerProcess
	// err is what Begin returns, and recordErr what RecordProcess returns.
	err, recordErr error
	// onBegin and onRecord are called by Begin and RecordProcess before they return, if they are set.
	onBegin, onRecord func()
}

// call records a call of the tracker.
func (f *fakeTracker) call(name string, e serf.UserEvent) {
	f.mu.Lock()
	defer f.mu.Unlock()
	f.calls = append(f.calls, fmt.Sprintf("%s %s", name, e.Payload))
}

func (f *fakeTracker) Begin(e serf.UserEvent) error {
	f.call("begin", e)
	if f.onBegin != nil {
		f.onBegin()
	}
	return f.err
}

func (f *fakeTracker) BeginAgain(e serf.UserEvent) error {
	f.call("again", e)
	return f.err
}

func (f *fakeTracker) RecordProcess(e serf.UserEvent, process serf.HandlerProcess) error {
	f.mu.Lock()
	f.processes = append(f.processes, process)
	f.mu.Unlock()
	if f.onRecord != nil {
		f.onRecord()
	}
	return f.recordErr
}

func (f *fakeTracker) DoneWith(e serf.UserEvent, runs []serf.HandlerRun) error {
	f.mu.Lock()
	defer f.mu.Unlock()
	call := fmt.Sprintf("done %s", e.Payload)
	for _, run := range runs {
		call += " " + run.Handler + "=" + run.Status
	}
	f.calls = append(f.calls, call)
	return nil
}

// list returns the calls so far.
func (f *fakeTracker) list() string {
	f.mu.Lock()
	defer f.mu.Unlock()
	return strings.Join(f.calls, ", ")
}

// trackedRunner returns a runner with a tracker.
func trackedRunner(t *testing.T, timeout time.Duration, scripts ...string) (*Runner, *fakeTracker, *testkit.Output) {
	t.Helper()
	r, output := newRunner(t, timeout, scripts...)
	tracker := &fakeTracker{}
	r.Track(tracker)
	return r, tracker, output
}

// waitUntil waits until the tracker has recorded exactly these calls, or calls that differ from them.
func (f *fakeTracker) waitUntil(t *testing.T, calls string) {
	t.Helper()
	testkit.Eventually(t, calls, func() bool { return !strings.HasPrefix(calls, f.list()) || f.list() == calls })
	if found := f.list(); found != calls {
		t.Errorf("%q, and not %q", found, calls)
	}
}

// The scripts of an event run after Begin and before DoneWith. An event without a script is done at once, even if its
// handler was removed while the event waited. An event whose handler fails or takes too long is done too. Events that
// aren't user events aren't tracked.
func TestHandlersAreTracked(t *testing.T) {
	t.Parallel()
	ran := filepath.Join(t.TempDir(), "ran")
	r, tracker, _ := trackedRunner(t, time.Minute, "user:deploy=cat >>"+ran, "user:deploy=false", "query,member-join=true")
	r.Add(userEventOf("none", "none"))
	tracker.waitUntil(t, "done none")
	r.Add(userEventOf("deploy", "a"))
	r.Add(serf.MemberEvent{Type: serf.EventMemberJoin})
	r.Add(&serf.Query{Name: "load"})
	tracker.waitUntil(t, "done none, begin a, done a cat=0 false=1")
	r.Close(time.Minute)
	if text := testkit.Read(t, ran); text != "a\n" {
		t.Errorf("%q", text)
	}
	short, tracker, _ := trackedRunner(t, 100*time.Millisecond, "user:long=sleep 100")
	short.Add(userEventOf("long", "b"))
	tracker.waitUntil(t, "begin b, done b sleep=timed-out")
	short.Close(time.Minute)
	if r.Unfinished() != 0 || short.Unfinished() != 0 {
		t.Error(r.Unfinished(), short.Unfinished())
	}
}

// If the beginning can't be recorded, no handler runs.
func TestNoHandlerWithoutBegin(t *testing.T) {
	t.Parallel()
	for err, says := range map[error]string{serf.ErrAlreadyBegun: "no handler was run for user-event: deploy", serf.ErrEnded: ""} {
		r, tracker, output := trackedRunner(t, 0, "user:deploy=echo ran")
		tracker.err = err
		r.Add(userEventOf("deploy", "a"))
		tracker.waitUntil(t, "begin a")
		r.Close(time.Minute)
		if text := output.String(); strings.Contains(text, "ran\n") || !strings.Contains(text, says) || says == "" && text != "" ||
			tracker.list() != "begin a" {
			t.Errorf("%v: %q %s", err, text, tracker.list())
		}
	}
}

// When the agent ends, waiting events stay open, and the running handler may end. If this handler takes longer than the
// grace, its event stays open too.
func TestCloseLeavesOpen(t *testing.T) {
	t.Parallel()
	for _, test := range []struct {
		script      string
		grace       time.Duration
		calls, says string
	}{
		{
			"user=echo >FILE; while [ ! -e FILE-end ]; do sleep 0.01; done", time.Minute, "begin a, done a echo=0",
			"2 events are waiting for their handlers",
		},
		{"user=echo >FILE; sleep 100", 10 * time.Millisecond, "begin a", "it was ended, since the agent is shutting down"},
	} {
		started := filepath.Join(t.TempDir(), "started")
		r, tracker, output := trackedRunner(t, 0, strings.ReplaceAll(test.script, "FILE", started), "member-join=echo joined")
		for _, payload := range []string{"a", "b", "c"} {
			r.Add(userEventOf("deploy", payload))
		}
		r.Add(serf.MemberEvent{Type: serf.EventMemberJoin})
		testkit.Eventually(t, "the handler runs", func() bool { return exists(started) })
		closed := make(chan struct{})
		go func() {
			defer close(closed)
			r.Close(test.grace)
		}()
		// (the first handler ends only after this)
		testkit.Eventually(
			t, "the other events are left open", func() bool { return output.Has("2 events are waiting for their handlers") },
		)
		testkit.Write(t, started+"-end", "")
		<-closed
		r.Add(userEventOf("deploy", "late"))
		if found := tracker.list(); found != test.calls {
			t.Errorf("%q, and not %q", found, test.calls)
		}
		for _, says := range []string{test.says, "2 events are waiting for their handlers, which run after the next start"} {
			if !output.Has(says) {
				t.Errorf("%q has no %q", output, says)
			}
		}
		if test.grace == time.Minute && !output.Has("output: joined") {
			t.Errorf("the member event was left out: %s", output)
		}
		if count := r.Results()[NeverRun]; test.grace == time.Minute && count != 0 {
			t.Error(count)
		}
	}
}

func exists(path string) bool {
	matches, _ := filepath.Glob(path)
	return len(matches) == 1
}

// unfinishedEvent returns an event of an earlier life. begun is the number of times that its handlers began.
func unfinishedEvent(name, payload string, begun int) serf.UnfinishedEvent {
	return serf.UnfinishedEvent{
		UserEvent: serf.UserEvent{LTime: 7, Name: name, Payload: []byte(payload)}, HasBegun: begun > 0, HasBegunAgain: begun > 1,
	}
}

// After a start, handlers that never began run in the order of their events. Events that were cut off are logged, and
// the handlers with the filters unfinished and rerun run for them, once in all lives.
func TestResume(t *testing.T) {
	t.Parallel()
	ran := filepath.Join(t.TempDir(), "ran")
	write := "echo $SERF_EVENT $SERF_USER_EVENT $SERF_USER_LTIME $SERF_USER_RERUN. $(cat) >>" + ran
	r, tracker, output := trackedRunner(
		t, 0, "user:plain=echo plain; "+write, "rerun:again=echo again; "+write, "unfinished:special=echo special; "+write,
		"user:special=true",
	)
	r.Resume([]serf.UnfinishedEvent{
		unfinishedEvent("plain", "1", 1), unfinishedEvent("plain", "2", 0), unfinishedEvent("again", "3", 1),
		unfinishedEvent("again", "4", 2),
		unfinishedEvent("special", "5", 1), unfinishedEvent("special", "6", 2), unfinishedEvent("gone", "7", 0),
		unfinishedEvent("again", "8", 0),
	})
	r.Add(userEventOf("plain", "new"))
	testkit.Eventually(t, "the new event is done", func() bool { return strings.HasSuffix(tracker.list(), "done new echo=0") })
	r.Close(time.Minute)
	// (a script that runs and the rest of Resume are concurrent)
	var atOnce, inOrder []string
	for _, call := range tracker.calls {
		if strings.Contains("done 1 =cut-off, done 4 =cut-off =cut-off, done 6 =cut-off =cut-off, done 7", call) {
			atOnce = append(atOnce, call)
		} else {
			inOrder = append(inOrder, call)
		}
	}
	if found := strings.Join(inOrder, ", "); found != "begin 2, done 2 echo=0, again 3, done 3 =cut-off rerun:echo-2=0, again 5, done 5 =cut-off unfinished:echo-3=0, begin 8, done 8 echo-2=0, begin new, done new echo=0" || len(atOnce) != 4 {
		t.Error(found, atOnce)
	}
	want := "user plain 7 . 2\nuser again 7 1. 3\nunfinished special 7 . 5\nuser again 7 . 8\nuser plain 0 . new\n"
	if text := testkit.Read(t, ran); text != want {
		t.Errorf("%q, and not %q", text, want)
	}
	for _, says := range []string{
		`[WARN] agent: a handler of user-event: plain (time 7, payload "1") began, and the agent ended before the handler did; it isn't run again` + "\n",
		`a handler of user-event: again (time 7, payload "3") began, and the agent ended before the handler did; this runs now: "echo again;`,
		`a handler of user-event: again (time 7, payload "4") began, and the agent ended before the handler did; it isn't run again, since`,
		`a handler of user-event: special (time 7, payload "5") began, and the agent ended before the handler did; this runs now: "echo special;`,
		"[INFO] agent: 3 events were waiting for their handlers when the agent ended",
	} {
		if !output.Has(says) {
			t.Errorf("%q is missing in %s", says, output)
		}
	}
	if count := r.Unfinished(); count != 5 || r.Results()[CutOff] != 5 {
		t.Error(count, r.Results())
	}
}

// Only handlers can have these kinds of filters. A client's stream can't have them.
func TestFiltersOfHandlers(t *testing.T) {
	for text, want := range map[string]Filters{
		"unfinished": {{"unfinished", ""}}, "rerun:deploy,member-join": {{"rerun", "deploy"}, {"member-join", ""}},
		"unfinished:x": {{"unfinished", "x"}},
	} {
		script, err := ParseScript(text + "=true")
		if err != nil || !reflect.DeepEqual(script.Filters, want) {
			t.Error(text, script, err)
		}
		if _, err := ParseFilters(text); err == nil || strings.Contains(err.Error(), "rerun:NAME") {
			t.Error("a stream has the filter", text, err)
		}
	}
	for _, text := range []string{"rerun:=true", "unfinished:=true", "other=true"} {
		if _, err := ParseScript(text); err == nil {
			t.Error(text)
		}
	}
	event := serf.UserEvent{Name: "deploy"}
	for filter, want := range map[Filter][3]bool{
		{"*", ""}: {true, false, false}, {"user", "deploy"}: {true, false, false}, {"rerun", ""}: {true, false, true},
		{"unfinished", "deploy"}: {false, true, false}, {"rerun", "other"}: {false, false, false},
	} {
		if found := [3]bool{filter.Matches(event), filter.Matches(Unfinished{event, nil}), filter.Matches(Rerun{event})}; found != want {
			t.Error(filter, found)
		}
	}
}

// If the agent's end cuts off a script, the event stays open, and the scripts after it don't run.
func TestRunAll(t *testing.T) {
	r, _ := newRunner(t, 0, "true", "true")
	ended, cancel := context.WithCancel(context.Background())
	runs, isWhole := r.runAll(ended, r.runsFor(userEventOf("deploy", "")), nil)
	if !isWhole || fmt.Sprint(runs) != "[{true 0} {true-2 0}]" {
		t.Error("two scripts that ended are not whole", runs)
	}
	cancel()
	if runs, isWhole := r.runAll(ended, r.runsFor(userEventOf("deploy", "")), nil); isWhole || len(runs) > 0 || r.Results()[NeverRun] != 2 {
		t.Error(r.Results(), runs)
	}
	if !errors.Is(ended.Err(), context.Canceled) {
		t.Error(ended.Err())
	}
	r.Close(0)
}
