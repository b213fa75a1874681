package handlers

import (
	"fmt"
	"io"
	"os/exec"
	"path/filepath"
	"strings"
	"testing"
	"time"

	"kitchenrue.example/agent/internal/testkit"
	"kitchenrue.example/serf"
)

// startEarlierHandler starts a process as a handler of an earlier life, which runs until end is called.
func startEarlierHandler(t *testing.T) (process serf.HandlerProcess, end func()) {
	t.Helper()
	command := exec.Command("/bin/sh", "-c", "read line")
	input, err := command.StdinPipe()
	testkit.Must(t, err)
	testkit.Must(t, command.Start())
	process, err = serf.ProcessOf("before", command.Process.Pid)
	testkit.Must(t, err)
	var once bool
	end = func() {
		if !once {
			once = true
			input.Close()
			_ = command.Wait()
		}
	}
	t.Cleanup(end)
	return process, end
}

// cutOffIn returns an event of an earlier life whose handler was cut off while this process ran it.
func cutOffIn(name string, process serf.HandlerProcess) serf.UnfinishedEvent {
	e := unfinishedEvent(name, "a", 1)
	e.Process = &process
	return e
}

// A handler for an event that was cut off waits until the earlier handler has ended, so that the two never run at the
// same time.
func TestEarlierHandlerIsAwaited(t *testing.T) {
	t.Parallel()
	for _, kind := range []string{"rerun", "unfinished"} {
		process, end := startEarlierHandler(t)
		ran := filepath.Join(t.TempDir(), "ran")
		r, tracker, output := trackedRunner(t, time.Minute, kind+":deploy=echo ran >"+ran)
		r.Resume([]serf.UnfinishedEvent{cutOffIn("deploy", process), unfinishedEvent("deploy", "gone", 2)})
		testkit.Eventually(t, "it waits", func() bool {
			return output.Has("what runs for it now waits for its end") || strings.Contains(tracker.list(), "again")
		})
		time.Sleep(3 * earlierCheckInterval)
		if calls := tracker.list(); calls != "done gone =cut-off =cut-off" || exists(ran) {
			t.Errorf("it ran while the earlier handler did: %s", calls)
		}
		if !output.Has(fmt.Sprintf("this runs when its process %d, which is still running, has ended: \"echo ran", process.PID)) ||
			r.StillRunning() != 1 || r.Unfinished() != 2 {
			t.Error(output, r.StillRunning(), r.Unfinished())
		}
		end()
		tracker.waitUntil(t, fmt.Sprintf("done gone =cut-off =cut-off, again a, done a before=cut-off %s:echo=0", kind))
		if !exists(ran) || output.Has("[ERR]") {
			t.Error(output)
		}
		r.Close(time.Minute)
	}
}

// If the earlier handler is still running after the timeout, the agent reports that and runs nothing for the event. If the
// agent ends meanwhile, the event stays open.
func TestEarlierHandlerThatDoesNotEnd(t *testing.T) {
	t.Parallel()
	process, _ := startEarlierHandler(t)
	r, tracker, output := trackedRunner(t, 200*time.Millisecond, "rerun:deploy=echo ran")
	r.Resume([]serf.UnfinishedEvent{cutOffIn("deploy", process)})
	tracker.waitUntil(t, "done a before=still-running")
	if !output.Has(fmt.Sprintf("is still running as process %d after 200ms, and nothing runs for it", process.PID)) ||
		output.Has("output: ran") {
		t.Error(output)
	}
	r.Close(time.Minute)

	r, tracker, output = trackedRunner(t, 0, "rerun:deploy=echo ran")
	r.Resume([]serf.UnfinishedEvent{cutOffIn("deploy", process)})
	testkit.Eventually(t, "it waits", func() bool { return output.Has("waits for its end") })
	r.Close(time.Minute)
	if calls := tracker.list(); calls != "" {
		t.Error(calls)
	}
}

// If nothing runs for the event, the agent reports whether the earlier handler is still running.
func TestEarlierHandlerIsReported(t *testing.T) {
	t.Parallel()
	process, end := startEarlierHandler(t)
	for _, isRunning := range []bool{true, false} {
		r, tracker, output := trackedRunner(t, 0, "user:deploy=echo ran")
		r.Resume([]serf.UnfinishedEvent{cutOffIn("deploy", process)})
		status, says, count := "still-running", fmt.Sprintf(
			"before the handler did; its process %d is still running, and it isn't run again\n", process.PID,
		), int64(1)
		if !isRunning {
			status, says, count = "cut-off", "before the handler did; it isn't run again\n", 0
		}
		tracker.waitUntil(t, "done a before="+status)
		if !output.Has(says) || r.StillRunning() != count {
			t.Error(output)
		}
		r.Close(time.Minute)
		end()
	}
}

// The process of each handler of a user event is recorded while it is running, with the handler's name. Processes of
// handlers of other events aren't recorded.
func TestProcessesAreRecorded(t *testing.T) {
	t.Parallel()
	pids := filepath.Join(t.TempDir(), "pids")
	r, tracker, output := trackedRunner(t, 0, "user:deploy,unfinished:deploy=echo $$ >>"+pids, "query=true", "rerun:deploy=exec true")
	r.Add(&serf.Query{Name: "load"})
	r.Add(userEventOf("deploy", "a"))
	r.Resume([]serf.UnfinishedEvent{unfinishedEvent("deploy", "b", 1)})
	tracker.waitUntil(t, "begin a, done a echo=0 true-2=0, again b, done b =cut-off unfinished:echo=0 rerun:true-2=0")
	r.Close(time.Minute)
	var names, found []string
	for _, process := range tracker.processes {
		names = append(names, process.Handler)
		if strings.HasSuffix(process.Handler, "echo") {
			found = append(found, fmt.Sprint(process.PID))
		}
		if !process.IsOfThisBoot() || process.Start == 0 {
			t.Errorf("%+v", process)
		}
	}
	if fmt.Sprint(names) != "[echo true-2 unfinished:echo rerun:true-2]" || strings.Join(found, "\n")+"\n" != testkit.Read(t, pids) {
		t.Error(names, found, testkit.Read(t, pids), output)
	}
}

// The status of a script is its exit status, or a word for how else it ended.
func TestStatuses(t *testing.T) {
	t.Parallel()
	for script, want := range map[string]string{
		"true": "true=0", "exit 3": "exit=3", "kill -9 $$": "kill=signal-9", "sleep 100": "sleep=timed-out",
		"true " + strings.Repeat("x", 200000): "true=not-started",
	} {
		timeout := time.Minute
		if script == "sleep 100" {
			timeout = 100 * time.Millisecond
		}
		r, tracker, _ := trackedRunner(t, timeout, "user="+script)
		r.log.SetOutput(io.Discard)
		r.Add(userEventOf("deploy", "a"))
		tracker.waitUntil(t, "begin a, done a "+want)
		r.Close(time.Minute)
	}
}
