package handlers

import (
	"context"
	"errors"
	"fmt"
	"io"
	"log"
	"os"
	"os/exec"
	"path/filepath"
	"strings"
	"sync/atomic"
	"syscall"
	"testing"
	"time"

	"kitchenrue.example/agent/internal/testkit"
	"kitchenrue.example/serf"
)

// marks counts the marks that this process has made.
var marks atomic.Int64

// newMark returns a word that no other test has in its scripts.
func newMark() string { return fmt.Sprintf("mark-%d-%d-", os.Getpid(), marks.Add(1)) }

// processesWith returns the processes whose command lines contain a mark.
func processesWith(mark string) (found []string) {
	paths, _ := filepath.Glob("/proc/[0-9]*/cmdline")
	for _, path := range paths {
		if text, err := os.ReadFile(path); err == nil && strings.Contains(string(text), mark) {
			found = append(found, filepath.Dir(path))
		}
	}
	return found
}

// waitForOthers waits for as long as a script would need several times to write its file.
func waitForOthers() {
	for i := 0; i < 5; i++ {
		_ = exec.Command("/bin/sh", "-c", "sleep 0.02; : >/dev/null").Run()
	}
}

// While the beginning of an event is recorded, the shell of its first script has started, but nothing of the script
// runs. The same holds while the process of each script is recorded.
func TestScriptsWaitUntilTheyAreRecorded(t *testing.T) {
	t.Parallel()
	ran, mark := filepath.Join(t.TempDir(), "ran"), newMark()
	r, tracker, output := trackedRunner(t, 0, "user:deploy=echo first $$ >>"+ran+" # "+mark, "user:deploy=echo second $$ >>"+ran)
	var seen []string
	see := func(what string) func() {
		return func() {
			if what == "begin" {
				testkit.Eventually(t, "the shell has started", func() bool { return len(processesWith(mark)) > 0 || exists(ran) })
			}
			waitForOthers()
			text, _ := os.ReadFile(ran)
			seen = append(seen, fmt.Sprint(what, " ", strings.Count(string(text), "\n")))
		}
	}
	tracker.onBegin, tracker.onRecord = see("begin"), see("record")
	r.Add(userEventOf("deploy", "a"))
	tracker.waitUntil(t, "begin a, done a echo=0 echo-2=0")
	r.Close(time.Minute)
	if fmt.Sprint(seen) != "[begin 0 record 0 record 1]" {
		t.Error(seen, output)
	}
	want := fmt.Sprintf("first %d\nsecond %d\n", tracker.processes[0].PID, tracker.processes[1].PID)
	if text := testkit.Read(t, ran); text != want {
		t.Errorf("%q, and not %q", text, want)
	}
}

// If the beginning or the process can't be recorded, the shell is ended, and nothing of the script runs. The event then
// isn't done.
func TestNothingRunsThatIsNotRecorded(t *testing.T) {
	t.Parallel()
	for _, test := range []struct {
		err, recordErr error
		says           string
		neverRun       int64
	}{
		{
			errors.New("the disk is full"), nil,
			"[ERR] agent: no handler was run for user-event: deploy (time 0, payload \"a\"): the disk is full\n", 0,
		},
		{nil, errors.New("the disk is full"), "of user-event: deploy (time 0, payload \"a\") was not run: the disk is full\n", 2},
		{nil, serf.ErrEnded, "was not run: " + serf.ErrEnded.Error(), 2},
	} {
		ran, mark := filepath.Join(t.TempDir(), "ran"), newMark()
		r, tracker, output := trackedRunner(t, 0, "user:deploy=echo >>"+ran+" # "+mark, "user:deploy=echo >>"+ran)
		tracker.err, tracker.recordErr, tracker.onBegin = test.err, test.recordErr, waitForOthers
		r.Add(userEventOf("deploy", "a"))
		testkit.Eventually(t, test.says, func() bool { return output.Has(test.says) || exists(ran) })
		r.Close(time.Minute)
		waitForOthers()
		if found := processesWith(mark); len(found) > 0 || exists(ran) || tracker.list() != "begin a" || !output.Has(test.says) {
			t.Errorf("%+v: %v %v %s %s", test, found, exists(ran), tracker.list(), output)
		}
		if found := r.Results()[NeverRun]; found != test.neverRun {
			t.Errorf("%+v: %d", test, found)
		}
	}
}

// If the agent has to end while the beginning is recorded, the script doesn't run.
func TestShutdownWhileTheBeginningIsRecorded(t *testing.T) {
	t.Parallel()
	ran := filepath.Join(t.TempDir(), "ran")
	r, tracker, output := trackedRunner(t, 0, "user:deploy=echo >>"+ran)
	begun, mayReturn := make(chan struct{}), make(chan struct{})
	tracker.onBegin = func() {
		close(begun)
		<-mayReturn
	}
	r.Add(userEventOf("deploy", "a"))
	<-begun
	r.cancel()
	close(mayReturn)
	r.Close(time.Minute)
	if !output.Has("was not run: the agent is shutting down") || exists(ran) || tracker.list() != "begin a" {
		t.Error(output, exists(ran), tracker.list())
	}
}

// These variables are set for a process that TestKilledAgent starts: the moment at which it stops, its folder, and the
// mark of its script.
const (
	killedMoment = "TEST_KILLED_MOMENT"
	killedFolder = "TEST_KILLED_FOLDER"
	killedMark   = "TEST_KILLED_MARK"
)

// TestAgentToKill isn't a test by itself: TestKilledAgent runs it in a process that it kills. It handles an event, and
// stops for ever while it records the beginning or the process.
func TestAgentToKill(t *testing.T) {
	folder, moment := os.Getenv(killedFolder), os.Getenv(killedMoment)
	if folder == "" {
		t.Skip("TestKilledAgent runs this in a process")
	}
	script, err := ParseScript("user:deploy=echo >>" + folder + "/ran; cat >>" + folder + "/ran # " + os.Getenv(killedMark))
	testkit.Must(t, err)
	tracker := &fakeTracker{}
	stop := func() {
		testkit.Write(t, filepath.Join(folder, "stopped"), "")
		select {}
	}
	switch moment {
	case "begin":
		tracker.onBegin = stop
	case "record":
		tracker.onRecord = stop
	case "run":
		// (the runner waits for the script, which waits for this file)
		script.Command = "while ! [ -e " + folder + "/go ]; do sleep 0.01; : >" + folder + "/stopped; done; " + script.Command
	}
	r := New(log.New(io.Discard, "", 0), 0, []Script{script}, func() Self { return self })
	r.Track(tracker)
	r.Add(userEventOf("deploy", "payload"))
	select {}
}

// If the agent is killed by SIGKILL before the beginning of an event and the process of its script are recorded, the
// shell ends and runs nothing of the script. If it is killed later, the script runs to its end with its whole input.
func TestKilledAgent(t *testing.T) {
	t.Parallel()
	for moment, want := range map[string]string{"begin": "", "record": "", "run": "\npayload\n"} {
		folder, mark := t.TempDir(), newMark()
		agent := exec.Command(os.Args[0], "-test.run=^TestAgentToKill$")
		agent.Env = append(os.Environ(), killedMoment+"="+moment, killedFolder+"="+folder, killedMark+"="+mark)
		testkit.Must(t, agent.Start())
		testkit.Eventually(t, "it stops at the moment "+moment, func() bool {
			return exists(filepath.Join(folder, "stopped")) && len(processesWith(mark)) > 0
		})
		waitForOthers()
		if len(processesWith(mark)) != 1 {
			t.Errorf("%s: the shell of the script has ended", moment)
		}
		testkit.Must(t, agent.Process.Signal(syscall.SIGKILL))
		_ = agent.Wait()
		testkit.Write(t, filepath.Join(folder, "go"), "")
		testkit.Eventually(t, "the shell ends after the moment "+moment, func() bool { return len(processesWith(mark)) == 0 })
		text, _ := os.ReadFile(filepath.Join(folder, "ran"))
		if string(text) != want {
			t.Errorf("%s: %q, and not %q", moment, text, want)
		}
	}
}

// ownScripts show what a script sees of its shell and of its input, and how it ends.
var ownScripts = []string{
	"", "true", "exit 3", "kill -9 $$", "# a comment", "#!/bin/sh\necho a", "\n\necho $LINENO",
	"echo $LINENO\nno-such-command\nexit 7", "no-such-command",
	`echo "$0|$#|$*|$?|$-|$(umask)|$PWD"`, "env | sort", "exec ls /proc/self/fd", "exec 3>&1; echo three >&3; exec 3>&-; ls /proc/self/fd",
	"cat", "read line; echo \"[$line]\"; cat", "head -c 3; echo; cat", "exec cat", "cat <<E\nhere\nE\ncat", "f() { cat; }; f",
	"{ cat; }", "! true", "set -eu; cat; false; echo not reached",
	"set -u; echo $SERF_BEGUN", "trap 'echo bye' EXIT; cat", "sleep 0.01 & wait; cat", "case a in a) cat;; esac",
	"echo out; echo err >&2; exit 1",
	"read -r pid _ _ _ group _ <\"/proc/$$/stat\"; [ $pid = $group ] && echo leads its group",
	"cat /proc/$$/comm; exec cat /proc/self/comm", "echo a\n)",
}

// A script that was held sees and does the same as one that wasn't: it has the same environment, arguments, descriptors,
// numbers of lines, input and process group, and it ends in the same way.
func TestHeldScriptsAreTheSame(t *testing.T) {
	t.Parallel()
	for _, command := range append(ownScripts, "ls /proc/$$/fd; :", "do", "; cat", "echo a; )") {
		for _, input := range []string{
			"", "a\\b  \n second\n\nno newline", "\n" + strings.Repeat("x", pipeCapacity-1), strings.Repeat("z\n", 100000),
		} {
			var found [2]string
			for i := range found {
				s := startShell(command, []string{"SERF_EVENT=user"}, []byte(input), i == 1)
				if i == 1 {
					s.release()
				}
				result := s.finish(context.Background())
				found[i] = fmt.Sprintf("%s %d %q", result.status(), result.written, result.output)
			}
			if found[0] != found[1] {
				t.Errorf("%q with %d bytes:\n%s\n%s", command, len(input), found[0], found[1])
			}
		}
	}
}

// The same holds for other shells that a system can have as /bin/sh.
func TestHeldScriptsInOtherShells(t *testing.T) {
	t.Parallel()
	for _, name := range []string{"dash", "bash", "busybox", "mksh", "ksh", "zsh", "yash"} {
		path, err := exec.LookPath(name)
		if err != nil {
			continue
		}
		for _, command := range ownScripts {
			for _, input := range []string{"", "a\\b  \n second\n\nno newline"} {
				var found [2]string
				for i, prefixes := range [][2]string{{"", ""}, {heldPrefix, "\n"}} {
					shell := exec.Cmd{
						Path: path, Args: []string{"/bin/sh", "-c", prefixes[0] + command},
						SysProcAttr: &syscall.SysProcAttr{Setpgid: true},
					}
					shell.Stdin = strings.NewReader(prefixes[1] + input)
					output, err := shell.CombinedOutput()
					found[i] = fmt.Sprintf("%v %q", err, output)
				}
				if found[0] != found[1] {
					t.Errorf("%s: %q with %q:\n%s\n%s", name, command, input, found[0], found[1])
				}
			}
		}
		shell := exec.Cmd{Path: path, Args: []string{"/bin/sh", "-c", heldPrefix + "echo ran"}}
		if output, err := shell.CombinedOutput(); err == nil || len(output) > 0 {
			t.Errorf("%s ran a script that wasn't released: %v %q", name, err, output)
		}
	}
}

// The input of a script is in its pipe before the script starts, if it fits. If the shell is held, the input gets there
// together with the line that releases the shell.
func TestShortInputIsWrittenFirst(t *testing.T) {
	t.Parallel()
	for _, isHeld := range []bool{false, true} {
		max := pipeCapacity
		if isHeld {
			max--
		}
		for length, isFirst := range map[int]bool{0: true, 2: true, max: true, max + 1: false} {
			s := startShell("wc -c", nil, make([]byte, length), isHeld)
			if isHeld && s.pendingInput == nil {
				t.Error("the shell isn't held")
			}
			if isHeld {
				s.release()
			}
			if (s.pendingInput == nil) != isFirst {
				t.Error(isHeld, length)
			}
			if result := s.finish(context.Background()); strings.TrimSpace(string(result.output)) != fmt.Sprint(length) {
				t.Error(isHeld, length, result)
			}
		}
	}
}

// The time for which a script may run, and its duration, begin when the script is released.
func TestTimeBeginsWithTheRelease(t *testing.T) {
	t.Parallel()
	s := startShell("true", nil, nil, true)
	started := s.began
	time.Sleep(20 * time.Millisecond)
	s.release()
	if held := s.began.Sub(started); held < 20*time.Millisecond {
		t.Error(held)
	}
	if result := s.finish(context.Background()); result.err != nil {
		t.Error(result)
	}

	r, tracker, _ := trackedRunner(t, 5*time.Second, "user=true")
	tracker.onBegin = func() { time.Sleep(6 * time.Second) }
	r.Add(userEventOf("deploy", "a"))
	tracker.waitUntil(t, "begin a, done a true=0")
	r.Close(time.Minute)
}
