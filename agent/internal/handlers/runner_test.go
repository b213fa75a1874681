package handlers

import (
	"bytes"
	"fmt"
	"log"
	"os"
	"path/filepath"
	"strings"
	"testing"
	"time"

	"kitchenrue.example/agent/internal/testkit"
	"kitchenrue.example/serf"
)

func newRunner(t *testing.T, timeout time.Duration, scripts ...string) (*Runner, *testkit.Output) {
	t.Helper()
	parsed, err := ParseScripts(scripts)
	testkit.Must(t, err)
	output := &testkit.Output{}
	return New(log.New(output, "", 0), timeout, parsed, func() Self { return self }), output
}

// eventuallyExists waits for a file that a script writes.
func eventuallyExists(t *testing.T, path string) {
	t.Helper()
	testkit.Eventually(t, path+" exists", func() bool { _, err := os.Stat(path); return err == nil })
}

func userEventOf(name, payload string) serf.Event {
	return serf.UserEvent{Name: name, Payload: []byte(payload)}
}

func TestHandlersRunInOrder(t *testing.T) {
	t.Parallel()
	file := filepath.Join(t.TempDir(), "file")
	r, _ := newRunner(t, 0, "user:deploy=(cat; sleep 0.0$((RANDOM % 5)) 2>/dev/null) >> "+file, "query=echo never >> "+file)
	var want string
	for i := 0; i < 20; i++ {
		r.Add(userEventOf("deploy", fmt.Sprint(i)))
		r.Add(userEventOf("other", "x"))
		want += fmt.Sprintln(i)
	}
	r.Close(time.Minute)
	if found, err := os.ReadFile(file); err != nil || string(found) != want {
		t.Errorf("%q %v", found, err)
	}
}

func TestAnswers(t *testing.T) {
	t.Parallel()
	for _, test := range []struct{ script, want, says string }{
		{"cat; echo err >&2", "pay\nerr\n", ""},
		{"true", "", ""},
		{"echo no; exit 3", "", "exit status 3"},
		{"head -c 10000 /dev/zero", "", "too long"},
		{"kill -9 $$", "", "killed"},
		{"env | grep SERF_QUERY", "SERF_QUERY_NAME=load\nSERF_QUERY_LTIME=5\n", ""},
	} {
		var answered string
		r, output := newRunner(t, 0, "query:load="+test.script)
		r.respond = func(_ *serf.Query, payload []byte) error {
			answered += string(payload)
			return nil
		}
		r.Add(&serf.Query{Name: "load", LTime: 5, Payload: []byte("pay")})
		r.Close(time.Minute)
		lines := func(text string) int { return strings.Count(text, "\n") }
		if lines(answered) != lines(test.want) || len(answered) != len(test.want) || !strings.Contains(output.String(), test.says) {
			t.Errorf("%s: %q %s", test.script, answered, output)
		}
	}
}

func TestScriptsThatDoNotEnd(t *testing.T) {
	t.Parallel()
	for _, script := range []string{
		"sleep 100", "sleep 100 & sleep 100", "yes", "trap '' TERM; sleep 0.2; yes > /dev/null",
		"for i in $(seq 200); do sleep 100 & done; wait",
	} {
		script := script
		t.Run(script, func(t *testing.T) {
			t.Parallel()
			began := time.Now()
			r, output := newRunner(t, 300*time.Millisecond, "user:deploy="+script, "user:next=echo second")
			r.Add(userEventOf("deploy", strings.Repeat("x", 1<<20)))
			testkit.Eventually(t, "it is ended", func() bool { return r.Results()[TimedOut] == 1 })
			if duration := time.Since(began); duration > 80*time.Second {
				t.Errorf("it ran for %v", duration)
			}
			testkit.Eventually(t, "it is logged", func() bool { return output.Has("ran too long") })
			// On a busy machine, the next handler may exceed its limit too.
			testkit.Eventually(t, "the next handler runs", func() bool {
				r.Add(userEventOf("next", ""))
				testkit.Eventually(t, "it has run", func() bool { waiting, _ := r.Waiting(); return waiting == 0 })
				return output.Has("output: second")
			})
			r.Close(time.Minute)
		})
	}
}

// Processes that a script started are ended together with it.
func TestWholeGroupIsEnded(t *testing.T) {
	t.Parallel()
	file := filepath.Join(t.TempDir(), "file")
	r, _ := newRunner(t, 0, "sleep 100 & trap '' TERM; echo $! $$ > "+file+"; sleep 100; sleep 100")
	r.Add(userEventOf("deploy", ""))
	var text []byte
	var background, script int
	testkit.Eventually(t, "both run", func() bool {
		text, _ = os.ReadFile(file)
		_, err := fmt.Sscan(string(text), &background, &script)
		return err == nil && bytes.HasSuffix(text, []byte("\n"))
	})
	r.Close(0)
	for _, process := range []int{background, script} {
		testkit.Eventually(t, fmt.Sprintf("process %d of %q has ended", process, text), func() bool {
			state, err := os.ReadFile(fmt.Sprintf("/proc/%d/stat", process))
			// A zombie counts as ended.
			return err != nil || strings.Contains(string(state), ") Z ")
		})
	}
}

func TestBackgroundProcesses(t *testing.T) {
	t.Parallel()
	began := time.Now()
	r, output := newRunner(t, 0, "sleep 60 & echo done")
	r.Add(userEventOf("deploy", ""))
	r.Close(time.Minute)
	if duration := time.Since(began); duration > 50*time.Second || !strings.Contains(output.String(), "output: done") {
		t.Errorf("%v %s", duration, output)
	}
}

func TestCloseDoesNotWait(t *testing.T) {
	t.Parallel()
	file := filepath.Join(t.TempDir(), "file")
	r, output := newRunner(t, 0, "echo > "+file+"; sleep 100")
	for i := 0; i < 3; i++ {
		r.Add(userEventOf("deploy", ""))
	}
	eventuallyExists(t, file)
	began := time.Now()
	r.Close(200 * time.Millisecond)
	if duration := time.Since(began); duration > 80*time.Second {
		t.Errorf("Close took %v", duration)
	}
	if !strings.Contains(output.String(), "2 events will not reach their handlers") || !strings.Contains(output.String(), "it was ended") {
		t.Error(output)
	}
	r.Add(userEventOf("late", ""))
}

func TestBounds(t *testing.T) {
	t.Parallel()
	r, output := newRunner(t, 0, "sleep 100")
	for i := 0; i < MaxEvents+1; i++ {
		r.Add(userEventOf("deploy", ""))
	}
	for i := 0; i < 2*MaxQueries; i++ {
		r.Add(&serf.Query{Name: "load"})
	}
	if _, queries := r.Waiting(); queries > MaxQueries || !output.Has(`query: load (time 0, payload "") was dropped`) {
		t.Errorf("%d wait", queries)
	}
	// The first event leaves the queue when its handler starts.
	if events, _ := r.Waiting(); events < MaxEvents || r.HasRoom() != (events < MaxEvents) {
		t.Errorf("%d wait", events)
	}
	r.Close(0)
}

func TestSetScripts(t *testing.T) {
	t.Parallel()
	r, output := newRunner(t, 0, "echo one")
	scripts, err := ParseScripts([]string{"echo two"})
	testkit.Must(t, err)
	r.SetScripts(scripts)
	r.Add(userEventOf("deploy", ""))
	r.Close(time.Minute)
	if text := output.String(); strings.Contains(text, "one") || !strings.Contains(text, "two") {
		t.Error(text)
	}
}

func TestLastBytes(t *testing.T) {
	var kept lastBytes
	var all []byte
	for i := 0; i < 300; i++ {
		chunk := bytes.Repeat([]byte{byte(i)}, i*7)
		all = append(all, chunk...)
		if _, err := kept.Write(chunk); err != nil {
			t.Fatal(err)
		}
		want := all
		if len(want) > MaxOutput {
			want = want[len(want)-MaxOutput:]
		}
		if !bytes.Equal(kept.bytes, want) || kept.total != int64(len(all)) {
			t.Fatal(i)
		}
	}
	if _, err := kept.Write(make([]byte, 3*MaxOutput)); err != nil || len(kept.bytes) != MaxOutput {
		t.Error(len(kept.bytes))
	}
}
