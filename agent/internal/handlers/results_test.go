package handlers

import (
	"fmt"
	"path/filepath"
	"reflect"
	"strings"
	"testing"
	"time"

	"github.com/armon/go-metrics"

	"kitchenrue.example/agent/internal/testkit"
	"kitchenrue.example/serf"
)

// countsOf returns the results that aren't 0.
func countsOf(r *Runner) map[string]int64 {
	counted := map[string]int64{}
	for result, count := range r.Results() {
		if count > 0 {
			counted[result.String()] = count
		}
	}
	return counted
}

// Each run is counted by its result. An event for which no handler ran is counted too.
func TestResultsAreCounted(t *testing.T) {
	t.Parallel()
	r, output := newRunner(t, time.Minute, "user:ok=true", "user:fails=exit 3", "user:missing=/nowhere/script")
	for _, name := range []string{"ok", "fails", "missing", "none"} {
		r.Add(userEventOf(name, "p"))
	}
	r.Close(time.Minute)
	if counted := countsOf(r); !reflect.DeepEqual(counted, map[string]int64{"ok": 1, "failed": 2}) {
		t.Error(counted, output)
	}
	r, output = newRunner(t, 100*time.Millisecond, "user:hangs=sleep 100")
	r.Add(userEventOf("hangs", "p"))
	r.Close(time.Minute)
	if counted := countsOf(r); !reflect.DeepEqual(counted, map[string]int64{"timed_out": 1}) {
		t.Error(counted, output)
	}
}

// When the agent ends, the running handler is cut off, and the waiting handlers never run. The log reports this with
// the payloads of the events.
func TestResultsAtTheEnd(t *testing.T) {
	t.Parallel()
	begun := filepath.Join(t.TempDir(), "begun")
	r, output := newRunner(t, 0, "echo > "+begun+"; sleep 100", "user=true")
	for i := 0; i < loggedDropped+3; i++ {
		r.Add(userEventOf("deploy", fmt.Sprint("v", i)))
	}
	eventuallyExists(t, begun)
	r.Close(0)
	// Each event has two handlers. For the first event, one handler was cut off, and the other never ran.
	if counted := countsOf(r); !reflect.DeepEqual(counted, map[string]int64{"cut_off": 1, "never_run": 2*(loggedDropped+2) + 1}) {
		t.Error(counted)
	}
	for _, says := range []string{
		fmt.Sprint(loggedDropped+2, " events will not reach their handlers"),
		`no handler was run for user-event: deploy (time 0, payload "v1")`,
		"no handler was run for 2 more events", `"true" of user-event: deploy (time 0, payload "v0") was not run`,
		"it was ended, since the agent is shutting down",
	} {
		if !output.Has(says) {
			t.Errorf("without %q: %s", says, output)
		}
	}
	r.Add(userEventOf("late", ""))
	if late := countsOf(r)["never_run"]; late != 2*(loggedDropped+3)+1 {
		t.Error(late)
	}
}

// Queries that are dropped because too many wait are counted.
func TestDroppedQueriesAreCounted(t *testing.T) {
	t.Parallel()
	r, output := newRunner(t, 0, "sleep 100")
	for i := 0; i < MaxQueries+5; i++ {
		r.Add(&serf.Query{Name: "load", LTime: 9, Payload: []byte("x")})
	}
	// One query runs. If it starts late, five queries are dropped instead of four.
	if dropped := countsOf(r)["never_run"]; dropped != 4 && dropped != 5 {
		t.Error(dropped)
	}
	if !output.Has(`query: load (time 9, payload "x") was dropped`) {
		t.Error(output)
	}
	r.Close(0)
}

// The log line of a failure has the event's payload and time, how long the handler ran, and what it wrote last.
func TestFailureIsDescribed(t *testing.T) {
	t.Parallel()
	r, output := newRunner(t, 0, "user=head -c 2000 /dev/zero | tr '\\0' x; echo cannot reach db >&2; exit 7", "member-failed=exit 1")
	r.Add(serf.UserEvent{Name: "deploy", LTime: 17, Payload: []byte("v42\n")})
	r.Add(serf.UserEvent{Name: "long", LTime: 18, Payload: []byte(strings.Repeat("y", 300))})
	r.Add(serf.MemberEvent{Type: serf.EventMemberFailed, Members: make([]serf.Member, loggedMembers+1)})
	r.Close(time.Minute)
	for _, says := range []string{
		`of user-event: deploy (time 17, payload "v42\n") failed after `, "s: it ended with exit status 7; its output ends with ..\"x",
		`cannot reach db\n"`,
		`payload "` + strings.Repeat("y", loggedPayload) + `".. (300 bytes)`, "and 1 more) failed after", "it wrote nothing",
	} {
		if !output.Has(says) {
			t.Errorf("without %q: %s", says, output)
		}
	}
	for _, line := range strings.Split(output.String(), "\n") {
		if strings.Contains(line, "[ERR]") && strings.Contains(line, strings.Repeat("x", loggedOutput)) {
			t.Error("the line has more of the output than its limit")
		}
	}
}

// Names are short, unique and from a small alphabet.
func TestNamesOfScripts(t *testing.T) {
	scripts, err := ParseScripts([]string{
		"user:a=/usr/local/bin/deploy --now", "user:b=deploy", "query=exec sudo A=1 /opt/my tool", "user=" + strings.Repeat("x", 99),
		"user=(cat; x) >> y", "user=A=1",
		"member-join=deploy",
	})
	testkit.Must(t, err)
	var names []string
	for _, script := range scripts {
		names = append(names, script.Name)
	}
	if want := []string{
		"deploy", "deploy-2", "my", strings.Repeat("x", maxScriptName), "_cat_", "A_1", "deploy-3",
	}; !reflect.DeepEqual(names, want) {
		t.Errorf("%q", names)
	}
}

// Before a handler has run, the metric of its results already exists, with the value 0.
func TestResultsAreAnnounced(t *testing.T) {
	sink := metrics.NewInmemSink(testkit.LongInterval, testkit.LongInterval)
	conf := metrics.DefaultConfig("test")
	conf.EnableHostname, conf.EnableRuntimeMetrics = false, false
	_, err := metrics.NewGlobal(conf, sink)
	testkit.Must(t, err)
	r, _ := newRunner(t, 0, "user:a=/bin/deploy", "user:b=true")
	defer r.Close(0)
	counters := sink.Data()[0].Counters
	for _, name := range []string{"deploy;result=failed", "deploy;result=never_run", "true;result=ok"} {
		if counter, ok := counters["test.agent.handler.results;handler="+name]; !ok || counter.Sum != 0 {
			t.Error(name, counters)
		}
	}
}
