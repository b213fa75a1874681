package serf

import (
	"fmt"
	"strings"
	"sync"
	"testing"
	"time"

	"github.com/armon/go-metrics"
)

// sumSink is a metrics sink that adds up values.
type sumSink struct {
	metrics.BlackholeSink

	mu   sync.Mutex
	sums map[string]float32
}

func (t *sumSink) add(key []string, val float32) {
	t.mu.Lock()
	defer t.mu.Unlock()
	t.sums[strings.Join(key, ".")] += val
}

func (t *sumSink) IncrCounterWithLabels(key []string, val float32, _ []metrics.Label) {
	t.add(key, val)
}
func (t *sumSink) AddSampleWithLabels(key []string, val float32, _ []metrics.Label) { t.add(key, val) }

// captureMetrics starts to record metrics. The function that it returns reports all metrics since then.
func captureMetrics(t *testing.T) func() string {
	t.Helper()
	sink := &sumSink{sums: map[string]float32{}}
	conf := metrics.DefaultConfig("")
	conf.EnableHostname, conf.EnableRuntimeMetrics = false, false
	if _, err := metrics.NewGlobal(conf, sink); err != nil {
		t.Fatal(err)
	}
	t.Cleanup(func() { _, _ = metrics.NewGlobal(conf, &metrics.BlackholeSink{}) })
	return func() string {
		sink.mu.Lock()
		defer sink.mu.Unlock()
		text := "\n"
		for name, sum := range sink.sums {
			text += fmt.Sprintf("%s=%v\n", name, sum)
		}
		return text
	}
}

// Serf's metrics are counted under Serf's names, and memberlist's are there too.
func TestMetrics(t *testing.T) {
	counted := captureMetrics(t)
	a, b := startPair(t, withProbes, func(o *nodeOptions) { o.QueueCheckInterval, o.ReapInterval = 10*time.Millisecond, time.Hour })
	must(t, a.UserEvent("deploy app", nil, false))
	response, err := a.Query("load", nil, &QueryParam{RequestAck: true, Timeout: time.Minute})
	must(t, err)
	eventually(t, "b has the query", func() bool { return b.lastQuery("load") != nil })
	must(t, b.lastQuery("load").Respond([]byte("1")))
	<-response.ResponseCh()
	// (if b changed its tags, memberlist could race with itself)
	a.delegate().NotifyUpdate(b.memberlist().LocalNode())
	a.delegate().NotifyLeave(b.memberlist().LocalNode())
	a.delegate().NotifyJoin(b.memberlist().LocalNode())
	for _, what := range []string{
		"serf.events=2", "serf.events.deploy_app=2", "serf.queries=2", "serf.queries.load=2", "serf.query_acks=", "serf.query_responses=1",
		"serf.msgs.received=", "serf.msgs.sent=", "serf.member.join=", "serf.member.failed=1", "serf.member.flap=1", "serf.member.update=",
		"serf.queue.Intent=", "serf.queue.Event=", "serf.queue.Query=", "serf.snapshot.appendLine=", "serf.burst=",
		"serf.coordinate.adjustment-ms=",
		"memberlist.gossip=", "memberlist.udp.sent=",
	} {
		eventually(t, what, func() bool { return strings.Contains(counted(), "\n"+what) })
	}
}

// Names come from the network, so only a limited number have separate counters.
func TestNumberOfCountedNamesIsLimited(t *testing.T) {
	counted := captureMetrics(t)
	names := newNameCounter("events")
	for i := 0; i < 2*maxCountedNames; i++ {
		names.countName(fmt.Sprint("e", i))
		names.countName("e0")
		if i%10 == 0 {
			names.report()
		}
	}
	names.report()
	text := counted()
	if count := strings.Count(text, "serf.events.e"); count != maxCountedNames {
		t.Error(count)
	}
	for _, what := range []string{"\nserf.events=512\n", "\nserf.events.e0=257\n", "\nserf.events.e127=1\n"} {
		if !strings.Contains(text, what) {
			t.Errorf("%q: %s", what, text)
		}
	}
	want := "a_b_c_d_.e-f_g___" + strings.Repeat("x", maxCountedLength-18)
	if name := sinkName("a b:c|d\n.e-f_g{\"ü" + strings.Repeat("x", 99)); name != want {
		t.Error(name)
	}
}

// Reserved names have separate counters even if many other names arrived before. They don't reduce the number of
// counters for the others.
func TestReservedNamesAreCounted(t *testing.T) {
	counted := captureMetrics(t)
	names := newNameCounter("events")
	flood := func(prefix string) {
		for i := 0; i < 2*maxCountedNames; i++ {
			names.countName(fmt.Sprint(prefix, i))
		}
	}
	names.reserve([]string{"early"})
	flood("e")
	names.countName("late")
	names.reserve([]string{"late", "never", "e1", "e200"})
	flood("f")
	for _, name := range []string{"early", "late", "e1", "e200"} {
		names.countName(name)
	}
	names.report()
	text := counted()
	for _, what := range []string{
		"\nserf.events.early=1\n", "\nserf.events.late=1\n", "\nserf.events.never=0\n", "\nserf.events.e1=2\n", "\nserf.events.e200=1\n",
	} {
		if !strings.Contains(text, what) {
			t.Errorf("%q: %s", what, text)
		}
	}
	// (early, late, never and e200 are reserved in addition)
	if count := strings.Count(text, "serf.events."); count != maxCountedNames+4 || len(names.known) > names.max {
		t.Error(count, len(names.known), names.max)
	}
}

// If a known name has no separate counter, it receives one when it is reserved.
func TestKnownNameIsReserved(t *testing.T) {
	counted := captureMetrics(t)
	names := newNameCounter("events")
	for i := 0; i < maxCountedNames; i++ {
		names.countName(fmt.Sprint(i, strings.Repeat("x", maxCountedLength)))
	}
	names.countName("deploy")
	names.reserve([]string{"deploy"})
	names.countName("deploy")
	if names.report(); !strings.Contains(counted(), "\nserf.events.deploy=1\n") {
		t.Error(counted())
	}
}
