package app

import (
	"bytes"
	"fmt"
	"net"
	"os"
	"path/filepath"
	"strconv"
	"strings"
	"testing"
	"time"

	"github.com/armon/go-metrics"
	"github.com/hashicorp/go-msgpack/codec"

	"kitchenrue.example/agent/internal/testkit"
)

// The types of memberlist's user message, and of Serf's messages within it.
const (
	userMessage  = 8
	eventMessage = 3
	queryMessage = 4
)

type strangerEvent struct {
	LTime   uint64
	Name    string
	Payload []byte
	CC      bool
}

type strangerQuery struct {
	LTime   uint64
	ID      uint32
	Timeout time.Duration
	Name    string
}

// stranger sends packets to an agent, as any member may.
type stranger struct {
	*testing.T
	to   net.Conn
	sent int
}

// strangerTo returns a stranger that sends its packets to this agent.
func strangerTo(t *testing.T, a *App) *stranger {
	t.Helper()
	to, err := net.Dial("udp", a.node.Memberlist().LocalNode().Address())
	testkit.Must(t, err)
	t.Cleanup(func() { to.Close() })
	return &stranger{T: t, to: to}
}

// send sends a message of Serf's, of this type, as one packet.
func (s *stranger) send(kind byte, message interface{}) {
	out := bytes.NewBuffer([]byte{userMessage, kind})
	if err := codec.NewEncoder(out, &codec.MsgpackHandle{}).Encode(message); err != nil {
		s.Fatal(err)
	}
	if _, err := s.to.Write(out.Bytes()); err != nil {
		s.Fatal(err)
	}
	// A full socket loses packets.
	if s.sent++; s.sent%50 == 0 {
		time.Sleep(5 * time.Millisecond)
	}
}

// If an agent keeps events, a flood of events with the same Lamport time displaces later events of that time, and of no
// other.
func TestFloodWithinOneTime(t *testing.T) {
	folder := t.TempDir()
	handled := filepath.Join(folder, "handled")
	a, _ := startApp(t, "-snapshot", filepath.Join(folder, "snapshot"), "-keep-events", "-keep-events-size", fmt.Sprint(1<<20),
		"-event-handler", "user:honest=cat >> "+handled)
	defer a.Close()
	s, payload := strangerTo(t, a), bytes.Repeat([]byte("x"), 480)
	testkit.Eventually(t, "the time has no room", func() bool {
		s.send(eventMessage, strangerEvent{LTime: 5, Name: fmt.Sprint("flood", s.sent), Payload: payload})
		return s.sent > 600 && a.Stats()["serf"]["dropped_kept"] > "0"
	})
	// A little room may be left for an event that is shorter than those of the flood.
	for n := 0; n < 10; n++ {
		s.send(eventMessage, strangerEvent{LTime: 5, Name: "honest", Payload: bytes.Repeat([]byte("y"), 500)})
	}
	testkit.Eventually(t, "one of the next time is handled", func() bool {
		s.send(eventMessage, strangerEvent{LTime: 6, Name: "honest", Payload: []byte("next")})
		text, _ := os.ReadFile(handled)
		return string(text) == "next\n"
	})
	testkit.Must(t, a.Fire("honest", []byte("own"), false))
	testkit.Eventually(t, "its own is handled", func() bool { return testkit.Read(t, handled) == "next\nown\n" })
}

// At most 1,024 queries of each Lamport time are kept, in lines of at most 39 bytes, whatever -keep-events-size is.
func TestFloodOfQueries(t *testing.T) {
	path := filepath.Join(t.TempDir(), "snapshot")
	words := []string{"-snapshot", path, "-keep-events"}
	a, _ := startApp(t, words...)
	s := strangerTo(t, a)
	marks := uint64(0)
	for time := uint64(1); time < 4; time++ {
		for id := uint32(0); id < 2000; id++ {
			s.send(queryMessage, strangerQuery{LTime: time, ID: 1<<32 - 1 - id, Name: strings.Repeat("x", 500)})
			if id%250 != 249 {
				continue
			}
			// A queue without room loses packets too.
			marks++
			testkit.Eventually(t, "the node has processed the earlier packets", func() bool {
				s.send(eventMessage, strangerEvent{LTime: marks, Name: "mark"})
				return a.Stats()["serf"]["event_time"] == fmt.Sprint(marks+1)
			})
		}
	}
	testkit.Eventually(t, "the last time is heard of", func() bool {
		s.send(queryMessage, strangerQuery{LTime: 4, Name: "last"})
		return a.Stats()["serf"]["query_time"] == "5"
	})
	testkit.Must(t, a.Close())
	kept := map[string]int{}
	for _, line := range strings.SplitAfter(testkit.Read(t, path), "\n") {
		if words := strings.Fields(line); len(words) == 3 && words[0] == "#query" {
			kept[words[1]]++
			if len(line) > 39 {
				t.Errorf("%d bytes: %q", len(line), line)
			}
		}
	}
	for time := 1; time < 4; time++ {
		if count := kept[fmt.Sprint(time)]; count < 500 || count > 1024 {
			t.Errorf("%d queries of time %d", count, time)
		}
	}
	b, _ := startApp(t, words...)
	defer b.Close()
	if b.Stats()["serf"]["query_time"] != "5" {
		t.Error(b.Stats()["serf"]["query_time"])
	}
}

// In a flood of other events, each event for which there is a handler still has a line in the log, and its name has a
// metric.
func TestFloodOfEventsWithoutHandler(t *testing.T) {
	sink := metrics.NewInmemSink(testkit.LongInterval, testkit.LongInterval)
	conf := metrics.DefaultConfig("test")
	conf.EnableHostname, conf.EnableRuntimeMetrics = false, false
	_, err := metrics.NewGlobal(conf, sink)
	testkit.Must(t, err)
	a, out := startApp(t, "-event-handler", "user:deploy=true", "-event-handler", "user:other=true")
	defer a.Close()
	s := strangerTo(t, a)
	const flood = 300
	testkit.Eventually(t, "the flood is handed out", func() bool {
		s.send(eventMessage, strangerEvent{LTime: uint64(s.sent + 1), Name: fmt.Sprint("flood", s.sent)})
		clock, err := strconv.Atoi(a.Stats()["serf"]["event_time"])
		return err == nil && clock > flood
	})
	for i := 0; i < 30; i++ {
		testkit.Must(t, a.Fire("deploy", []byte(fmt.Sprint(i)), false))
	}
	testkit.Must(t, a.Reload(parseConfig(t, "-event-handler", "user:deploy=true", "-event-handler", "user:late=true")))
	testkit.Must(t, a.Fire("late", nil, false))
	testkit.Eventually(t, "all are logged", func() bool { return out.Has("Received event: user-event: late\n") })
	if count := strings.Count(out.String(), "Received event: user-event: deploy\n"); count != 30 {
		t.Error(count, "lines of the events with a handler")
	}
	if count := strings.Count(out.String(), "Received event: user-event: flood"); count < 10 || count > flood/2 {
		t.Error(count, "lines of the flood")
	}
	testkit.Eventually(t, "the names of handlers are counted", func() bool {
		counters := sink.Data()[0].Counters
		_, isOtherThere := counters["test.serf.events.other"]
		return counters["test.serf.events.deploy"].Sum == 30 && counters["test.serf.events.late"].Sum == 1 && isOtherThere
	})
}

// Above the limit the collector runs with a lower percentage.
func TestGCPercent(t *testing.T) {
	for used, want := range map[int64]int{1000: gcPercent, 1001: gcPercentAboveLimit} {
		if at := gcPercentFor(used, 1000); at != want {
			t.Errorf("%d percent if Go has %d bytes of 1,000", at, used)
		}
	}
	if used := memoryInUse(); used < 1<<20 || used > 1<<40 {
		t.Errorf("Go has %d bytes", used)
	}
}
