package rpc

import (
	"bytes"
	"fmt"
	"net"
	"reflect"
	"testing"
	"time"

	"kitchenrue.example/agent/internal/logs"
	"kitchenrue.example/agent/internal/testkit"
	"kitchenrue.example/serf"
)

// flagBackend is a backend that records the switches of its calls.
type flagBackend struct{ fakeBackend }

func (f *flagBackend) Fire(_ string, _ []byte, coalesce bool) error {
	f.record(fmt.Sprint("fire ", coalesce))
	return nil
}

func (f *flagBackend) Join(existing []string, replay bool) (int, error) {
	f.record(fmt.Sprint("join ", replay))
	return len(existing), nil
}

func (f *flagBackend) ForceLeave(_ string, prune bool) error {
	f.record(fmt.Sprint("force-leave ", prune))
	return nil
}

// The switches of a request reach the agent.
func TestSwitchesOfRequests(t *testing.T) {
	f := &flagBackend{}
	s, err := listen("127.0.0.1:0", "", f, logs.New(&bytes.Buffer{}, logs.Trace), testTimeouts)
	testkit.Must(t, err)
	t.Cleanup(s.Close)
	p := dial(t, s).handshake()
	var want []string
	for _, is := range []bool{true, false} {
		p.expect(p.request("event", eventBody{Name: "deploy", Coalesce: is}), "")
		p.expect(p.request("force-leave", forceLeaveBody{Node: "beta", Prune: is}), "")
		p.expect(p.request("join", joinBody{Existing: []string{"a"}, Replay: is}), "")
		var count joinAnswer
		p.read(&count)
		want = append(want, fmt.Sprint("fire ", is), fmt.Sprint("force-leave ", is), fmt.Sprint("join ", is))
	}
	if !reflect.DeepEqual(f.calls, want) {
		t.Error(f.calls)
	}
}

// Every command but the handshake and auth needs the token.
func TestEveryCommandNeedsTheToken(t *testing.T) {
	s, f, _ := startServer(t, "token")
	p := dial(t, s).handshake()
	for name, command := range commands {
		if name == "handshake" || name == "auth" {
			continue
		}
		var bodies []interface{}
		if command.body != nil {
			bodies = append(bodies, command.body())
		}
		p.expect(p.request(name, bodies...), "Authentication required")
	}
	if len(f.calls) > 0 || countStreams(s)+countFollowers(s) > 0 {
		t.Error(f.calls, countStreams(s), countFollowers(s))
	}
}

// Monitors and streams count together towards the limit of a client.
func TestMonitorsCountAsStreams(t *testing.T) {
	s, _, _ := startServer(t, "")
	p := dial(t, s).handshake()
	for i := 0; i < maxStreams; i++ {
		if i%2 == 0 {
			p.expect(p.request("monitor", monitorBody{"err"}), "")
		} else {
			p.expect(p.request("stream", streamBody{"query"}), "")
		}
	}
	p.expect(p.request("monitor", monitorBody{"err"}), errTooManyStreams.Error())
	p.expect(p.request("stream", streamBody{"query"}), errTooManyStreams.Error())
}

// Queries whose deadline has passed leave room for later ones. (No node handed out these queries, so their deadlines
// have passed.)
func TestExpiredQueriesAreForgotten(t *testing.T) {
	c, last := &client{unanswered: map[uint64]*serf.Query{}}, &serf.Query{Name: "last"}
	for number := uint64(0); number < maxUnanswered; number++ {
		c.unanswered[number] = &serf.Query{}
	}
	if c.rememberQuery(maxUnanswered, last); len(c.unanswered) != 1 || c.unanswered[maxUnanswered] != last {
		t.Error(len(c.unanswered))
	}
}

// A client can answer at most maxUnanswered queries.
func TestUnansweredQueriesAreLimited(t *testing.T) {
	f := &fakeBackend{}
	open, _ := fireTestQuery(t, f, f.withNode(t))
	c := &client{unanswered: map[uint64]*serf.Query{}}
	for number := uint64(0); number < 2*maxUnanswered && time.Now().Before(open.Deadline()); number++ {
		if c.rememberQuery(number, open); len(c.unanswered) > maxUnanswered {
			t.Fatal(len(c.unanswered))
		}
	}
}

// idleClient returns a client for which no goroutine writes.
func idleClient(t *testing.T) *client {
	t.Helper()
	s, _, _ := startServer(t, "")
	here, there := net.Pipe()
	t.Cleanup(func() { here.Close(); there.Close() })
	return newClient(s, here)
}

// The frames that wait for a client are limited in number and in bytes.
func TestLimitsOfWaitingFrames(t *testing.T) {
	for _, test := range []struct{ length, count int }{{1, maxFrames}, {maxBytes / 8, 8}, {maxBytes, 1}} {
		c := idleClient(t)
		for i := 0; i < test.count; i++ {
			if err := c.queueFrame(make([]byte, test.length)); err != nil {
				t.Fatal(test, i, err)
			}
		}
		if err := c.queueFrame([]byte{1}); err != errTooSlow || !c.isClosed {
			t.Error(test, err)
		}
	}
}

// The answer about keys has the numbers of nodes, of responses and of errors.
func TestNumbersOfKeyAnswers(t *testing.T) {
	s, _, _ := startServer(t, "")
	here, there := net.Pipe()
	defer there.Close()
	c, p := newClient(s, here), &peer{t: t, conn: there, in: newReader(there)}
	answered := make(chan error, 1)
	go func() {
		answered <- c.answerKeys(9, func() (*serf.KeyResponse, error) {
			return &serf.KeyResponse{
				NumNodes: 5, NumResp: 3, NumErr: 1, Messages: map[string]string{"b": "no"}, Keys: map[string]int{"k": 2},
			}, nil
		})
	}()
	var found keyAnswer
	p.expect(9, "")
	p.read(&found)
	testkit.Check(t, <-answered)
	want := keyAnswer{map[string]string{"b": "no"}, 1, 5, 3, map[string]int{"k": 2}}
	if !reflect.DeepEqual(found, want) {
		t.Errorf("%+v", found)
	}
}

// The answer to a request for a stream precedes the stream's events.
func TestAnswerPrecedesEvents(t *testing.T) {
	s, _, _ := startServer(t, "")
	here, there := net.Pipe()
	defer there.Close()
	c := newClient(s, here)
	began := make(chan error, 1)
	go func() { began <- c.startStream(1, &streamBody{"*"}) }()
	// (nobody reads the answer yet, so it is still being written)
	testkit.Eventually(t, "the answer is written", func() bool {
		c.mu.Lock()
		defer c.mu.Unlock()
		return c.isWriting || len(c.streams) > 0
	})
	c.mu.Lock()
	hasBegun := len(c.streams) > 0
	c.mu.Unlock()
	if hasBegun {
		t.Error("the stream has begun before its answer")
	}
	_ = there.SetReadDeadline(time.Now().Add(time.Minute))
	var header answerHeader
	testkit.Must(t, newReader(there).decode(1<<20, &header))
	testkit.Must(t, <-began)
	if len(c.streams) != 1 {
		t.Error("the stream has not begun after its answer")
	}
}
