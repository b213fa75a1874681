package guard

import (
	"bytes"
	"errors"
	"fmt"
	"io"
	"log"
	"net"
	"testing"
	"time"

	"github.com/hashicorp/memberlist"
)

// If a socket returns an error, for example because the process has no free file descriptor, the guard reads it again.
func TestErrorsOfASocket(t *testing.T) {
	g := &Transport{log: log.New(io.Discard, "", 0), closed: make(chan struct{})}
	steps := 0
	g.running.Add(1)
	g.repeatUntilClosed("a step", func() error {
		if steps++; steps == 5 {
			close(g.closed)
		}
		if steps == 3 {
			return nil
		}
		return errors.New("no free file descriptor")
	})
	if steps != 5 {
		t.Errorf("it stopped after %d of 5 steps", steps)
	}
}

// A rate allows the same number of calls in each second.
func TestRateBeginsAnew(t *testing.T) {
	// (a second that begins in an hour isn't over, however busy the machine is)
	r := rate{secondStart: time.Now().Add(time.Hour)}
	for call := 1; call <= 4; call++ {
		if r.allows(2) != (call <= 2) {
			t.Errorf("two calls are allowed, and the answer to call %d is wrong", call)
		}
	}
	r.secondStart = time.Now().Add(-time.Second)
	if !r.allows(2) {
		t.Error("no call is allowed in the next second")
	}
}

// If the guard cuts entries out of a push/pull, a join is still a join, and another push/pull does not become one.
func TestCutPushPullStaysAJoin(t *testing.T) {
	bad, good := node("bad", map[string]any{"Vsn": []byte{1}}), node("good", nil)
	whole, want := pushPull([]map[string]any{bad, good}, 5), pushPull([]map[string]any{good}, 5)
	isJoin, isNone := []byte("Join\xc3"), []byte("Join\xc2")
	for _, test := range [][2][]byte{{whole, want}, {bytes.Replace(whole, isJoin, isNone, 1), bytes.Replace(want, isJoin, isNone, 1)}} {
		g := testGuard(t, false, Settings{})
		found := readStream(g, test[0], false)
		if bytes.Contains(found, isJoin) != bytes.Contains(test[0], isJoin) ||
			bytes.Contains(found, isNone) != bytes.Contains(test[0], isNone) {
			t.Errorf("%q", found)
		}
		if bytes.Contains(found, []byte("bad")) || !bytes.Contains(found, []byte("good")) {
			t.Errorf("%q", found)
		}
	}
}

// A push/pull keeps its place for pushPullTime. If another one waits for a place, it stops waiting at its deadline.
func TestPushPullKeepsItsPlace(t *testing.T) {
	for tries := 0; tries < 20; tries++ {
		g := testGuard(t, false, Settings{PushPulls: 1})
		began := time.Now()
		holder, waiting := testStream(t, g), testStream(t, g)
		if reason := g.streams.startPushPull(holder, 1); reason != none {
			t.Fatal(reason)
		}
		waiting.SetDeadline(time.Now().Add(pushPullTime / 3))
		ended := make(chan Reason, 1)
		go func() { ended <- g.streams.startPushPull(waiting, 1) }()
		var reason Reason
		select {
		case reason = <-ended:
		case <-time.After(20 * pushPullTime):
			t.Fatal("it waits beyond its deadline")
		}
		g.streams.mu.Lock()
		wasEvicted := holder.isClosed
		g.streams.mu.Unlock()
		if reason == Crowded && !wasEvicted {
			return
		}
		if took := time.Since(began); took < pushPullTime {
			t.Fatalf("it ended with %v after %v, and the other one was evicted: %v", reason, took, wasEvicted)
		}
		// (on a busy machine, the other push/pull may have used up its time)
	}
	t.Error("a push/pull waits beyond its deadline, or the machine is too busy")
}

// testStream returns an accepted stream over a pipe.
func testStream(t *testing.T, g *Transport) *stream {
	here, there := net.Pipe()
	s := g.newStream(here, false)
	g.streams.add(s)
	t.Cleanup(func() {
		there.Close()
		s.Close()
	})
	return s
}

// If there are too many streams, the oldest incomplete one is closed, or else the oldest one.
func TestOldestIncompleteStreamIsClosed(t *testing.T) {
	g := testGuard(t, false, Settings{Streams: 3})
	var all []*stream
	for _, step := range []struct {
		isComplete bool
		closed     string
	}{{true, "[]"}, {false, "[]"}, {true, "[]"}, {true, "[1]"}, {false, "[0 1]"}, {true, "[0 1 4]"}} {
		added := testStream(t, g)
		if all = append(all, added); step.isComplete {
			g.streams.markComplete(added)
		}
		closed := []int{}
		for i, other := range all {
			if other.isClosed {
				closed = append(closed, i)
			}
		}
		if fmt.Sprint(closed) != step.closed {
			t.Errorf("of %d streams these are closed: %v", len(all), closed)
		}
	}
}

// The version that a node speaks also has to be within the range.
func TestRangesOfVersions(t *testing.T) {
	r := VersionRange{2, 4}
	for versions, want := range map[[3]uint8]bool{
		{2, 4, 2}: true, {2, 4, 4}: true, {1, 5, 3}: true, {2, 4, 1}: false, {2, 4, 5}: false, {1, 5, 5}: false, {1, 5, 1}: false,
		{3, 4, 3}: false, {2, 3, 3}: false,
	} {
		if r.accepts(versions[0], versions[1], versions[2]) != want {
			t.Error(versions)
		}
	}
}

// After the guard has sent a packet that it could not read, it accepts every ack for a minute.
func TestAcksAfterAnUnreadablePacket(t *testing.T) {
	for age, want := range map[time.Duration]bool{0: true, unreadableTime / 2: true, unreadableTime: false, time.Hour: false} {
		var p pings
		p.unreadableAt.Store(time.Now().Add(-age).UnixNano())
		if p.isExpected(7) != want {
			t.Error(age)
		}
	}
}

// The places of nodes that memberlist has forgotten are free again.
func TestForgottenNodesHaveNoPlace(t *testing.T) {
	g := testGuard(t, false, Settings{Members: 2})
	for _, name := range []string{"old", "young"} {
		g.members.NotifyJoin(&memberlist.Node{Name: name})
		g.members.NotifyLeave(&memberlist.Node{Name: name})
	}
	if admits(g, "new") {
		t.Error("a node has a place, although two that left have theirs")
	}
	g.members.left["old"], g.members.sweptAt = place{at: time.Now().Add(-24 * time.Hour)}, time.Time{}
	if !admits(g, "new") || len(g.members.left) != 1 {
		t.Error("a node that was forgotten keeps its place")
	}
}

// eventRecorder is an EventDelegate that records the events that it receives.
type eventRecorder struct{ heard []string }

func (e *eventRecorder) NotifyJoin(n *memberlist.Node)   { e.heard = append(e.heard, "join "+n.Name) }
func (e *eventRecorder) NotifyLeave(n *memberlist.Node)  { e.heard = append(e.heard, "leave "+n.Name) }
func (e *eventRecorder) NotifyUpdate(n *memberlist.Node) { e.heard = append(e.heard, "update "+n.Name) }

// The program's own EventDelegate receives all events.
func TestOwnEventDelegate(t *testing.T) {
	own, c := &eventRecorder{}, testConfig("child", false)
	c.Events = own
	g, err := New(c, Settings{})
	if err != nil {
		t.Fatal(err)
	}
	defer g.Shutdown()
	n := &memberlist.Node{Name: "a"}
	c.Events.NotifyJoin(n)
	c.Events.NotifyUpdate(n)
	c.Events.NotifyLeave(n)
	if fmt.Sprint(own.heard) != "[join a update a leave a]" {
		t.Error(own.heard)
	}
}

// longConn is a connection from which many bytes can be read. It counts the bytes that were read.
type longConn struct {
	net.Conn
	read int
}

func (l *longConn) Read(p []byte) (int, error) {
	if l.read > 8<<20 {
		return 0, io.EOF
	}
	l.read += len(p)
	return len(p), nil
}

// If a connection's content is one packet, the guard reads at most one byte more than a packet may have.
func TestIngestedPacketIsBounded(t *testing.T) {
	g, conn := testGuard(t, false, Settings{}), &longConn{}
	if err := g.IngestPacket(conn, nil, time.Now(), false); err != nil {
		t.Error(err)
	}
	if conn.read > g.bounds.PacketBytes+1 || g.Drops()[TooLong] != 1 {
		t.Errorf("%d bytes were read, dropped: %v", conn.read, g.Drops())
	}
}
