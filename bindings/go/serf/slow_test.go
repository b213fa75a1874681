package serf

import (
	"fmt"
	"net"
	"reflect"
	"runtime"
	"strings"
	"testing"
	"time"

	"kitchenrue.example/serfagent"
)

// While the disk is slow, the node still acks pings and accepts joins.
func TestPingsWhileDiskIsSlow(t *testing.T) {
	f := &fakeAgent{flushGate: make(chan struct{})}
	a := startNode(t, "a", "", withAgent(f))
	other := startNode(t, "b", "", withAgent(&fakeAgent{}), func(o *nodeOptions) { o.MemberlistConfig.ProbeTimeout = 20 * time.Second })
	a.delegate().NotifyMsg([]byte("\x03\x80"))
	eventually(t, "the agent flushes", f.isBusy)
	addr, err := net.ResolveUDPAddr("udp", a.address())
	must(t, err)
	for i := 0; i < 3; i++ {
		other.join(a)
		if _, err := other.memberlist().Ping("a", addr); err != nil {
			t.Error(err)
		}
	}
	close(f.flushGate)
}

// Bytes that memberlist reuses after a call are copied.
func TestBorrowedBytesAreCopied(t *testing.T) {
	f := &failingAgent{fakeAgent: fakeAgent{flushGate: make(chan struct{})}}
	a := startNode(t, "a", "", withAgent(f))
	a.delegate().NotifyMsg([]byte("\x03first"))
	eventually(t, "the agent flushes", f.isBusy)
	packet, state, node := []byte("\x03lent"), []byte("\x02lent"), nodeB()
	a.delegate().NotifyMsg(packet)
	a.delegate().MergeRemoteState(state, false)
	a.delegate().NotifyJoin(node)
	for _, borrowed := range [][]byte{packet, state, node.Addr, node.Meta} {
		for i := range borrowed {
			borrowed[i] = 'x'
		}
	}
	close(f.flushGate)
	eventually(t, "both arrive unchanged", func() bool {
		return reflect.DeepEqual(a.payloads("fake"), []string{"first", "lent"}) &&
			reflect.DeepEqual(a.payloads("merged"), []string{"\x02lent"})
	})
	if m, _ := a.members.get("b"); m.Addr.String() != "127.0.0.9" || m.Tags["t"] != "v" {
		t.Error(m)
	}
}

// Packets for which there is no room are counted and logged once. A packet that is too long for a datagram is dropped too.
func TestDroppedPackets(t *testing.T) {
	f, logs := &fakeAgent{flushGate: make(chan struct{})}, &logBuffer{}
	a := startNode(t, "a", "", withAgent(f), withLog(logs), func(o *nodeOptions) { o.MaxQueueDepth = 2 * Waiting })
	a.delegate().NotifyMsg([]byte("\x03\x80"))
	eventually(t, "the agent flushes", f.isBusy)
	for i := 0; i < Waiting+1234; i++ {
		a.delegate().NotifyMsg([]byte("\x03\x80"))
	}
	close(f.flushGate)
	eventually(t, "it is logged", func() bool {
		return strings.Contains(logs.String(), " 1234 packets or states were dropped, since too many are waiting")
	})
	eventually(t, "the others are processed", func() bool { return len(a.payloads("fake")) == Waiting+1 })
	if text := logs.String(); strings.Count(text, "since too many are waiting") != 1 || a.Stats()["dropped"] != "1234" {
		t.Error(a.Stats(), text)
	}
	for more := 0; more < 2; more++ {
		a.delegate().NotifyMsg(append([]byte{3}, make([]byte, maxPacketLength-1+more)...))
	}
	eventually(t, "the shorter packet is processed", func() bool { return len(a.payloads("fake")) == Waiting+2 })
	// (the shorter packet was processed, but is too long to be gossiped)
	eventually(t, "both are counted", func() bool { return a.dropped.Load() >= 1236 })
	if lost := a.dropped.Load(); lost != 1236 {
		t.Error(lost)
	}
}

// A node merges the states that it has received before it fires an event.
func TestFiringFollowsEarlierStates(t *testing.T) {
	a := startNode(t, "a", "", withAgent(&failingAgent{}))
	for i := 0; i < 500; i++ {
		a.delegate().MergeRemoteState([]byte("\x02\x80"), true)
		if time, err := a.Fire("x", nil, false); err != nil || time != LamportTime(2*i+2) {
			t.Fatalf("firing %d has the time %d: %v", i, time, err)
		}
	}
}

// heapInUse returns the size of Go's live heap.
func heapInUse() int64 {
	runtime.GC()
	var stats runtime.MemStats
	runtime.ReadMemStats(&stats)
	return int64(stats.HeapAlloc)
}

// If nobody receives events and a million packets arrive, memory stays limited, and the node remains a member.
func TestMillionPacketsWithoutReader(t *testing.T) {
	a := startNode(t, "a", "", withAgent(&fakeAgent{}))
	a.pauseReading(true)
	packet := append([]byte{3}, make([]byte, 511)...)
	flood := func(count int) {
		for i := 0; i < count; i++ {
			a.delegate().NotifyMsg(packet)
		}
	}
	eventually(t, "the queue is full", func() bool {
		flood(Burst)
		a.packets.mu.Lock()
		defer a.packets.mu.Unlock()
		return !a.pipe.hasRoom() && len(a.packets.messages) == Waiting
	})
	before, dropped := heapInUse(), a.dropped.Load()
	flood(1_000_000)
	if grown, lost := heapInUse()-before, a.dropped.Load()-dropped; grown > 4<<20 || lost < 1_000_000-Waiting {
		t.Errorf("the heap grew by %d bytes, and %d packets were dropped", grown, lost)
	}
	promptly(t, "what a member does", func() {
		if err := a.SetTags(map[string]string{"role": "web"}); err != nil || a.LocalMember().Tags["role"] != "web" ||
			len(a.delegate().LocalState(false)) == 0 {
			t.Error(err, a.LocalMember())
		}
		check(t, a.Leave())
	})
}

// The goroutine that receives events may call the node, and shut it down.
func TestReaderThatCallsBack(t *testing.T) {
	done := make(chan struct{})
	var a *testNode
	var response *QueryResponse
	isMade := make(chan struct{})
	handleEvent := func(e Event) {
		<-isMade
		var err error
		switch e := e.(type) {
		case UserEvent:
			if e.Name != "first" {
				return
			}
			check(t, a.UserEvent("second", nil, false))
			if err = a.SetTags(map[string]string{"role": "web"}); err != nil || len(a.Members()) != 1 || a.Stats()["members"] != "1" {
				t.Error(err, a.Members(), a.Stats())
			}
			a.delegate().NotifyMsg([]byte("\x03\x80"))
			a.delegate().MergeRemoteState(a.delegate().LocalState(false), false)
			if response, err = a.Query("who", nil, &QueryParam{Timeout: MaxTimeout}); err != nil {
				t.Error(err)
			}
		case *Query:
			check(t, e.Respond([]byte("here")))
			if answer := <-response.ResponseCh(); answer.From != "a" || string(answer.Payload) != "here" {
				t.Error(answer)
			}
			// (events that nobody receives meanwhile don't delay the end)
			check(t, a.UserEvent("last", nil, false))
			check(t, a.Shutdown())
			if response.expiryTimer.Stop() {
				t.Error("a timer keeps the node in memory")
			}
			close(done)
		}
	}
	a = startNode(t, "a", "", withOnEvent(handleEvent))
	close(isMade)
	must(t, a.UserEvent("first", nil, false))
	promptly(t, "what the reader does", func() { <-done })
}

// recordingAgent records what an agent hands out, in order.
type recordingAgent struct {
	Agent
	recorded testNode
}

// record records an event or a query that the agent hands out.
func (n *recordingAgent) record(event *serfagent.Event, query *serfagent.PendingQuery) {
	if event != nil {
		n.recorded.received = append(
			n.recorded.received, UserEvent{LTime: LamportTime(event.Time), Name: event.Name, Payload: event.Payload},
		)
	}
	if query != nil {
		n.recorded.received = append(n.recorded.received, &Query{LTime: LamportTime(query.Time), Name: query.Name})
	}
}

func (n *recordingAgent) TakeAll(now uint64, packets []Packet, firings []Firing) ([]serfagent.Outcome, error) {
	n.recorded.mu.Lock()
	defer n.recorded.mu.Unlock()
	outcomes, err := n.Agent.TakeAll(now, packets, firings)
	for _, outcome := range outcomes {
		if outcome.Received != nil {
			n.record(outcome.Received.Event, outcome.Received.Query)
		} else if outcome.Fired != nil {
			n.record(outcome.Fired.Event, nil)
		}
	}
	return outcomes, err
}

func (n *recordingAgent) Merge(state []byte, isJoin bool) ([]*serfagent.Event, error) {
	n.recorded.mu.Lock()
	defer n.recorded.mu.Unlock()
	events, err := n.Agent.Merge(state, isJoin)
	for _, event := range events {
		n.record(event, nil)
	}
	return events, err
}

func (n *recordingAgent) Query(
	now uint64, id uint32, name string, payload []byte, params serfagent.QueryParams,
) (*serfagent.FiredQuery, error) {
	n.recorded.mu.Lock()
	defer n.recorded.mu.Unlock()
	fired, err := n.Agent.Query(now, id, name, payload, params)
	if fired != nil {
		n.record(nil, fired.Query)
	}
	return fired, err
}

// handedOut returns the events and queries that were handed out, in order.
func (n *testNode) handedOut() (all []string) {
	n.mu.Lock()
	defer n.mu.Unlock()
	for _, e := range n.received {
		switch e := e.(type) {
		case UserEvent:
			all = append(all, fmt.Sprintf("event %d %s %x", e.LTime, e.Name, e.Payload))
		case *Query:
			all = append(all, fmt.Sprintf("query %d %s", e.LTime, e.Name))
		}
	}
	return all
}

// While goroutines fire events and queries during a flood of whole packets, truncated packets and states, everything is
// delivered once, in the agent's order.
func TestEventsKeepAgentsOrder(t *testing.T) {
	agent := &recordingAgent{}
	a := startNode(t, "a", t.TempDir(), func(o *nodeOptions) {
		o.Wrap = func(proved Agent, _ Opening) (Agent, error) {
			agent.Agent = proved
			return agent, nil
		}
	})
	done := make(chan bool)
	const callers, calls = 4, 100
	for i := 0; i < callers; i++ {
		go func() {
			for j := 0; j < calls; j++ {
				check(t, a.UserEvent("own", nil, false))
				if _, err := a.Query("who", nil, &QueryParam{Timeout: time.Millisecond}); err != nil && err != ErrQueries {
					t.Error(err)
				}
			}
			done <- true
		}()
	}
	for i := uint64(1); i <= 1000; i++ {
		whole := forgedEvent(i, fmt.Sprint(i))
		for _, packet := range [][]byte{
			whole[:1+int(i)%(len(whole)-1)], whole, []byte(malformedPackets[int(i)%len(malformedPackets)]), forgedQuery(i, uint32(i), 0),
		} {
			a.delegate().NotifyMsg(packet)
		}
		if i%256 == 0 {
			a.waitForMark(i)
		}
		if i%50 == 0 {
			a.delegate().MergeRemoteState(forgedState(i, 8, func(slot int) string { return fmt.Sprint(i, " ", slot) }), false)
		}
	}
	for i := 0; i < callers; i++ {
		<-done
	}
	a.waitForMark(5000)
	found, different := a.handedOut(), map[string]bool{}
	for _, text := range found {
		different[text] = true
	}
	if !reflect.DeepEqual(found, agent.recorded.handedOut()) || len(different) != len(found) || len(found) < callers*calls+2000 {
		t.Errorf("%d were delivered, of which %d are different, or the order is not the agent's", len(found), len(different))
	}
}
