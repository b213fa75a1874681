package serf

import (
	"io"
	"log"
	"net"
	"testing"
	"time"

	"github.com/hashicorp/memberlist"

	"kitchenrue.example/serfagent"
)

// An intent is sent on once. One that arrives again, or that is older than what the node knows, is not sent on.
func TestRepeatedIntentsAreNotSentOn(t *testing.T) {
	a := startNode(t, "a", "", withAgent(&fakeAgent{}), func(o *nodeOptions) { o.MemberlistConfig.GossipInterval = 0 })
	a.delegate().NotifyJoin(nodeB())
	first := [][]byte{intentPacket(t, 5, "b", true), intentPacket(t, 6, "stranger", true), intentPacket(t, 7, "b", false)}
	for i := 0; i < 3; i++ {
		for _, packet := range first {
			a.delegate().NotifyMsg(packet)
		}
	}
	// (intents are processed in order, so all others are processed before this one is sent on)
	a.delegate().NotifyMsg(intentPacket(t, 100, "b", true))
	eventually(t, "the last intent is processed", func() bool { return a.statusTime("b") == 100 })
	eventually(t, "the last intent is sent on", func() bool { return a.intents.NumQueued() > len(first) })
	if sent := a.intents.NumQueued(); sent != len(first)+1 {
		t.Errorf("%d intents are sent on, and %d are new", sent, len(first)+1)
	}
}

// A node relays a message only to a member with exactly the name, address and port in the relay.
func TestRelaysNameMembersExactly(t *testing.T) {
	a := startNode(t, "a", "", withAgent(&fakeAgent{}))
	a.delegate().NotifyJoin(nodeB())
	for _, test := range []struct {
		name string
		addr net.IP
		port uint16
		want bool
	}{
		{"b", net.IPv4(127, 0, 0, 9), 1, true}, {"b", net.IPv4(127, 0, 0, 9).To4(), 1, true},
		{"c", net.IPv4(127, 0, 0, 9), 1, false}, {"", net.IPv4(127, 0, 0, 9), 1, false},
		{"b", net.IPv4(127, 0, 0, 8), 1, false}, {"b", nil, 1, false}, {"b", net.IPv4(127, 0, 0, 9), 2, false},
	} {
		if a.isMember(test.name, test.addr, test.port) != test.want {
			t.Errorf("%+v", test)
		}
	}
}

// If too many packets wait to be gossiped, the oldest ones are dropped.
func TestOldestIncomingPacketsAreDropped(t *testing.T) {
	s := &Serf{config: &Config{MaxQueueDepth: 2}, maxGossipPacket: 100}
	queue := &broadcastQueue{serf: s}
	for _, text := range []string{"first", "second", "third"} {
		queue.add(broadcast{packet: []byte(text)})
	}
	if waiting := queue.incoming; len(waiting) != 2 || string(waiting[0].packet) != "second" || string(waiting[1].packet) != "third" ||
		s.dropped.Load() != 1 {
		t.Error(waiting, s.dropped.Load())
	}
}

// Only a state that arrives with a join is merged as that of a join that ignores old events, and only while such a join runs.
func TestStatesOfJoinsThatIgnoreOldEvents(t *testing.T) {
	for _, test := range []struct {
		running      int64
		isJoin, want bool
	}{{0, false, false}, {0, true, false}, {1, false, false}, {1, true, true}, {2, true, true}} {
		s := &Serf{states: newQueue()}
		s.ignoringJoins.Store(test.running)
		delegate{s}.MergeRemoteState([]byte("state"), test.isJoin)
		if state, ok := s.states.next(); !ok || state.isJoin != test.want {
			t.Errorf("%+v: %v", test, state.isJoin)
		}
	}
}

// If no new state is ready in time, LocalState returns the last state that was encoded, and not the first one.
func TestLastStateIsSentIfTheNextIsLate(t *testing.T) {
	f := &fakeAgent{}
	a := startNode(t, "a", "", withAgent(f))
	f.mu.Lock()
	f.time = 5
	f.mu.Unlock()
	// (on a busy machine this state may be late too)
	eventually(t, "a state is made in time", func() bool { return string(a.delegate().LocalState(false)) == "state 5" })
	f.mu.Lock()
	f.time = 6
	state := a.delegate().LocalState(false)
	f.mu.Unlock()
	if string(state) != "state 5" {
		t.Errorf("%q", state)
	}
}

// The node merges all waiting states before it makes a call of the proved agent.
func TestAllWaitingStatesPrecedeACall(t *testing.T) {
	conf := loopbackConfig("a")
	conf.EventCh, conf.timeOfDay = make(chan Event), time.Now
	s := &Serf{config: &conf, log: log.New(io.Discard, "", 0), agent: &failingAgent{}, states: newQueue(), pipe: newPipe(),
		seenTimes: newSeenTimes(512, 0), eventNames: newNameCounter("events"), missedEvents: make(chan struct{}, 1)}
	s.members = newMembers(&conf, s.log, func(MemberEvent) {}, func(string) {})
	s.coalescer = newCoalescer(&conf, s.pipe.add)
	for i := 0; i < 3; i++ {
		s.states.add([]byte("\x02\x80"), false)
	}
	merged := 0
	check(t, s.useAgent(func() error { merged = s.pipe.length(); return nil }))
	if merged != 3 {
		t.Errorf("%d of 3 states were merged before", merged)
	}
}

// A conflict about this node's name starts a query, and one about another node's name does not.
func TestConflictsOfOtherNames(t *testing.T) {
	twin := &memberlist.Node{Name: "a", Addr: []byte{127, 9, 9, 9}, Port: 1}
	for _, test := range []struct {
		existing  *memberlist.Node
		isEnabled bool
		want      int
	}{{nodeB(), true, 0}, {twin, true, 1}, {twin, false, 0}} {
		conf := loopbackConfig("a")
		conf.EnableNameConflictResolution = test.isEnabled
		s := &Serf{config: &conf, log: log.New(io.Discard, "", 0), conflicts: make(chan struct{}, 1)}
		delegate{s}.NotifyConflict(test.existing, nodeB())
		if len(s.conflicts) != test.want {
			t.Errorf("%s %v: %d", test.existing.Name, test.isEnabled, len(s.conflicts))
		}
	}
}

// If no other node answers the query about its name, a node continues. Answers of nodes that know no member of that
// name don't count.
func TestConflictsThatNobodyDecides(t *testing.T) {
	alone := startNode(t, "a", "")
	if err := alone.resolveConflict(); err != nil {
		t.Error("nobody answered:", err)
	}
	a, b := startPair(t)
	b.members.change(func() { delete(b.members.members, "a") })
	if err := a.resolveConflict(); err != nil {
		t.Error("b knows no node of the name:", err)
	}
}

// A firing is refused if there is no room when its burst begins.
func TestFiringWithoutRoomIsRefused(t *testing.T) {
	a := startNode(t, "a", "", withAgent(&fakeAgent{}))
	a.fillPipe()
	late := &firing{Firing: Firing{Name: "late"}, done: make(chan struct{}, 1)}
	if _, ok := a.firings.add(late); !ok {
		t.Fatal("the node accepts no firings")
	}
	a.agentMu.Lock()
	_, err := a.runBurst(nil)
	a.agentMu.Unlock()
	<-late.done
	if err != nil || late.err != ErrBusy {
		t.Error(err, late.err)
	}
}

// fillPipe stops reading, and fills the pipe. When it returns, the pipe is offering its first event, and stays full.
func (n *testNode) fillPipe() {
	n.t.Helper()
	n.pauseReading(true)
	n.pipe.add(UserEvent{Name: "filler"})
	eventually(n.t, "the pipe offers an event", func() bool {
		n.mu.Lock()
		defer n.mu.Unlock()
		n.pipe.mu.Lock()
		defer n.pipe.mu.Unlock()
		return n.pipe.removed == len(n.received)+1
	})
	for n.pipe.hasRoom() {
		n.pipe.add(UserEvent{Name: "filler"})
	}
}

// If there is no room for an event, UserEvent waits for room, up to BroadcastTimeout.
func TestFiringWaitsForRoom(t *testing.T) {
	a := startNode(t, "a", "", withAgent(&fakeAgent{}), func(o *nodeOptions) { o.BroadcastTimeout = 5 * time.Minute })
	a.fillPipe()
	fired := make(chan error, 1)
	go func() { fired <- a.UserEvent("x", nil, false) }()
	select {
	case err := <-fired:
		t.Fatal("the call returned, although there is no room:", err)
	case <-time.After(time.Second):
	}
	a.pauseReading(false)
	promptly(t, "the event is fired", func() { check(t, <-fired) })
}

// The number of events that were never received includes the one that was being offered.
func TestUndeliveredEventsAreCounted(t *testing.T) {
	for count := 0; count < 4; count++ {
		p, done := newPipe(), make(chan struct{})
		for i := 0; i < count; i++ {
			p.add(UserEvent{})
		}
		close(done)
		if found := p.deliver(make(chan Event), done, time.Millisecond); found != count {
			t.Errorf("%d of %d", found, count)
		}
	}
}

// Each report says how many packets were dropped since the report before it.
func TestDropsAreReportedOnce(t *testing.T) {
	logs, last := &logBuffer{}, reportedDrops{}
	s := &Serf{config: &Config{}, log: log.New(logs, "", 0)}
	for _, dropped := range []int64{5, 0, 3} {
		s.dropped.Add(dropped)
		s.reportDropped(&last)
	}
	want := "[WARN] serf: 5 packets or states were dropped, since too many are waiting\n" +
		"[WARN] serf: 3 packets or states were dropped, since too many are waiting\n"
	if logs.String() != want {
		t.Error(logs.String())
	}
}

// If the node of a held intent doesn't join in time, the intent is forgotten, so that others can be held.
func TestOldHeldIntentsAreForgotten(t *testing.T) {
	c := newTestMembers()
	c.run("leaves old 3; leaves young 3")
	held := c.intents["old"]
	held.heldAt = time.Now().Add(-2 * c.intentTimeout)
	c.intents["old"] = held
	c.reap(time.Hour, time.Hour, false)
	if _, hasYoung := c.intents["young"]; len(c.intents) != 1 || !hasYoung {
		t.Error(c.intents)
	}
}

// A node that is leaving does not try to join failed members again.
func TestLeavingNodeDoesNotReconnect(t *testing.T) {
	for state, want := range map[SerfState]bool{SerfAlive: true, SerfLeaving: false} {
		logs := &logBuffer{}
		a := startNode(
			t, "a", "", withAgent(&fakeAgent{}), withLog(logs), func(o *nodeOptions) { o.ReconnectInterval = 5 * time.Millisecond },
		)
		a.stateMu.Lock()
		a.state = state
		a.stateMu.Unlock()
		a.delegate().NotifyJoin(nodeB())
		a.delegate().NotifyLeave(nodeB())
		const text = "attempting reconnect to b"
		if want {
			eventually(t, text, func() bool { return logs.contains(text) })
			continue
		}
		time.Sleep(500 * time.Millisecond)
		if logs.contains(text) {
			t.Error(logs.String())
		}
	}
}

// A node that keeps events and may have missed some asks several others, one after another.
func TestSeveralMembersAreAskedForMissedEvents(t *testing.T) {
	logs := &logBuffer{}
	k := startNode(t, "k", t.TempDir(), withLog(logs), withoutGossip, func(o *nodeOptions) { o.KeepEvents = true })
	// (nobody listens at these ports, so each exchange fails at once)
	for _, name := range []string{"m1", "m2", "m3", "m4"} {
		k.members.memberJoined(Member{Name: name, Addr: net.IPv4(127, 0, 0, 1), Port: 1})
	}
	signal(k.missedEvents)
	eventually(t, "three members are asked", func() bool { return logs.count("no state was exchanged with m") == maxFruitlessIfComplete })
}

// A query about keys has the relay factor that the caller of KeyManager chose.
func TestKeyQueriesHaveTheirRelays(t *testing.T) {
	f := &queryingAgent{}
	a := startNode(t, "a", "", withAgent(f))
	if _, err := a.KeyManager().ListKeysWithOptions(&KeyRequestOptions{RelayFactor: 3}); err == nil {
		t.Error("the query of the test's agent succeeded")
	}
	if f.params.RelayFactor != 3 {
		t.Errorf("%+v", f.params)
	}
}

// queryingAgent is a fakeAgent that keeps the options of the last query.
type queryingAgent struct {
	fakeAgent
	params serfagent.QueryParams
}

func (q *queryingAgent) Query(
	now uint64, id uint32, name string, payload []byte, params serfagent.QueryParams,
) (*serfagent.FiredQuery, error) {
	q.params = params
	return q.fakeAgent.Query(now, id, name, payload, params)
}
