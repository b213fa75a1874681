package serf

import (
	"errors"
	"fmt"
	"io"
	"log"
	"math"
	"net"
	"reflect"
	"strings"
	"testing"
	"time"

	"github.com/hashicorp/memberlist"

	"kitchenrue.example/serfagent"
)

// No method that memberlist calls waits for the disk.
func TestMemberlistCallsDoNotWaitForDisk(t *testing.T) {
	f := &fakeAgent{flushGate: make(chan struct{})}
	a := startNode(t, "a", "", withAgent(f))
	a.delegate().NotifyMsg([]byte{3})
	eventually(t, "the agent flushes", f.isBusy)
	node := &memberlist.Node{Name: "b", Addr: []byte{127, 0, 0, 1}, Meta: []byte("\xff\x80")}
	promptly(t, "NotifyMsg", func() { a.delegate().NotifyMsg([]byte{3}) })
	promptly(t, "MergeRemoteState", func() { a.delegate().MergeRemoteState([]byte{2}, true) })
	promptly(t, "LocalState", func() { a.delegate().LocalState(false) })
	promptly(t, "GetBroadcasts", func() { a.delegate().GetBroadcasts(0, 1000) })
	promptly(t, "NodeMeta", func() { a.delegate().NodeMeta(512) })
	promptly(t, "NotifyJoin", func() { a.delegate().NotifyJoin(node) })
	promptly(t, "NotifyUpdate", func() { a.delegate().NotifyUpdate(node) })
	promptly(t, "NotifyConflict", func() { a.delegate().NotifyConflict(node, node) })
	promptly(t, "NotifyLeave", func() { a.delegate().NotifyLeave(node) })
	close(f.flushGate)
}

// LocalState waits for a flush of 200 milliseconds. During a longer flush it returns the last state, and after the flush the current one.
func TestLocalStateWaitsForFlush(t *testing.T) {
	f := &fakeAgent{flushGate: make(chan struct{})}
	a := startNode(t, "a", "", withAgent(f))
	a.delegate().NotifyMsg([]byte{3, 0})
	eventually(t, "the agent flushes", f.isBusy)
	began := time.Now()
	state := a.delegate().LocalState(false)
	if waited := time.Since(began); waited < 200*time.Millisecond || string(state) != "state 0" {
		t.Errorf("%q, after %v", state, waited)
	}
	close(f.flushGate)
	eventually(t, "the present state after the flush", func() bool { return string(a.delegate().LocalState(false)) == "state 1" })
}

// A flood of intents leaves room for queries and events.
func TestBroadcastsOfEachKindHaveRoom(t *testing.T) {
	a := startNode(t, "a", "", withAgent(&fakeAgent{}))
	kinds := func() (kinds [3]int) {
		for _, packet := range a.delegate().GetBroadcasts(2, 1400) {
			kinds[packet[0]]++
		}
		return kinds
	}
	for i := 0; i < 1000; i++ {
		a.queueBroadcast(a.intents, make([]byte, 30), nil)
	}
	if found := kinds(); found[0] < 40 {
		t.Error(found)
	}
	for i := 0; i < 1000; i++ {
		a.queueBroadcast(a.queries, append([]byte{1}, make([]byte, 29)...), nil)
		a.queueBroadcast(a.Serf.events, append([]byte{2}, make([]byte, 29)...), nil)
	}
	if found := kinds(); found[0] < 20 || found[1] < 10 || found[2] < 10 {
		t.Error(found)
	}
	// (neither queries that are longer than half of the room nor a flood of events block the other kinds)
	b := startNode(t, "b", "", withAgent(&fakeAgent{}), func(o *nodeOptions) { o.MemberlistConfig.RetransmitMult = 100 })
	b.queueBroadcast(b.queries, append([]byte{1}, make([]byte, 1023)...), nil)
	b.queueBroadcast(b.Serf.events, append([]byte{2}, make([]byte, 700)...), nil)
	sent := map[byte]int{}
	for i := 0; i < 20; i++ {
		for _, packet := range b.delegate().GetBroadcasts(2, 1400) {
			sent[packet[0]]++
		}
	}
	if sent[1] != 10 || sent[2] != 10 {
		t.Error(sent)
	}
}

func TestQueuesAreLimited(t *testing.T) {
	f := &fakeAgent{flushGate: make(chan struct{})}
	a := startNode(t, "a", "", withAgent(f))
	// (during a flush, the node takes nothing out of its queues)
	a.delegate().NotifyMsg([]byte{3, 0})
	eventually(t, "the agent flushes", f.isBusy)
	for i := 0; i < 3*Waiting; i++ {
		a.delegate().NotifyMsg([]byte{3, byte(i)})
		a.delegate().MergeRemoteState(make([]byte, 1<<16), false)
	}
	a.states.mu.Lock()
	stateBytes := a.states.bytes
	a.states.mu.Unlock()
	if packets := a.waitingPackets(); packets > Waiting || stateBytes > maxQueuedBytes || a.dropped.Load() < 2*Waiting {
		t.Error(packets, stateBytes, a.dropped.Load())
	}
	close(f.flushGate)
	for i := 0; i < 2*Waiting; i++ {
		must(t, a.UserEvent("x", nil, false))
	}
	a.Serf.events.mu.Lock()
	fresh := len(a.Serf.events.incoming)
	a.Serf.events.mu.Unlock()
	if events := a.Serf.events.NumQueued(); fresh > Waiting || events > Waiting {
		t.Error(fresh, events)
	}
	waiting := newLineQueue()
	for i := 0; i < 2*maxQueuedLines; i++ {
		waiting.add("alive: x 1:1\n")
	}
	if lines, isOverflowed := waiting.take(); len(lines) != maxQueuedLines || !isOverflowed {
		t.Error(len(lines), isOverflowed)
	}
}

// A packet that is too long for memberlist's gossip is dropped, and its sender does not wait for it.
func TestPacketsTooLongToGossip(t *testing.T) {
	// (room is how many of 1,400 bytes memberlist leaves for packets; it needs three of these for each packet)
	for _, test := range []struct {
		key  []byte
		room int
	}{{nil, 1398}, {make([]byte, 16), 1369}} {
		a := startNode(t, "a", "", withAgent(&fakeAgent{}), func(o *nodeOptions) { o.MemberlistConfig.SecretKey = test.key })
		sent := make(chan struct{})
		a.queueBroadcast(a.Serf.events, make([]byte, test.room-3), nil)
		a.queueBroadcast(a.Serf.events, make([]byte, test.room-2), sent)
		promptly(t, "the packet is dropped", func() { <-sent })
		if a.Serf.events.NumQueued() != 1 || a.dropped.Load() != 1 || len(a.delegate().GetBroadcasts(3, test.room)) != 1 {
			t.Error(test.room, a.Serf.events.NumQueued(), a.dropped.Load())
		}
	}
}

// A query that nobody answered is forgotten once maxUnanswered later queries were handed out.
func TestUnansweredQueriesAreForgotten(t *testing.T) {
	f := &fakeAgent{}
	a := startNode(t, "a", "", withAgent(f))
	for number := uint64(1); number <= maxUnanswered+3; number++ {
		a.stageQuery(&serfagent.PendingQuery{Number: number, Name: "x"}, nil)
	}
	f.mu.Lock()
	defer f.mu.Unlock()
	if !reflect.DeepEqual(f.forgotten, []uint64{1, 2, 3}) {
		t.Error(f.forgotten)
	}
}

// An internal query for which there is no room is forgotten at once.
func TestDroppedQueryIsForgotten(t *testing.T) {
	f := &fakeAgent{}
	node := &Serf{
		agent: f, log: log.New(io.Discard, "", 0), internalQueries: make(chan *serfagent.PendingQuery),
		queryNames: newNameCounter("queries"),
	}
	node.stageQuery(&serfagent.PendingQuery{Number: 9, Name: InternalQueryPrefix + "ping"}, nil)
	if !reflect.DeepEqual(f.forgotten, []uint64{9}) {
		t.Error(f.forgotten)
	}
}

// The proved agent no longer knows a query that was answered or whose deadline has passed. The error of Respond says
// which of the two has happened.
func TestRespondErrors(t *testing.T) {
	a := startNode(t, "a", "", withAgent(&fakeAgent{}))
	for _, test := range []struct {
		query Query
		want  error
	}{
		{Query{pending: &serfagent.PendingQuery{}}, errTooLate},
		{Query{pending: &serfagent.PendingQuery{Deadline: math.MaxUint64}}, errAnswered},
		{Query{pending: &serfagent.PendingQuery{}, answered: 1}, errAnswered},
	} {
		test.query.serf = a.Serf
		if err := test.query.Respond(nil); err != test.want {
			t.Error(test.query.pending.Deadline, err)
		}
	}
}

// An answer is sent to an IP address only, and no name is looked up.
func TestAnswersGoToIPAddressesOnly(t *testing.T) {
	logs := &logBuffer{}
	a := startNode(t, "a", "", withAgent(&fakeAgent{}), withLog(logs))
	for _, addr := range []string{"", "abc", "localhost", strings.Repeat("x", 300)} {
		a.sendToNode("b", net.IP(addr), 9, []byte("x"))
		if !strings.Contains(logs.String(), fmt.Sprintf(": %x is not an IP address", addr)) {
			t.Errorf("%q: %s", addr, logs.String())
		}
	}
}

// Packets that wait while the agent is busy are processed together, in their order.
func TestBursts(t *testing.T) {
	f := &fakeAgent{flushGate: make(chan struct{})}
	a := startNode(t, "a", "", withAgent(f))
	a.delegate().NotifyMsg([]byte{3, 'a'})
	eventually(t, "the agent is busy", func() bool { return len(a.packets.ready) == 0 })
	var want []string
	for i := 0; i < 600; i++ {
		want = append(want, fmt.Sprintf("%03d", i))
		a.delegate().NotifyMsg(append([]byte{3}, want[i]...))
		a.delegate().NotifyMsg([]byte{3})
		a.delegate().NotifyMsg(intentPacket(t, 1, "x", false))
	}
	close(f.flushGate)
	eventually(t, "all are processed", func() bool { return len(a.payloads("fake")) == 601 })
	if found := a.payloads("fake")[1:]; !reflect.DeepEqual(found, want) {
		t.Error(found)
	}
	eventually(t, "all are queued for gossip", func() bool { return a.Serf.events.NumQueued() == 601 })
	f.mu.Lock()
	defer f.mu.Unlock()
	if len(f.bursts) > 10 || f.bursts[1] != Burst {
		t.Error(f.bursts)
	}
}

// In a burst of packets and firings each firing gets its own outcome, or the error if memory ran out before it.
func TestBurstOfPacketsAndFirings(t *testing.T) {
	f := &fakeAgent{}
	a := startNode(t, "a", "", withAgent(f))
	burst := func() *firing {
		firing := &firing{Firing: Firing{Name: "x"}, done: make(chan struct{}, 1)}
		if isLeader, ok := a.firings.add(firing); !isLeader || !ok {
			t.Fatal("another goroutine fires")
		}
		if err := a.processBurst([][]byte{{3, 'p'}, {3}}); err != f.receiveErr {
			t.Error(err)
		}
		a.firings.leaveToFireAll()
		<-firing.done
		return firing
	}
	if fired := burst(); fired.err != nil || fired.time != 2 {
		t.Error(fired.err, fired.time)
	}
	eventually(t, "both are delivered", func() bool { return len(a.payloads("fake")) == 1 && len(a.payloads("x")) == 1 })
	if queued := a.Serf.events.NumQueued(); queued != 2 {
		t.Errorf("%d packets are queued for gossip, want 2", queued)
	}
	f.receiveErr = serfagent.OutOfMemory
	if fired := burst(); fired.err != serfagent.OutOfMemory {
		t.Error(fired.err)
	}
}

// If nobody receives the events, the node accepts and fires nothing more, and loses nothing that was handed out.
func TestSlowReader(t *testing.T) {
	f := &fakeAgent{}
	a := startNode(t, "a", "", withAgent(f), func(o *nodeOptions) { o.BroadcastTimeout = 50 * time.Millisecond })
	a.pauseReading(true)
	for i := 0; i < 3*Waiting; i++ {
		a.delegate().NotifyMsg([]byte{3, byte(i >> 8), byte(i)})
		if i%256 == 0 {
			time.Sleep(time.Millisecond)
		}
	}
	eventually(t, "the pipe is full", func() bool {
		// (on a busy machine, the node may have received no more of these packets than its queue has room for)
		a.delegate().NotifyMsg([]byte{3, 0xff, 0xff})
		return a.pipe.length() >= Waiting
	})
	if err := a.UserEvent("x", nil, false); err != ErrBusy {
		t.Error(err)
	}
	if _, err := a.Query("x", nil, nil); err != ErrBusy {
		t.Error(err)
	}
	if length := a.pipe.length(); length > Waiting+Burst {
		t.Error(length)
	}
	a.pauseReading(false)
	f.mu.Lock()
	time.Sleep(10 * time.Millisecond)
	f.mu.Unlock()
	eventually(t, "all is delivered", func() bool {
		f.mu.Lock()
		defer f.mu.Unlock()
		return a.waitingPackets() == 0 && a.pipe.length() == 0 && uint64(len(a.payloads("fake"))) == f.time
	})
	for i, payload := range a.payloads("fake")[:Waiting] {
		if payload != string([]byte{byte(i >> 8), byte(i)}) {
			t.Fatalf("%d: %x", i, payload)
		}
	}
	check(t, a.UserEvent("x", nil, false))
}

// Beyond the maximum, the pipe holds one event of each member: its latest.
func TestPipeKeepsLastMemberEvents(t *testing.T) {
	p := newPipe()
	for i := 0; i < Waiting; i++ {
		p.add(UserEvent{LTime: LamportTime(i)})
	}
	for i := 0; i < 10*Waiting; i++ {
		name := fmt.Sprint("n", i%3)
		p.add(MemberEvent{EventMemberUpdate, []Member{{Name: name, Port: uint16(i)}}})
	}
	p.add(MemberEvent{EventMemberJoin, []Member{{Name: "new"}}})
	p.add(MemberEvent{EventMemberUpdate, []Member{{Name: "new", Port: 9}}})
	if length := p.length(); length != Waiting+4 || len(p.waiting) > 3*Waiting {
		t.Error(length, len(p.waiting))
	}
	var found []string
	for e, ok := p.next(); ok; e, ok = p.next() {
		if memberEvent, ok := e.(MemberEvent); ok {
			found = append(found, fmt.Sprint(memberEvent, memberEvent.Members[0].Name, memberEvent.Members[0].Port))
		} else if len(found) > 0 {
			t.Fatal("a user event follows a member event")
		}
	}
	last := 10*Waiting - 1
	want := []string{}
	for i := last - 2; i <= last; i++ {
		want = append(want, fmt.Sprint("member-update", fmt.Sprint("n", i%3), uint16(i)))
	}
	if want = append(want, "member-joinnew9"); fmt.Sprint(found) != fmt.Sprint(want) {
		t.Error(found, want)
	}
	if p.length() != 0 || !p.hasRoom() {
		t.Error(p.length())
	}
}

// Events that are fired at the same time share a flush.
func TestFiringsShareFlush(t *testing.T) {
	f := &fakeAgent{flushGate: make(chan struct{})}
	a := startNode(t, "a", "", withAgent(f))
	results := make(chan error, 100)
	fire := func() { results <- a.UserEvent("x", nil, false) }
	go fire()
	eventually(t, "the first is being fired", func() bool { return f.isBusy() && a.waitingFirings() == 0 })
	for i := 1; i < 100; i++ {
		go fire()
	}
	eventually(t, "all others are waiting", func() bool { return a.waitingFirings() == 99 })
	close(f.flushGate)
	for i := 0; i < 100; i++ {
		check(t, <-results)
	}
	if len(f.firings) > 12 || len(a.payloads("x")) > 100 {
		t.Error(f.firings)
	}
	eventually(t, "all are delivered", func() bool { return len(a.payloads("x")) == 100 })
}

// When UserEvent returns, the event is queued for gossip. Otherwise other nodes would receive it only by a state exchange.
func TestFiredEventsAreQueuedForGossip(t *testing.T) {
	a := startNode(t, "a", "")
	for i := 1; i <= 3; i++ {
		if err := a.UserEvent("deploy", nil, false); err != nil || a.events.NumQueued() != i {
			t.Fatalf("%v, and %d events are queued for gossip, want %d", err, a.events.NumQueued(), i)
		}
	}
}

// outstandingWait waits for the callers of the last flush if they usually fire again before another flush would end. If
// others were waiting as well, all of them together are expected to take longer.
func TestOutstandingWait(t *testing.T) {
	// (outstandingWait sees the report as if it were ahead in time, so that the few milliseconds of its wait aren't over
	// if another process gets the processor)
	const flush, ahead = time.Hour, time.Minute
	f, reported := newFiringQueue(), []*firing{{done: make(chan struct{}, 99)}, {done: make(chan struct{}, 99)}}
	for _, test := range []struct {
		sinceReport time.Duration
		others      int
		isAwaited   bool
	}{
		{0, 0, true}, {0, 0, true}, {2 * flush, 0, true}, {2 * flush, 0, true}, {flush, 0, false}, {0, 0, false}, {flush / 4, 0, true},
		{flush / 4, 0, true},
		{flush / 2, 2, true}, {flush / 2, 2, true}, {flush / 2, 2, true}, {1 << 62, 2, true}, {flush, 200, false}, {0, 0, false},
		{0, 200, true},
	} {
		if f.outstandingWait() != 0 {
			t.Error("no caller is outstanding, and it waits")
		}
		f.takeBatch(Burst)
		for i := 0; i < test.others; i++ {
			f.add(&firing{})
		}
		f.wakeCallers(reported, flush)
		f.wokenAt = f.wokenAt.Add(ahead)
		if left := f.outstandingWait(); left > maxOutstandingWait+ahead || (left > 0) != test.isAwaited {
			t.Errorf("%+v: it waits %v, and the estimate is %v", test, left-ahead, f.returnTime)
		}
		f.wokenAt = f.wokenAt.Add(-ahead - test.sinceReport)
		for i := range reported {
			if len(f.noneOutstanding) != 0 {
				t.Error("a caller is still outstanding", i)
			}
			f.add(reported[i])
		}
		<-f.noneOutstanding
	}
}

// If the disk fails, the node ends and closes ShutdownCh.
func TestFileErrorEndsNode(t *testing.T) {
	f := &fakeAgent{receiveErr: serfagent.ErrFull}
	a := startNode(t, "a", "", withAgent(f))
	a.delegate().NotifyMsg([]byte{3})
	promptly(t, "the node ends", func() { <-a.ShutdownCh() })
	if err := a.Fault(); !errors.Is(err, serfagent.ErrFull) || a.State() != SerfShutdown {
		t.Error(err, a.State())
	}
	if err := a.UserEvent("x", nil, false); !errors.Is(err, ErrEnded) {
		t.Error(err)
	}
}

// memberlist reuses the bytes of a message after the call, so the queue copies them. Removing a message makes room for others.
func TestQueueCopiesMessages(t *testing.T) {
	q, borrowed := newQueue(), make([]byte, maxQueuedBytes/2)
	for i := byte(0); i < 5; i++ {
		borrowed[0] = i
		if !q.add(borrowed, i == 3) {
			t.Fatal("a message was refused, although there is room", i)
		}
		borrowed[0] = 99
		if first, ok := q.next(); !ok || first.data[0] != i || first.isJoin != (i == 3) || q.bytes != 0 {
			t.Fatal(i, ok, first.data[0], q.bytes)
		}
	}
}
