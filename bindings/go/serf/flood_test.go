package serf

import (
	"bytes"
	"fmt"
	"math/rand"
	"net"
	"path/filepath"
	"reflect"
	"regexp"
	"runtime"
	"runtime/debug"
	"strconv"
	"strings"
	"sync"
	"testing"
	"time"

	"kitchenrue.example/serfagent"
)

// smallLimit is how many Lamport times a small agent remembers. The agent accepts the same number of events with one
// time, and of answers to one query.
const smallLimit = 16

// smallAgent returns a proved agent in memory with small limits.
func smallAgent(t *testing.T) Agent {
	t.Helper()
	settings := serfagent.DefaultSettings()
	settings.EventBuffer, settings.QueryBuffer, settings.PerTime, settings.Responders = smallLimit, smallLimit, smallLimit, smallLimit
	agent, err := serfagent.OpenInMemory("a", settings)
	must(t, err)
	return Proved(agent)
}

// These functions return forged messages: an event, a query of a node that does not exist, an answer, and a state.

type eventMessage struct {
	LTime   uint64
	Name    string
	Payload []byte
	CC      bool
}

type queryMessage struct {
	LTime   uint64
	ID      uint32
	Name    string
	Addr    []byte
	Port    uint16
	Flags   uint64
	Timeout time.Duration
	Filters [][]byte
}

type answerMessage struct {
	LTime uint64
	ID    uint32
	From  string
	Flags uint64
}

type slotMessage struct {
	Events []eventMessage
	LTime  uint64
}

type stateMessage struct {
	LTime        uint64
	StatusLTimes map[string]uint64
	LeftMembers  []string
	EventLTime   uint64
	Events       []*slotMessage
	QueryLTime   uint64
}

// forgedEvent and the functions below return packets that any program may send.
func forgedEvent(at uint64, payload string) []byte {
	return encode(eventMessage{LTime: at, Name: "flood", Payload: []byte(payload)}, eventType)
}

func forgedQuery(at uint64, id uint32, flags uint64, filters ...[]byte) []byte {
	return encode(queryMessage{at, id, "asked", []byte{127, 0, 0, 9}, 9, flags, time.Hour, filters}, queryType)
}

func forgedAnswer(at uint64, id uint32, from string, flags uint64) []byte {
	return encode(answerMessage{at, id, from, flags}, 5)
}

func forgedState(clock uint64, slots int, payload func(slot int) string) []byte {
	state := stateMessage{EventLTime: clock}
	for slot := 0; slot < slots; slot++ {
		event := eventMessage{Name: "flood", Payload: []byte(payload(slot))}
		state.Events = append(state.Events, &slotMessage{[]eventMessage{event}, clock - uint64(slot) - 1})
	}
	return encode(state, stateType)
}

// waitForMark sends an event with a new time and waits until it is delivered. By then, the node has processed all
// earlier packets and states, and delivered their events.
func (n *testNode) waitForMark(at uint64) {
	n.t.Helper()
	mark := fmt.Sprint("mark ", at)
	n.delegate().NotifyMsg(forgedEvent(at, mark))
	eventually(n.t, mark, func() bool {
		all := n.payloads("flood")
		return len(all) > 0 && all[len(all)-1] == mark
	})
}

// malformedPackets are packets that are not valid messages.
var malformedPackets = []string{
	"\x63\x80", "\x03", "\x03\xc1", "\x03\x91\x91\x91\x91\x91\x91\x91\x91\x91\xc0", "\x03\x80\x00", "\x03\x07", "\x03\x81\x01\x01",
	"\x03\x82\xa5LTime\x01\xa5LTime\x01", "\x03\x81\xa5LTime\xa1x", "\x05\x81\xa2ID\xcf\x00\x00\x00\x01\x00\x00\x00\x00",
	"\x03\x81\xa5LTime\xcf\xff\xff\xff\xff\xff\xff\xff\xff", "\x03\xdf\xff\xff\xff\xff", "\x02\x81\xa6Events\xdd\xff\xff\xff\xff",
	"\x04\x81\xa4Name\xdb\xff\xff\xff\xff",
}

// A query for other nodes is rebroadcast unchanged, and not handed out here.
func TestQueryForOthersIsRebroadcast(t *testing.T) {
	a := startNode(t, "a", "", withAgent(smallAgent(t)), withTags("role", "web"))
	for i, filter := range [][]byte{
		serfagent.FilterByTag("role", "db"), serfagent.FilterByTag("role", "("), serfagent.FilterByTag("none", "x"),
		serfagent.FilterByNames("b"),
	} {
		packet := forgedQuery(uint64(i+1), 7, 0, filter)
		a.delegate().NotifyMsg(packet)
		a.waitForMark(uint64(i + 1))
		sent := false
		eventually(t, "it is rebroadcast", func() bool {
			for _, broadcast := range a.delegate().GetBroadcasts(2, 1400) {
				sent = sent || bytes.Equal(broadcast, packet)
			}
			return sent
		})
		if a.lastQuery("asked") != nil {
			t.Errorf("%q: the query was handed out", filter)
		}
	}
}

// In a flood of answers to a query, only as many answers wait as the agent counts and the channels have room for.
func TestFloodOfAnswers(t *testing.T) {
	for name, test := range map[string]struct {
		max  int
		opts []option
	}{"a small agent": {smallLimit, []option{withAgent(smallAgent(t))}}, "the agent of a configuration": {1 + 16, nil}} {
		a := startNode(t, "a", "", test.opts...)
		response, err := a.Query("who", nil, &QueryParam{Timeout: MaxTimeout, RequestAck: true})
		must(t, err)
		eventually(t, "the query is handed out", func() bool { return a.lastQuery("who") != nil })
		query := a.lastQuery("who").pending
		for i := 0; i < 1500; i++ {
			from := fmt.Sprint("nobody", i)
			for flags := uint64(0); flags < 2; flags++ {
				a.delegate().NotifyMsg(forgedAnswer(query.Time, query.ID, from, flags))
				a.delegate().NotifyMsg(forgedAnswer(query.Time, query.ID, from, flags))
				a.delegate().NotifyMsg(forgedAnswer(query.Time, query.ID+1, from, flags))
			}
			if i%256 == 255 {
				a.waitForMark(uint64(i))
			}
		}
		a.waitForMark(1500)
		if acks, responses := len(response.acks), len(response.responses); acks != test.max || responses != test.max {
			t.Errorf("%s: %d acks and %d responses are waiting", name, acks, responses)
		}
		response.Close()
	}
}

// A flood of increasing times leaves a file that is compacted to its last lines.
func TestFileOfFloodIsCompacted(t *testing.T) {
	folder := t.TempDir()
	a := startNode(t, "a", folder)
	const count = 12_000
	for i := uint64(1); i <= count; i++ {
		a.delegate().NotifyMsg(forgedEvent(i, ""))
		if i%1024 == 0 {
			a.waitForMark(i)
		}
	}
	a.waitForMark(count)
	a.memberLines.add("alive: b 127.0.0.9:1\n")
	eventually(t, "the file is compacted", func() bool { return textSize(t, filepath.Join(folder, "a")) < snapshotLimit })
	if text := readFile(t, filepath.Join(folder, "a")); !strings.Contains(text, fmt.Sprintf("event-clock: %d\n", count)) {
		t.Errorf("%q", text)
	}
}

// If a clock in the file is exhausted, the calls that need this clock fail, and everything else works.
func TestExhaustedClocks(t *testing.T) {
	for clock, want := range map[string][2]error{"event-clock": {serfagent.Exhausted, nil}, "query-clock": {nil, serfagent.Exhausted}} {
		folder := t.TempDir()
		writeFile(t, filepath.Join(folder, "a"), clock+": 18446744073709551614\n")
		a := startNode(t, "a", folder)
		fireErr := a.UserEvent("x", nil, false)
		_, queryErr := a.Query("x", nil, nil)
		if fireErr != want[0] || queryErr != want[1] || a.announce() != nil || a.Fault() != nil {
			t.Error(clock, fireErr, queryErr, a.Fault())
		}
	}
}

// After a restart, a node whose file keeps events accepts the events that it missed, and accepts no event twice. If its
// join ignores old events, the node loses only the missed ones. Without KeepEvents, it loses all events that are older
// than the newest one.
func TestRestartContinuesWindow(t *testing.T) {
	var packets [][]byte
	for i := uint64(1); i <= 4; i++ {
		packets = append(packets, forgedEvent(i, fmt.Sprint("e", i)))
	}
	state := forgedState(5, 4, func(slot int) string { return fmt.Sprint("e", 4-slot) })
	for _, test := range []struct {
		keeps   bool
		ignores int64
		second  []string
	}{{true, 0, []string{"e4", "e2"}}, {true, 1, nil}, {false, 0, []string{"e4"}}} {
		folder, keeps := t.TempDir(), func(o *nodeOptions) { o.KeepEvents = test.keeps }
		first := startNode(t, "a", folder, keeps)
		first.delegate().NotifyMsg(packets[0])
		first.delegate().NotifyMsg(packets[2])
		eventually(t, "both are delivered", func() bool { return len(first.payloads("flood")) == 2 })
		_ = first.Shutdown()
		second := startNode(t, "a", folder, keeps)
		if first.IsGoingOn() || second.IsGoingOn() != test.keeps {
			t.Error(test, first.IsGoingOn(), second.IsGoingOn())
		}
		second.ignoringJoins.Store(test.ignores)
		second.delegate().MergeRemoteState(state, true)
		second.waitForMark(5)
		_ = second.Shutdown()
		third := startNode(t, "a", folder, keeps)
		for _, packet := range packets {
			third.delegate().NotifyMsg(packet)
		}
		third.waitForMark(6)
		if found := second.payloads("flood"); !reflect.DeepEqual(found, append(test.second, "mark 5")) ||
			len(third.payloads("flood")) != 1 {
			t.Errorf("%+v: %v, then %v", test, found, third.payloads("flood"))
		}
	}
}

// pagesOfCMemory matches the memory maps of C's allocator. Go's are elsewhere.
var pagesOfCMemory = regexp.MustCompile(`(?m)^(?:7f\S+ \S+ \S+ \S+ 0 *|.*\[heap\])\n[^-]*?^Rss: +(\d+) kB`)

// memoryUse returns how much memory this process uses: Go's live heap, and C's pages.
func memoryUse(t *testing.T) (inGo, inC int64) {
	t.Helper()
	debug.FreeOSMemory()
	for _, found := range pagesOfCMemory.FindAllStringSubmatch(readFile(t, "/proc/self/smaps"), -1) {
		kilobytes, _ := strconv.ParseInt(found[1], 10, 64)
		inC += kilobytes << 10
	}
	return heapInUse(), inC
}

// flooder makes hostile packets with numbered events, and counts what is handed out.
type flooder struct {
	number, time uint64

	mu              sync.Mutex
	seen            map[string]int
	events, queries int
	last            UserEvent
}

// receive counts an event or a query that the node delivered.
func (f *flooder) receive(e Event) {
	f.mu.Lock()
	defer f.mu.Unlock()
	switch e := e.(type) {
	case UserEvent:
		f.events, f.last = f.events+1, e
		f.seen[fmt.Sprintf("%s %.20s", e.Name, e.Payload)]++
	case *Query:
		f.queries++
		f.seen[fmt.Sprint("query ", e.LTime, e.pending.ID)]++
	}
}

// hasLast reports whether the last event has this name or this payload.
func (f *flooder) hasLast(text string) bool {
	f.mu.Lock()
	defer f.mu.Unlock()
	return f.last.Name == text || string(f.last.Payload) == text
}

// nextPayload returns a payload that no earlier one equals, with this number of further bytes.
func (f *flooder) nextPayload(length int) string {
	f.number++
	return fmt.Sprintf("%019d ", f.number) + strings.Repeat("x", length)
}

// makeRound returns packets of each kind: many of one time, newer and older ones, too long ones, queries, answers to no query, intents of
// unknown members, each kind of malformed message, far times, and random bytes.
func (f *flooder) makeRound(count int) (packets [][]byte) {
	for i := 0; i < count; i++ {
		f.time++
		at, id, nobody := f.time, uint32(i), fmt.Sprint("nobody", f.number)
		garbage := make([]byte, 1+rand.Intn(40))
		rand.Read(garbage)
		garbage[0] %= 12
		packets = append(packets,
			forgedEvent(at-at%64, f.nextPayload(900)), forgedEvent(at, f.nextPayload(900)), forgedEvent(at/2, f.nextPayload(900)),
			forgedEvent(0, f.nextPayload(900)),
			forgedEvent(at, f.nextPayload(9_900)), forgedEvent(2*FarTime+at, f.nextPayload(9)), forgedQuery(at, id, 0),
			forgedQuery(at, id+1<<20, 1),
			forgedAnswer(at, id, nobody, 0), forgedAnswer(at, id, nobody, 1),
			withTime("\x01\x82\xa5LTime", at, "\xa4Node\xb0"+f.nextPayload(0)[4:]),
			[]byte(malformedPackets[i%len(malformedPackets)]), garbage,
			encodeRelay(relay{addr: net.IPv4(127, 0, 0, 9), port: 9, name: nobody, message: garbage}),
		)
	}
	return packets
}

// send passes packets and states to a node as memberlist does, and waits until all are processed.
func (f *flooder) send(t *testing.T, a *testNode, packets, states [][]byte) {
	t.Helper()
	f.time++
	for _, packet := range packets {
		a.delegate().NotifyMsg(packet)
	}
	for _, state := range states {
		a.delegate().MergeRemoteState(state, false)
	}
	mark := f.nextPayload(0)
	a.delegate().NotifyMsg(forgedEvent(f.time, mark))
	eventually(t, "all is processed", func() bool { return f.hasLast(mark) })
}

// During a flood of packets of each kind, nothing is handed out twice, memory use stays limited, and pings are
// answered. After the flood, an honest event still arrives, and no goroutine is left after Shutdown.
func TestFloodOfPackets(t *testing.T) {
	const rounds, count = 15, 300
	routines := runtime.NumGoroutine()
	f := &flooder{time: 1 << 32, seen: map[string]int{}}
	a, b := startNode(
		t, "a", "", withAgent(smallAgent(t)), withOnEvent(f.receive),
	), startNode(t, "b", "", withAgent(smallAgent(t)), func(o *nodeOptions) {
		o.MemberlistConfig.ProbeTimeout = time.Minute
	})
	b.join(a)
	to := *a.memberlist().LocalNode()
	addr := &net.UDPAddr{IP: to.Addr, Port: int(to.Port)}
	var ofGo, ofC int64
	for i := 0; i < rounds; i++ {
		if i == rounds/3 {
			ofGo, ofC = memoryUse(t)
		}
		for j := 0; j < count; j += 100 {
			f.send(t, a, f.makeRound(100), nil)
		}
		state := func() []byte { return forgedState(f.time, 512, func(int) string { return f.nextPayload(100) }) }
		again := state()
		f.send(t, a, nil, [][]byte{again, state(), again, state(), {2}, []byte(malformedPackets[12]), forgedEvent(f.time, "x")})
		// (some packets are also sent over the network)
		for _, packet := range f.makeRound(2) {
			_ = b.memberlist().SendBestEffort(&to, packet)
			_ = b.memberlist().SendReliable(&to, packet)
		}
		if _, err := b.memberlist().Ping("a", addr); err != nil {
			t.Error(err)
		}
	}
	nowGo, nowC := memoryUse(t)
	t.Logf("Go's memory grew by %d bytes and C's by %d", nowGo-ofGo, nowC-ofC)
	// (all packets together have sixty mebibytes, and the measured growth includes the memory for counting them)
	if nowGo-ofGo > 16<<20 || nowC-ofC > 16<<20 {
		t.Errorf("Go's memory grew by %d bytes, and C's by %d", nowGo-ofGo, nowC-ofC)
	}
	eventually(t, "an honest event arrives", func() bool {
		// (on a busy machine b may receive an old state)
		b.join(a)
		check(t, b.UserEvent("honest", []byte(f.nextPayload(0)), false))
		return f.hasLast("honest")
	})
	f.verify(t, a, rounds*count)
	for _, node := range []*testNode{a, b} {
		check(t, node.Shutdown())
	}
	eventually(t, "no goroutine is left", func() bool { return runtime.NumGoroutine() <= routines })
}

// verify checks that nothing was handed out twice, that each kind arrived at least min times, and that the node's
// limits hold.
func (f *flooder) verify(t *testing.T, a *testNode, min int) {
	t.Helper()
	f.mu.Lock()
	defer f.mu.Unlock()
	for what, times := range f.seen {
		if times > 1 {
			t.Errorf("%s was handed out %d times", what, times)
		}
	}
	a.members.mu.Lock()
	intents := len(a.members.intents)
	a.members.mu.Unlock()
	if f.events < min || f.queries < min || a.droppedFar.Load() < int64(min) || a.Fault() != nil || a.Serf.events.NumQueued() > Waiting ||
		intents > maxIntents {
		t.Errorf("%d events and %d queries: %v, %v", f.events, f.queries, a.Fault(), a.Stats())
	}
}
