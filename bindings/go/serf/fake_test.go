package serf

import (
	"fmt"
	"io"
	"os"
	"path/filepath"
	"sync"
	"sync/atomic"
	"testing"
	"time"

	"github.com/hashicorp/memberlist"

	"kitchenrue.example/serfagent"
)

// must ends the test if there is an error, and check reports it and continues.
func must(t *testing.T, err error) {
	t.Helper()
	if err != nil {
		t.Fatal(err)
	}
}

func check(t *testing.T, err error) {
	t.Helper()
	if err != nil {
		t.Error(err)
	}
}

// testNode is a node of a test, and the events that it delivered.
type testNode struct {
	*Serf
	t *testing.T

	mu       sync.Mutex
	received []Event
	// pause has no room for a value, so a test that sends one knows that readEvents has it. After true, nobody receives
	// events from the node's channel until false follows.
	pause chan bool
	// onEvent, if it isn't nil, is called with each event, which is then not added to received.
	onEvent func(Event)
}

// readEvents receives the events that the node delivers.
func (n *testNode) readEvents(events <-chan Event) {
	for isPaused := false; ; {
		open := events
		if isPaused {
			open = nil
		}
		select {
		case e := <-open:
			if n.onEvent != nil {
				n.onEvent(e)
				continue
			}
			n.mu.Lock()
			n.received = append(n.received, e)
			n.mu.Unlock()
		case isPaused = <-n.pause:
		case <-n.ShutdownCh():
			return
		}
	}
}

// pauseReading stops receiving events if isPaused is true, and otherwise resumes. When it returns, that has happened.
func (n *testNode) pauseReading(isPaused bool) {
	select {
	case n.pause <- isPaused:
	case <-n.ShutdownCh():
	}
}

// payloads returns the payloads of the user events of a name.
func (n *testNode) payloads(name string) (payloads []string) {
	n.mu.Lock()
	defer n.mu.Unlock()
	for _, e := range n.received {
		if e, ok := e.(UserEvent); ok && e.Name == name {
			payloads = append(payloads, string(e.Payload))
		}
	}
	return payloads
}

// lastQuery returns the last query of a name, or nil.
func (n *testNode) lastQuery(name string) *Query {
	n.mu.Lock()
	defer n.mu.Unlock()
	for i := len(n.received) - 1; i >= 0; i-- {
		if e, ok := n.received[i].(*Query); ok && e.Name == name {
			return e
		}
	}
	return nil
}

// waitingPackets returns how many received packets wait for the agent.
func (n *testNode) waitingPackets() int {
	n.packets.mu.Lock()
	defer n.packets.mu.Unlock()
	return len(n.packets.messages)
}

// waitingFirings returns how many events wait to be fired.
func (n *testNode) waitingFirings() int {
	n.firings.mu.Lock()
	defer n.firings.mu.Unlock()
	return len(n.firings.waiting)
}

func (n *testNode) statusOf(name string) string {
	m, ok := n.members.get(name)
	if !ok {
		return ""
	}
	return m.Status.String()
}

// option changes the options with which a test starts a node.
type option func(*nodeOptions)

// nodeOptions has the options with which a test starts a node.
type nodeOptions struct {
	Config
	agent    Agent
	file     *snapshotFile
	previous []PreviousNode
	onEvent  func(Event)
}

func withTags(pairs ...string) option {
	return func(o *nodeOptions) {
		for i := 0; i < len(pairs); i += 2 {
			o.Tags[pairs[i]] = pairs[i+1]
		}
	}
}

func withAgent(agent Agent) option { return func(o *nodeOptions) { o.agent = agent } }

func withLimits(query, response int) option {
	return func(o *nodeOptions) { o.QuerySizeLimit, o.QueryResponseSizeLimit = query, response }
}

func withOnEvent(onEvent func(Event)) option { return func(o *nodeOptions) { o.onEvent = onEvent } }

func withLog(to io.Writer) option { return func(o *nodeOptions) { o.LogOutput = to } }

// atPort makes a node listen on a given port, such as that of an earlier node.
func atPort(port uint16) option {
	return func(o *nodeOptions) {
		o.MemberlistConfig.BindPort, o.MemberlistConfig.AdvertisePort = int(port), int(port)
	}
}

// loopbackConfig returns the configuration of a node on a loopback address, with fast gossip. On a busy machine nodes may
// still send and answer late. So a join may take long, and no node probes the others. (After a late answer, memberlist
// would suspect the other node. That node would refute it, which memberlist handles with data races in its own code.)
func loopbackConfig(name string) Config {
	c := *DefaultConfig()
	c.NodeName, c.ProtocolVersion, c.BroadcastTimeout, c.LogOutput = name, ProtocolVersionMax, 20*time.Second, io.Discard
	c.MemberlistConfig = memberlist.DefaultLocalConfig()
	c.MemberlistConfig.BindAddr, c.MemberlistConfig.BindPort, c.MemberlistConfig.AdvertisePort = "127.0.0.1", 0, 0
	c.MemberlistConfig.TCPTimeout, c.MemberlistConfig.ProbeInterval = patience/2, time.Hour
	return c
}

// withProbes makes a node probe the others every second. One that doesn't answer for a minute has failed.
func withProbes(o *nodeOptions) {
	o.MemberlistConfig.ProbeInterval, o.MemberlistConfig.SuspicionMult = time.Second, 60
}

// withFailures makes a node notice within seconds that another one has failed.
func withFailures(o *nodeOptions) { o.MemberlistConfig.ProbeInterval = time.Second }

// startNode starts a node on a loopback address, with a snapshot if a folder is given.
func startNode(t *testing.T, name, folder string, opts ...option) *testNode {
	t.Helper()
	options := nodeOptions{Config: loopbackConfig(name)}
	if folder != "" {
		options.SnapshotPath = filepath.Join(folder, name)
	}
	for _, opt := range opts {
		opt(&options)
	}
	n := &testNode{t: t, pause: make(chan bool), onEvent: options.onEvent}
	events := make(chan Event)
	options.EventCh = events
	var err error
	if options.agent == nil {
		n.Serf, err = Create(&options.Config)
	} else {
		n.Serf, err = createOver(&options)
	}
	must(t, err)
	go n.readEvents(events)
	t.Cleanup(func() { _ = n.Shutdown() })
	return n
}

// createOver creates a node that uses a test's agent.
func createOver(options *nodeOptions) (*Serf, error) {
	options.SnapshotPath = ""
	config, err := options.withDefaults()
	if err != nil {
		return nil, err
	}
	data, err := config.nodeMeta(config.Tags)
	if err != nil {
		return nil, err
	}
	return create(config, options.agent, options.file, nil, data, options.previous)
}

func (n *testNode) address() string { return n.memberlist().LocalNode().Address() }

// join joins another node, and fails the test if that fails.
func (n *testNode) join(other *testNode) {
	n.t.Helper()
	if _, err := n.Join([]string{other.address()}, true); err != nil {
		n.t.Fatal(err)
	}
}

func (n *testNode) delegate() delegate { return delegate{n.Serf} }

// nodeB is another member, as memberlist reports it.
func nodeB() *memberlist.Node {
	return &memberlist.Node{Name: "b", Addr: []byte{127, 0, 0, 9}, Port: 1, Meta: []byte("\xff\x81\xa1t\xa1v")}
}

// intentPacket returns the packet of an intent.
func intentPacket(t *testing.T, time uint64, node string, isLeave bool) []byte {
	t.Helper()
	packet, err := serfagent.Intent{Time: time, Node: node, Leave: isLeave}.Packet()
	must(t, err)
	return packet
}

// statusTime returns the time of a member's status, or 0.
func (n *testNode) statusTime(name string) uint64 {
	statuses, _ := n.members.statuses()
	for _, status := range statuses {
		if status.Name == name {
			return status.Time
		}
	}
	return 0
}

// patience is how long a test waits for something that has to happen. It is long enough for busy machines. If a wrong
// body is planted (tests/library/go_mutants.py), patience is shorter, since the expected thing may never happen.
var patience = map[bool]time.Duration{true: 2 * time.Minute, false: 15 * time.Second}[os.Getenv("SERF_WRONG_BODY") == ""]

// eventually waits until the condition holds, up to the test's patience.
func eventually(t *testing.T, what string, holds func() bool) {
	t.Helper()
	for end := time.Now().Add(patience); time.Now().Before(end); time.Sleep(10 * time.Millisecond) {
		if holds() {
			return
		}
	}
	t.Fatalf("this never happened: %s", what)
}

// promptly makes a call that must not block. It fails the test if the call takes longer than the test's patience.
func promptly(t *testing.T, what string, call func()) {
	t.Helper()
	finished := make(chan struct{})
	go func() {
		call()
		close(finished)
	}()
	select {
	case <-finished:
	case <-time.After(patience):
		t.Fatalf("this call blocks: %s", what)
	}
}

// fakeAgent is an agent without a file, for which each packet is a new event.
type fakeAgent struct {
	mu         sync.Mutex
	time       uint64
	receiveErr error
	// bursts has the number of packets of each call of TakeAll, and firings the number of its firings.
	bursts, firings []int
	// flushGate, if it isn't nil, makes TakeAll block until the channel is closed, as if TakeAll waited for the disk.
	flushGate chan struct{}
	// isFlushing: TakeAll waits for flushGate.
	isFlushing atomic.Bool
	// memberTimeGate, if it isn't nil, makes NextMemberTime block until the channel is closed, as if it waited for the
	// disk.
	memberTimeGate chan struct{}
	// memoryFailures is how many calls of NextMemberTime run out of memory before one succeeds.
	memoryFailures atomic.Int64
	// forgotten has the numbers of the queries that were forgotten.
	forgotten []uint64
}

// ownMemberTime is the time of each intent of this node.
func (f *fakeAgent) ownMemberTime() uint64 { return 7 }

func (f *fakeAgent) NextMemberTime() (uint64, error) {
	if f.memberTimeGate != nil {
		<-f.memberTimeGate
	}
	if f.memoryFailures.Add(-1) >= 0 {
		return 0, serfagent.OutOfMemory
	}
	return f.ownMemberTime(), nil
}

func (f *fakeAgent) TakeAll(_ uint64, packets []Packet, firings []Firing) (outcomes []serfagent.Outcome, err error) {
	f.mu.Lock()
	defer f.mu.Unlock()
	if f.flushGate != nil {
		f.isFlushing.Store(true)
		<-f.flushGate
		f.isFlushing.Store(false)
	}
	if len(packets) > 0 {
		f.bursts = append(f.bursts, len(packets))
	}
	if len(firings) > 0 {
		f.firings = append(f.firings, len(firings))
	}
	for _, packet := range packets {
		if f.receiveErr != nil {
			return outcomes, f.receiveErr
		}
		if len(packet.Data) == 1 {
			outcomes = append(outcomes, serfagent.Outcome{Err: serfagent.NoMessage})
			continue
		}
		f.time++
		event := &serfagent.Event{Time: f.time, Name: "fake", Payload: packet.Data[1:]}
		outcomes = append(
			outcomes, serfagent.Outcome{Received: &serfagent.Received{Kind: serfagent.NewEvent, Event: event, Rebroadcast: true}},
		)
	}
	for _, firing := range firings {
		f.time++
		event := &serfagent.Event{Time: f.time, Name: firing.Name, Payload: firing.Payload}
		outcomes = append(outcomes, serfagent.Outcome{Fired: &serfagent.Fired{Event: event, Packet: append([]byte{3}, firing.Name...)}})
	}
	return outcomes, nil
}

func (f *fakeAgent) Merge([]byte, bool) ([]*serfagent.Event, error) { return nil, nil }

// isBusy reports whether TakeAll waits for flushGate.
func (f *fakeAgent) isBusy() bool { return f.isFlushing.Load() }

// LocalState returns a text with the agent's time.
func (f *fakeAgent) LocalState([]serfagent.Status, []string) ([]byte, error) {
	f.mu.Lock()
	defer f.mu.Unlock()
	return []byte(fmt.Sprint("state ", f.time)), nil
}

func (f *fakeAgent) Query(uint64, uint32, string, []byte, serfagent.QueryParams) (*serfagent.FiredQuery, error) {
	return nil, serfagent.TooLarge
}

func (f *fakeAgent) Respond(uint64, uint64, []byte) ([]byte, error) { return nil, serfagent.NotPending }

func (f *fakeAgent) Forget(number uint64) error {
	f.mu.Lock()
	defer f.mu.Unlock()
	f.forgotten = append(f.forgotten, number)
	return nil
}

func (f *fakeAgent) CloseDue(uint64) ([]*serfagent.Closed, error) { return nil, nil }
func (f *fakeAgent) Clocks() (serfagent.Clocks, error)            { return serfagent.Clocks{}, nil }
func (f *fakeAgent) ObserveMember(uint64) error                   { return nil }
func (f *fakeAgent) SaveMemberClock() error                       { return nil }
func (f *fakeAgent) CompactWith([]byte) error                     { return nil }
func (f *fakeAgent) Close() error                                 { return nil }

// failingAgent is a fakeAgent of which one method fails a number of times and then succeeds. Merge returns an event for
// each state, even if it fails.
type failingAgent struct {
	fakeAgent
	call     string
	err      error
	failures atomic.Int64
	// onObserve, if it isn't nil, is called with each time that ObserveMember receives.
	onObserve func(time uint64)
}

// failIfChosen returns the error if this is the call that has to fail now.
func (f *failingAgent) failIfChosen(call string) error {
	if call == f.call && f.failures.Add(-1) >= 0 {
		return f.err
	}
	return nil
}

func (f *failingAgent) TakeAll(now uint64, packets []Packet, firings []Firing) ([]serfagent.Outcome, error) {
	if err := f.failIfChosen("TakeAll"); err != nil {
		return nil, err
	}
	return f.fakeAgent.TakeAll(now, packets, firings)
}

func (f *failingAgent) Merge(state []byte, _ bool) ([]*serfagent.Event, error) {
	f.mu.Lock()
	defer f.mu.Unlock()
	f.time++
	return []*serfagent.Event{{Time: f.time, Name: "merged", Payload: state}}, f.failIfChosen("Merge")
}

func (f *failingAgent) ObserveMember(time uint64) error {
	if f.onObserve != nil {
		f.onObserve(time)
	}
	return f.failIfChosen("ObserveMember")
}

func (f *failingAgent) NextMemberTime() (uint64, error) {
	return f.ownMemberTime(), f.failIfChosen("NextMemberTime")
}
func (f *failingAgent) SaveMemberClock() error   { return f.failIfChosen("SaveMemberClock") }
func (f *failingAgent) CompactWith([]byte) error { return f.failIfChosen("CompactWith") }
func (f *failingAgent) CloseDue(uint64) ([]*serfagent.Closed, error) {
	return nil, f.failIfChosen("CloseDue")
}

// logBuffer is a log to which many goroutines may write, and which a test reads.
type logBuffer struct {
	mu   sync.Mutex
	text []byte
}

func (l *logBuffer) Write(data []byte) (int, error) {
	l.mu.Lock()
	defer l.mu.Unlock()
	l.text = append(l.text, data...)
	return len(data), nil
}

func (l *logBuffer) String() string {
	l.mu.Lock()
	defer l.mu.Unlock()
	return string(l.text)
}
