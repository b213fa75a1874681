// Package serf is a node of a Serf cluster, with the interface of HashiCorp's package serf. A program that uses
// HashiCorp's package only has to change its import. Stock nodes and nodes of this package can be in one cluster.
//
// This package adds one promise: EventCh delivers an event or a query at most once in all lives of a node that keeps
// its SnapshotPath, whatever the network sends and whenever the process is killed. The proved agent (package serfagent)
// processes each packet of an event, a query, an answer, a state and an intent. This package itself is tested, not
// proved. docs/GO.md says what a program must do, and how this package differs from Serf's.
package serf

import (
	"context"
	"errors"
	"fmt"
	"log"
	"math"
	"net"
	"sync"
	"sync/atomic"
	"time"

	"github.com/hashicorp/memberlist"

	"kitchenrue.example/guard"
	"kitchenrue.example/serfagent"
)

// endGrace is for how long after Shutdown the program may still receive events from EventCh that were handed out before.
const endGrace = 500 * time.Millisecond

// gossipOverhead is how many bytes of a datagram memberlist needs in addition to one gossiped packet: two for the
// header of a compound message, two for the packet's length and one for its type. With a key, memberlist also adds a
// version, a nonce and a tag, which take keyOverhead bytes.
const (
	gossipOverhead = 2 + 2 + 1
	keyOverhead    = 1 + 12 + 16
)

// SerfState is the state of a node.
type SerfState int

// The states of a node.
const (
	SerfAlive SerfState = iota
	SerfLeaving
	SerfLeft
	SerfShutdown
)

var serfStates = []string{"alive", "leaving", "left", "shutdown"}

func (s SerfState) String() string {
	if s < 0 || int(s) >= len(serfStates) {
		return "unknown"
	}
	return serfStates[s]
}

// Serf is a node of a cluster. Many goroutines may call its methods at once.
type Serf struct {
	config         *Config
	log            *log.Logger
	agent          Agent
	keys           *keyring
	members        *memberList
	coordinates    *coordinates
	snapshot       *snapshotFile
	previousNodes  []PreviousNode
	memberlistNode atomic.Pointer[memberlist.Memberlist]
	guard          *guard.Transport
	startTime      time.Time

	ctx        context.Context
	cancel     context.CancelFunc
	goroutines sync.WaitGroup
	// shutdownCh is closed after the last event was delivered. shutdownMu is held while the node ends, and endReason is
	// the error that ended it.
	shutdownCh chan struct{}
	shutdownMu sync.Mutex
	endReason  atomic.Pointer[error]
	// stateMu guards state.
	stateMu sync.Mutex
	state   SerfState

	coalescer *coalescer
	pipe      *pipe
	// openEvents has the open events, or is nil without TrackHandlers.
	openEvents *openEvents
	// undelivered receives the number of events that nobody received from EventCh.
	undelivered chan int

	// agentMu is held during each call of the proved agent that hands out events, during the flush of that call, and
	// until these events are in the pipe. memberlist's callbacks never lock it.
	agentMu sync.Mutex
	isEnded bool
	// staged has the events and queries that were handed out while agentMu is held, until flushStaged publishes them. The
	// slice is reused.
	staged      []Event
	openQueries map[queryKey]*QueryResponse
	firings     *firingQueue

	// packets and states are the queues of received packets and states. dropped counts those that were dropped because
	// there was no room, and droppedFar those that were dropped because of a far time.
	packets, states     *queue
	dropped, droppedFar atomic.Int64
	// queryDue has a value when the deadline of a query may have passed.
	queryDue chan struct{}
	// internalQueries has the received queries that agents send each other. conflicts has a value if another node
	// claims this node's name.
	internalQueries chan *serfagent.PendingQuery
	conflicts       chan struct{}

	// intents, queries and events have the packets that wait to be gossiped. maxGossipPacket is the maximum length of a
	// packet that memberlist can gossip.
	intents, queries, events *broadcastQueue
	maxGossipPacket          int
	// longPacketTurns counts how often GetBroadcasts found a queue whose packets are all longer than half of the room.
	longPacketTurns atomic.Uint64

	// ignoringJoins counts the running joins that ignore old events. announceMu is held while the node sends its own
	// join or leave intent. announceNeeded has a value when the node has to send a join intent. refuteNeeded has a
	// value when it has to send one if other nodes still believe that it left.
	ignoringJoins                atomic.Int64
	announceMu                   sync.Mutex
	announceNeeded, refuteNeeded chan struct{}

	tagsMu   sync.Mutex
	tags     map[string]string
	nodeMeta []byte

	// lastStateMu guards lastState, the last state that was encoded. memberlist's requests for a new state go through
	// stateRequests.
	lastStateMu   sync.Mutex
	lastState     []byte
	stateRequests chan chan<- []byte

	memberLines *lineQueue

	// keptEvents limits the kept events. It is nil if the node keeps none. droppedKept counts the packets and states
	// that were dropped because keptEvents had no room. grownBytes is by how many bytes the file has grown since the
	// last check; agentMu guards it.
	keptEvents  *keptEvents
	droppedKept atomic.Int64
	grownBytes  int

	// nextEventTime is one more than the largest time of all events that were handed out; agentMu guards it.
	// missedEvents has a value when the node may have missed events.
	nextEventTime uint64
	missedEvents  chan struct{}
	// seenTimes has the times of the window at which the node has handed out an event. mergedEvents is how many new events
	// the states of other nodes contained. ignoredCounts has the numbers of ignored events and queries, in the order of
	// ignoreReasons.
	seenTimes     *seenTimes
	mergedEvents  atomic.Int64
	ignoredCounts [len(ignoreReasons)]atomic.Int64

	// eventNames and queryNames count events and queries by name.
	eventNames, queryNames *nameCounter
}

// Create creates a node and joins one of the members that its snapshot names. It copies the configuration.
//
// If Create returns an error, it has closed everything that it opened. Only a snapshot that it created may remain.
func Create(conf *Config) (*Serf, error) {
	config, err := conf.withDefaults()
	if err != nil {
		return nil, err
	}
	meta, err := config.nodeMeta(config.Tags)
	if err != nil {
		return nil, err
	}
	keys, err := newKeyring(config)
	if err != nil {
		return nil, err
	}
	agent, file, previous, err := openAgent(config)
	if err != nil {
		return nil, err
	}
	s, err := create(config, agent, file, keys, meta, previous)
	if err != nil {
		closeAgent(agent, file)
	}
	return s, err
}

// closeAgent closes what openAgent opened.
func closeAgent(agent Agent, file *snapshotFile) {
	_ = agent.Close()
	if file != nil {
		_ = file.close()
	}
}

// create creates a node over a proved agent.
func create(c *Config, agent Agent, file *snapshotFile, keys *keyring, meta []byte, previousNodes []PreviousNode) (*Serf, error) {
	s := newSerf(c, agent, file, keys, meta, previousNodes)
	if err := s.open(); err != nil {
		s.cancel()
		return nil, err
	}
	s.startGoroutines()
	return s, nil
}

// newSerf returns a node that isn't in the network yet.
func newSerf(c *Config, agent Agent, file *snapshotFile, keys *keyring, meta []byte, previousNodes []PreviousNode) *Serf {
	ctx, cancel := context.WithCancel(context.Background())
	s := &Serf{
		config:          c,
		log:             c.logger(),
		agent:           agent,
		keys:            keys,
		snapshot:        file,
		previousNodes:   previousNodes,
		startTime:       time.Now(),
		ctx:             ctx,
		cancel:          cancel,
		shutdownCh:      make(chan struct{}),
		pipe:            newPipe(),
		undelivered:     make(chan int, 1),
		openQueries:     map[queryKey]*QueryResponse{},
		firings:         newFiringQueue(),
		packets:         newQueue(),
		states:          newQueue(),
		queryDue:        make(chan struct{}, 1),
		internalQueries: make(chan *serfagent.PendingQuery, 64),
		conflicts:       make(chan struct{}, 1),
		missedEvents:    make(chan struct{}, 1),
		announceNeeded:  make(chan struct{}, 1),
		refuteNeeded:    make(chan struct{}, 1),
		tags:            c.Tags,
		nodeMeta:        meta,
		stateRequests:   make(chan chan<- []byte),
		memberLines:     newLineQueue(),
		eventNames:      newNameCounter("events"),
		queryNames:      newNameCounter("queries"),
	}
	s.coalescer = newCoalescer(c, s.pipe.add)
	s.coalescer.markSuperseded = s.markSuperseded
	s.members = newMembers(c, s.log, func(e MemberEvent) { s.publish(e) }, s.memberLines.add)
	return s
}

// open reads what the node needs of the proved agent's state, and starts memberlist.
func (s *Serf) open() (err error) {
	if s.lastState, err = s.agent.LocalState(nil, nil); err != nil {
		return err
	}
	if s.coordinates, err = newCoordinates(s.config); err != nil {
		return err
	}
	s.seenTimes = newSeenTimes(s.config.EventBuffer, s.eventClock())
	s.warnOfFarClocks()
	if err := s.limitKeptEvents(); err != nil {
		return err
	}
	if err := s.trackHandlers(); err != nil {
		return &FieldError{"SnapshotPath", err}
	}
	return s.listen()
}

// startGoroutines starts the goroutines of the node.
func (s *Serf) startGoroutines() {
	go func() {
		if s.config.EventCh != nil {
			s.undelivered <- s.pipe.deliver(s.config.EventCh, s.ctx.Done(), s.config.endGrace)
		} else {
			s.undelivered <- 0
		}
	}()
	for _, run := range []func(){
		s.receive, s.fireAll, s.serveStates, s.answerInternalQueries, s.resolveConflicts, s.announceJoins,
		s.writeSnapshot, s.appendDeferredLines, s.reap, s.checkQueues,
	} {
		s.goroutines.Add(1)
		go func(run func()) {
			defer s.goroutines.Done()
			run()
		}(run)
	}
	// (these goroutines may wait for a node that does not answer, so Shutdown does not wait for them; they never call
	// the proved agent)
	go s.reconnect()
	go s.rejoin()
	go s.catchUp()
}

// listen starts memberlist.
func (s *Serf) listen() error {
	conf := s.config.MemberlistConfig
	callbacks := delegate{s}
	conf.Name, conf.Delegate, conf.Events, conf.Conflict = s.config.NodeName, callbacks, callbacks, callbacks
	if s.coordinates != nil {
		conf.Ping = callbacks
	}
	if s.config.Merge != nil {
		conf.Merge, conf.Alive = callbacks, callbacks
	}
	conf.DelegateProtocolMin, conf.DelegateProtocolMax = ProtocolVersionMin, ProtocolVersionMax
	conf.DelegateProtocolVersion, conf.ProtocolVersion = s.config.ProtocolVersion, ProtocolVersionMap[s.config.ProtocolVersion]
	conf.Logger, conf.LogOutput = s.log, nil
	isOwnTransport := conf.Transport != nil
	if err := s.installGuard(conf); err != nil {
		return err
	}
	for _, queue := range []**broadcastQueue{&s.intents, &s.queries, &s.events} {
		*queue = &broadcastQueue{
			serf: s, queue: memberlist.TransmitLimitedQueue{RetransmitMult: conf.RetransmitMult, NumNodes: s.members.size},
		}
	}
	node, err := memberlist.Create(conf)
	if err != nil {
		// (as in Serf, memberlist shuts down the program's own transport if it has used it)
		if !isOwnTransport {
			_ = conf.Transport.Shutdown()
		}
		return fmt.Errorf("memberlist: %w", err)
	}
	if ip := net.ParseIP(conf.BindAddr); !conf.EncryptionEnabled() && !ip.IsLoopback() {
		s.log.Printf("[WARN] serf: gossip is not encrypted: whoever can reach %s may join, and send messages in the name of any node",
			conf.BindAddr)
	}
	s.maxGossipPacket = conf.UDPBufferSize - gossipOverhead
	if conf.EncryptionEnabled() {
		s.maxGossipPacket -= keyOverhead
	}
	s.memberlistNode.Store(node)
	return nil
}

// publish passes events on to EventCh, through the coalescer and the pipe. It does not block.
func (s *Serf) publish(events ...Event) {
	if s.config.EventCh != nil && len(events) > 0 {
		s.coalescer.add(events...)
	}
}

// now returns the time since the node began, in nanoseconds. It never decreases.
func (s *Serf) now() uint64 { return uint64(time.Since(s.startTime)) }

// useAgent merges the waiting states, as long as there is room for their events, and then makes a call of the proved
// agent. After the node has ended, it returns ErrEnded.
func (s *Serf) useAgent(call func() error) error {
	s.agentMu.Lock()
	defer s.agentMu.Unlock()
	for !s.isEnded && s.pipe.hasRoom() {
		state, ok := s.states.next()
		if !ok {
			break
		}
		if err := s.mergeState(state); isClosed(err) {
			return s.endOnFailure(err)
		}
	}
	if s.isEnded {
		return ErrEnded
	}
	return s.endOnFailure(call())
}

// isFinal reports whether this error means that the node accepts nothing more.
func isFinal(err error) bool { return errors.Is(err, ErrEnded) || isClosed(err) }

// endOnFailure ends the node if this error means that the proved agent is closed. It returns the error.
func (s *Serf) endOnFailure(err error) error {
	if isClosed(err) && !s.isEnded {
		s.isEnded = true
		s.endWith(fmt.Errorf("the snapshot failed, so the node accepts nothing more: %w", err))
	}
	return err
}

// endWith makes the node end by itself for this reason. It does not wait until the node has ended.
func (s *Serf) endWith(reason error) {
	if s.endReason.CompareAndSwap(nil, &reason) {
		s.log.Printf("[ERR] serf: the node ends: %v", reason)
		go s.Shutdown()
	}
}

// Fault returns the error because of which the node ended by itself, for example an error of its disk, or nil if it did
// not end by itself. The error is set before ShutdownCh is closed. Serf has no such method.
func (s *Serf) Fault() error {
	if reason := s.endReason.Load(); reason != nil {
		return *reason
	}
	return nil
}

// State returns the state of the node.
func (s *Serf) State() SerfState {
	s.stateMu.Lock()
	defer s.stateMu.Unlock()
	return s.state
}

// Shutdown ends the node at once, without a leave. The program can receive events that were handed out from EventCh for
// another half second, and then ShutdownCh is closed. A second call waits for the first.
func (s *Serf) Shutdown() error {
	s.shutdownMu.Lock()
	defer s.shutdownMu.Unlock()
	s.stateMu.Lock()
	stateBefore := s.state
	s.state = SerfShutdown
	s.stateMu.Unlock()
	if stateBefore == SerfShutdown {
		return nil
	}
	if stateBefore != SerfLeft {
		s.log.Print("[WARN] serf: Shutdown without a Leave")
	}
	err := s.memberlist().Shutdown()
	s.agentMu.Lock()
	hasFailed := s.isEnded
	s.isEnded = true
	for key, response := range s.openQueries {
		response.Close()
		// (a running timer would keep the node in memory)
		response.expiryTimer.Stop()
		delete(s.openQueries, key)
	}
	s.coalescer.flush()
	s.agentMu.Unlock()
	s.cancel()
	s.goroutines.Wait()
	s.logUndelivered(<-s.undelivered)
	if closeErr := s.closeFile(hasFailed); err == nil {
		err = closeErr
	}
	if reason := s.Fault(); reason != nil {
		// (the last line of the log also has the reason, since a program that does not call Fault may exit with status
		// 0)
		s.log.Printf("[ERR] serf: the node has ended: %v", reason)
	}
	close(s.shutdownCh)
	return err
}

// logUndelivered logs how many events were handed out but never received from EventCh, if there are any.
func (s *Serf) logUndelivered(number int) {
	switch {
	case number > 0 && s.openEvents != nil:
		s.log.Printf("[INFO] serf: %d events were handed out but never received from EventCh: Unfinished has them in the next life", number)
	case number > 0:
		s.log.Printf("[WARN] serf: %d events were handed out but never received from EventCh", number)
	}
}

// closeFile writes the lines that wait for the file, and closes the file. If the file has failed already, closeFile
// reports no further error.
func (s *Serf) closeFile(hasFailed bool) (err error) {
	if !hasFailed {
		err = s.finishSnapshot()
	}
	s.openEvents.close()
	if closeErr := s.agent.Close(); err == nil && !hasFailed {
		err = closeErr
	}
	if s.snapshot != nil {
		_ = s.snapshot.close()
	}
	return err
}

// ShutdownCh returns a channel that is closed when the node has ended, after the last event was delivered.
func (s *Serf) ShutdownCh() <-chan struct{} { return s.shutdownCh }

// memberlist returns memberlist's node.
func (s *Serf) memberlist() *memberlist.Memberlist { return s.memberlistNode.Load() }

// Memberlist returns memberlist's node.
func (s *Serf) Memberlist() *memberlist.Memberlist { return s.memberlist() }

// Members returns all members, whatever their status, sorted by name. Their tags are shared with the node and must not be changed.
func (s *Serf) Members() []Member { return s.members.sorted() }

// LocalMember returns this node as a member, even if it has left and is no longer among the members.
func (s *Serf) LocalMember() Member { return s.members.ownMember() }

// NumNodes returns the number of members, whatever their status.
func (s *Serf) NumNodes() int { return s.members.size() }

// ProtocolVersion returns the version of Serf's protocol that the node speaks.
func (s *Serf) ProtocolVersion() uint8 { return s.config.ProtocolVersion }

// EncryptionEnabled reports whether gossip is encrypted.
func (s *Serf) EncryptionEnabled() bool { return s.keys != nil }

// DefaultQueryTimeout returns the timeout of a query whose caller sets none. It grows with the number of members.
func (s *Serf) DefaultQueryTimeout() time.Duration {
	steps := math.Ceil(math.Log10(float64(s.members.size() + 1)))
	return s.config.MemberlistConfig.GossipInterval * time.Duration(s.config.QueryTimeoutMult) * time.Duration(steps)
}
