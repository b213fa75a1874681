package serf

import (
	"sync"
	"time"

	"github.com/hashicorp/memberlist"
)

// delegate has the methods that memberlist calls. None of them waits for the disk, EventCh or a client, except LocalState, which waits for
// at most a quarter of a second.
type delegate struct{ *Serf }

var (
	_ memberlist.Delegate         = delegate{}
	_ memberlist.EventDelegate    = delegate{}
	_ memberlist.ConflictDelegate = delegate{}
	_ memberlist.PingDelegate     = delegate{}
	_ memberlist.MergeDelegate    = delegate{}
	_ memberlist.AliveDelegate    = delegate{}
)

// localStateWait is how long memberlist may wait for a state: longer than a flush of most disks, and a quarter of the
// shortest TCPTimeout of memberlist's own configurations. If no new state is ready by then, memberlist sends the
// previous one. A node that joins with an old state may fire events at times that are too old for the other nodes,
// until it receives newer times.
const localStateWait = 250 * time.Millisecond

// NodeMeta returns the encoded tags.
func (d delegate) NodeMeta(int) []byte {
	d.tagsMu.Lock()
	defer d.tagsMu.Unlock()
	return d.nodeMeta
}

// NotifyMsg queues a packet.
func (d delegate) NotifyMsg(packet []byte) {
	addSample(len(packet), receivedKey)
	if len(packet) > maxPacketLength || len(packet) > 0 && !d.packets.add(packet, false) {
		d.dropped.Add(1)
	}
}

// MergeRemoteState queues another node's state.
func (d delegate) MergeRemoteState(state []byte, isJoin bool) {
	if len(state) > 0 && !d.states.add(state, isJoin && d.ignoringJoins.Load() > 0) {
		d.dropped.Add(1)
	}
}

// GetBroadcasts returns the packets to gossip now: first intents, since they are few, then queries, then events. If
// packets of a later kind are waiting, an earlier kind may use at most half of the remaining bytes, so that a flood of
// one kind does not block the others.
func (d delegate) GetBroadcasts(overhead, limit int) [][]byte {
	var chosen [][]byte
	queues := []*memberlist.TransmitLimitedQueue{d.Serf.intents.moveIncoming(), d.Serf.queries.moveIncoming(), d.Serf.events.moveIncoming()}
	for i, queue := range queues {
		room := limit
		for _, later := range queues[i+1:] {
			if later.NumQueued() > 0 {
				room = limit / 2
			}
		}
		packets := queue.GetBroadcasts(overhead, room)
		if len(packets) == 0 && room < limit && queue.NumQueued() > 0 && d.longPacketTurns.Add(1)%2 == 0 {
			// (all packets of this queue are longer than half of the remaining bytes, so every other time the queue may
			// use all of them)
			packets = queue.GetBroadcasts(overhead, limit)
		}
		for _, packet := range packets {
			limit -= overhead + len(packet)
			addSample(len(packet), sentKey)
			chosen = append(chosen, packet)
		}
	}
	return chosen
}

// LocalState returns this node's state. If none is ready within a quarter of a second, it returns the previous one.
func (d delegate) LocalState(bool) []byte {
	timeout := time.NewTimer(localStateWait)
	defer timeout.Stop()
	reply := make(chan []byte, 1)
	select {
	case d.stateRequests <- reply:
		select {
		case state := <-reply:
			return state
		case <-timeout.C:
		}
	case <-timeout.C:
	}
	d.lastStateMu.Lock()
	defer d.lastStateMu.Unlock()
	return d.lastState
}

// serveStates encodes this node's state whenever memberlist requests it.
func (s *Serf) serveStates() {
	for {
		select {
		case <-s.ctx.Done():
			return
		case reply := <-s.stateRequests:
			state, err := s.agent.LocalState(s.members.statuses())
			s.lastStateMu.Lock()
			if err == nil {
				s.lastState = state
			} else if !isClosed(err) {
				s.log.Printf("[WARN] serf: an old state was sent, since making a new one failed: %v", err)
			}
			state = s.lastState
			s.lastStateMu.Unlock()
			reply <- state
		}
	}
}

// memberOf returns the member for a node of memberlist. It copies the address, since memberlist owns the node and may
// change it.
func (s *Serf) memberOf(node *memberlist.Node) Member {
	tags, err := decodeTags(node.Meta)
	if err != nil {
		s.log.Printf("[WARN] serf: the tags of %q can't be decoded: %v", node.Name, err)
	}
	return Member{
		Name: node.Name, Addr: append([]byte(nil), node.Addr...), Port: node.Port, Tags: tags, Status: StatusAlive,
		ProtocolMin: node.PMin, ProtocolMax: node.PMax, ProtocolCur: node.PCur,
		DelegateMin: node.DMin, DelegateMax: node.DMax, DelegateCur: node.DCur,
	}
}

// NotifyJoin is called by memberlist when a node has joined or is alive again.
func (d delegate) NotifyJoin(node *memberlist.Node) { d.members.memberJoined(d.memberOf(node)) }

// NotifyLeave is called by memberlist when a node has left or failed.
func (d delegate) NotifyLeave(node *memberlist.Node) { d.members.memberLeft(node.Name) }

// NotifyUpdate is called by memberlist when a node's tags have changed.
func (d delegate) NotifyUpdate(node *memberlist.Node) { d.members.memberUpdated(d.memberOf(node)) }

// NotifyConflict is called by memberlist when two nodes have the same name.
func (d delegate) NotifyConflict(existing, other *memberlist.Node) {
	if existing.Name != d.config.NodeName {
		d.log.Printf("[WARN] serf: Name conflict for '%s' both %s and %s are claiming",
			existing.Name, existing.FullAddress().Addr, other.FullAddress().Addr)
		return
	}
	d.log.Printf("[ERR] serf: Node name conflicts with another node at %s. Names must be unique!", other.FullAddress().Addr)
	if d.config.EnableNameConflictResolution {
		signal(d.conflicts)
	}
}

// NotifyMerge asks the program's MergeDelegate whether these nodes may join.
func (d delegate) NotifyMerge(peers []*memberlist.Node) error {
	members := make([]*Member, len(peers))
	for i, node := range peers {
		member := d.memberOf(node)
		if node.State == memberlist.StateDead {
			member.Status = StatusLeft
		}
		members[i] = &member
	}
	return d.config.Merge.NotifyMerge(members)
}

// NotifyAlive asks the program's MergeDelegate whether this node may join.
func (d delegate) NotifyAlive(peer *memberlist.Node) error {
	member := d.memberOf(peer)
	return d.config.Merge.NotifyMerge([]*Member{&member})
}

// broadcast is a packet to gossip. A broadcast never replaces another one in memberlist's queue.
type broadcast struct {
	packet []byte
	// sent, if it isn't nil, is closed when memberlist has sent the packet for the last time.
	sent chan struct{}
}

var _ memberlist.UniqueBroadcast = &broadcast{}

func (b *broadcast) Invalidates(memberlist.Broadcast) bool { return false }
func (b *broadcast) Message() []byte                       { return b.packet }
func (b *broadcast) Finished() {
	if b.sent != nil {
		close(b.sent)
	}
}

// UniqueBroadcast marks the broadcast as unique, so memberlist does not search its queue for broadcasts that it invalidates.
func (b *broadcast) UniqueBroadcast() {}

// broadcastQueue has the packets that wait to be gossiped. A new packet first waits in incoming, until memberlist next
// requests packets, because inserting it into memberlist's queue takes longer than all other steps of firing an event.
type broadcastQueue struct {
	serf *Serf

	mu       sync.Mutex
	incoming []*broadcast
	// moveMu is held while the incoming packets are moved to memberlist's queue.
	moveMu sync.Mutex
	queue  memberlist.TransmitLimitedQueue
}

// add queues packets. It drops packets that are too long to be sent, and the oldest incoming packets if there are too
// many.
func (b *broadcastQueue) add(packets ...broadcast) {
	max := b.serf.maxQueued()
	b.mu.Lock()
	defer b.mu.Unlock()
	for i := range packets {
		if len(packets[i].packet) > b.serf.maxGossipPacket {
			b.drop(&packets[i])
		} else {
			b.incoming = append(b.incoming, &packets[i])
		}
	}
	for ; len(b.incoming) > max; b.incoming = b.incoming[1:] {
		b.drop(b.incoming[0])
		b.incoming[0] = nil
	}
}

// drop drops a packet and counts it.
func (b *broadcastQueue) drop(packet *broadcast) {
	packet.Finished()
	b.serf.dropped.Add(1)
}

// moveIncoming moves the incoming packets to memberlist's queue and returns that queue. If the queue then has too many
// packets, moveIncoming drops the ones that were sent most often.
func (b *broadcastQueue) moveIncoming() *memberlist.TransmitLimitedQueue {
	b.moveMu.Lock()
	defer b.moveMu.Unlock()
	b.mu.Lock()
	incoming := b.incoming
	b.incoming = nil
	b.mu.Unlock()
	for _, packet := range incoming {
		b.queue.QueueBroadcast(packet)
	}
	max := b.serf.maxQueued()
	if excess := b.queue.NumQueued() - max; excess > 0 {
		b.queue.Prune(max)
		b.serf.dropped.Add(int64(excess))
	}
	return &b.queue
}

// NumQueued returns how many packets are waiting.
func (b *broadcastQueue) NumQueued() int { return b.moveIncoming().NumQueued() }

// queueBroadcast queues a packet to gossip. sent may be nil; otherwise it is closed when memberlist has sent the packet
// for the last time.
func (s *Serf) queueBroadcast(queue *broadcastQueue, packet []byte, sent chan struct{}) {
	queue.add(broadcast{packet, sent})
}

// maxQueued returns how many packets may wait in one queue.
func (s *Serf) maxQueued() int {
	if s.config.MinQueueDepth <= 0 {
		return s.config.MaxQueueDepth
	}
	if byMembers := 2 * s.members.size(); byMembers > s.config.MinQueueDepth {
		return byMembers
	}
	return s.config.MinQueueDepth
}

// checkQueues measures the queues at intervals and logs a warning if one is long.
func (s *Serf) checkQueues() {
	ticker := time.NewTicker(s.config.QueueCheckInterval)
	defer ticker.Stop()
	for {
		select {
		case <-s.ctx.Done():
			return
		case <-ticker.C:
		}
		for name, queue := range map[string]*broadcastQueue{"Intent": s.intents, "Event": s.events, "Query": s.queries} {
			depth := queue.NumQueued()
			addSample(depth, []string{"serf", "queue", name})
			if depth >= s.config.QueueDepthWarning && depth > 0 {
				s.log.Printf("[WARN] serf: %s queue depth: %d", name, depth)
			}
		}
	}
}
