package guard

import (
	"crypto/rand"
	"encoding/binary"
	"net"
	"net/netip"
	"sync"
	"sync/atomic"
	"time"
)

// origin is the kind of message that reported a new node. Each origin has its own limits, so a flood of reports of one
// origin can't keep out nodes that are reported with another origin.
type origin uint8

const (
	fromDialed   origin = iota // by a state that this node requested
	fromAccepted               // by a state that another node sent
	fromMember                 // by a packet from the address of a member
	fromStranger               // by another packet
	originCount
)

// pingLimits says for each origin how many new nodes the guard pings at once (burst), and then in each second. The
// guard pings each node at most maxPings times.
var pingLimits = [originCount]struct{ burst, perSecond float64 }{{4096, 256}, {512, 128}, {512, 128}, {256, 64}}

// silentTime is how long the guard doesn't ping a node again that didn't answer. It counts from the first ping.
const silentTime = 10 * time.Second

// pingsAtOnce is how many pings the guard sends without a pause. The pauses leave room in the socket's buffer for the
// acks.
const (
	pingsAtOnce = 64
	pingPause   = time.Millisecond
)

// maxPings is how often the guard pings a candidate. The guard stops waiting for the candidate's answer after
// answerIntervals times memberlist's ProbeTimeout.
const (
	maxPings        = 3
	answerIntervals = 3
)

// nameAt is a node's name and address.
type nameAt struct {
	name string
	addr netip.AddrPort
}

// limitKey identifies a group of candidates that share one limit: the candidates with the same address to ping, or, if
// they were reported by states that others sent, the candidates from the same sending host.
type limitKey struct {
	origin       origin
	target, peer netip.Addr
}

// candidate is a new node whose address hasn't answered a ping yet.
type candidate struct {
	nameAt
	origin origin
	limits []limitKey
	// number is the sequence number of the pings to the candidate. Only a host that receives one of these pings knows
	// it.
	number uint32
	// reportedAt is when the candidate was first reported, and pings is how often it was pinged since then.
	reportedAt time.Time
	pings      int
	// isAnswered: an ack arrived. isSilent: no ack arrived in time. refusal: the reason why the candidate isn't
	// admitted although it answered.
	isAnswered, isSilent bool
	refusal              Reason
	// alive is the report that memberlist receives when the candidate answers. later is the last message after that
	// report which says that the node is suspected or dead, or nil if there is none.
	alive, later []byte
	reporter     net.Addr
	// groups has the push/pulls that wait for the candidate.
	groups []*group
}

// group has the candidates for which a push/pull waits. done is closed when each of them has answered or was silent for
// too long. pending is the number of candidates that are still undecided, plus 1 until closeGroup is called.
type group struct {
	pending int
	done    chan struct{}
	// pingsBeganAt is when the guard began to ping the candidates, and lastAnswerAt is when the last answer arrived.
	pingsBeganAt, lastAnswerAt time.Time
}

func newGroup() *group {
	return &group{pending: 1, done: make(chan struct{}), pingsBeganAt: time.Now()}
}

// bucket allows a number of pings at once, and then a number in each second.
type bucket struct {
	used    float64
	sweptAt time.Time
}

// takeIfAllowed takes one ping from the bucket, or returns false if none is allowed now.
func (b *bucket) takeIfAllowed(now time.Time, burst, perSecond float64) bool {
	if b.used -= now.Sub(b.sweptAt).Seconds() * perSecond; b.used < 0 {
		b.used = 0
	}
	b.sweptAt = now
	if b.used+1 > burst {
		return false
	}
	b.used++
	return true
}

// candidates has the new nodes that have to answer a ping. The rates at which nodes are added limit its size, since
// each node is removed after silentTime.
type candidates struct {
	members *members
	drops   *drops
	// perAddress is the maximum number of candidates for each limitKey. interval is the time between two pings of one
	// candidate.
	perAddress int
	interval   time.Duration
	// count is the number of candidates, for a check without the lock.
	count atomic.Int64
	// workReady has an element when there may be something to send.
	workReady chan struct{}

	mu       sync.Mutex
	byKey    map[nameAt]*candidate
	byNumber map[uint32]*candidate
	limits   map[limitKey]int
	buckets  [originCount]bucket
	// queue has all candidates, the oldest first. answered has the candidates that answered and that memberlist still
	// has to receive.
	queue, answered []*candidate
}

func newCandidates(m *members, d *drops, perAddress int, interval time.Duration) *candidates {
	return &candidates{
		members: m, drops: d, perAddress: perAddress, interval: interval, workReady: make(chan struct{}, 1), byKey: map[nameAt]*candidate{},
		byNumber: map[uint32]*candidate{}, limits: map[limitKey]int{},
	}
}

// signal wakes prove, because there may be something to send.
func (c *candidates) signal() {
	select {
	case c.workReady <- struct{}{}:
	default:
	}
}

// add makes a node a candidate, or adds a newer report to an existing candidate. If the node can't be a candidate now,
// add returns nil and the reason. If waiting isn't nil, a push/pull waits for the candidate, and memberlist receives
// alive only after release.
func (c *candidates) add(
	node nameAt, from origin, peer netip.Addr, source net.Addr, alive []byte, waiting *group,
) (*candidate, Reason) {
	now := time.Now()
	c.mu.Lock()
	defer c.mu.Unlock()
	found := c.byKey[node]
	if found != nil && found.isSilent {
		if from >= found.origin {
			return nil, Unproven
		}
		c.remove(found)
		found = nil
	}
	if found == nil {
		if found = c.addNew(node, from, peer, now); found == nil {
			return nil, Unproven
		}
	}
	found.reporter = source
	if waiting != nil {
		waiting.pending++
		found.groups = append(found.groups, waiting)
	} else {
		found.alive, found.later = alive, nil
	}
	return found, held
}

// addNew makes a node a candidate. It returns nil if too many candidates have its address or were reported by the peer,
// or if too many candidates were pinged already. The caller holds mu.
func (c *candidates) addNew(node nameAt, from origin, peer netip.Addr, now time.Time) *candidate {
	limits := []limitKey{{origin: from, target: node.addr.Addr()}}
	if from == fromAccepted {
		// (so that no other host can use up the limit of the host at that address)
		limits = []limitKey{{origin: from, target: node.addr.Addr(), peer: peer}, {origin: from, peer: peer}}
	}
	for _, key := range limits {
		if c.limits[key] >= c.perAddress {
			return nil
		}
	}
	if limit := pingLimits[from]; !c.buckets[from].takeIfAllowed(now, limit.burst, limit.perSecond) {
		return nil
	}
	added := &candidate{nameAt: node, origin: from, limits: limits, number: c.newNumber(), reportedAt: now}
	for _, key := range limits {
		c.limits[key]++
	}
	c.byKey[node], c.byNumber[added.number] = added, added
	c.queue = append(c.queue, added)
	c.count.Add(1)
	c.signal()
	return added
}

// newNumber returns a sequence number that nobody can guess and that no other candidate has. The number is also large,
// so that memberlist, which numbers its pings from 1, won't use it soon.
func (c *candidates) newNumber() uint32 {
	for {
		var random [4]byte
		if _, err := rand.Read(random[:]); err != nil {
			panic(err) // The system has no randomness, so memberlist couldn't encrypt either.
		}
		if number := binary.BigEndian.Uint32(random[:]); number >= minNumber && c.byNumber[number] == nil {
			return number
		}
	}
}

const minNumber = 1 << 24

// remove removes a candidate from everything except the queue.
func (c *candidates) remove(old *candidate) {
	if c.byKey[old.nameAt] != old {
		return
	}
	delete(c.byKey, old.nameAt)
	if c.byNumber[old.number] == old {
		delete(c.byNumber, old.number)
	}
	for _, key := range old.limits {
		if c.limits[key]--; c.limits[key] == 0 {
			delete(c.limits, key)
		}
	}
	c.count.Add(-1)
}

// countAsDecided counts a candidate as decided in all push/pulls that wait for it.
func (c *candidates) countAsDecided(decided *candidate) {
	for _, waiting := range decided.groups {
		waiting.countDecision()
	}
}

// countDecision counts one candidate of the group as decided, and ends the push/pull's wait if no other is undecided.
func (g *group) countDecision() {
	if g.pending--; g.pending == 0 {
		close(g.done)
	}
}

// closeGroup says that no more candidates are added to the group of a push/pull.
func (c *candidates) closeGroup(waiting *group) {
	c.mu.Lock()
	defer c.mu.Unlock()
	waiting.countDecision()
}

// isQuiet reports whether some candidates of a group have answered and the rest probably don't exist any more. It
// assumes that when the time since the last answer exceeds three times the time that this answer took, plus a fifth of
// interval.
func (c *candidates) isQuiet(waiting *group) bool {
	c.mu.Lock()
	defer c.mu.Unlock()
	lastAnswer := waiting.lastAnswerAt
	return !lastAnswer.IsZero() && time.Since(lastAnswer) > 3*lastAnswer.Sub(waiting.pingsBeganAt)+c.interval/5
}

// countAdmitted returns how many of the candidates in spans are admitted.
func (c *candidates) countAdmitted(spans []span) (count int) {
	c.mu.Lock()
	defer c.mu.Unlock()
	for _, s := range spans {
		if s.candidate != nil && s.candidate.isAnswered && s.candidate.refusal == none {
			count++
		}
	}
	return count
}

// acceptAck reports whether an ack with this sequence number answers a ping of a candidate, and admits that candidate.
func (c *candidates) acceptAck(number uint32) bool {
	if c.count.Load() == 0 {
		return false
	}
	c.mu.Lock()
	defer c.mu.Unlock()
	found := c.byNumber[number]
	if found == nil {
		return false
	}
	c.remove(found)
	found.isAnswered = true
	if found.refusal = c.members.admit(found.nameAt); found.refusal != none && len(found.groups) == 0 {
		c.drops.add(found.refusal)
	}
	if found.refusal == none && len(found.groups) == 0 && found.alive != nil {
		c.answered = append(c.answered, found)
		c.signal()
	}
	for _, waiting := range found.groups {
		waiting.lastAnswerAt = time.Now()
	}
	c.countAsDecided(found)
	return true
}

// holdLater keeps a message that says that a node is suspected or dead, if the node is a candidate. memberlist receives
// the message after the candidate's report, since it ignores messages of this kind about nodes that it doesn't know.
func (c *candidates) holdLater(name, message []byte) bool {
	if c.count.Load() == 0 {
		return false
	}
	c.mu.Lock()
	defer c.mu.Unlock()
	isHeld := false
	for _, other := range c.queue {
		if other.name == string(name) && other.alive != nil && !other.isSilent && c.byKey[other.nameAt] == other {
			other.later, isHeld = append([]byte(nil), message...), true
		}
	}
	return isHeld
}

// endWait ends the wait of a push/pull for a candidate. It returns none if the candidate is admitted, and otherwise the
// reason why not. If the candidate may still answer, memberlist receives alive when it does.
func (c *candidates) endWait(waiting *group, candidate *candidate, alive []byte) Reason {
	c.mu.Lock()
	defer c.mu.Unlock()
	for i, other := range candidate.groups {
		if other == waiting {
			candidate.groups = append(candidate.groups[:i], candidate.groups[i+1:]...)
			break
		}
	}
	switch {
	case candidate.isAnswered:
		return candidate.refusal
	case !candidate.isSilent:
		if alive != nil {
			candidate.alive = alive
		}
		return held
	}
	return Unproven
}

// takeDue returns the candidates that have to be pinged now, and the candidates that memberlist has to receive now. next is
// how long to wait before the next call of due, or 0 if no further call is needed.
func (c *candidates) takeDue(now time.Time) (pings, answered []*candidate, wait time.Duration) {
	c.mu.Lock()
	defer c.mu.Unlock()
	answered, c.answered = c.answered, nil
	remaining, hasMore := c.queue[:0], false
	for _, queued := range c.queue {
		age := now.Sub(queued.reportedAt)
		switch isIn := c.byKey[queued.nameAt] == queued; {
		case !isIn:
			continue
		case age >= silentTime && queued.isSilent:
			c.remove(queued)
			continue
		case age >= answerIntervals*c.interval && queued.pings == maxPings && !queued.isSilent:
			queued.isSilent, queued.alive, queued.later = true, nil, nil
			delete(c.byNumber, queued.number)
			if len(queued.groups) == 0 {
				c.drops.add(Unproven)
			}
			c.countAsDecided(queued)
		case !queued.isSilent && queued.pings < maxPings && age >= time.Duration(queued.pings)*c.interval:
			if len(pings) == pingsAtOnce {
				hasMore = true
				break
			}
			queued.pings++
			pings = append(pings, queued)
		}
		remaining = append(remaining, queued)
	}
	for i := len(remaining); i < len(c.queue); i++ {
		c.queue[i] = nil
	}
	if c.queue = remaining; len(remaining) > 0 {
		wait = c.interval / 2
	}
	if hasMore {
		wait = pingPause
	}
	return pings, answered, wait
}
