package main

import (
	"fmt"
	"math/rand"
	"strings"
	"sync"
	"sync/atomic"
	"time"

	"github.com/hashicorp/memberlist"

	"kitchenrue.example/serf"
	"kitchenrue.example/simulation/disk"
)

// port is the port of all nodes.
const port = 7946

// Times of a node. For example, minFlush and maxFlush limit a flush of a healthy disk, retryAfter is the time until a
// failed start is repeated, and joinAfter is how long a node waits for the members of its snapshot before it joins
// others by their addresses.
const (
	minFlush        = 100 * time.Microsecond
	maxFlush        = 5 * time.Millisecond
	retryAfter      = 5 * time.Second
	joinAfter       = 15 * time.Second
	joinRetryAfter  = 10 * time.Second
	restartMean     = 10 * time.Second
	maxSlowFlush    = 2 * time.Second
	slowReaderPause = 700 * time.Millisecond
)

// node is a machine that runs one life of a node after another.
type node struct {
	cluster       *cluster
	number        int
	name, address string

	mu sync.Mutex
	// current is the present life, or nil if the node is down.
	current    *life
	isStarting bool
	lives      int
	disk       *disk.Disk
	// The defects of the disk, until it is repaired.
	isDiskFull bool
	failing    float64
	maxFlush   time.Duration
	// hadBadDisk is true if the disk was full or failing at any time since the present life began.
	hadBadDisk bool

	evidence evidence
}

// life is a life of a node, from Create to its end.
type life struct {
	node     *node
	number   int
	serf     *serf.Serf
	endpoint *endpoint
	disk     *disk.Disk
	events   chan serf.Event
	rng      *rand.Rand
	// hasCrashed is true if a kill or a power cut ended the life. After that, nobody sees what the old process still does.
	hasCrashed atomic.Bool
	// isEnding is true after the node was asked to end.
	isEnding     atomic.Bool
	isSlow       atomic.Bool
	wasSlow      atomic.Bool
	cutAtHandOut atomic.Bool
	began        time.Time
}

func newNode(c *cluster, number int) *node {
	n := &node{
		cluster: c, number: number, name: fmt.Sprintf("n%d", number), address: fmt.Sprintf("10.0.0.%d:%d", number+1, port),
		maxFlush: maxFlush,
	}
	n.disk = disk.New(n.root(), c.newRand())
	n.applyDiskState()
	return n
}

// root returns the root of the next life's disk.
func (n *node) root() string { return fmt.Sprintf("/n%d.%d", n.number, n.lives) }

// snapshot returns the path of the node's snapshot on a disk.
func snapshot(d *disk.Disk) string { return d.Root() + "/snapshot" }

// applyDiskState makes the present disk as defective as the machine's disk. The caller holds mu, or the node is
// new.
func (n *node) applyDiskState() {
	n.disk.SetFull(n.isDiskFull)
	n.disk.SetFailing(n.failing)
	n.disk.SetFlushTime(minFlush, n.maxFlush)
	n.hadBadDisk = n.hadBadDisk || n.isDiskFull || n.failing > 0
}

// setDiskState changes the defects of the disk.
func (n *node) setDiskState(change func()) {
	n.mu.Lock()
	defer n.mu.Unlock()
	change()
	n.applyDiskState()
}

// currentLife returns the present life, or nil if the node is down.
func (n *node) currentLife() *life {
	n.mu.Lock()
	defer n.mu.Unlock()
	return n.current
}

// config returns the configuration of a life.
func (n *node) config(l *life) *serf.Config {
	settings := n.cluster.plan.settings
	config := serf.DefaultConfig()
	config.NodeName, config.SnapshotPath, config.EventCh = n.name, snapshot(l.disk), l.events
	config.LogOutput = n.cluster.journal.writerFor(fmt.Sprintf("n%d.%d", n.number, l.number))
	config.EventBuffer, config.QueryBuffer = settings.eventBuffer, settings.eventBuffer
	config.KeepEvents = settings.keepsEvents
	if n.cluster.isRecording {
		config.Wrap = l.wrap
	}
	if settings.coalescePeriod > 0 {
		config.UserCoalescePeriod, config.UserQuiescentPeriod = settings.coalescePeriod, settings.coalescePeriod/2
		config.CoalescePeriod, config.QuiescentPeriod = settings.coalescePeriod, settings.coalescePeriod/2
	}
	config.Tags = map[string]string{"number": fmt.Sprint(n.number)}
	config.RejoinAfterLeave = true
	config.MemberlistConfig = memberlist.DefaultLANConfig()
	config.MemberlistConfig.BindPort, config.MemberlistConfig.AdvertisePort = port, port
	config.MemberlistConfig.BindAddr = strings.TrimSuffix(n.address, fmt.Sprintf(":%d", port))
	config.MemberlistConfig.Transport = l.endpoint
	if settings.isEncrypted {
		config.MemberlistConfig.SecretKey = []byte("0123456789abcdef")
	}
	return config
}

// start begins the next life. If the start fails, for example because the disk is full, it is repeated later.
func (n *node) start() {
	n.mu.Lock()
	if n.isStarting || n.current != nil {
		n.mu.Unlock()
		return
	}
	n.isStarting = true
	n.hadBadDisk = n.isDiskFull || n.failing > 0
	l := &life{
		node: n, number: n.lives, endpoint: n.cluster.network.openEndpoint(n.address), disk: n.disk, events: make(chan serf.Event),
		rng: n.cluster.newRand(), began: time.Now(),
	}
	n.lives++
	n.mu.Unlock()
	var err error
	l.serf, err = serf.Create(n.config(l))
	n.cluster.journal.add("start n%d.%d %v", n.number, l.number, err)
	n.mu.Lock()
	defer n.mu.Unlock()
	n.isStarting = false
	if err != nil {
		l.endpoint.kill()
		if !n.hadBadDisk {
			n.cluster.ledger.violate("start", "n%d.%d doesn't start on a healthy disk: %v", n.number, l.number, err)
		}
		time.AfterFunc(retryAfter, n.start)
		return
	}
	n.current = l
	go l.receiveEvents()
	go l.join()
}

// join joins the other nodes. If the life isn't the node's first one, it waits for the members of its snapshot before
// that.
func (l *life) join() {
	wait := time.Duration(0)
	if l.number > 0 {
		wait = joinAfter
	}
	for ; ; wait = joinRetryAfter {
		time.Sleep(wait)
		if l.hasCrashed.Load() || l.isEnding.Load() || l.serf.State() != serf.SerfAlive || l.knowsOthers() {
			return
		}
		for _, other := range l.node.cluster.nodes {
			if other == l.node {
				continue
			}
			if _, err := l.serf.Join([]string{other.address}, l.number == 0); err == nil || l.number > 0 && l.isEnding.Load() {
				break
			}
		}
		if len(l.node.cluster.nodes) == 1 || l.number == 0 && l.node.number == 0 {
			return
		}
	}
}

// knowsOthers reports whether another member is alive.
func (l *life) knowsOthers() bool { return l.alive() > 1 }

// alive returns how many members are alive.
func (l *life) alive() (count int) {
	for _, member := range l.serf.Members() {
		if member.Status == serf.StatusAlive {
			count++
		}
	}
	return count
}

// detach ends this life if it is the node's present one. It calls next for the disk of the next life, which starts after a
// random delay.
func (l *life) detach(nextDisk func(root string) *disk.Disk) bool {
	n := l.node
	n.mu.Lock()
	defer n.mu.Unlock()
	if n.current != l {
		return false
	}
	n.current = nil
	n.disk = nextDisk(n.root())
	n.applyDiskState()
	delay := time.Duration(l.rng.ExpFloat64() * float64(restartMean))
	n.cluster.journal.add("end n%d.%d, restart in %v", n.number, l.number, delay)
	time.AfterFunc(delay, n.start)
	return true
}

// crash ends the life at once, by a kill of its process or by a power cut.
func (l *life) crash(isPowerCut bool) {
	n := l.node
	n.mu.Lock()
	isCurrent := n.current == l
	if isCurrent {
		l.hasCrashed.Store(true)
	}
	n.mu.Unlock()
	if !isCurrent {
		return
	}
	nextDisk := l.disk.AfterKill
	if isPowerCut {
		nextDisk = l.disk.AfterPowerCut
	}
	l.detach(nextDisk)
	l.endpoint.kill()
	// From now on, nobody sees what the old process does. It only has to end.
	go func() {
		l.serf.Shutdown()
		l.disk.Remove()
	}()
}

// shutDown ends the life in an orderly way. If isLeaving is set, the node leaves first.
func (l *life) shutDown(isLeaving bool) {
	if l.isEnding.Swap(true) {
		return
	}
	own := l.node.cluster.ledger.acceptedIf(l.isOwn)
	if isLeaving {
		if err := l.serf.Leave(); err != nil {
			l.node.cluster.journal.add("leave n%d.%d %v", l.node.number, l.number, err)
		}
	}
	l.serf.Shutdown()
	if !l.hasCrashed.Load() && !l.wasSlow.Load() {
		l.checkOwn(own)
	}
	if l.detach(l.disk.AfterKill) {
		l.disk.Remove()
	}
}

// receiveEvents receives the events and queries that the node hands out.
func (l *life) receiveEvents() {
	for {
		select {
		case e := <-l.events:
			l.handleEvent(e)
		case <-l.serf.ShutdownCh():
			l.handleEnd()
			return
		}
	}
}

// handleEnd handles the end of the node. It is a broken promise if the node ended without a reason.
func (l *life) handleEnd() {
	if l.hasCrashed.Load() {
		return
	}
	reason := l.serf.Fault()
	l.node.mu.Lock()
	isExcused := l.isEnding.Load() || l.node.hadBadDisk
	l.node.mu.Unlock()
	l.node.cluster.journal.add("ended n%d.%d %v", l.node.number, l.number, reason)
	if !isExcused {
		l.node.cluster.ledger.violate("up", "n%d.%d ended by itself, and its disk was healthy: %v", l.node.number, l.number, reason)
	}
	if !l.isEnding.Load() && l.detach(l.disk.AfterKill) {
		l.disk.Remove()
	}
}

// handleEvent handles an event or a query that the node handed out, as a program on the node would.
func (l *life) handleEvent(e serf.Event) {
	if l.hasCrashed.Load() {
		return
	}
	ledger := l.node.cluster.ledger
	switch e := e.(type) {
	case serf.UserEvent:
		delivered := delivery{false, e.LTime, e.Name, string(e.Payload)}
		l.logEvent(e)
		ledger.recordDelivery(l.node.number, l.number, delivered)
		l.checkFlushed(delivered)
	case *serf.Query:
		delivered := delivery{true, e.LTime, e.Name, string(e.Payload)}
		ledger.recordDelivery(l.node.number, l.number, delivered)
		l.checkFlushed(delivered)
		if l.rng.Intn(8) > 0 || l.node.cluster.isFinal.Load() {
			ledger.recordAnswer(l.node.number, e.Name)
			if err := e.Respond([]byte(answerOf(e.Name, l.node.name))); err != nil {
				l.node.cluster.journal.add("respond n%d.%d %s %v", l.node.number, l.number, e.Name, err)
			}
		}
	default:
		return
	}
	if l.cutAtHandOut.Swap(false) {
		l.crash(true)
	} else if l.isSlow.Load() {
		time.Sleep(slowReaderPause)
	}
}

// answerOf returns the payload with which a node answers a query.
func answerOf(query, node string) string { return query + " from " + node }

// checkFlushed checks that a line that prevents a second delivery is already on the disk. After a power cut at this
// moment, the next life then doesn't hand out the same thing again.
func (l *life) checkFlushed(delivered delivery) {
	settings := l.node.cluster.plan.settings
	for _, text := range l.disk.FlushedTexts(snapshot(l.disk)) {
		if !isFlushed(text, delivered, settings.keepsEvents, settings.eventBuffer) {
			l.node.cluster.ledger.violate(
				"flushed", "n%d.%d handed out %s before its line was on the disk", l.node.number, l.number, delivered,
			)
			return
		}
	}
}

// fire fires an event.
func (l *life) fire(rng *rand.Rand) string {
	ledger, n := l.node.cluster.ledger, l.node
	body := make([]byte, rng.Intn(60))
	rng.Read(body)
	name, before := ledger.beginFiring("e", n.number, l.number, func(name string) string { return fmt.Sprintf("%s %x", name, body) })
	fired, err := l.serf.Fire(name, ledger.payloadOf(name), rng.Intn(2) == 0)
	if !l.hasCrashed.Load() {
		ledger.recordFiring(name, fired, before, err)
	}
	return name
}

// maxQueryDelay is how long a query may stay open after its deadline, since the node may be waiting for its disk.
const maxQueryDelay = 30 * time.Second

// query fires a query, and checks its responses. After the query was closed, it returns the names of the nodes that
// answered.
func (l *life) query(rng *rand.Rand, params *serf.QueryParam) (answers map[string]bool) {
	ledger, n := l.node.cluster.ledger, l.node
	name, _ := ledger.beginFiring("q", n.number, l.number, func(name string) string { return "about " + name })
	if params == nil {
		params = &serf.QueryParam{RequestAck: rng.Intn(2) == 0, RelayFactor: uint8(rng.Intn(4))}
	}
	response, err := l.serf.Query(name, ledger.payloadOf(name), params)
	n.cluster.journal.add("query n%d.%d %s %v", n.number, l.number, name, err)
	if err != nil || l.hasCrashed.Load() {
		return nil
	}
	answers = map[string]bool{}
	closed := time.NewTimer(time.Until(response.Deadline()) + maxQueryDelay)
	defer closed.Stop()
	for {
		select {
		case answer, ok := <-response.ResponseCh():
			if !ok || l.hasCrashed.Load() {
				return answers
			}
			l.checkAnswer(name, answer, answers)
		case <-closed.C:
			if !l.hasCrashed.Load() && !l.isEnding.Load() {
				ledger.violate("closed", "query %s of n%d.%d is open %v after its deadline", name, n.number, l.number, maxQueryDelay)
			}
			return answers
		}
	}
}

// checkAnswer checks one response to a query.
func (l *life) checkAnswer(query string, answer serf.NodeResponse, answers map[string]bool) {
	ledger := l.node.cluster.ledger
	l.node.cluster.journal.add("answer %s %s", query, answer.From)
	if ledger.isForgeable {
		return
	}
	number := -1
	fmt.Sscanf(answer.From, "n%d", &number)
	switch {
	case answers[answer.From]:
		ledger.violate("answers", "%s answered query %s twice", answer.From, query)
	case number < 0 || number >= len(l.node.cluster.nodes) || !ledger.hasAnswered(number, query):
		ledger.violate("answers", "query %s was answered by %s, which did not answer it", query, answer.From)
	case string(answer.Payload) != answerOf(query, answer.From):
		ledger.violate("answers", "query %s was answered by %s with %q", query, answer.From, answer.Payload)
	}
	answers[answer.From] = true
}
