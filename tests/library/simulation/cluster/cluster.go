package main

import (
	"math/rand"
	"runtime"
	"sync"
	"sync/atomic"
	"time"

	"kitchenrue.example/serf"
	"kitchenrue.example/simulation/planted"
)

// The times of a run, in virtual time. For example, formTime limits how long the cluster takes to form, and aliveTime
// and recoveryTime how long it takes after the last failure until all members are alive and until it has recovered.
// aliveTime is shorter than RecentIntentTimeout: after that time, a node no longer believes that a living member is
// leaving, even if nobody refutes it.
const (
	formTime      = 20 * time.Second
	aliveTime     = 3 * time.Minute
	recoveryTime  = 5 * time.Minute
	spreadTime    = 2 * time.Minute
	quietTime     = time.Minute
	sampleEvery   = 5 * time.Second
	endTime       = 30 * time.Second
	collectEvery  = time.Minute
	settledAfter  = time.Minute
	finalQuery    = 20 * time.Second
	finalPause    = time.Second
	gossipTime    = 10 * time.Second
	cutOffTime    = 15 * time.Second
	eventsByNode  = 2
	burstLength   = 60
	recordedShare = 0.02
)

// The bounds of a node's resources and of its traffic.
const (
	maxGoroutines   = 100
	maxSnapshotSize = 16 << 10
	// maxKeptSize replaces maxSnapshotSize if the snapshot keeps events.
	maxKeptSize = 256 << 10
	// maxPacketsPerSecond is the bound for a node while nothing happens.
	maxPacketsPerSecond = 6
)

// cluster is a run: its nodes, the network between them, and its plan.
type cluster struct {
	plan    plan
	journal *journal
	network *network
	ledger  *ledger
	nodes   []*node
	// isRecording is true if each node records its agent.
	isRecording bool
	// isHealed is true when the failures are over. isFinal is true when the final events and queries are fired.
	isHealed, isFinal atomic.Bool
	// joinedIgnoring is the moment when a node last joined others and ignored old events, in nanoseconds since 1970.
	joinedIgnoring atomic.Int64
	steps          sync.WaitGroup
	// goroutines is the number of goroutines before the first node began.
	goroutines int

	mu  sync.Mutex
	rng *rand.Rand
}

func newCluster(p plan, seed int64, j *journal) *cluster {
	c := &cluster{plan: p, journal: j, rng: rand.New(rand.NewSource(seed + 1)), goroutines: runtime.NumGoroutine()}
	c.network = newNetwork(j, c.newRand())
	c.ledger = newLedger(j, p.settings.nodes, p.has(sendGarbage))
	if p.has(replayPackets, sendGarbage) {
		c.network.recordShare = recordedShare
	}
	for i := 0; i < p.settings.nodes; i++ {
		c.nodes = append(c.nodes, newNode(c, i))
	}
	return c
}

// newRand returns a new random generator. The run's seed determines its numbers.
func (c *cluster) newRand() *rand.Rand {
	c.mu.Lock()
	defer c.mu.Unlock()
	return rand.New(rand.NewSource(c.rng.Int63()))
}

// run runs the cluster: it forms, goes through the plan's steps, recovers, is checked, and ends.
func (c *cluster) run() {
	stopSampling := make(chan struct{})
	go c.sample(stopSampling)
	for _, n := range c.nodes {
		n.start()
		time.Sleep(formTime / time.Duration(len(c.nodes)))
	}
	began := time.Now()
	for _, s := range c.plan.steps {
		time.Sleep(time.Until(began.Add(s.at)))
		c.journal.add("step %s", s)
		c.steps.Add(1)
		go func(s step) {
			defer c.steps.Done()
			c.execute(s)
		}(s)
	}
	time.Sleep(time.Until(began.Add(c.plan.length)))
	c.heal()
	healed := time.Now()
	time.Sleep(aliveTime)
	c.checkMembers(healed, func(n *node, status serf.MemberStatus) bool {
		return status == serf.StatusAlive || status == serf.StatusLeaving && planted.IsTied(n.name)
	})
	time.Sleep(recoveryTime - aliveTime)
	close(stopSampling)
	c.checkSpread()
	c.checkQuiet()
	c.checkMembers(healed, func(_ *node, status serf.MemberStatus) bool { return status == serf.StatusAlive })
	c.checkEnd()
}

// execute executes a step of the plan.
func (c *cluster) execute(s step) {
	rng := rand.New(rand.NewSource(s.seed))
	n := c.nodes[s.node]
	l := n.currentLife()
	if l == nil {
		return
	}
	switch s.kind {
	case fire:
		for count := c.burstSize(rng); count > 0; count-- {
			l.fire(rng)
		}
	case query:
		l.query(rng, nil)
	case join:
		isIgnoring := rng.Intn(6) == 0
		if isIgnoring {
			c.joinedIgnoring.Store(time.Now().UnixNano())
		}
		l.serf.Join([]string{c.nodes[rng.Intn(len(c.nodes))].address}, isIgnoring)
	case killProcess:
		l.crash(false)
	case cutPower:
		l.crash(true)
	case cutInFlush:
		l.disk.WhileFlushing(func() { l.crash(true) })
	case cutAtHandOut:
		l.cutAtHandOut.Store(true)
	case stop:
		l.shutDown(false)
	case leave:
		l.shutDown(true)
	case forceLeave:
		l.serf.RemoveFailedNode(c.nodes[rng.Intn(len(c.nodes))].name)
	case cutNetwork:
		partOf := map[string]int{}
		for _, other := range c.nodes {
			partOf[other.address] = rng.Intn(2)
		}
		c.network.partition(partOf)
		c.undoAfter(s.duration, func() { c.network.partition(map[string]int{}) })
	case addNoise:
		c.network.setNoise(noise{lose: rng.Float64() / 3, repeat: rng.Float64() / 3, late: rng.Float64() / 3})
		c.undoAfter(s.duration, func() { c.network.setNoise(noise{}) })
	case fillDisk:
		n.setDiskState(func() { n.isDiskFull = true })
		c.undoAfter(s.duration, func() { n.setDiskState(func() { n.isDiskFull = false }) })
	case failFlushes:
		n.setDiskState(func() { n.failing = rng.Float64() / 2 })
		c.undoAfter(s.duration, func() { n.setDiskState(func() { n.failing = 0 }) })
	case slowDisk:
		n.setDiskState(func() { n.maxFlush = time.Duration(rng.Int63n(int64(maxSlowFlush))) })
		c.undoAfter(s.duration, func() { n.setDiskState(func() { n.maxFlush = maxFlush }) })
	case slowReader:
		l.isSlow.Store(true)
		l.wasSlow.Store(true)
		c.undoAfter(s.duration, func() { l.isSlow.Store(false) })
	case shiftClock:
		planted.TimeOfDayShift.Store(rng.Int63n(int64(20*365*24*time.Hour)) - int64(10*365*24*time.Hour))
	case replayPackets:
		c.attack(s, c.recordedPacket)
	case sendGarbage:
		c.attack(s, c.garbagePacket)
	case sendFarTime:
		c.attack(s, c.farPacket)
	case forgeEvents:
		c.attack(s, c.forgedPacket)
	}
}

// burstSize returns the number of events to fire at once.
func (c *cluster) burstSize(rng *rand.Rand) int {
	if rng.Intn(25) == 0 {
		return rng.Intn(burstLength)
	}
	return 1
}

// undoAfter calls undo when this time has passed, unless the failures are over by then.
func (c *cluster) undoAfter(wait time.Duration, undo func()) {
	time.AfterFunc(wait, func() {
		if !c.isHealed.Load() {
			undo()
		}
	})
}

// heal ends all failures.
func (c *cluster) heal() {
	c.journal.add("the failures are over")
	c.isHealed.Store(true)
	c.network.setNoise(noise{})
	c.network.partition(map[string]int{})
	planted.TimeOfDayShift.Store(0)
	for _, n := range c.nodes {
		n.setDiskState(func() { n.isDiskFull, n.failing, n.maxFlush = false, 0, maxFlush })
		if l := n.currentLife(); l != nil {
			l.isSlow.Store(false)
			l.cutAtHandOut.Store(false)
			l.disk.WhileFlushing(nil)
		}
	}
}

// sample checks the bounds at intervals. It also collects garbage at fixed virtual times, so that the garbage collector
// does the same in each run.
func (c *cluster) sample(stop <-chan struct{}) {
	collected := time.Now()
	for {
		select {
		case <-stop:
			return
		case <-time.After(sampleEvery):
		}
		c.checkBounds()
		if time.Since(collected) >= collectEvery {
			collected = time.Now()
			runtime.GC()
		}
	}
}

// checkBounds checks the number of goroutines and the sizes of the snapshots against their bounds.
func (c *cluster) checkBounds() {
	count := runtime.NumGoroutine()
	if max := c.goroutines + maxGoroutines*len(c.nodes); count > max {
		c.ledger.violate("bounds", "there are %d goroutines, and at most %d are expected", count, max)
	}
	maxSize := maxSnapshotSize
	if c.plan.settings.keepsEvents {
		maxSize = maxKeptSize
	}
	for _, n := range c.nodes {
		l := n.currentLife()
		if l == nil {
			continue
		}
		if size := l.disk.Size(snapshot(l.disk)); size > maxSize {
			c.ledger.violate("bounds", "the snapshot of n%d.%d has %d bytes", n.number, l.number, size)
		}
	}
}

// lives returns the present lives of all nodes. It reports each node that is down.
func (c *cluster) lives() []*life {
	var lives []*life
	for _, n := range c.nodes {
		if l := n.currentLife(); l != nil {
			lives = append(lives, l)
		} else {
			c.ledger.violate("up", "n%d is down at the end", n.number)
		}
	}
	return lives
}

// checkMembers checks each node's status for each member: isRight has to accept it.
func (c *cluster) checkMembers(healed time.Time, isRight func(n *node, status serf.MemberStatus) bool) {
	since := time.Since(healed).Round(time.Second)
	for _, l := range c.lives() {
		for _, n := range c.nodes {
			status := serf.StatusNone
			for _, member := range l.serf.Members() {
				if member.Name == n.name {
					status = member.Status
				}
			}
			if !isRight(n, status) {
				c.ledger.violate(
					"members", "n%d.%d sees n%d as %s %v after the last failure", l.node.number, l.number, n.number, status, since,
				)
			}
		}
	}
}

// checkSpread fires the final events and queries. Each node has to hand out each of them, and has to hand out most of
// them soon.
func (c *cluster) checkSpread() {
	c.isFinal.Store(true)
	lives, rng := c.lives(), c.newRand()
	before := c.ledger.firingsBegun()
	for i := 0; i < eventsByNode; i++ {
		for _, l := range lives {
			l.fire(rng)
			time.Sleep(finalPause)
		}
	}
	final := c.ledger.acceptedIf(func(f *firing) bool { return f.order > before })
	time.Sleep(gossipTime)
	c.checkGossip(final, lives)
	c.checkQueries(lives, rng)
	final = append(final, c.fireWithoutOne(lives, rng)...)
	time.Sleep(spreadTime)
	c.checkEverywhere(append(c.settledEvents(lives), final...), lives)
	for _, l := range lives {
		l.checkOwn(c.ledger.acceptedIf(l.isOwn))
	}
}

// fireWithoutOne cuts one node off and fires an event. The node is cut off for longer than the others gossip the event,
// so only a push/pull can deliver it.
func (c *cluster) fireWithoutOne(lives []*life, rng *rand.Rand) []string {
	if len(lives) < 2 {
		return nil
	}
	at := rng.Intn(len(lives))
	c.network.partition(map[string]int{lives[at].node.address: 1})
	before := c.ledger.firingsBegun()
	lives[(at+1)%len(lives)].fire(rng)
	time.Sleep(cutOffTime)
	c.network.partition(map[string]int{})
	return c.ledger.acceptedIf(func(f *firing) bool { return f.order > before })
}

// checkGossip checks that gossip alone delivered most of these events, without a push/pull.
func (c *cluster) checkGossip(names []string, lives []*life) {
	missing := 0
	for _, name := range names {
		for _, l := range lives {
			if !c.ledger.hasHandedOut(l.node.number, name) {
				missing++
			}
		}
	}
	if pairs := len(names) * len(lives); 5*missing > pairs {
		c.ledger.violate("gossip", "%d of %d final events were not handed out within %v", missing, pairs, gossipTime)
	}
}

// settledEvents returns the events that all nodes have to have. These were accepted after each node had begun its
// present life and joined the others, and are within the windows. If a hostile member changed packets, it returns none,
// since that member may have moved the windows.
func (c *cluster) settledEvents(lives []*life) []string {
	if c.ledger.isForgeable || c.plan.has(forgeEvents) {
		return nil
	}
	settled := time.Unix(0, c.joinedIgnoring.Load())
	for _, l := range lives {
		if l.began.After(settled) {
			settled = l.began
		}
	}
	settled = settled.Add(settledAfter)
	names := c.ledger.acceptedIf(func(f *firing) bool { return f.at.After(settled) })
	if reach := c.plan.settings.eventBuffer / 2; len(names) > reach {
		names = names[len(names)-reach:]
	}
	c.journal.add("settled: %d events", len(names))
	return names
}

// checkEverywhere checks that all nodes handed out these events.
func (c *cluster) checkEverywhere(names []string, lives []*life) {
	for _, name := range names {
		for _, l := range lives {
			if !c.ledger.hasHandedOut(l.node.number, name) {
				c.ledger.violate("spread", "n%d.%d did not hand out event %s", l.node.number, l.number, name)
			}
		}
	}
}

// checkQueries fires a query at each node. Most of the answers have to arrive, and without relays. (Gossip reaches each
// node only with a high probability, and a push/pull carries no queries.)
func (c *cluster) checkQueries(lives []*life, rng *rand.Rand) {
	relays, missing := c.network.relaysSent(), 0
	for _, l := range lives {
		answers := l.query(rng, &serf.QueryParam{RequestAck: true, Timeout: finalQuery})
		missing += len(lives) - len(answers)
	}
	if pairs := len(lives) * len(lives); 5*missing > pairs && !c.ledger.isForgeable {
		c.ledger.violate("answers", "%d of %d answers to the final queries are missing", missing, pairs)
	}
	if sent := c.network.relaysSent() - relays; sent > 0 {
		c.ledger.violate("relays", "%d answers were relayed, of queries without relays", sent)
	}
}

// isOwn reports whether this life fired an event.
func (l *life) isOwn(f *firing) bool { return f.node == l.node.number && f.life == l.number }

// checkOwn checks that the life handed out these events, which it had fired itself.
func (l *life) checkOwn(names []string) {
	ledger := l.node.cluster.ledger
	for _, name := range names {
		if !ledger.hasHandedOut(l.node.number, name) {
			ledger.violate("own", "n%d.%d accepted event %s and did not hand it out", l.node.number, l.number, name)
		}
	}
}

// checkQuiet checks the number of packets that the nodes send while nothing happens.
func (c *cluster) checkQuiet() {
	before := c.network.traffic()
	time.Sleep(quietTime)
	after := c.network.traffic()
	perSecond := float64(after-before) / quietTime.Seconds() / float64(len(c.nodes))
	c.journal.add("quiet: %.2f packets a second and node", perSecond)
	if perSecond > maxPacketsPerSecond {
		c.ledger.violate("bounds", "a node sends %.1f packets a second while nothing happens", perSecond)
	}
}
