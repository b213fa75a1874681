package main

import (
	"fmt"
	"math/rand"
	"sort"
	"time"
)

// kind is a kind of step.
type kind string

// The kinds of steps. Programs on the nodes do the first two, and the others are failures.
const (
	fire  kind = "fire"
	query kind = "query"
	join  kind = "join"

	killProcess   kind = "kill the process"
	cutPower      kind = "cut the power"
	cutInFlush    kind = "cut the power in the next flush"
	cutAtHandOut  kind = "cut the power at the next hand-out"
	stop          kind = "stop"
	leave         kind = "leave"
	forceLeave    kind = "force a leave"
	cutNetwork    kind = "cut the network"
	addNoise      kind = "noise"
	fillDisk      kind = "fill the disk"
	failFlushes   kind = "fail flushes"
	slowDisk      kind = "slow disk"
	slowReader    kind = "slow reader"
	shiftClock    kind = "shift the clock of the day"
	replayPackets kind = "replay packets"
	sendGarbage   kind = "send garbage"
	sendFarTime   kind = "send a far time"
	forgeEvents   kind = "forge events"
)

// failures lists the kinds of failures. Each has the mean time between two of them in a cluster.
var failures = []struct {
	kind  kind
	every time.Duration
}{
	{killProcess, 60 * time.Second},
	{cutPower, 60 * time.Second},
	{cutInFlush, 60 * time.Second},
	{cutAtHandOut, 60 * time.Second},
	{stop, 2 * time.Minute},
	{leave, 3 * time.Minute},
	{forceLeave, 3 * time.Minute},
	{cutNetwork, 2 * time.Minute},
	{addNoise, 2 * time.Minute},
	{fillDisk, 3 * time.Minute},
	{failFlushes, 3 * time.Minute},
	{slowDisk, 2 * time.Minute},
	{slowReader, 2 * time.Minute},
	{shiftClock, 3 * time.Minute},
	{replayPackets, time.Minute},
	{sendGarbage, time.Minute},
	{sendFarTime, 2 * time.Minute},
	{forgeEvents, 2 * time.Minute},
}

// step is something that happens at a time, mostly to one node. Some steps last for a while.
type step struct {
	number   int
	at       time.Duration
	kind     kind
	node     int
	duration time.Duration
	// seed determines the random choices that the step makes when it happens.
	seed int64
}

func (s step) String() string {
	return fmt.Sprintf("%d at %.3f s: %s, node %d, %.1f s", s.number, s.at.Seconds(), s.kind, s.node, s.duration.Seconds())
}

// settings has the settings of a cluster and of its nodes.
type settings struct {
	nodes                    int
	eventBuffer              int
	keepsEvents, isEncrypted bool
	coalescePeriod           time.Duration
}

// plan is derived from a seed. It has the settings of a cluster and the steps that happen in it.
type plan struct {
	settings settings
	length   time.Duration
	steps    []step
}

// Limits of the random choices: the number of nodes, and how often something is fired.
const (
	minNodes, nodesRange = 3, 4
	minFireEvery         = 500 * time.Millisecond
	fireEveryRange       = 4 * time.Second
)

// newPlan derives a plan from a seed. If nodes isn't 0, it replaces the number of nodes that the seed determines.
func newPlan(seed int64, length time.Duration, nodes int) plan {
	rng := rand.New(rand.NewSource(seed))
	drawn := plan{length: length, settings: settings{
		nodes:       minNodes + rng.Intn(nodesRange),
		eventBuffer: 64 << rng.Intn(4),
		keepsEvents: rng.Intn(2) == 0,
		isEncrypted: rng.Intn(4) == 0,
	}}
	if rng.Intn(3) == 0 {
		drawn.settings.coalescePeriod = time.Duration(1+rng.Intn(4)) * time.Second
	}
	if nodes > 0 {
		drawn.settings.nodes = nodes
	}
	drawn.add(rng, fire, minFireEvery+time.Duration(rng.Int63n(int64(fireEveryRange))))
	drawn.add(rng, query, 10*time.Second)
	drawn.add(rng, join, 2*time.Minute)
	for _, failure := range failures {
		// (if a run had failures of all kinds at once, it would hide what a few of them cause alone)
		if rng.Intn(5) < 2 {
			drawn.add(rng, failure.kind, failure.every)
		}
	}
	sort.SliceStable(drawn.steps, func(i, j int) bool { return drawn.steps[i].at < drawn.steps[j].at })
	for i := range drawn.steps {
		drawn.steps[i].number = i
	}
	return drawn
}

// add adds steps of a kind. every is the mean time between two of them.
func (p *plan) add(rng *rand.Rand, kind kind, every time.Duration) {
	draw := func(mean time.Duration) time.Duration { return time.Duration(rng.ExpFloat64() * float64(mean)) }
	for at := draw(every); at < p.length; at += draw(every) {
		p.steps = append(p.steps, step{
			at: at, kind: kind, node: rng.Intn(p.settings.nodes), duration: draw(20 * time.Second), seed: rng.Int63(),
		})
	}
}

// isFailure reports whether a step is a failure.
func (s step) isFailure() bool { return s.kind != fire && s.kind != query && s.kind != join }

// reduce drops the steps with these numbers. If nodes isn't 0, it also drops the steps of nodes beyond that number.
func (p *plan) reduce(without map[int]bool, nodes int) {
	if nodes > 0 && nodes < p.settings.nodes {
		p.settings.nodes = nodes
	}
	var kept []step
	for _, s := range p.steps {
		if !without[s.number] && s.node < p.settings.nodes {
			kept = append(kept, s)
		}
	}
	p.steps = kept
}

// has reports whether the plan has a step of one of these kinds.
func (p *plan) has(kinds ...kind) bool {
	for _, s := range p.steps {
		for _, k := range kinds {
			if s.kind == k {
				return true
			}
		}
	}
	return false
}
