package serf

import (
	"net"
	"strconv"
	"time"
)

// minExchangeInterval is the minimum time between two state exchanges of a node that may have missed events. The node
// exchanges states with up to exchangePartners members. Long states make an exchange slow: the node waits
// exchangeWaitFactor times the duration of an exchange before it begins the next one.
const (
	minExchangeInterval = time.Second
	exchangePartners    = 32
	exchangeWaitFactor  = 10
)

// A single forged packet can make all nodes that keep events exchange states, so the exchanges are bounded. A node
// stops after maxFruitless exchanges in a row without a new event, or after maxFruitlessIfComplete if it knows of no
// missing time. It makes up to maxExchanges without a pause, and after that one per exchangeInterval.
const (
	maxFruitless           = 8
	maxFruitlessIfComplete = 3
	maxExchanges           = exchangePartners
	exchangeInterval       = 4 * time.Second
)

// exchangeBudget limits how many exchanges may begin. Its field available is below 0 if exchanges are waiting for their
// interval.
type exchangeBudget struct {
	available int
	// refilledAt is the time at which available was last increased.
	refilledAt time.Time
}

// take takes one exchange from the budget, and returns how long to wait before that exchange begins.
func (b *exchangeBudget) take(now time.Time) time.Duration {
	if b.refilledAt.IsZero() {
		b.refilledAt = now
	}
	refill := now.Sub(b.refilledAt) / exchangeInterval
	b.refilledAt = b.refilledAt.Add(refill * exchangeInterval)
	if b.available += int(refill); b.available >= maxExchanges {
		b.available, b.refilledAt = maxExchanges, now
	}
	if b.available--; b.available >= 0 {
		return 0
	}
	return time.Duration(-b.available)*exchangeInterval - now.Sub(b.refilledAt)
}

// shouldStopExchanges reports whether a node has made enough exchanges without a new event to stop.
func shouldStopExchanges(fruitless int, countMissing func() int) bool {
	return fruitless >= maxFruitless || fruitless >= maxFruitlessIfComplete && countMissing() == 0
}

// checkForGap signals missedEvents if an event's time isn't the next one. In that case this node may have missed
// events: other nodes fired some at earlier times, or fired others at the same time while a link was cut. The caller
// holds agentMu.
func (s *Serf) checkForGap(time uint64) {
	if time != s.nextEventTime {
		signal(s.missedEvents)
	}
	if time >= s.nextEventTime {
		s.nextEventTime = time + 1
	}
}

// catchUp runs only if this node keeps events. After a join, and whenever the node may have missed events, it exchanges
// states with other members, one after another. Gossip does not deliver each event to each node, and memberlist
// exchanges states only once in 30 seconds. By then, the node that had a missing event may have ended.
func (s *Serf) catchUp() {
	if s.keptEvents == nil {
		return
	}
	budget := exchangeBudget{available: maxExchanges}
	for {
		select {
		case <-s.ctx.Done():
			return
		case <-s.missedEvents:
		}
		fruitless := 0
		for _, member := range s.members.pickOthers(exchangePartners) {
			if shouldStopExchanges(fruitless, s.eventsMissing) {
				break
			}
			if wait := budget.take(time.Now()); wait > 0 {
				s.waitFor(nil, wait)
			}
			if s.ctx.Err() != nil || s.State() != SerfAlive {
				return
			}
			mergedBefore := s.mergedEvents.Load()
			// (during this wait, the receiving goroutine merges the other member's state)
			s.waitFor(nil, s.exchange(member))
			if fruitless++; s.mergedEvents.Load() != mergedBefore {
				fruitless = 0
			}
		}
	}
}

// exchange exchanges states with a member and returns how long to wait before the next exchange.
func (s *Serf) exchange(member Member) time.Duration {
	began := time.Now()
	addr := net.JoinHostPort(member.Addr.String(), strconv.Itoa(int(member.Port)))
	if _, err := s.memberlist().Join([]string{joinAddress(member.Name, addr)}); err != nil {
		s.log.Printf("[DEBUG] serf: no state was exchanged with %s: %v", member.Name, err)
		return minExchangeInterval
	}
	if wait := exchangeWaitFactor * time.Since(began); wait > minExchangeInterval {
		return wait
	}
	return minExchangeInterval
}
