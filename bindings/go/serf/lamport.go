package serf

import "sync/atomic"

// LamportTime is a time of a Lamport clock.
type LamportTime uint64

// LamportClock is a Lamport clock that many goroutines may use at once. It is for programs that need a Lamport clock. A
// node does not use this type: its clocks are inside the proved agent.
type LamportClock struct{ counter atomic.Uint64 }

// Time returns the clock's time.
func (l *LamportClock) Time() LamportTime { return LamportTime(l.counter.Load()) }

// Increment advances the clock by one and returns its new time.
func (l *LamportClock) Increment() LamportTime { return LamportTime(l.counter.Add(1)) }

// Witness advances the clock beyond a time that was received, unless the clock is already later. The largest time, 2^64
// - 1, has no effect, since no time is later.
func (l *LamportClock) Witness(v LamportTime) {
	for {
		now := l.counter.Load()
		if uint64(v) < now || v+1 == 0 || l.counter.CompareAndSwap(now, uint64(v)+1) {
			return
		}
	}
}
