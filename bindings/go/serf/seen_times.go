package serf

import "sync"

// seenTimes remembers at which times of the window this node has handed out an event. If the node has seen an event
// with a later time, but none at some earlier time of the window, it may have missed an event at that earlier time.
type seenTimes struct {
	mu sync.Mutex
	// slots has, for each slot, the last seen time plus one, or 0 if none was seen.
	slots []uint64
	// first is the first time that can count as missing, and next is later than all seen times.
	first, next uint64
}

// newSeenTimes starts at the event clock of a file. If the clock is 0 or 1, the file has no event, and the first event
// decides which time is the first one that can count as missing.
func newSeenTimes(window int, clock uint64) *seenTimes {
	t := &seenTimes{slots: make([]uint64, window)}
	if clock > 1 {
		t.first, t.next = clock, clock
	}
	return t
}

// add records the time of an event that was handed out.
func (t *seenTimes) add(time uint64) {
	if t == nil {
		return
	}
	t.mu.Lock()
	defer t.mu.Unlock()
	if t.next == 0 {
		t.first = time
	}
	if slot := &t.slots[time%uint64(len(t.slots))]; *slot <= time {
		*slot = time + 1
	}
	if time >= t.next {
		t.next = time + 1
	}
}

// countMissing returns for how many times of the window, from minimum on, no event was seen although an event with a later
// time was.
func (t *seenTimes) countMissing(minimum uint64) int {
	t.mu.Lock()
	defer t.mu.Unlock()
	firstTime := t.first
	if window := uint64(len(t.slots)); t.next > window && t.next-window > firstTime {
		firstTime = t.next - window
	}
	if minimum > firstTime {
		firstTime = minimum
	}
	count := 0
	for time := firstTime; time < t.next; time++ {
		if t.slots[time%uint64(len(t.slots))] != time+1 {
			count++
		}
	}
	return count
}

// eventClock returns the event clock, or 0 if it can't be read.
func (s *Serf) eventClock() uint64 {
	clocks, err := s.agent.Clocks()
	if err != nil {
		return 0
	}
	return clocks.Event
}

// eventsMissing returns at how many times of the window this node may have missed events.
func (s *Serf) eventsMissing() int {
	clocks, err := s.agent.Clocks()
	if err != nil {
		return 0
	}
	return s.seenTimes.countMissing(clocks.EventMinimum)
}
