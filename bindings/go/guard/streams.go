package guard

import (
	"runtime"
	"sync"
	"time"
)

// pushPullTime is how long a push/pull can keep its place. After that, the guard closes it if others are waiting.
const pushPullTime = time.Second

// answerBytesPerNode is an estimate of the memory in bytes that memberlist needs for each known node when it answers a
// push/pull: the list of nodes, their encoding while its buffer grows, and the compressed and encrypted copies. A node
// with long tags needs more.
const answerBytesPerNode = 1 << 10

// load is the memory and places that a stream holds. bytes is the size of its buffers. If memberlist is answering its
// push/pull, pushPulls is 1 and answerBytes is the estimated size of the answer.
type load struct{ bytes, pushPulls, answerBytes int }

// add adds another load to this one if sign is 1, and subtracts it if sign is -1.
func (l *load) add(other load, sign int) {
	l.bytes += sign * other.bytes
	l.pushPulls += sign * other.pushPulls
	l.answerBytes += sign * other.answerBytes
}

// streams has the open streams, and their total load.
type streams struct {
	bounds *Settings
	drops  *drops

	mu sync.Mutex
	// accepted are the streams that others opened, the oldest first.
	accepted []*stream
	// total is the load of all streams. evictedLoad is the part of total that belongs to streams which the guard has closed
	// and memberlist has not closed yet.
	total, evictedLoad load
	// changed is closed, and replaced by a new channel, when there may be more room.
	changed chan struct{}

	// allocated counts the bytes that were allocated for streams and answers since the guard last started a garbage
	// collection. gcMu is held during the collection.
	gcMu      sync.Mutex
	allocated int
}

// add registers an accepted stream. If there are too many streams, it closes the oldest incomplete stream, or the
// oldest one if all are complete.
func (s *streams) add(added *stream) {
	s.mu.Lock()
	defer s.mu.Unlock()
	for len(s.accepted) >= s.bounds.Streams {
		oldest := s.accepted[0]
		for _, other := range s.accepted {
			if !other.isComplete {
				oldest = other
				break
			}
		}
		s.remove(oldest)
		s.evict(oldest)
	}
	s.accepted = append(s.accepted, added)
}

// remove removes a stream from the accepted ones. The caller holds mu.
func (s *streams) remove(removed *stream) {
	for i, other := range s.accepted {
		if other == removed {
			s.accepted = append(s.accepted[:i], s.accepted[i+1:]...)
			return
		}
	}
}

// evict closes a stream to make room for others.
func (s *streams) evict(victim *stream) {
	if victim != nil && !victim.isClosed {
		victim.isClosed = true
		s.drops.add(Crowded)
		s.evictedLoad.add(victim.load, 1)
		close(victim.done)
		victim.Conn.Close()
	}
}

// release frees everything that a stream holds, after memberlist has closed the stream.
func (s *streams) release(closed *stream) {
	s.mu.Lock()
	defer s.mu.Unlock()
	if closed.isClosed {
		s.evictedLoad.add(closed.load, -1)
	} else {
		closed.isClosed = true
		close(closed.done)
	}
	s.remove(closed)
	s.total.add(closed.load, -1)
	closed.load = load{}
	s.signalChange()
}

// signalChange wakes the streams that wait for room. The caller holds mu.
func (s *streams) signalChange() {
	close(s.changed)
	s.changed = make(chan struct{})
}

// pick returns the first stream, in the order of isBefore, that isn't closed and for which mayEvict returns true. If there
// is none, it returns nil. The caller holds mu.
func (s *streams) pick(mayEvict func(*stream) bool, isBefore func(a, b *stream) bool) (best *stream) {
	for _, other := range s.accepted {
		if !other.isClosed && mayEvict(other) && (best == nil || isBefore(other, best)) {
			best = other
		}
	}
	return best
}

// reserve adds bytes to the load of a stream, or subtracts them if more is negative. If there is no room, it evicts the
// incomplete stream with the largest number of bytes.
func (s *streams) reserve(holder *stream, more int) Reason {
	// While a buffer grows, both the old and the new one need memory.
	s.collectGarbage(2 * more)
	return s.waitFor(holder, func() bool {
		if more > 0 && s.total.bytes+more > s.bounds.AllBytes {
			if s.total.bytes-s.evictedLoad.bytes+more > s.bounds.AllBytes {
				s.evict(s.pick(func(other *stream) bool { return other != holder && !other.isComplete && other.load.bytes > 0 },
					func(a, b *stream) bool { return a.load.bytes > b.load.bytes }))
			}
			return false
		}
		s.total.bytes += more
		holder.load.bytes += more
		if more < 0 {
			s.signalChange()
		}
		return true
	})
}

// collectGarbage runs Go's garbage collector, and waits for it, whenever AllBytes were allocated for streams and
// answers since the last time. On a busy machine, the collector would otherwise run late, and the memory in use would
// keep growing until then.
func (s *streams) collectGarbage(more int) {
	if more <= 0 {
		return
	}
	s.gcMu.Lock()
	defer s.gcMu.Unlock()
	if s.allocated += more; s.allocated > s.bounds.AllBytes {
		s.allocated = 0
		runtime.GC()
	}
}

// hasRoom reports whether a push/pull whose answer needs this many bytes may start in addition to the others. If there
// are no others, it always may.
func (s *streams) hasRoom(others load, answer int) bool {
	return others.pushPulls == 0 || others.pushPulls < s.bounds.PushPulls && others.answerBytes+answer <= s.bounds.AllBytes
}

// startPushPull lets memberlist answer a push/pull. answer is the estimated size of the answer in bytes. If there is no
// room, the push/pull waits, and the oldest push/pull that is older than pushPullTime is evicted.
func (s *streams) startPushPull(started *stream, answer int) Reason {
	s.collectGarbage(answer)
	return s.waitFor(started, func() bool {
		remainingLoad := s.total
		remainingLoad.add(s.evictedLoad, -1)
		switch {
		case s.hasRoom(s.total, answer):
			started.load.pushPulls, started.load.answerBytes, started.pushPullSince = 1, answer, time.Now()
			s.total.add(load{pushPulls: 1, answerBytes: answer}, 1)
			return true
		case !s.hasRoom(remainingLoad, answer):
			s.evict(s.pick(func(other *stream) bool {
				return other.load.pushPulls > 0 && time.Since(other.pushPullSince) > pushPullTime
			},
				func(a, b *stream) bool { return a.pushPullSince.Before(b.pushPullSince) }))
		}
		return false
	})
}

// waitFor repeats tryOnce until it succeeds. It returns Crowded if the stream is evicted or its deadline passes first.
func (s *streams) waitFor(waiting *stream, tryOnce func() bool) Reason {
	for {
		s.mu.Lock()
		isDone := !waiting.isClosed && tryOnce()
		changed := s.changed
		s.mu.Unlock()
		if isDone {
			return none
		}
		left := time.Until(time.Unix(0, waiting.deadline.Load()))
		if left <= 0 {
			return Crowded
		}
		timer := time.NewTimer(min(left, pushPullTime/4))
		select {
		case <-changed:
		case <-timer.C:
		case <-waiting.done:
			timer.Stop()
			return Crowded
		}
		timer.Stop()
	}
}

// markComplete records that the stream's message is complete. Complete streams are evicted only after all incomplete
// ones.
func (s *streams) markComplete(complete *stream) {
	s.mu.Lock()
	complete.isComplete = true
	s.mu.Unlock()
}
