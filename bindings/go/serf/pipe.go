package serf

import (
	"sync"
	"sync/atomic"
	"time"
)

// Waiting is the maximum number of events that wait for EventCh, and of packets that wait for the proved agent. Serf
// has the same number. If the maximum number of events is waiting, the node accepts nothing more from the network and
// fires nothing. It drops packets beyond the maximum, as a network may drop packets too.
const Waiting = 4096

// pipe has the events that were handed out and wait for EventCh, in order. It drops no event, and add does not block:
// the node checks that there is room before it receives from the network or fires. Member events can't be held back.
// So, beyond the maximum, the last event of each member replaces that member's earlier ones.
type pipe struct {
	mu      sync.Mutex
	waiting []Event
	// positions has the position of each member event beyond the maximum, by the member's name. Positions count from
	// the first event ever added. removed is how many events were removed at the front, and holes is how many elements
	// of waiting are empty.
	positions map[string]int
	removed   int
	holes     int
	isEnded   bool
	ready     chan struct{}
	// roomCh is closed while there is room.
	roomCh chan struct{}
	isFull atomic.Bool
	// isHeldBack: the pipe reports that it has no room, however few events are waiting.
	isHeldBack bool
}

func newPipe() *pipe {
	p := &pipe{positions: map[string]int{}, ready: make(chan struct{}, 1), roomCh: make(chan struct{})}
	close(p.roomCh)
	return p
}

// add appends events.
func (p *pipe) add(events ...Event) {
	p.mu.Lock()
	defer p.mu.Unlock()
	if p.isEnded {
		return
	}
	for _, e := range events {
		if memberEvent, isMember := e.(MemberEvent); isMember && p.size() >= Waiting {
			for _, member := range memberEvent.Members {
				p.addLatest(MemberEvent{memberEvent.Type, []Member{member}})
			}
		} else {
			p.waiting = append(p.waiting, e)
		}
	}
	p.updateRoom()
	signal(p.ready)
}

// addLatest appends the event of one member. If that member has an earlier event beyond the maximum, addLatest removes
// the earlier one.
func (p *pipe) addLatest(e MemberEvent) {
	name := e.Members[0].Name
	if position, ok := p.positions[name]; ok && position >= p.removed {
		e.Type = mergedType(p.waiting[position-p.removed].(MemberEvent).Type, e.Type)
		p.waiting[position-p.removed] = nil
		p.holes++
	}
	p.positions[name] = p.removed + len(p.waiting)
	p.waiting = append(p.waiting, e)
	if p.holes > Waiting {
		p.compact()
	}
}

// compact removes the holes.
func (p *pipe) compact() {
	kept := p.waiting[:0]
	p.positions = map[string]int{}
	for _, e := range p.waiting {
		if e == nil {
			continue
		}
		if memberEvent, isMember := e.(MemberEvent); isMember && len(memberEvent.Members) == 1 && len(kept) >= Waiting {
			p.positions[memberEvent.Members[0].Name] = p.removed + len(kept)
		}
		kept = append(kept, e)
	}
	for i := len(kept); i < len(p.waiting); i++ {
		p.waiting[i] = nil
	}
	p.waiting, p.holes = kept, 0
}

// mergedType returns the type of the event that replaces two successive events of one member. If a member joined and
// then changed, the pipe reports that it joined, with its present data.
func mergedType(first, last EventType) EventType {
	if first == EventMemberJoin && last == EventMemberUpdate {
		return first
	}
	return last
}

// size is length with mu held.
func (p *pipe) size() int { return len(p.waiting) - p.holes }

// holdBack makes the pipe report no room if isHeldBack is true. If it is false, the pipe has room again as far as the
// number of events allows.
func (p *pipe) holdBack(isHeldBack bool) {
	p.mu.Lock()
	defer p.mu.Unlock()
	p.isHeldBack = isHeldBack
	p.updateRoom()
}

// updateRoom closes roomCh if there is room, and replaces it by an open channel if there is none.
func (p *pipe) updateRoom() {
	isFull := p.isHeldBack || p.size() >= Waiting
	if isFull == p.isFull.Load() {
		return
	}
	if p.isFull.Store(isFull); isFull {
		p.roomCh = make(chan struct{})
	} else {
		close(p.roomCh)
	}
}

// next removes the first event and returns it, or false if none is waiting.
func (p *pipe) next() (Event, bool) {
	p.mu.Lock()
	defer p.mu.Unlock()
	for len(p.waiting) > 0 {
		first := p.waiting[0]
		p.waiting[0] = nil
		p.waiting = p.waiting[1:]
		p.removed++
		if first == nil {
			p.holes--
			continue
		}
		p.updateRoom()
		return first, true
	}
	p.positions = map[string]int{}
	return nil, false
}

// length returns how many events are waiting.
func (p *pipe) length() int {
	p.mu.Lock()
	defer p.mu.Unlock()
	return p.size()
}

// hasRoom reports whether the node may accept more from the network.
func (p *pipe) hasRoom() bool { return !p.isFull.Load() }

// room returns a channel that is closed while there is room.
func (p *pipe) room() <-chan struct{} {
	p.mu.Lock()
	defer p.mu.Unlock()
	return p.roomCh
}

// end makes the pipe accept nothing more, and returns how many events are waiting.
func (p *pipe) end() int {
	p.mu.Lock()
	defer p.mu.Unlock()
	p.isEnded = true
	return p.size()
}

// deliver offers the waiting events to eventCh until done is closed, and after that for the grace period. It returns
// how many events were never received.
func (p *pipe) deliver(eventCh chan<- Event, done <-chan struct{}, grace time.Duration) int {
	var graceOver <-chan time.Time
	for {
		e, ok := p.next()
		if !ok {
			select {
			case <-p.ready:
			case <-done:
				if p.end() == 0 {
					return 0
				}
			}
			continue
		}
		select {
		case eventCh <- e:
			continue
		default:
		}
		select {
		case eventCh <- e:
			continue
		case <-done:
		}
		if graceOver == nil {
			timer := time.NewTimer(grace)
			defer timer.Stop()
			graceOver = timer.C
		}
		select {
		case eventCh <- e:
		case <-graceOver:
			return 1 + p.end()
		}
	}
}

// signal puts a value into a channel that has room for one value, unless the channel has a value already.
func signal(ch chan<- struct{}) {
	select {
	case ch <- struct{}{}:
	default:
	}
}
