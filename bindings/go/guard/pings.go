package guard

import (
	"sync"
	"sync/atomic"
	"time"
)

// pings has the sequence numbers of the last pings that were sent. memberlist first publishes the handler of an ack,
// then sets the timer that the handler stops (state.go, setProbeChannels), and then sends the ping. So an ack that
// arrives before its ping was sent may crash the program.
type pings struct {
	sent [4096]atomic.Uint32
	// unreadableAt is when the last packet was sent that the guard could not read, in nanoseconds since 1970. That
	// packet may have contained a ping, so for unreadableTime after that the guard accepts every ack.
	unreadableAt atomic.Int64
}

const unreadableTime = time.Minute

func (p *pings) slot(number uint32) *atomic.Uint32 { return &p.sent[number%uint32(len(p.sent))] }
func (p *pings) add(number uint32)                 { p.slot(number).Store(number) }
func (p *pings) addUnreadable()                    { p.unreadableAt.Store(time.Now().UnixNano()) }

// isExpected reports whether an ack with this sequence number may belong to a ping that was sent.
func (p *pings) isExpected(number uint32) bool {
	return p.slot(number).Load() == number || time.Since(time.Unix(0, p.unreadableAt.Load())) < unreadableTime
}

// rate allows a limited number of calls in each second.
type rate struct {
	mu          sync.Mutex
	secondStart time.Time
	count       int
}

// allows counts a call, and reports whether the limit of this second allows it.
func (r *rate) allows(limit int) bool {
	r.mu.Lock()
	defer r.mu.Unlock()
	if now := time.Now(); now.Sub(r.secondStart) >= time.Second {
		r.secondStart, r.count = now, 0
	}
	r.count++
	return r.count <= limit
}
