package serf

import (
	"context"
	"errors"
	"fmt"
	"sync"
	"time"

	"kitchenrue.example/serfagent"
)

// maxOutstandingWait is the maximum time that a flush waits for the callers of the previous one to fire again.
const maxOutstandingWait = 5 * time.Millisecond

// firing is an event to fire. Its fields time and err are set before done gets a value.
type firing struct {
	Firing

	done chan struct{}
	// time is the event's time. err is the reason if the event was not fired.
	time LamportTime
	err  error
}

// firingPool has finished firings that later calls reuse.
var firingPool = sync.Pool{New: func() interface{} { return &firing{done: make(chan struct{}, 1)} }}

// firingQueue has the firings that wait for a burst. For each of them, a goroutine waits in fireAndWait.
type firingQueue struct {
	mu      sync.Mutex
	waiting []*firing
	// hasLeader: a goroutine is firing the waiting firings. isEnded: the queue accepts no more firings.
	hasLeader, isEnded bool
	// wokenAt is when report last woke callers, and returned is how many callers it woke. outstanding is how many of
	// these callers have not fired again yet. expected is returned plus the number of callers that were waiting at that
	// moment. flushTime is how long the flush of these firings took. returnTime is how long all callers would take to
	// fire again if they all received their results at once, as estimated from the last flushes.
	wokenAt               time.Time
	outstanding           int
	returned, expected    int
	flushTime, returnTime time.Duration
	// noneOutstanding has a value when all callers that were woken have fired again.
	noneOutstanding chan struct{}
	// ready has a value when fireAll has to fire the waiting firings.
	ready chan struct{}
	// batch and batchFirings have the firings of one burst. Each burst reuses these slices. agentMu guards
	// them.
	batch        []*firing
	batchFirings []Firing
}

func newFiringQueue() *firingQueue {
	return &firingQueue{ready: make(chan struct{}, 1), noneOutstanding: make(chan struct{}, 1)}
}

// add queues a firing. If isLeader is true, no other goroutine is firing at the moment, so the caller has to fire the
// waiting firings. ok is false if the queue accepts no more firings.
func (f *firingQueue) add(firing *firing) (isLeader, ok bool) {
	f.mu.Lock()
	defer f.mu.Unlock()
	if f.isEnded {
		return false, false
	}
	f.waiting = append(f.waiting, firing)
	if f.outstanding--; f.outstanding == 0 {
		f.updateReturnTime(time.Since(f.wokenAt))
		signal(f.noneOutstanding)
	}
	isLeader, f.hasLeader = !f.hasLeader, true
	return isLeader, true
}

// remove removes a firing from the queue. It returns false if a burst has already taken the firing.
func (f *firingQueue) remove(removed *firing) bool {
	f.mu.Lock()
	defer f.mu.Unlock()
	for i, waiting := range f.waiting {
		if waiting == removed {
			f.waiting = append(f.waiting[:i], f.waiting[i+1:]...)
			return true
		}
	}
	return false
}

// leaveToFireAll leaves the waiting firings to fireAll. If none is waiting, the queue has no leader until the next firing.
func (f *firingQueue) leaveToFireAll() {
	f.mu.Lock()
	defer f.mu.Unlock()
	if f.hasLeader = len(f.waiting) > 0; f.hasLeader {
		signal(f.ready)
	}
}

// updateReturnTime adjusts the estimate returnTime. took is how long the callers of the last report took to fire again,
// or how long they have taken so far. If other callers were waiting as well, all of them together would take
// proportionally longer, so this sample is scaled up and has a proportionally smaller weight. The caller holds mu.
func (f *firingQueue) updateReturnTime(took time.Duration) {
	returned, expected, max := time.Duration(f.returned), time.Duration(f.expected), 2*f.flushTime
	if took < max {
		took = took * expected / returned
	}
	if took > max {
		took = max
	}
	f.returnTime += (took - f.returnTime) * returned / (4 * expected)
}

// outstandingWait returns how long to wait for the outstanding callers to fire again. If all of them will probably return
// before a flush of the others would end, one flush for all callers is faster than two flushes for half of them each.
// Otherwise outstandingWait returns 0.
func (f *firingQueue) outstandingWait() time.Duration {
	f.mu.Lock()
	defer f.mu.Unlock()
	if f.outstanding <= 0 || 4*f.returnTime > 3*f.flushTime {
		return 0
	}
	max := f.flushTime
	if max > maxOutstandingWait {
		max = maxOutstandingWait
	}
	return max - time.Since(f.wokenAt)
}

// wakeCallers wakes the callers of these firings. Their results are already set, and their flush took flushTime.
func (f *firingQueue) wakeCallers(firings []*firing, flushTime time.Duration) {
	f.mu.Lock()
	if f.outstanding > 0 {
		f.updateReturnTime(time.Since(f.wokenAt))
	}
	f.wokenAt, f.flushTime = time.Now(), flushTime
	f.outstanding, f.returned, f.expected = len(firings), len(firings), len(firings)+len(f.waiting)
	f.mu.Unlock()
	for _, firing := range firings {
		firing.done <- struct{}{}
	}
}

// refuse reports the same error for these firings.
func (f *firingQueue) refuse(refused []*firing, err error) {
	for _, firing := range refused {
		firing.err = err
	}
	f.wakeCallers(refused, 0)
}

// takeBatch removes up to count firings from the queue, for a burst. The caller holds agentMu.
func (f *firingQueue) takeBatch(count int) ([]*firing, []Firing) {
	f.mu.Lock()
	defer f.mu.Unlock()
	if count > len(f.waiting) {
		count = len(f.waiting)
	}
	f.batch, f.batchFirings = append(f.batch[:0], f.waiting[:count]...), f.batchFirings[:0]
	f.waiting = f.waiting[:copy(f.waiting, f.waiting[count:])]
	for _, firing := range f.batch {
		f.batchFirings = append(f.batchFirings, firing.Firing)
	}
	return f.batch, f.batchFirings
}

// end refuses the waiting firings and all later ones with ErrEnded.
func (f *firingQueue) end() {
	f.mu.Lock()
	waiting := f.waiting
	f.waiting, f.isEnded = nil, true
	f.mu.Unlock()
	f.refuse(waiting, ErrEnded)
}

// fireAll waits until a leader leaves firings to it, and then fires them with one flush.
func (s *Serf) fireAll() {
	defer s.firings.end()
	for {
		select {
		case <-s.ctx.Done():
			return
		case <-s.firings.ready:
		}
		s.fireWaiting()
	}
}

// fireWaiting fires the waiting firings, and leaves those that arrive in the meantime to fireAll.
func (s *Serf) fireWaiting() {
	s.awaitOutstanding()
	if err := s.processBurst(nil); isFinal(err) {
		s.firings.end()
	} else {
		s.firings.leaveToFireAll()
	}
}

// awaitOutstanding waits for the callers of the last flush to fire again, if outstandingWait expects that to save a flush.
func (s *Serf) awaitOutstanding() {
	for wait := s.firings.outstandingWait(); wait > 0; wait = s.firings.outstandingWait() {
		timeout := time.NewTimer(wait)
		select {
		case <-s.firings.noneOutstanding:
		case <-timeout.C:
		}
		timeout.Stop()
	}
}

// UserEvent fires an event in the whole cluster. The node first merges the states that it has received. UserEvent
// returns after the event's line was flushed. Events that are fired while another call waits for the disk share one
// flush.
//
// If the maximum number of events is waiting for EventCh, UserEvent waits for up to BroadcastTimeout and then returns
// ErrBusy. After the node has ended, it returns ErrEnded. If the event is too large, the error names the limit. Other
// errors are those of the proved agent. If UserEvent returns an error, the event was neither delivered here nor sent.
// If the disk failed, however, the event's line may still be in the file. A later life with KeepEvents then restores
// the event, and sends it.
func (s *Serf) UserEvent(name string, payload []byte, coalesce bool) error {
	_, err := s.Fire(name, payload, coalesce)
	return err
}

// Fire is UserEvent that also returns the event's time. Serf has no such method.
func (s *Serf) Fire(name string, payload []byte, coalesce bool) (LamportTime, error) {
	firing := firingPool.Get().(*firing)
	defer firingPool.Put(firing)
	firing.Firing, firing.time = Firing{name, payload, coalesce}, 0
	return s.fire(context.Background(), firing)
}

// FireContext is like Fire, but gives up when ctx is done. If it returns the error of ctx itself, such as
// context.Canceled, the event was not fired. If the event's line is being flushed when ctx is done, FireContext returns
// an UncertainError, because nobody can know before the end of the flush whether the event is fired. Serf has no such
// method.
func (s *Serf) FireContext(ctx context.Context, name string, payload []byte, coalesce bool) (LamportTime, error) {
	if ctx.Done() == nil {
		return s.Fire(name, payload, coalesce)
	}
	if err := ctx.Err(); err != nil {
		return 0, err
	}
	// (after an UncertainError, the node still uses the firing and this copy of the payload)
	copied := payload
	if len(payload) > 0 {
		copied = append([]byte(nil), payload...)
	}
	return s.fire(ctx, &firing{Firing: Firing{name, copied, coalesce}, done: make(chan struct{}, 1)})
}

// fire fires an event as soon as there is room. If ctx has no Done channel, fire waits for the result however long it takes.
func (s *Serf) fire(ctx context.Context, firing *firing) (LamportTime, error) {
	var timeout <-chan time.Time
	for {
		if s.pipe.isFull.Load() {
			if timeout == nil {
				timer := time.NewTimer(s.config.BroadcastTimeout)
				defer timer.Stop()
				timeout = timer.C
			}
			select {
			case <-s.pipe.room():
			case <-s.ctx.Done():
				return 0, ErrEnded
			case <-timeout:
				return 0, ErrBusy
			case <-ctx.Done():
				return 0, ctx.Err()
			}
		}
		if err := s.fireAndWait(ctx, firing); err != ErrBusy {
			return firing.timeOrZero(err), s.fireError(firing, err)
		}
	}
}

// timeOrZero returns the event's time, or 0 if err isn't nil. After an error, either the event wasn't fired or another
// goroutine may still set its time.
func (f *firing) timeOrZero(err error) LamportTime {
	if err != nil {
		return 0
	}
	return f.time
}

// fireAndWait queues a firing and waits for its result, but no longer than until ctx is done.
func (s *Serf) fireAndWait(ctx context.Context, firing *firing) error {
	isLeader, ok := s.firings.add(firing)
	if !ok {
		return ErrEnded
	}
	if ctx.Done() == nil {
		if isLeader {
			s.fireWaiting()
		}
		<-firing.done
		return firing.err
	}
	if isLeader {
		// (this goroutine may have to return before the flush ends, so it lets fireAll fire)
		signal(s.firings.ready)
	}
	select {
	case <-firing.done:
		return firing.err
	case <-ctx.Done():
	}
	if s.firings.remove(firing) {
		return ctx.Err()
	}
	select {
	case <-firing.done:
		return firing.err
	default:
		return &UncertainError{ctx.Err()}
	}
}

// fireError returns Serf's error for an event that is too large, and any other error as it is.
func (s *Serf) fireError(firing *firing, err error) error {
	if !errors.Is(err, serfagent.TooLarge) {
		return err
	}
	if limit := s.config.UserEventSizeLimit; len(firing.Name)+len(firing.Payload) <= limit {
		return fmt.Errorf("encoded user event exceeds configured limit of %d bytes after encoding", limit)
	}
	return fmt.Errorf("user event exceeds configured limit of %d bytes before encoding", s.config.UserEventSizeLimit)
}
