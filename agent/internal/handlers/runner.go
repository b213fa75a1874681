package handlers

import (
	"context"
	"errors"
	"fmt"
	"log"
	"os/exec"
	"sync"
	"sync/atomic"
	"time"

	"github.com/armon/go-metrics"

	"kitchenrue.example/serf"
)

// MaxEvents is the maximum number of events that wait for their handlers, and MaxQueries the maximum number of queries.
const (
	MaxEvents  = 4096
	MaxQueries = 256
)

// slowHandler is the run time above which the log reports a handler.
const slowHandler = time.Second

// Runner runs scripts. Those for user events and member events run one after another, in the order of the events. Those
// for queries also run one after another, at the same time as the others.
type Runner struct {
	log        *log.Logger
	timeout    time.Duration
	events     *queue
	queries    *queue
	cancel     context.CancelFunc
	goroutines sync.WaitGroup

	counts counts

	// tracker is nil if the ends of handlers are not tracked. unfinished counts the events whose handlers an earlier life cut off, and
	// stillRunning those of them whose handlers were still running.
	tracker                  Tracker
	unfinished, stillRunning atomic.Int64
	// isClosing is true when the agent is shutting down. Tracked events that still wait then stay open.
	isClosing atomic.Bool

	// respond answers a query. Tests replace it.
	respond func(*serf.Query, []byte) error

	mu      sync.Mutex
	self    func() Self
	scripts []Script
}

// New starts a runner. If timeout is 0, scripts may run without a limit. self returns what scripts learn about this
// node.
func New(logger *log.Logger, timeout time.Duration, scripts []Script, self func() Self) *Runner {
	ctx, cancel := context.WithCancel(context.Background())
	r := &Runner{
		log: logger, timeout: timeout, scripts: scripts, self: self, cancel: cancel,
		events: newQueue(MaxEvents), queries: newQueue(MaxQueries), respond: (*serf.Query).Respond,
	}
	announceZeros(scripts)
	for _, q := range []*queue{r.events, r.queries} {
		r.goroutines.Add(1)
		go func(q *queue) {
			defer r.goroutines.Done()
			for e := q.next(); e != nil; e = q.next() {
				r.handle(ctx, e)
			}
		}(q)
	}
	return r
}

// SetScripts changes the scripts from the next event on.
func (r *Runner) SetScripts(scripts []Script) {
	announceZeros(scripts)
	r.mu.Lock()
	defer r.mu.Unlock()
	r.scripts = scripts
}

// Scripts returns the scripts.
func (r *Runner) Scripts() []Script {
	r.mu.Lock()
	defer r.mu.Unlock()
	return r.scripts
}

// HasRoom reports whether the runner accepts another event without exceeding MaxEvents.
func (r *Runner) HasRoom() bool { return r.events.hasRoom() }

// RoomFreed returns a channel that receives a value when there may be room again.
func (r *Runner) RoomFreed() <-chan struct{} { return r.events.roomFreed }

// Waiting returns how many events and how many queries wait for their handlers.
func (r *Runner) Waiting() (events, queries int) { return r.events.size(), r.queries.size() }

// Add queues an event if a script matches it. It never drops an event: the caller checks HasRoom first. If MaxQueries
// queries wait, it drops a query.
func (r *Runner) Add(e serf.Event) {
	if !r.HasScriptFor(e) {
		if r.isTracked(e) {
			r.reportDone(e.(serf.UserEvent), nil)
		}
		return
	}
	if e.EventType() != serf.EventQuery {
		if !r.events.add(e) && !r.isTracked(e) {
			r.countNeverRun(e)
		}
	} else if !r.queries.hasRoom() || !r.queries.add(e) {
		r.countNeverRun(e)
		r.log.Printf("[WARN] agent: %s was dropped: %d queries are waiting for their handlers", describe(e), MaxQueries)
	}
}

// countNeverRun counts an event whose handlers won't run.
func (r *Runner) countNeverRun(e serf.Event) {
	for _, script := range r.Scripts() {
		if script.Filters.Matches(e) {
			r.counts.countResult(script, NeverRun)
		}
	}
}

// HasScriptFor reports whether a script matches the event.
func (r *Runner) HasScriptFor(e serf.Event) bool {
	for _, script := range r.Scripts() {
		if script.Filters.Matches(e) {
			return true
		}
	}
	return false
}

// Close lets waiting scripts run for the time of grace. After that it ends the script that is running, and drops the
// events that still wait. For tracked user events, Close waits only for the script that is running. The other tracked
// events stay open for the next life.
func (r *Runner) Close(grace time.Duration) {
	r.leaveOpen()
	r.events.close()
	r.queries.close()
	done := make(chan struct{})
	go func() {
		r.goroutines.Wait()
		close(done)
	}()
	graceTimer := time.NewTimer(grace)
	defer graceTimer.Stop()
	select {
	case <-done:
		r.cancel()
		return
	case <-graceTimer.C:
	}
	r.logDropped(append(r.events.removeAll(), r.queries.removeAll()...))
	r.cancel()
	<-done
}

// loggedDropped is the maximum number of events dropped at the end that are logged in a separate line each.
const loggedDropped = 20

// logDropped logs and counts events that were dropped at the end.
func (r *Runner) logDropped(events []serf.Event) {
	if len(events) == 0 {
		return
	}
	r.log.Printf("[WARN] agent: %d events will not reach their handlers, since the agent is shutting down", len(events))
	for i, e := range events {
		r.countNeverRun(e)
		if i < loggedDropped {
			r.log.Printf("[WARN] agent: no handler was run for %s", describe(e))
		} else if i == loggedDropped {
			r.log.Printf("[WARN] agent: no handler was run for %d more events", len(events)-i)
		}
	}
}

// handle runs the scripts for an event. If the event is tracked, it also records their beginning and their ends.
func (r *Runner) handle(ctx context.Context, e serf.Event) {
	if r.isTracked(e) {
		r.handleTracked(ctx, e)
		return
	}
	r.runAll(ctx, r.runsFor(e), nil)
}

// runAll runs scripts. first is the shell of the first script if that shell was started already, or nil. runAll returns
// how the scripts ended. isWhole is false if the agent's end cut off one of them or kept one from running.
func (r *Runner) runAll(ctx context.Context, runs []scriptRun, first *shell) (ended []serf.HandlerRun, isWhole bool) {
	isWhole = true
	for _, run := range runs {
		s := first
		first = nil
		if s == nil && ctx.Err() == nil {
			s = r.start(run)
		}
		if err := r.permit(ctx, run, s); err != nil {
			s.drop()
			isWhole = false
			r.counts.countResult(run.script, NeverRun)
			r.log.Printf("[WARN] agent: the handler %q of %s was not run: %v", run.script.Command, describe(run.event), err)
			continue
		}
		result := r.finish(ctx, run, s)
		ended = append(ended, serf.HandlerRun{Handler: run.name(), Status: result.status()})
		isWhole = result.kind() != CutOff && isWhole
	}
	return ended, isWhole
}

// start starts the shell of a script. If the event is tracked, the shell is held.
func (r *Runner) start(run scriptRun) *shell {
	isHeld := r.isTracked(run.event)
	s := startShell(run.script.Command, environment(r.self(), run.event), standardInput(run.event), isHeld)
	if isHeld && s.err == nil {
		s.process, s.processErr = serf.ProcessOf(run.name(), s.cmd.Process.Pid)
	}
	return s
}

// errShuttingDown is why a script was not run.
var errShuttingDown = errors.New("the agent is shutting down")

// permit lets a script run. If the event is tracked, its shell is held, and permit first records the shell's process. If
// permit returns an error, the script must not run. s is nil if no shell was started, since the agent is shutting down.
func (r *Runner) permit(ctx context.Context, run scriptRun, s *shell) error {
	switch isHeld := r.isTracked(run.event); {
	case s == nil || isHeld && ctx.Err() != nil:
		return errShuttingDown
	case !isHeld:
		return nil
	}
	if err := r.recordProcess(run, s); err != nil {
		return err
	}
	s.release()
	return nil
}

// finish waits for the end of a script that may run, and returns its result.
func (r *Runner) finish(ctx context.Context, run scriptRun, s *shell) scriptResult {
	script, e := run.script, run.event
	if r.timeout > 0 {
		var cancel context.CancelFunc
		ctx, cancel = context.WithTimeout(ctx, r.timeout)
		defer cancel()
	}
	result := s.finish(ctx)
	metrics.MeasureSince([]string{"agent", "invoke", script.Command}, s.began)
	labels := []metrics.Label{{Name: "handler", Value: script.Name}}
	metrics.MeasureSinceWithLabels([]string{"agent", "handler", "duration"}, s.began, labels)
	r.counts.countResult(script, result.kind())
	took := time.Since(s.began).Round(time.Millisecond)
	if took > slowHandler && result.err == nil {
		r.log.Printf("[WARN] agent: the handler %q of %s took %v", script.Command, e, took)
	}
	if result.written > MaxOutput {
		r.log.Printf(
			"[WARN] agent: the handler %q of %s wrote %d bytes, of which the last %d are kept", script.Command, e, result.written,
			MaxOutput,
		)
	}
	r.log.Printf("[DEBUG] agent: Event '%s' script output: %s", e.EventType(), result.output)
	if result.err != nil {
		r.log.Printf(
			"[ERR] agent: the handler %q of %s failed after %v: %v; %s", script.Command, describe(e), took, exitReason(result.err),
			result.lastOutput(),
		)
		return result
	}
	if query, ok := e.(*serf.Query); ok && result.written > 0 {
		if err := r.answer(query, result); err != nil {
			r.log.Printf("[WARN] agent: Failed to respond to %s: %v", e, err)
		}
	}
	return result
}

// answer responds to a query with the output of its script.
func (r *Runner) answer(query *serf.Query, result scriptResult) error {
	if result.written > MaxOutput {
		return fmt.Errorf("the output of %d bytes is too long for a response", result.written)
	}
	return r.respond(query, result.output)
}

// exitReason describes the exit status of a script that ended by itself, and returns any other error unchanged.
func exitReason(err error) error {
	if exit, ok := err.(*exec.ExitError); ok {
		return fmt.Errorf("it ended with %s", exit.ProcessState)
	}
	return err
}

// queue is a queue of events.
type queue struct {
	mu       sync.Mutex
	changed  *sync.Cond
	events   []serf.Event
	max      int
	isClosed bool
	// roomFreed receives a value when an event was removed.
	roomFreed chan struct{}
}

func newQueue(max int) *queue {
	q := &queue{max: max, roomFreed: make(chan struct{}, 1)}
	q.changed = sync.NewCond(&q.mu)
	return q
}

func (q *queue) hasRoom() bool { return q.size() < q.max }

func (q *queue) size() int {
	q.mu.Lock()
	defer q.mu.Unlock()
	return len(q.events)
}

// add queues an event. It returns false if the queue is closed.
func (q *queue) add(e serf.Event) bool {
	q.mu.Lock()
	defer q.mu.Unlock()
	if q.isClosed {
		return false
	}
	q.events = append(q.events, e)
	q.changed.Signal()
	return true
}

// next waits for an event. It returns nil if the queue is closed and empty.
func (q *queue) next() serf.Event {
	q.mu.Lock()
	defer q.mu.Unlock()
	for len(q.events) == 0 && !q.isClosed {
		q.changed.Wait()
	}
	if len(q.events) == 0 {
		return nil
	}
	first := q.events[0]
	q.events[0] = nil
	q.events = q.events[1:]
	select {
	case q.roomFreed <- struct{}{}:
	default:
	}
	return first
}

// remove removes the events for which matches returns true, and returns how many there were.
func (q *queue) remove(matches func(serf.Event) bool) (count int) {
	q.mu.Lock()
	defer q.mu.Unlock()
	var kept []serf.Event
	for _, e := range q.events {
		if matches(e) {
			count++
		} else {
			kept = append(kept, e)
		}
	}
	q.events = kept
	return count
}

func (q *queue) close() {
	q.mu.Lock()
	defer q.mu.Unlock()
	q.isClosed = true
	q.changed.Broadcast()
}

// removeAll removes all events and returns them.
func (q *queue) removeAll() []serf.Event {
	q.mu.Lock()
	defer q.mu.Unlock()
	dropped := q.events
	q.events = nil
	return dropped
}
