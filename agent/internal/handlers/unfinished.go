package handlers

import (
	"context"
	"errors"
	"fmt"

	"kitchenrue.example/serf"
)

// Tracker records on the disk which user events are open, across all lives of the agent. An event is open until its
// handlers have ended. A *serf.Serf is a Tracker.
type Tracker interface {
	// Begin records that the handlers of an event begin. If it returns an error, they must not run. BeginAgain does the
	// same for an event whose handlers already began in an earlier life.
	Begin(serf.UserEvent) error
	BeginAgain(serf.UserEvent) error
	// RecordProcess records which process runs a handler of an event that has begun. If it returns an error, that
	// handler must not run.
	RecordProcess(serf.UserEvent, serf.HandlerProcess) error
	// DoneWith records that the handlers of an event have ended, and how each of them ended. It also records that an
	// event without handlers is done.
	DoneWith(serf.UserEvent, []serf.HandlerRun) error
}

// Unfinished is a user event whose handlers began in an earlier life of the agent and were cut off when that life
// ended. process is the process of the last of these handlers, or nil if it isn't known.
type Unfinished struct {
	serf.UserEvent
	process *serf.HandlerProcess
}

func (u Unfinished) String() string { return "unfinished: " + u.Name }

// Rerun is a user event for which handlers run again after they were cut off.
type Rerun struct{ serf.UserEvent }

// The kinds of filters that only handlers can have. A handler with the filter unfinished runs for events whose handlers
// were cut off. A handler with the filter rerun runs for user events, and runs again if it was cut off.
const (
	unfinishedKind = "unfinished"
	rerunKind      = "rerun"
)

// userEvent returns the user event in e, even if e is an Unfinished or a Rerun. ok is false for all other events.
func userEvent(e serf.Event) (event serf.UserEvent, ok bool) {
	switch e := e.(type) {
	case serf.UserEvent:
		return e, true
	case Unfinished:
		return e.UserEvent, true
	case Rerun:
		return e.UserEvent, true
	}
	return serf.UserEvent{}, false
}

// kindOf returns the kind of an event as its handlers see it.
func kindOf(e serf.Event) string {
	if _, isUnfinished := e.(Unfinished); isUnfinished {
		return unfinishedKind
	}
	return e.EventType().String()
}

// matchesKind reports whether a filter of this kind matches the event's kind.
func matchesKind(kind string, e serf.Event) bool {
	switch e.(type) {
	case Unfinished:
		return kind == unfinishedKind
	case Rerun:
		return kind == rerunKind
	case serf.UserEvent:
		return kind == "*" || kind == "user" || kind == rerunKind
	}
	return kind == "*" || kind == e.EventType().String()
}

// scriptRun is a script and the event for which it runs.
type scriptRun struct {
	script Script
	event  serf.Event
}

// name returns the handler's name for the lines of the snapshot. If the handler runs because of an event that was cut
// off, the name begins with unfinished or rerun.
func (s scriptRun) name() string {
	switch s.event.(type) {
	case Unfinished:
		return unfinishedKind + ":" + s.script.Name
	case Rerun:
		return rerunKind + ":" + s.script.Name
	}
	return s.script.Name
}

// runsFor returns the scripts that run for an event. If the event's handlers were cut off, these are first the scripts
// with the filter unfinished, and then those with the filter rerun.
func (r *Runner) runsFor(e serf.Event) (runs []scriptRun) {
	forms := []serf.Event{e}
	if cutOff, isUnfinished := e.(Unfinished); isUnfinished {
		forms = append(forms, Rerun{cutOff.UserEvent})
	}
	for _, form := range forms {
		for _, script := range r.Scripts() {
			if script.Filters.Matches(form) {
				runs = append(runs, scriptRun{script, form})
			}
		}
	}
	return runs
}

// Track makes the runner report to a tracker which user events begin and end. Call it before the first Add.
func (r *Runner) Track(tracker Tracker) { r.tracker = tracker }

// isTracked reports whether the tracker records the end of the event's handlers.
func (r *Runner) isTracked(e serf.Event) bool {
	_, isUser := userEvent(e)
	return isUser && r.tracker != nil
}

// Resume queues the events that earlier lives of the agent left open, in the order in which they were handed out. If an
// event's handlers never began, they run now. If they were cut off, Resume logs and counts the event. The scripts with
// the filters unfinished and rerun then run for it, once in all lives. Call Resume before the first Add.
func (r *Runner) Resume(events []serf.UnfinishedEvent) {
	waiting := 0
	for _, e := range events {
		if !e.HasBegun {
			waiting++
			r.Add(e.UserEvent)
			continue
		}
		r.resumeCutOff(e)
	}
	if waiting > 0 {
		r.log.Printf("[INFO] agent: %d events were waiting for their handlers when the agent ended; the handlers run now", waiting)
	}
}

// resumeCutOff logs and counts an event whose handlers were cut off, and queues it if a script runs for it.
func (r *Runner) resumeCutOff(e serf.UnfinishedEvent) {
	r.unfinished.Add(1)
	for _, script := range r.Scripts() {
		if script.Filters.Matches(e.UserEvent) {
			r.counts.countResult(script, CutOff)
		}
	}
	isRunning := e.Process != nil && e.Process.IsRunning()
	event := Unfinished{e.UserEvent, e.Process}
	runs := r.runsFor(event)
	action, when := "it isn't run again", "now"
	if isRunning {
		r.stillRunning.Add(1)
		action = fmt.Sprintf("its process %d is still running, and it isn't run again", e.Process.PID)
		when = fmt.Sprintf("when its process %d, which is still running, has ended", e.Process.PID)
	}
	switch {
	case e.HasBegunAgain:
		action, runs = action+", since that was cut off too", nil
	case len(runs) > 0:
		action = fmt.Sprintf("this runs %s: %s", when, commandsOf(runs))
	}
	r.log.Printf("[WARN] agent: a handler of %s began, and the agent ended before the handler did; %s", describe(e.UserEvent), action)
	if len(runs) > 0 {
		r.events.add(event)
		return
	}
	r.reportDone(e.UserEvent, cutOffRuns(e, isRunning))
}

// cutOffRuns returns what is known of the handlers of an event that was cut off. The result has one run for each time
// that they began.
func cutOffRuns(e serf.UnfinishedEvent, isRunning bool) (runs []serf.HandlerRun) {
	if e.HasBegunAgain {
		runs = append(runs, serf.HandlerRun{Status: serf.RanCutOff})
	}
	return append(runs, cutOffRun(e.Process, isRunning))
}

// cutOffRun returns what is known of the last handler of an event that was cut off.
func cutOffRun(process *serf.HandlerProcess, isRunning bool) serf.HandlerRun {
	run := serf.HandlerRun{Status: serf.RanCutOff}
	if process != nil {
		run.Handler = process.Handler
	}
	if isRunning {
		run.Status = serf.RanStillRunning
	}
	return run
}

// commandsOf lists the commands of scripts.
func commandsOf(runs []scriptRun) (list string) {
	for i, run := range runs {
		if i > 0 {
			list += ", "
		}
		list += quoted([]byte(run.script.Command), loggedPayload, false)
	}
	return list
}

// Unfinished returns the number of events whose handlers were cut off in an earlier life of the agent.
func (r *Runner) Unfinished() int64 { return r.unfinished.Load() }

// StillRunning returns how many of the events that Unfinished counts had a handler that was still running when the
// agent started.
func (r *Runner) StillRunning() int64 { return r.stillRunning.Load() }

// handleTracked runs the scripts of a user event. It records their beginning first, and their ends afterwards. If the
// agent is shutting down, the event stays open.
func (r *Runner) handleTracked(ctx context.Context, e serf.Event) {
	event, _ := userEvent(e)
	if r.isClosing.Load() {
		return
	}
	var earlierRuns []serf.HandlerRun
	begin := r.tracker.Begin
	if cutOff, isUnfinished := e.(Unfinished); isUnfinished {
		begin = r.tracker.BeginAgain
		switch r.awaitEarlier(ctx, cutOff) {
		case agentIsEnding:
			return
		case earlierStillRuns:
			r.reportDone(event, []serf.HandlerRun{cutOffRun(cutOff.process, true)})
			return
		}
		earlierRuns = []serf.HandlerRun{cutOffRun(cutOff.process, false)}
	}
	runs := r.runsFor(e)
	var first *shell
	if len(runs) > 0 {
		if first = r.startAndBegin(runs[0], begin); first == nil {
			return
		}
	}
	if ended, isWhole := r.runAll(ctx, runs, first); isWhole {
		r.reportDone(event, append(earlierRuns, ended...))
	}
}

// startAndBegin starts the shell of an event's first script, and meanwhile records that the event begins, since both
// take about as long. The shell is held. If the beginning can't be recorded, startAndBegin ends the shell and returns
// nil.
func (r *Runner) startAndBegin(run scriptRun, begin func(serf.UserEvent) error) *shell {
	event, _ := userEvent(run.event)
	begun := make(chan error, 1)
	go func() { begun <- begin(event) }()
	s := r.start(run)
	if err := <-begun; err != nil {
		s.drop()
		if !errors.Is(err, serf.ErrEnded) {
			r.log.Printf("[ERR] agent: no handler was run for %s: %v", describe(run.event), err)
		}
		return nil
	}
	return s
}

// recordProcess reports to the tracker which process runs a handler. It returns the tracker's error.
func (r *Runner) recordProcess(run scriptRun, s *shell) error {
	event, _ := userEvent(run.event)
	switch {
	case s.err != nil:
		return nil
	case s.processErr != nil:
		r.log.Printf("[WARN] agent: the process of a handler of %s was not recorded: %v", event, s.processErr)
		return nil
	}
	return r.tracker.RecordProcess(event, s.process)
}

// reportDone reports to the tracker that an event is done.
func (r *Runner) reportDone(event serf.UserEvent, runs []serf.HandlerRun) {
	if err := r.tracker.DoneWith(event, runs); err != nil {
		r.log.Printf("[WARN] agent: the end of the handlers of %s was not recorded: %v", event, err)
	}
}

// leaveOpen removes the tracked events that still wait from the queue, so that their handlers run in the next life.
func (r *Runner) leaveOpen() {
	if r.tracker == nil || r.isClosing.Swap(true) {
		return
	}
	if count := r.events.remove(r.isTracked); count > 0 {
		r.log.Printf("[INFO] agent: %d events are waiting for their handlers, which run after the next start", count)
	}
}
