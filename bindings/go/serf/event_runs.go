package serf

import (
	"sort"

	"kitchenrue.example/serfagent"
)

// EventState is the state of an event's handlers according to a snapshot.
type EventState int

// The states of an event's handlers.
const (
	// EventUnknown: the snapshot does not say whether handlers of the event have begun or ended.
	EventUnknown EventState = iota
	// EventWaiting: no handler of the event has begun. One may begin later in this life, or in the next one.
	EventWaiting
	// EventBegun: a handler has begun, and the event is not done. The handler is still running, or it was interrupted.
	EventBegun
	// EventDone: a handler has begun, and the event is done.
	EventDone
	// EventNeverBegan: the event is done although no handler began. Either no handler matched the event, or a later
	// event replaced it.
	EventNeverBegan
)

var eventStates = []string{"unknown", "waiting", "begun", "done", "never began"}

func (s EventState) String() string { return eventStates[s] }

// EventRun is an event of a snapshot, and the information about its handlers that the snapshot has.
type EventRun struct {
	UserEvent
	State EventState
	// Runs says how each handler ended, if the event is done. It is empty if the snapshot does not say how they ended.
	Runs []HandlerRun
	// Process is the process of the last handler that is known to have begun, if the event has begun and is not done.
	Process *HandlerProcess
	// HasBegunAgain is true if the event has begun, is not done, and BeginAgain was called for it.
	HasBegunAgain bool
}

// EventRuns has the events of a snapshot, and the information about their handlers that the snapshot has.
type EventRuns struct {
	// Events are sorted by time.
	Events []EventRun
	// IsTracked is true if the snapshot has lines about handlers. If it is false, all events are EventUnknown.
	IsTracked bool
	// Minimum is the smallest time from which on the snapshot has all events. It may also have some earlier events.
	Minimum LamportTime
}

// EventRunsOf reads the events and their handlers from the text of a snapshot. It accepts any text, including the
// snapshot of a running node and a snapshot that Serf wrote. Serf has no such function.
func EventRunsOf(text []byte) (*EventRuns, error) {
	open, isTracked, err := serfagent.OpenEventsOf(text)
	if err != nil {
		return nil, err
	}
	states := make(map[eventKey]EventState, len(open))
	for _, event := range open {
		key := eventKey{LamportTime(event.Time), event.Name, string(event.Payload)}
		if states[key] = EventWaiting; event.HasBegun {
			states[key] = EventBegun
		}
	}
	handlers := readHandlerText(text)
	found := &EventRuns{IsTracked: isTracked, Minimum: handlers.minimum}
	for _, key := range handlers.events {
		state, isOpen := states[key]
		if !isOpen {
			state = handlers.stateOfDone(key)
		}
		event := EventRun{UserEvent: UserEvent{key.time, key.name, payloadOf([]byte(key.payload), nil), false}, State: state}
		switch state {
		case EventDone:
			event.Runs = handlers.runs[key]
		case EventBegun:
			if process, ok := handlers.processes[key]; ok {
				event.Process = &process
			}
			event.HasBegunAgain = handlers.begunCounts[key] > 1
		}
		found.Events = append(found.Events, event)
	}
	sort.SliceStable(found.Events, func(i, j int) bool { return found.Events[i].LTime < found.Events[j].LTime })
	return found, nil
}

// stateOfDone returns the state of an event that is not open.
func (t *handlerText) stateOfDone(key eventKey) EventState {
	_, hasRun := t.runs[key]
	switch {
	case hasRun || t.begunCounts[key] > 0:
		return EventDone
	case t.hasCompleteAfter && key.time > t.completeAfter:
		return EventNeverBegan
	}
	return EventUnknown
}

// MaxKeptRuns is the maximum number of events whose runs a compaction keeps. maxKeptRunBytes is the maximum number of
// bytes of their lines.
const (
	MaxKeptRuns     = 1024
	maxKeptRunBytes = 128 << 10
)

// keptRuns has the `#ran` lines of the events that were done most recently. The next compaction writes them.
type keptRuns struct {
	lines []keptRun
	bytes int
	// completeAfter is the largest time of an event whose `#ran` line is no longer in lines.
	completeAfter LamportTime
}

type keptRun struct {
	time LamportTime
	line string
}

// add adds the line of an event, and removes the oldest lines if there is no room.
func (k *keptRuns) add(time LamportTime, line string) {
	k.lines = append(k.lines, keptRun{time, line})
	k.bytes += len(line)
	for len(k.lines) > MaxKeptRuns || k.bytes > maxKeptRunBytes {
		first := k.lines[0]
		k.lines[0] = keptRun{}
		k.lines = k.lines[1:]
		k.bytes -= len(first.line)
		if first.time > k.completeAfter {
			k.completeAfter = first.time
		}
	}
}

// restore adds the `#ran` lines of a snapshot's text. A text without a line of completeAfterLine may lack `#ran` lines of
// any event; in that case, completeAfter becomes lastTime, the time of the text's last event.
func (k *keptRuns) restore(handlers *handlerText, isOpen func(eventKey) bool, lastTime LamportTime) {
	if k.completeAfter = handlers.completeAfter; !handlers.hasCompleteAfter {
		k.completeAfter = lastTime
	}
	for _, key := range handlers.ended {
		if _, hasRun := handlers.runs[key]; !isOpen(key) && (hasRun || handlers.begunCounts[key] > 0) {
			k.add(key.time, ranLine(key, handlers.runs[key]))
		}
	}
}

// text returns the lines that a compaction writes.
func (k *keptRuns) text() []byte {
	text := append(make([]byte, 0, k.bytes+len(ranPrefix)+21), completeAfterLine(k.completeAfter)...)
	for _, run := range k.lines {
		text = append(text, run.line...)
	}
	return text
}
