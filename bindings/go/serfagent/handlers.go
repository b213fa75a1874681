package serfagent

// #include "serf_agent.h"
import "C"

// A snapshot that keeps events says which events were handed out. The host can add lines to the same file that say
// which handlers have begun and which events are done. The agent skips these lines. docs/HOST.md says when a host
// writes them.

// AppendLines appends the host's own lines to the file, without a flush. The next call that flushes the agent's lines
// flushes them too. Each line has to end with a newline; docs/HOST.md ("A host's own lines") says which lines are not
// allowed. If AppendLines returns an error of the file, the agent's next call that writes fails as well. Don't write to
// the file in any other way while it is open in an agent.
func (a *Agent) AppendLines(lines []byte) error {
	a.mu.Lock()
	defer a.mu.Unlock()
	return a.store.AppendUnflushed(lines)
}

// TextSize returns the number of bytes of the file's text. The file itself is longer, because filler follows the text.
// For an agent in memory, TextSize returns 0.
func (a *Agent) TextSize() int64 {
	a.mu.Lock()
	defer a.mu.Unlock()
	return a.store.TextSize()
}

// Check returns ErrChanged if somebody else changed the file's length, or wrote over its filler.
func (a *Agent) Check() error {
	a.mu.Lock()
	defer a.mu.Unlock()
	return a.store.Check()
}

// OpenEvent is an event that was handed out and isn't done, according to a snapshot.
type OpenEvent struct {
	Time    uint64
	Name    string
	Payload []byte
	// HasBegun is true if the handler of the event has begun.
	HasBegun bool
}

// OpenEventsOf returns the open events of a snapshot's text, in the order in which they were handed out. If the text
// has no line of the kind that DoneUpToLine returns, it does not track handlers: isTracked is false, and no event is
// open. OpenEventsOf needs no agent.
func OpenEventsOf(text []byte) (open []OpenEvent, isTracked bool, err error) {
	var sizes C.struct_serf_agent_open_events
	var events []C.struct_serf_agent_open_event
	var texts []byte
	// The first call returns the sizes, and the second one the events.
	for i := 0; i < 2; i++ {
		// One more, because C needs an address even if there are no events.
		events, texts = make([]C.struct_serf_agent_open_event, sizes.events+1), make([]byte, sizes.texts_len)
		err := errorOf(C.serf_agent_open_events(
			ptr(text), size(text), &sizes, &events[0], C.size_t(len(events)-1), ptr(texts), size(texts),
		))
		if err != nil {
			return nil, false, err
		}
	}
	open = make([]OpenEvent, 0, sizes.events)
	for _, event := range events[:sizes.events] {
		name := stringOf(texts[:event.name_len])
		payload := texts[event.name_len : event.name_len+event.payload_len]
		texts = texts[event.name_len+event.payload_len:]
		open = append(open, OpenEvent{uint64(event.time), name, payload, bool(event.begun)})
	}
	return open, bool(sizes.tracked), nil
}

// handlerLine returns the line that a call writes.
func handlerLine(writeLine func(len *C.size_t, to []byte) C.uint32_t) ([]byte, error) {
	line := make([]byte, 256)
	for {
		var length C.size_t
		if err := errorOf(writeLine(&length, line)); err != nil {
			return nil, err
		}
		if int(length) <= len(line) {
			return line[:length], nil
		}
		line = make([]byte, length)
	}
}

// OpenLine returns the line that marks an event as open in a text that replaces the file's text. This function and the
// next three need no agent. They return Exhausted if the time is 2^64 - 1, which isn't valid, and OutOfMemory if memory
// runs out.
func OpenLine(time uint64, name string, payload []byte) ([]byte, error) {
	return handlerLine(func(length *C.size_t, to []byte) C.uint32_t {
		return C.serf_agent_open_line(C.uint64_t(time), ptr(name), size(name), ptr(payload), size(payload), length, ptr(to), size(to))
	})
}

// BegunLine returns the line that says that an event's handler has begun. Flush it before the handler starts.
func BegunLine(time uint64, name string, payload []byte) ([]byte, error) {
	return handlerLine(func(length *C.size_t, to []byte) C.uint32_t {
		return C.serf_agent_begun_line(C.uint64_t(time), ptr(name), size(name), ptr(payload), size(payload), length, ptr(to), size(to))
	})
}

// DoneLine returns the line that says that an event is done. You don't have to flush this line separately; the next
// flush is early enough.
func DoneLine(time uint64, name string, payload []byte) ([]byte, error) {
	return handlerLine(func(length *C.size_t, to []byte) C.uint32_t {
		return C.serf_agent_done_line(C.uint64_t(time), ptr(name), size(name), ptr(payload), size(payload), length, ptr(to), size(to))
	})
}

// DoneUpToLine returns the line that says that, of the events in the lines above it, all with times up to this time are
// done. After the first line of this kind in a file, no event is open.
func DoneUpToLine(time uint64) ([]byte, error) {
	return handlerLine(func(length *C.size_t, to []byte) C.uint32_t {
		return C.serf_agent_done_up_to_line(C.uint64_t(time), length, ptr(to), size(to))
	})
}
