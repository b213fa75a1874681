package main

import (
	"fmt"
	"os"
	"syscall"

	"kitchenrue.example/serfagent"
)

// openEvent is an event that was handed out and isn't done.
type openEvent struct {
	time     uint64
	name     string
	payload  []byte
	hasBegun bool
}

// tracking keeps what the host knows about the handlers of its events, and writes the lines about them (docs/HOST.md,
// "What was handed out and isn't done"). POWER_CUTS_FAULT names a bug to plant in it; handled.py lists the bugs.
//
// The host appends the lines through the agent, since filler may follow the file's text. It flushes them through a
// separate file descriptor.
type tracking struct {
	path       string
	agent      *serfagent.Agent
	file       *os.File
	openEvents []*openEvent
}

// isFault reports whether the bug with this name is planted.
func isFault(name string) bool { return os.Getenv("POWER_CUTS_FAULT") == name }

// print prints an event after a word for what became of it.
func (e *openEvent) print(word string) { fmt.Printf("%s %d %x\n", word, e.time, e.name) }

// openTracked opens an agent that keeps its events, and whose handlers are tracked.
func openTracked(path string) (*serfagent.Agent, *tracking, error) {
	settings := serfagent.DefaultSettings()
	settings.KeepEvents, settings.EventBuffer = true, 8
	agent, err := serfagent.Open("host", path, settings)
	if err != nil {
		return nil, nil, err
	}
	t := &tracking{path: path, agent: agent}
	return agent, t, t.restore()
}

// restore reads the open events from the file. The agent has just opened the file, so it is locked and flushed.
func (t *tracking) restore() error {
	text, err := os.ReadFile(t.path)
	if err != nil {
		return err
	}
	found, isTracked, err := serfagent.OpenEventsOf(text)
	if err != nil {
		return err
	}
	for _, e := range found {
		event := &openEvent{e.Time, e.Name, e.Payload, e.HasBegun}
		t.openEvents = append(t.openEvents, event)
		event.print(map[bool]string{false: "w", true: "u"}[e.HasBegun])
	}
	if err := t.reopen(); err != nil || isTracked {
		return err
	}
	return t.startTracking()
}

// startTracking writes the line from which on the file says what became of handlers.
func (t *tracking) startTracking() error {
	clocks, err := t.agent.Clocks()
	if err != nil {
		return err
	}
	line, err := serfagent.DoneUpToLine(clocks.Event)
	if err != nil {
		return err
	}
	if err := t.agent.AppendLines(line); err != nil {
		return err
	}
	return t.flush()
}

// reopen opens the file at the path, after the agent has opened or replaced it.
func (t *tracking) reopen() (err error) {
	t.close()
	t.file, err = os.Open(t.path)
	return err
}

func (t *tracking) close() {
	if t.file != nil {
		t.file.Close()
	}
}

func (t *tracking) flush() error { return syscall.Fdatasync(int(t.file.Fd())) }

// handOut adds an event that was handed out to the open ones.
func (t *tracking) handOut(event *serfagent.Event) {
	t.openEvents = append(t.openEvents, &openEvent{event.Time, event.Name, event.Payload, false})
}

// firstOpen returns the index of the first open event whose handler has begun (or has not begun, if hasBegun is false), or
// -1 if there is none.
func (t *tracking) firstOpen(hasBegun bool) int {
	for i, event := range t.openEvents {
		if event.hasBegun == hasBegun {
			return i
		}
	}
	return -1
}

// begin begins the handler of the first event that waits, after it has flushed the event's line.
func (t *tracking) begin() error {
	i := t.firstOpen(false)
	if i < 0 {
		return nil
	}
	event := t.openEvents[i]
	line, err := serfagent.BegunLine(event.time, event.name, event.payload)
	if err == nil && isFault("done_first") {
		var done []byte
		done, err = serfagent.DoneLine(event.time, event.name, event.payload)
		line = append(line, done...)
	}
	if err == nil {
		err = t.agent.AppendLines(line)
	}
	if err == nil && !isFault("begun_unflushed") {
		err = t.flush()
	}
	if err != nil && !isFault("begun_error") {
		return err
	}
	event.hasBegun = true
	event.print("b")
	return nil
}

// end ends the handler of the first event that has begun.
func (t *tracking) end() error {
	i := t.firstOpen(true)
	if i < 0 {
		return nil
	}
	event := t.openEvents[i]
	event.print("d")
	t.openEvents = append(t.openEvents[:i], t.openEvents[i+1:]...)
	if isFault("done_first") || isFault("done_missing") {
		return nil
	}
	line, err := serfagent.DoneLine(event.time, event.name, event.payload)
	if err == nil {
		err = t.agent.AppendLines(line)
	}
	return err
}

// openLines returns the host's lines for a compaction. They follow the agent's lines in the text that replaces the
// file's.
func (t *tracking) openLines(agent *serfagent.Agent) ([]byte, error) {
	clocks, err := agent.Clocks()
	if err != nil {
		return nil, err
	}
	text, err := serfagent.DoneUpToLine(clocks.Event - 1)
	appendLine := func(line []byte, lineErr error) {
		if text = append(text, line...); err == nil {
			err = lineErr
		}
	}
	for i, event := range t.openEvents {
		if isFault("compaction_drops") {
			break
		}
		if isFault("compaction_reverses") {
			event = t.openEvents[len(t.openEvents)-1-i]
		}
		appendLine(serfagent.OpenLine(event.time, event.name, event.payload))
		if event.hasBegun && !isFault("compaction_forgets_begun") {
			appendLine(serfagent.BegunLine(event.time, event.name, event.payload))
		}
	}
	return text, err
}

// compact compacts the file, and keeps the lines of the open events.
func (t *tracking) compact(agent *serfagent.Agent) error {
	lines, err := t.openLines(agent)
	if err != nil {
		return err
	}
	if !isFault("compaction_in_two_steps") {
		if err := agent.CompactWith(lines); err != nil {
			return err
		}
		return t.reopen()
	}
	if err := agent.Compact(); err != nil {
		return err
	}
	if err := t.reopen(); err != nil {
		return err
	}
	if err := agent.AppendLines(lines); err != nil {
		return err
	}
	return t.flush()
}
