package serf

import (
	"errors"
	"os"
	"sort"
	"sync"
	"syscall"

	"kitchenrue.example/serfagent"
)

// These are the default and the maximum of Config.MaxOpenEvents.
const (
	DefaultMaxOpenEvents = 16384
	MaxOpenEvents        = 65536
)

// UnfinishedEvent is an event that was handed out in an earlier life of the node, and that was not done when that life
// ended.
type UnfinishedEvent struct {
	// UserEvent is the event. Its field Coalesce is always false, since the file does not keep that field.
	UserEvent
	// HasBegun is true if an earlier life called Begin for the event. If it is false, the event's handler never began.
	HasBegun bool
	// HasBegunAgain is true if an earlier life also called BeginAgain for the event.
	HasBegunAgain bool
	// Process is the process that RecordProcess recorded last for the event, or nil if none is known. The process may
	// still be running.
	Process *HandlerProcess
}

// eventKey identifies an event.
type eventKey struct {
	time          LamportTime
	name, payload string
}

// keyOf returns the key that identifies an event.
func keyOf(e UserEvent) eventKey { return eventKey{e.LTime, e.Name, string(e.Payload)} }

// lineOf returns the line about the event that makeLine, a function of serfagent, makes.
func (k eventKey) lineOf(makeLine func(uint64, string, []byte) ([]byte, error)) ([]byte, error) {
	return makeLine(uint64(k.time), k.name, []byte(k.payload))
}

// openState is the state of an open event. position is its place in the order in which events were handed out, begunCount
// is how many lines say that its handler began (up to 2), and process is the last known process of its handler.
type openState struct {
	position   uint64
	begunCount int
	process    *HandlerProcess
}

// openEvents has the events that were handed out and are not done. The file has them too. An event's line is flushed
// before the event is handed out, and its line `#begun` before its handler begins. After the handler has ended, the
// lines `#done` and `#ran` are appended; they reach the disk with the next flush of other lines. If a power cut loses
// them, the next life reports the event as unfinished although its handler has ended.
type openEvents struct {
	mu             sync.Mutex
	states         map[eventKey]openState
	handedOutCount uint64
	// lines has the lines that wait to be appended. skipped has the events that were done without a handler, whose
	// lines wait too. ready has a value if the goroutine appendDeferredLines has to append them. isClosed is true if no more
	// lines can be appended.
	lines    []byte
	skipped  []eventKey
	ready    chan struct{}
	isClosed bool
	// runs has the lines that say how the handlers of the last events ended.
	runs keptRuns
	// unfinished are the events that were open when the node started.
	unfinished []UnfinishedEvent
	// maxOpen is the number of open events at which the node accepts nothing more. openEvents calls holdBack with true when
	// that number is reached, and with false when it no longer is.
	maxOpen  int
	holdBack func(isFull bool)
}

func newOpenEvents(maxOpen int, holdBack func(bool)) *openEvents {
	return &openEvents{states: map[eventKey]openState{}, ready: make(chan struct{}, 1), maxOpen: maxOpen, holdBack: holdBack}
}

// restore adds the open events of a snapshot's text. For the other events, it keeps the lines that say how their
// handlers ended. lastTime is the time of the text's last event.
func (o *openEvents) restore(handlers *handlerText, events []serfagent.OpenEvent, lastTime uint64) {
	for _, event := range events {
		e := UserEvent{LamportTime(event.Time), event.Name, payloadOf(event.Payload, nil), false}
		state := openState{}
		if event.HasBegun {
			state.begunCount = 1
			if handlers.begunCounts[keyOf(e)] > 1 {
				state.begunCount = 2
			}
			if process, ok := handlers.processes[keyOf(e)]; ok {
				state.process = &process
			}
		}
		o.addState(e, state)
		o.unfinished = append(o.unfinished, UnfinishedEvent{e, state.begunCount > 0, state.begunCount > 1, state.process})
	}
	o.runs.restore(handlers, func(key eventKey) bool { _, isOpen := o.states[key]; return isOpen }, LamportTime(lastTime))
}

// add adds an event that was handed out.
func (o *openEvents) add(e UserEvent) { o.addState(e, openState{}) }

// addState adds an event as open, in this state, and holds the pipe back if too many events are open.
func (o *openEvents) addState(e UserEvent, state openState) {
	o.mu.Lock()
	defer o.mu.Unlock()
	state.position = o.handedOutCount
	o.states[keyOf(e)] = state
	o.handedOutCount++
	if len(o.states) >= o.maxOpen {
		o.holdBack(true)
	}
}

// begin records that the handler of an event begins, for the first time or, if isAgain is true, for the second. It
// returns the lines to append.
func (o *openEvents) begin(e UserEvent, isAgain bool) ([]byte, error) {
	o.mu.Lock()
	defer o.mu.Unlock()
	key := keyOf(e)
	state, isOpen := o.states[key]
	switch {
	case !isOpen:
		return nil, ErrNotOpen
	case isAgain && state.begunCount == 0:
		return nil, ErrNotBegun
	case !isAgain && state.begunCount > 0 || state.begunCount > 1:
		return nil, ErrAlreadyBegun
	}
	line, err := key.lineOf(serfagent.BegunLine)
	if err != nil {
		return nil, err
	}
	state.begunCount++
	o.states[key] = state
	return append(o.takeLines(), line...), nil
}

// setProcess records the process of an event whose handler has begun. The line about it waits to be appended.
func (o *openEvents) setProcess(e UserEvent, process HandlerProcess) error {
	o.mu.Lock()
	defer o.mu.Unlock()
	key := keyOf(e)
	state, isOpen := o.states[key]
	switch {
	case !isOpen:
		return ErrNotOpen
	case state.begunCount == 0:
		return ErrNotBegun
	}
	state.process = &process
	o.states[key] = state
	o.lines = append(o.lines, processLine(key, process)...)
	return nil
}

// done records that an event is done, and returns whether its handler had begun. The lines about it wait to be
// appended.
func (o *openEvents) done(e UserEvent, runs []HandlerRun) (hadBegun bool, err error) {
	o.mu.Lock()
	defer o.mu.Unlock()
	key := keyOf(e)
	state, isOpen := o.states[key]
	if !isOpen {
		return false, ErrNotOpen
	}
	if o.isClosed {
		return false, ErrEnded
	}
	if state.begunCount == 0 {
		o.skipped = append(o.skipped, key)
	} else {
		line, err := key.lineOf(serfagent.DoneLine)
		if err != nil {
			return false, err
		}
		runsLine := ranLine(key, runs)
		o.lines = append(append(o.lines, line...), runsLine...)
		o.runs.add(key.time, runsLine)
	}
	if delete(o.states, key); len(o.states) == o.maxOpen-1 {
		o.holdBack(false)
	}
	return state.begunCount > 0, nil
}

// takeLines removes the waiting lines and returns them. The caller holds mu. It also holds agentMu, so that no
// event is handed out before these lines are written.
func (o *openEvents) takeLines() []byte {
	// (if memory runs out, the skipped events keep waiting)
	skipped, err := o.skippedLines()
	if err == nil {
		o.skipped = o.skipped[:0]
	}
	lines := append(o.lines, skipped...)
	o.lines = nil
	return lines
}

// skippedLines returns the lines of the skipped events. If all events up to the last time of the skipped ones are done,
// it is a single line.
func (o *openEvents) skippedLines() ([]byte, error) {
	if len(o.skipped) == 0 {
		return nil, nil
	}
	lastTime := LamportTime(0)
	for _, key := range o.skipped {
		if key.time > lastTime {
			lastTime = key.time
		}
	}
	if o.areDoneUpTo(lastTime) {
		return serfagent.DoneUpToLine(uint64(lastTime))
	}
	var lines []byte
	for _, key := range o.skipped {
		line, err := key.lineOf(serfagent.DoneLine)
		if err != nil {
			return nil, err
		}
		lines = append(lines, line...)
	}
	return lines, nil
}

// areDoneUpTo reports whether all open events are later than time.
func (o *openEvents) areDoneUpTo(time LamportTime) bool {
	for key := range o.states {
		if key.time <= time {
			return false
		}
	}
	return true
}

// waitingLines does what takeLines does, but the caller does not hold mu. It returns nothing if the node does not track
// handlers.
func (o *openEvents) waitingLines() []byte {
	if o == nil {
		return nil
	}
	o.mu.Lock()
	defer o.mu.Unlock()
	return o.takeLines()
}

// compactedLines returns the lines that follow the library's lines when the file is replaced. They say that all events up to
// time are done except the open ones, and how the handlers of the last events ended. compactedLines drops the waiting lines,
// since the file no longer needs them.
func (o *openEvents) compactedLines(time uint64) ([]byte, error) {
	if o == nil {
		return nil, nil
	}
	o.mu.Lock()
	defer o.mu.Unlock()
	text, err := serfagent.DoneUpToLine(time)
	text = append(text, o.runs.text()...)
	keys := make([]eventKey, 0, len(o.states))
	for key := range o.states {
		keys = append(keys, key)
	}
	sort.Slice(keys, func(i, j int) bool { return o.states[keys[i]].position < o.states[keys[j]].position })
	appendLine := func(line []byte, lineErr error) {
		if text = append(text, line...); err == nil {
			err = lineErr
		}
	}
	for _, key := range keys {
		appendLine(key.lineOf(serfagent.OpenLine))
		for count := o.states[key].begunCount; count > 0; count-- {
			appendLine(key.lineOf(serfagent.BegunLine))
		}
		if process := o.states[key].process; process != nil {
			text = append(text, processLine(key, *process)...)
		}
	}
	if err == nil {
		o.lines, o.skipped = nil, nil
	}
	return text, err
}

// count returns how many events are open.
func (o *openEvents) count() int {
	if o == nil {
		return 0
	}
	o.mu.Lock()
	defer o.mu.Unlock()
	return len(o.states)
}

// close makes done refuse further events.
func (o *openEvents) close() {
	if o == nil {
		return
	}
	o.mu.Lock()
	defer o.mu.Unlock()
	o.isClosed = true
}

// Begin records that the handler of an event begins. It returns after a line that says so was flushed. Run the handler
// only after Begin has returned, and don't run it if Begin returns an error. If the process is killed before Done,
// Unfinished returns the event in the next life, with HasBegun set.
//
// Begin returns ErrNotOpen if the event was not handed out or is done, ErrAlreadyBegun if Begin was called for it
// before in any life of the node, and ErrEnded after the end of the node. It also returns errors of the disk, after
// which the node ends. Without TrackHandlers, Begin does nothing. Serf has no such method.
func (s *Serf) Begin(event UserEvent) error { return s.begin(event, false) }

// BeginAgain is Begin for an event that an earlier life has begun and that is not done. It lets the handler run once
// more. It returns ErrAlreadyBegun if BeginAgain was called for the event before in any life, and ErrNotBegun if Begin
// was never called for it. Serf has no such method.
func (s *Serf) BeginAgain(event UserEvent) error { return s.begin(event, true) }

// begin is Begin, or BeginAgain if isAgain is true.
func (s *Serf) begin(event UserEvent, isAgain bool) error {
	if s.openEvents == nil {
		return nil
	}
	file, err := s.appendBegunLine(event, isAgain)
	if err != nil {
		return err
	}
	// (agentMu is not held here, so the node continues during this flush)
	if err := flushData(file); err == nil {
		return nil
	} else if !errors.Is(err, os.ErrClosed) {
		s.agentMu.Lock()
		defer s.agentMu.Unlock()
		return s.endOnFailure(err)
	}
	// (either a compaction has replaced the file and flushed the new one, or the node has ended)
	s.agentMu.Lock()
	defer s.agentMu.Unlock()
	if s.isEnded {
		return ErrEnded
	}
	return nil
}

// flushData flushes the bytes that were appended to a file. Unlike Sync, it does not flush the file's timestamps, which
// would take several times as long.
func flushData(file *os.File) error {
	conn, err := file.SyscallConn()
	if err != nil {
		return err
	}
	var flushErr error
	if err := conn.Control(func(fd uintptr) { flushErr = syscall.Fdatasync(int(fd)) }); err != nil {
		return err
	}
	return flushErr
}

// appendBegunLine appends the line, and returns the file to flush.
func (s *Serf) appendBegunLine(event UserEvent, isAgain bool) (*os.File, error) {
	s.agentMu.Lock()
	defer s.agentMu.Unlock()
	if s.isEnded {
		return nil, ErrEnded
	}
	lines, err := s.openEvents.begin(event, isAgain)
	if err != nil {
		return nil, err
	}
	return s.snapshot.file, s.appendHandlerLines(lines)
}

// Done records that an event is done: its handler has ended, or it has no handler. If the process is killed before
// Done, Unfinished returns the event in the next life. Done does not wait for the disk. So, after a power cut,
// Unfinished may also return the events that were done last; after a kill, it may return the last ones that were done
// without Begin.
//
// Done returns ErrNotOpen if the event was not handed out or is already done, and ErrEnded after the end of the node.
// It also returns errors of the disk, after which the node ends. You can still call Done after Shutdown was called,
// until the node has ended. Without TrackHandlers, Done does nothing. Serf has no such method.
func (s *Serf) Done(event UserEvent) error { return s.DoneWith(event, nil) }

// DoneWith is Done, and also records how the handlers of the event ended, for EventRunsOf. Serf has no such method.
func (s *Serf) DoneWith(event UserEvent, runs []HandlerRun) error {
	if s.openEvents == nil {
		return nil
	}
	hadBegun, err := s.openEvents.done(event, runs)
	if err != nil {
		return err
	}
	if !hadBegun {
		// (this line may wait: if it is lost, the next life reports the event as not begun. There may be many events
		// without a handler, and one line can stand for all of them)
		signal(s.openEvents.ready)
		return nil
	}
	return s.appendSoon()
}

// RecordProcess records which process runs a handler of an event. If the next life begins before the handler has ended,
// its Unfinished returns the event with that process. Start the process so that it waits, call RecordProcess after
// Begin, and let the process continue after RecordProcess has returned. So if this program is killed at any moment, the
// next life knows each process that may still be running. The process must not continue if RecordProcess returns an
// error.
//
// RecordProcess appends a line to the file, and does not wait for the disk, because no process survives a power cut. It
// returns the same errors as Begin, except that it returns ErrNotBegun if Begin was not called. Serf has no such method.
func (s *Serf) RecordProcess(event UserEvent, process HandlerProcess) error {
	if s.openEvents == nil {
		return nil
	}
	s.agentMu.Lock()
	defer s.agentMu.Unlock()
	if s.isEnded {
		return ErrEnded
	}
	if err := s.openEvents.setProcess(event, process); err != nil {
		return err
	}
	return s.appendWaitingLines()
}

// appendSoon appends the waiting lines. If the node is busy, it leaves them to appendDeferredLines.
func (s *Serf) appendSoon() error {
	if !s.agentMu.TryLock() {
		signal(s.openEvents.ready)
		return nil
	}
	defer s.agentMu.Unlock()
	return s.appendWaitingLines()
}

// markSuperseded records that an event is done because a later event of its name replaces it.
func (s *Serf) markSuperseded(event UserEvent) {
	if s.openEvents != nil {
		_ = s.DoneWith(event, nil)
	}
}

// appendWaitingLines appends the waiting lines. After the node has ended, it does nothing, since finishSnapshot appends
// them. The caller holds agentMu.
func (s *Serf) appendWaitingLines() error {
	if s.isEnded {
		return nil
	}
	return s.appendHandlerLines(s.openEvents.waitingLines())
}

// handlerLineWeight is the factor with which lines about handlers count as growth of the file. An event that is handled
// has five lines instead of one, and a compaction drops most of them. With this factor, the file does not become larger
// than that of a node that does not track handlers.
const handlerLineWeight = 4

// appendHandlerLines appends lines, and ends the node if that fails. The caller holds agentMu.
func (s *Serf) appendHandlerLines(lines []byte) error {
	if len(lines) == 0 {
		return nil
	}
	if s.grownBytes += handlerLineWeight * len(lines); s.grownBytes >= compactCheckGrowth {
		signal(s.memberLines.ready)
	}
	return s.endOnFailure(s.snapshot.appendLines(lines))
}

// appendDeferredLines appends the lines that waited while the node was busy.
func (s *Serf) appendDeferredLines() {
	if s.openEvents == nil {
		return
	}
	for {
		select {
		case <-s.ctx.Done():
			return
		case <-s.openEvents.ready:
		}
		s.agentMu.Lock()
		_ = s.appendWaitingLines()
		s.agentMu.Unlock()
	}
}

// Unfinished returns the events that were open when the node started, in the order in which they were handed out. An
// earlier life handed them out, and the program did not call Done for them. EventCh never delivers them again. If the
// handler of such an event never began, you can run it now. Without TrackHandlers, Unfinished returns none. Serf has no
// such method.
func (s *Serf) Unfinished() []UnfinishedEvent {
	if s.openEvents == nil {
		return nil
	}
	return append([]UnfinishedEvent(nil), s.openEvents.unfinished...)
}
