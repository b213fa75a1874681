// Package record writes the calls to a node's proved agent, and its replies, to a file. examples/records/README.md
// describes the format, and examples/records/attest.py compares records with the reference.
//
// A program passes Start to its node as serf.Config.Wrap:
//
//	config.Wrap = func(agent serf.Agent, opening serf.Opening) (serf.Agent, error) {
//		return record.Start(agent, file, config.NodeName, opening, logger)
//	}
//
// The record of a call is written when the call returns, so before the node acts on its results. If the record can't be
// written, the node continues without it. Each life begins with the text on which the agent was opened. So a reader can
// check whether this text has everything that the previous life flushed.
package record

import (
	"encoding/binary"
	"io"
	"log"
	"sort"
	"strconv"
	"sync"
	"time"

	"kitchenrue.example/serf"
	"kitchenrue.example/serfagent"
)

// heading begins each life and each file. If the call above it has no end, the program ended during that call.
const heading = title + "3\n"

// title begins the heading of each version of the format. In version 1, each life began with clock lines. In version 2,
// a query whose tag filters the node passed was written without these filters.
const title = "# kitchenrue-agent record "

// continued follows the heading of a file that a rotation started. The open call after it begins no new life.
const continued = "# goes on\n"

// compacting is written before a compaction. If the program ends before the call is written, the snapshot may have the
// old text or the new one.
const compacting = "# compacting\n"

// tagsPass is written before a query that has tag filters if the node's tags pass all of them. The format has no tags,
// so a reader has to compare the query with the reference without these filters.
const tagsPass = "# tags pass\n"

// Output is where a record is written. A *File is an Output.
type Output interface {
	io.WriteCloser
	// IsEmpty reports whether nothing was written yet, in this life or an earlier one.
	IsEmpty() bool
	// IsFull reports whether Rotate has to be called before the next Write. Rotate begins a new file.
	IsFull() bool
	Rotate() error
}

// Agent records the calls to a proved agent, in their order.
type Agent struct {
	serf.Agent
	name     string
	settings serfagent.Settings
	log      *log.Logger

	// mu is held during a call and while its lines are written, so that the record has the calls in their order.
	mu sync.Mutex
	// output is nil after a write to it has failed.
	output Output
	lines  lines
	// now has the digits of the moment of the present burst.
	now []byte
	// pending are the queries that were handed out in this life and that the node has not forgotten, in the order of
	// the library's numbers. handedOut counts all queries that were handed out in this life.
	pending   []pendingQuery
	handedOut uint64
	// savedClock is the member clock in the last line that recorded it.
	savedClock uint64
}

// pendingQuery is a query that was handed out. libraryNumber is the library's number of it, and number, which counts
// from 0, that of the record. deadline is the last moment at which it can be answered.
type pendingQuery struct {
	libraryNumber, number, deadline uint64
	isAnswered                      bool
}

var _ serf.Agent = &Agent{}

// Start begins a life of the agent of this name in a record, with the text on which the agent was opened. The record is
// closed when the agent is.
func Start(agent serf.Agent, output Output, name string, opening serf.Opening, logger *log.Logger) (*Agent, error) {
	a := &Agent{Agent: agent, name: name, settings: opening.Settings, log: logger, output: output}
	if !output.IsEmpty() {
		// The previous life may have ended within a line.
		a.lines.text = append(a.lines.text, '\n')
	}
	clocks, err := a.Agent.Clocks()
	if err != nil {
		return nil, err
	}
	a.writeOpening(heading, opening.Text, clocks)
	_, err = output.Write(a.lines.text)
	// (the text may be large)
	a.lines.text = nil
	return a, err
}

// writeOpening writes the call that opens the agent on a text, with these clocks.
func (a *Agent) writeOpening(comment string, text []byte, clocks serfagent.Clocks) {
	a.lines.text = append(a.lines.text, comment...)
	a.lines.writeMoment(time.Now().UnixNano())
	a.lines.writeOpen(a.name, a.settings, text, clocks)
}

// write writes the time, and then the lines of calls. An error ends the record, but not the agent.
func (a *Agent) write(writeLines func(*lines)) {
	if a.output == nil {
		return
	}
	a.lines.text = a.lines.text[:0]
	a.lines.writeMoment(time.Now().UnixNano())
	linesStart := len(a.lines.text)
	if writeLines(&a.lines); len(a.lines.text) == linesStart {
		return
	}
	_, err := a.output.Write(a.lines.text)
	if err == nil && a.output.IsFull() {
		err = a.rotate()
	}
	if err != nil {
		a.log.Printf("[ERR] agent: the record ends, and the agent continues without it: %v", err)
		a.output.Close()
		a.output = nil
	}
}

// rotate starts a new file, with the agent's current clocks.
func (a *Agent) rotate() error {
	if err := a.output.Rotate(); err != nil {
		return err
	}
	clocks, err := a.Agent.Clocks()
	if err != nil {
		return err
	}
	a.lines.text = a.lines.text[:0]
	a.writeOpening(heading+continued, clockLines(clocks), clocks)
	_, err = a.output.Write(a.lines.text)
	return err
}

// writeNotDone writes a comment: the call had no effect, because the agent's own file failed or memory ran out.
func (l *lines) writeNotDone(err error) {
	l.text = append(l.text, "# not done: "...)
	for _, b := range []byte(err.Error()) {
		if b < ' ' {
			b = ' '
		}
		l.text = append(l.text, b)
	}
	l.text = append(l.text, '\n')
}

// assignNumber numbers a query that is handed out.
func (a *Agent) assignNumber(query *serfagent.PendingQuery) uint64 {
	if query == nil {
		return 0
	}
	number := a.handedOut
	a.pending = append(a.pending, pendingQuery{libraryNumber: query.Number, number: number, deadline: query.Deadline})
	a.handedOut++
	return number
}

// findPending returns the place in pending of the query with this number of the library, or false if the query isn't
// there.
func (a *Agent) findPending(libraryNumber uint64) (int, bool) {
	at := sort.Search(len(a.pending), func(i int) bool { return a.pending[i].libraryNumber >= libraryNumber })
	return at, at < len(a.pending) && a.pending[at].libraryNumber == libraryNumber
}

// TakeAll records a delivery for each packet, and a firing for each event.
func (a *Agent) TakeAll(now uint64, packets []serf.Packet, firings []serf.Firing) ([]serfagent.Outcome, error) {
	a.mu.Lock()
	defer a.mu.Unlock()
	outcomes, err := a.Agent.TakeAll(now, packets, firings)
	a.now = strconv.AppendUint(a.now[:0], now, 10)
	a.write(func(l *lines) {
		for i, outcome := range outcomes {
			if i < len(packets) {
				a.writeDelivery(l, packets[i], outcome)
			} else {
				a.writeFiring(l, firings[i-len(packets)], outcome)
			}
		}
		if err != nil {
			l.writeNotDone(err)
		}
	})
	return outcomes, err
}

// writeDelivery writes a packet and its result.
func (a *Agent) writeDelivery(l *lines, packet serf.Packet, outcome serfagent.Outcome) {
	var number uint64
	if outcome.Received != nil {
		number = a.assignNumber(outcome.Received.Query)
	}
	if packet.TagsPass {
		// (if the filters can't be read, the packet isn't a query)
		filters, _ := serfagent.FiltersOf(packet.Data)
		l.writeTagsPass(filters)
	}
	l.line("deliver")
	wordStart := len(l.text)
	word := l.bytes(packet.Data).text[wordStart:]
	l.text = append(append(l.text, ' '), a.now...)
	l.writeReceived(packet.Data, word, outcome, number)
	l.endReply()
}

// writeTagsPass writes that the node's tags pass the tag filters of the following query, if there are any.
func (l *lines) writeTagsPass(filters [][]byte) {
	for _, filter := range filters {
		if serf.IsTagFilter(filter) {
			l.text = append(l.text, tagsPass...)
			return
		}
	}
}

// writeFiring writes a firing and its result.
func (a *Agent) writeFiring(l *lines, firing serf.Firing, outcome serfagent.Outcome) {
	l.line("fire").name(firing.Name).bytes(firing.Payload).boolean(firing.Coalesce)
	a.writeReply(l, outcome.Err, nil, func() {
		l.line("fired").number(outcome.Fired.Event.Time).writeSent(outcome.Fired.Packet)
		l.writeEvent(outcome.Fired.Event)
	})
}

// Merge records a merge.
func (a *Agent) Merge(packet []byte, isJoin bool) ([]*serfagent.Event, error) {
	a.mu.Lock()
	defer a.mu.Unlock()
	events, err := a.Agent.Merge(packet, isJoin)
	mode := "sync"
	if isJoin {
		mode = "join"
	}
	a.write(func(l *lines) {
		l.line("merge").bytes(packet).word(mode)
		a.writeReply(l, err, packet, func() {
			l.line("merged")
			for _, event := range events {
				l.writeEvent(event)
			}
		})
	})
	return events, err
}

// writeReply writes the reply to a call that succeeded, or the reason why it was refused.
func (a *Agent) writeReply(l *lines, err error, packet []byte, writeResult func()) {
	switch {
	case err == nil:
		writeResult()
	case l.writeRefusal(err, packet):
	default:
		l.line("")
		l.writeNotDone(err)
		return
	}
	l.endReply()
}

// LocalState records the state that is sent.
func (a *Agent) LocalState(statuses []serfagent.Status, left []string) ([]byte, error) {
	a.mu.Lock()
	defer a.mu.Unlock()
	packet, err := a.Agent.LocalState(statuses, left)
	a.write(func(l *lines) {
		l.line("state")
		a.writeReply(l, err, nil, func() { l.line("state").writeSent(packet) })
	})
	return packet, err
}

// Query records a query of this node.
func (a *Agent) Query(now uint64, id uint32, name string, payload []byte, params serfagent.QueryParams) (*serfagent.FiredQuery, error) {
	a.mu.Lock()
	defer a.mu.Unlock()
	query, err := a.Agent.Query(now, id, name, payload, params)
	flags := uint64(0)
	if params.WantAck {
		flags |= 1
	}
	if params.NoBroadcast {
		flags |= 2
	}
	a.write(func(l *lines) {
		if params.TagsPass {
			l.writeTagsPass(params.Filters)
		}
		l.line("query").number(now).number(uint64(id)).name(name).bytes(payload).number(uint64(params.Timeout)).number(flags)
		for _, filter := range params.Filters {
			l.bytes(filter)
		}
		a.writeReply(l, err, nil, func() {
			l.line("queried").number(query.Time).writeSent(query.Packet)
			l.writeSent(query.Ack)
			l.writeHanded(query.Query, a.assignNumber(query.Query))
		})
	})
	return query, err
}

// Respond records a response to a query that was handed out in this life.
func (a *Agent) Respond(now, number uint64, payload []byte) ([]byte, error) {
	a.mu.Lock()
	defer a.mu.Unlock()
	packet, err := a.Agent.Respond(now, number, payload)
	if at, ok := a.findPending(number); ok {
		query := &a.pending[at]
		reason := err
		if err == serfagent.NotPending && !query.isAnswered && now > query.deadline {
			// The library has forgotten the query, because its deadline passed.
			reason = serfagent.PastDeadline
		}
		query.isAnswered = query.isAnswered || err == nil
		a.write(func(l *lines) {
			l.line("respond").number(query.number).number(now).bytes(payload)
			a.writeReply(l, reason, nil, func() { l.line("replied").writeSent(packet) })
		})
	}
	return packet, err
}

// Forget records nothing. Later responses to this query are not recorded.
func (a *Agent) Forget(number uint64) error {
	a.mu.Lock()
	defer a.mu.Unlock()
	if at, ok := a.findPending(number); ok && at == 0 {
		a.pending = a.pending[1:]
	} else if ok {
		a.pending = append(a.pending[:at], a.pending[at+1:]...)
	}
	return a.Agent.Forget(number)
}

// CloseDue records that queries were closed. If none was, it records nothing.
func (a *Agent) CloseDue(now uint64) ([]*serfagent.Closed, error) {
	a.mu.Lock()
	defer a.mu.Unlock()
	closed, err := a.Agent.CloseDue(now)
	if len(closed) > 0 {
		a.write(func(l *lines) {
			l.line("close").number(now).line("closed").number(uint64(len(closed))).endReply()
		})
	}
	return closed, err
}

// clockState returns a push/pull that contains only a member clock above a time.
func clockState(time uint64) []byte {
	return binary.BigEndian.AppendUint64([]byte("\x02\x81\xa5LTime\xcf"), time+1)
}

// writeObserved writes that the member clock was advanced above a time. The format has no call for that, so it writes a
// merge.
func (l *lines) writeObserved(time uint64) {
	l.line("merge").bytes(clockState(time)).word("sync").line("merged").endReply()
}

// ObserveMember records a merge if the time advances this node's clock.
func (a *Agent) ObserveMember(time uint64) error {
	a.mu.Lock()
	defer a.mu.Unlock()
	before, _ := a.Agent.Clocks()
	err := a.Agent.ObserveMember(time)
	if err == nil && time >= before.Member {
		a.write(func(l *lines) { l.writeObserved(time) })
	}
	return err
}

// NextMemberTime records a merge that advances the member clock, and its line.
func (a *Agent) NextMemberTime() (uint64, error) {
	a.mu.Lock()
	defer a.mu.Unlock()
	time, err := a.Agent.NextMemberTime()
	if err == nil {
		a.savedClock = time + 1
		a.write(func(l *lines) {
			l.writeObserved(time)
			l.line("save").line("saved").endReply()
		})
	}
	return time, err
}

// SaveMemberClock records the line of the member clock, unless it is recorded already.
func (a *Agent) SaveMemberClock() error {
	a.mu.Lock()
	defer a.mu.Unlock()
	err := a.Agent.SaveMemberClock()
	if clocks, _ := a.Agent.Clocks(); err == nil && clocks.Member != a.savedClock {
		a.savedClock = clocks.Member
		a.write(func(l *lines) { l.line("save").line("saved").endReply() })
	}
	return err
}

// CompactWith records that a compaction begins, and then the compaction, or why it wasn't done.
func (a *Agent) CompactWith(text []byte) error {
	a.mu.Lock()
	defer a.mu.Unlock()
	a.write(func(l *lines) { l.text = append(l.text, compacting...) })
	err := a.Agent.CompactWith(text)
	a.write(func(l *lines) {
		l.line("compact")
		a.writeReply(l, err, nil, func() { l.line("compacted") })
	})
	return err
}

// Close closes the agent and the record.
func (a *Agent) Close() error {
	a.mu.Lock()
	defer a.mu.Unlock()
	if a.output != nil {
		a.output.Close()
		a.output = nil
	}
	return a.Agent.Close()
}
