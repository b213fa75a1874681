// An agent with Serf's own code behind the pipe (docs/SPEC.md). It is in Serf's package, because it calls the same functions as a
// test of Serf would: the calls determine the moments, the IDs and when the snapshot is written. Each answer is what Serf's code did.
// If Serf does nothing, the agent finds the reason in Serf's state.
package serf

import (
	"bufio"
	"bytes"
	"encoding/hex"
	"fmt"
	"io"
	"log"
	"math"
	"os"
	"strconv"
	"strings"
	"time"

	"github.com/hashicorp/go-msgpack/codec"
	"github.com/hashicorp/memberlist"
)

// keptPackets is a transport that keeps what is sent.
type keptPackets struct {
	memberlist.Transport
	packets [][]byte
}

func (k *keptPackets) WriteTo(b []byte, addr string) (time.Time, error) {
	k.packets = append(k.packets, append([]byte{}, b[1:]...)) // without memberlist's byte for a user message
	return time.Now(), nil
}

// got returns a value, and panics if there is an error.
func got[T any](value T, err error) T {
	if err != nil {
		panic(err)
	}
	return value
}

func must(err error) { got(0, err) }

// PipeAgent is an agent that the calls drive.
type PipeAgent struct {
	folder     string
	kept       *keptPackets
	members    *memberlist.Memberlist
	serf       *Serf
	snap       *Snapshotter
	events     chan Event
	config     *Config
	ignoreOld  bool
	responders int
	handed     []*Query
	deadlines  []uint64               // the deadlines of the queries that were handed out
	deadline   uint64                 // the deadline of the query that enters now
	closing    map[LamportTime]uint64 // the deadlines of this agent's queries
}

// NewPipeAgent makes an agent that is not open yet.
func NewPipeAgent() *PipeAgent {
	kept := &keptPackets{Transport: (&memberlist.MockNetwork{}).NewTransport("pipe")}
	settings := memberlist.DefaultLANConfig()
	settings.Name, settings.Transport, settings.EnableCompression, settings.LogOutput = "pipe", kept, false, io.Discard
	settings.ProbeInterval, settings.GossipInterval, settings.PushPullInterval = 0, 0, 0
	return &PipeAgent{folder: got(os.MkdirTemp("", "serf")), kept: kept, members: got(memberlist.Create(settings))}
}

// Close removes the agent's folder.
func (a *PipeAgent) Close()              { os.RemoveAll(a.folder) }
func (a *PipeAgent) path() string        { return a.folder + "/snapshot" }
func (a *PipeAgent) delegate() *delegate { return &delegate{serf: a.serf} } // what memberlist passes packets to

func unhexed(word string) []byte {
	if word == "-" {
		return nil
	}
	return got(hex.DecodeString(word))
}

func hexed(data []byte) string {
	if len(data) == 0 {
		return "-"
	}
	return hex.EncodeToString(data)
}

func number(word string) uint64 { return got(strconv.ParseUint(word, 10, 64)) }

// later returns the moment after a duration, at most the largest moment.
func later(now uint64, timeout time.Duration) uint64 {
	if timeout < 0 {
		return now
	}
	if sum := now + uint64(timeout); sum >= now {
		return sum
	}
	return math.MaxUint64
}

// moment returns a deadline for the clock that Serf reads. It has passed if now is after the given deadline.
func moment(now, deadline uint64) time.Time {
	if now > deadline {
		return time.Now().Add(-time.Hour)
	}
	return time.Now().Add(time.Hour)
}

// queue returns a queue that returns each message once.
func queue() *memberlist.TransmitLimitedQueue {
	return &memberlist.TransmitLimitedQueue{NumNodes: func() int { return 1 }, RetransmitMult: 1}
}

// live opens an agent on its snapshot, as Create does.
func (a *PipeAgent) live() {
	logger := log.New(io.Discard, "", 0)
	file := got(os.OpenFile(a.path(), os.O_RDWR|os.O_APPEND|os.O_CREATE, 0644))
	a.events = make(chan Event, 1<<16)
	a.config.EventCh = a.events
	s := &Serf{config: a.config, logger: logger, members: map[string]*memberState{}, queryResponse: map[LamportTime]*QueryResponse{},
		shutdownCh: make(chan struct{}), state: SerfAlive, memberlist: a.members, recentIntents: map[string]nodeIntent{}}
	s.eventJoinIgnore.Store(a.ignoreOld)
	a.snap = &Snapshotter{aliveNodes: map[string]string{}, clock: &s.clock, fh: file, buffered: bufio.NewWriter(file), logger: logger,
		minCompactSize: 1 << 40, path: a.path(), shutdownCh: s.shutdownCh}
	must(a.snap.replay())
	s.eventMinTime, s.queryMinTime = a.snap.LastEventClock()+1, a.snap.LastQueryClock()+1
	s.broadcasts, s.eventBroadcasts, s.queryBroadcasts = queue(), queue(), queue()
	s.eventBuffer, s.queryBuffer = make([]*userEvents, a.config.EventBuffer), make([]*queries, a.config.QueryBuffer)
	last := map[*LamportClock]LamportTime{
		&s.clock: a.snap.LastClock(), &s.eventClock: a.snap.LastEventClock(), &s.queryClock: a.snap.LastQueryClock(),
	}
	for clock, time := range last {
		clock.Increment()
		clock.Witness(time)
	}
	a.serf, a.handed, a.deadlines, a.closing = s, nil, nil, map[LamportTime]uint64{}
}

// replyLines returns the lines of the reply to a call: the answer, the packets, and what was handed out, which it also writes to
// the snapshot.
func (a *PipeAgent) replyLines(answer string) string {
	lines := []string{answer}
	packets := append(a.serf.eventBroadcasts.GetBroadcasts(0, 1<<30), a.serf.queryBroadcasts.GetBroadcasts(0, 1<<30)...)
	for _, packet := range append(packets, a.kept.packets...) {
		lines = append(lines, "sent "+hexed(packet))
	}
	for len(a.events) > 0 {
		switch e := (<-a.events).(type) {
		case UserEvent:
			a.snap.processUserEvent(e)
			coalesce := map[bool]int{true: 1}[e.Coalesce]
			lines = append(lines, fmt.Sprintf("event %d %s %s %d", e.LTime, hexed([]byte(e.Name)), hexed(e.Payload), coalesce))
		case *Query:
			a.snap.processQuery(e)
			texts := hexed([]byte(e.Name)) + " " + hexed(e.Payload)
			lines = append(lines, fmt.Sprintf("handed %d %d %d %s", len(a.handed), e.LTime, e.id, texts))
			a.handed, a.deadlines = append(a.handed, e), append(a.deadlines, a.deadline)
		}
	}
	return strings.Join(lines, "\n")
}

// Reply makes a call, and returns the lines of its reply. If Serf's code panics, the reply is "unsupported".
func (a *PipeAgent) Reply(line string) (reply string) {
	defer func() {
		if fault := recover(); fault != nil {
			fmt.Fprintf(os.Stderr, "%s: %v\n", line, fault)
			reply = "unsupported"
		}
	}()
	words := strings.Split(line, " ")
	call, known := pipeCalls[words[0]]
	if !known || a.serf == nil && words[0] != "open" {
		return "unsupported"
	}
	a.kept.packets = nil
	return call(a, words[1:])
}

var pipeCalls = map[string]func(a *PipeAgent, words []string) string{
	"open": (*PipeAgent).open, "save": (*PipeAgent).save, "restart": (*PipeAgent).restart, "look": (*PipeAgent).look,
	"fire": (*PipeAgent).fire, "deliver": (*PipeAgent).deliver, "state": (*PipeAgent).state, "merge": (*PipeAgent).merge,
	"query": (*PipeAgent).query, "respond": (*PipeAgent).respond, "close": (*PipeAgent).closeQueries,
}

func (a *PipeAgent) open(words []string) string {
	if strings.HasSuffix(words[5], "+events") { // Serf keeps no events across a restart
		return "unsupported"
	}
	config := DefaultConfig()
	config.Init()
	config.NodeName = string(unhexed(words[0]))
	config.EventBuffer, config.QueryBuffer = int(number(words[1])), int(number(words[2]))
	config.UserEventSizeLimit = int(number(words[3]))
	if len(words) == 10 { // else both limits are Serf's own
		config.QuerySizeLimit, config.QueryResponseSizeLimit = int(number(words[7])), int(number(words[8]))
	}
	a.config, a.responders, a.ignoreOld = config, int(number(words[4])), words[5] == "ignore"
	return a.restartOn(unhexed(words[len(words)-1]), "opened")
}

func (a *PipeAgent) restartOn(text []byte, answer string) string {
	if a.snap != nil {
		a.snap.fh.Close()
	}
	must(os.WriteFile(a.path(), text, 0644))
	a.live()
	return fmt.Sprintf("%s %d %d %d", answer, a.serf.clock.Time(), a.serf.eventClock.Time(), a.serf.queryClock.Time())
}

func (a *PipeAgent) restart(words []string) string {
	a.snap.buffered.Flush()
	return a.restartOn(append(got(os.ReadFile(a.path())), unhexed(words[0])...), "restarted")
}

// look returns Serf's state: its clocks, its minimum times, and its snapshot's text.
func (a *PipeAgent) look([]string) string {
	a.snap.buffered.Flush()
	s := a.serf
	clocks := fmt.Sprintf("%d %d %d", s.clock.Time(), s.eventClock.Time(), s.queryClock.Time())
	return fmt.Sprintf("looked %s %d %d\nkept %s", clocks, s.eventMinTime, s.queryMinTime, hexed(got(os.ReadFile(a.path()))))
}

func (a *PipeAgent) save([]string) string { a.snap.updateClock(); return "saved" }
func (a *PipeAgent) state([]string) string {
	return "state\nsent " + hexed(a.delegate().LocalState(false))
}

func (a *PipeAgent) fire(words []string) string {
	time := a.serf.eventClock.Time()
	if err := a.serf.UserEvent(string(unhexed(words[0])), unhexed(words[1]), words[2] == "1"); err != nil {
		return "refused TooLarge"
	}
	return a.replyLines(fmt.Sprintf("fired %d", time))
}

func (a *PipeAgent) merge(words []string) string {
	packet := unhexed(words[0])
	if messageType(packet[0]) != messagePushPullType {
		return "refused NotPushPull"
	}
	var state messagePushPull
	must(decodeMessage(packet[1:], &state))
	if len(state.StatusLTimes)+len(state.LeftMembers) > 0 {
		return "unsupported" // Serf's member clock follows the status times
	}
	a.delegate().MergeRemoteState(packet, words[1] == "join")
	return a.replyLines("merged")
}

// old returns why Serf ignores a time: by its two tests, or else because it was seen.
func old(time, minimum, clock LamportTime, slots int) string {
	if time < minimum {
		return "BelowMinimum"
	}
	if clock > LamportTime(slots) && time < clock-LamportTime(slots) {
		return "TooOld"
	}
	return "Seen"
}

func (a *PipeAgent) deliver(words []string) string {
	packet, now := unhexed(words[0]), number(words[1])
	switch messageType(packet[0]) {
	case messageUserEventType:
		return a.deliverEvent(packet)
	case messageQueryType:
		return a.deliverQuery(packet, now)
	case messageQueryResponseType:
		return a.deliverResponse(packet, now)
	case messagePushPullType:
		return "push-pull"
	}
	return fmt.Sprintf("foreign %d", packet[0])
}

func (a *PipeAgent) deliverEvent(packet []byte) string {
	var event messageUserEvent
	must(decodeMessage(packet[1:], &event))
	why := old(event.LTime, a.serf.eventMinTime, a.serf.eventClock.Time(), len(a.serf.eventBuffer))
	if a.delegate().NotifyMsg(packet); len(a.events) == 0 {
		return "ignored " + why
	}
	return a.replyLines("new")
}

func (a *PipeAgent) deliverQuery(packet []byte, now uint64) string {
	var query messageQuery
	must(decodeMessage(packet[1:], &query))
	s := a.serf
	if isForeign(query.Filters) {
		return "unsupported"
	}
	why, before := old(query.LTime, s.queryMinTime, s.queryClock.Time(), len(s.queryBuffer)), a.idsAt(query.LTime)
	if a.delegate().NotifyMsg(packet); a.idsAt(query.LTime) == before {
		return "ignored " + why
	}
	return a.entered("query", later(now, query.Timeout))
}

// hasBin reports whether a filter may contain a value in bin form.
func hasBin(filter []byte) bool {
	return bytes.IndexByte(filter, 0xc4) >= 0 || bytes.IndexByte(filter, 0xc5) >= 0 || bytes.IndexByte(filter, 0xc6) >= 0
}

// isForeign reports whether a filter requires tags, which no agent of the reference has, or whether this codec reads it differently
// from the reference: it doesn't read a name in MessagePack's bin form as a text, it reads a map as a list, and it ignores bytes
// after the filter's value.
func isForeign(filters [][]byte) bool {
	for _, filter := range filters {
		if filter[0] == byte(filterTagType) || hasBin(filter) {
			return true
		}
		if rest := filter[1:]; len(rest) > 0 && (rest[0]>>4 == 8 || rest[0] >= 0xde && rest[0] <= 0xdf) {
			return true
		}
		var names []string
		rest := bytes.NewReader(filter[1:])
		if err := codec.NewDecoder(rest, &codec.MsgpackHandle{}).Decode(&names); err == nil && rest.Len() > 0 {
			return true
		}
	}
	return false
}

// idsAt returns how many queries with this time are in the buffer.
func (a *PipeAgent) idsAt(time LamportTime) int {
	held := a.serf.queryBuffer[time%LamportTime(len(a.serf.queryBuffer))]
	if held == nil || held.LTime != time {
		return 0
	}
	return len(held.QueryIDs)
}

// entered returns the lines of a call by which a query entered. The query can be answered until this deadline.
func (a *PipeAgent) entered(answer string, deadline uint64) string {
	a.deadline = deadline
	return a.replyLines(answer)
}

func (a *PipeAgent) deliverResponse(packet []byte, now uint64) string {
	var r messageQueryResponse
	must(decodeMessage(packet[1:], &r))
	open, known := a.serf.queryResponse[r.LTime]
	if !known {
		return "ignored NotOpen"
	}
	open.deadline = moment(now, a.closing[r.LTime])
	acks, responses := len(open.acks), len(open.responses)
	a.delegate().NotifyMsg(packet)
	from := fmt.Sprintf("%d %d %s", r.LTime, r.ID, hexed([]byte(r.From)))
	_, acked := open.acks[r.From]
	_, answered := open.responses[r.From]
	switch {
	case len(open.acks) > acks:
		return "ack\ncounted ack " + from
	case len(open.responses) > responses:
		return "response\ncounted response " + from + " " + hexed(r.Payload)
	case open.id != r.ID:
		return "ignored OtherId"
	case open.Finished():
		return "ignored Closed"
	case r.Ack() && open.ackCh == nil:
		return "ignored AckNotAsked"
	case r.Ack() && acked:
		return "ignored AckTwice"
	case !r.Ack() && answered:
		return "ignored ResponseTwice"
	}
	return "refused RespondersFull"
}

// query does what Serf's Query does, with this ID, these flags and these filters.
func (a *PipeAgent) query(words []string) string {
	now, flags := number(words[0]), uint32(number(words[5]))
	s := a.serf
	q := messageQuery{LTime: s.queryClock.Time(), ID: uint32(number(words[1])), SourceNode: s.config.NodeName, Flags: flags,
		Timeout: time.Duration(number(words[4])), Name: string(unhexed(words[2])), Payload: unhexed(words[3])}
	for _, filter := range words[6:] {
		q.Filters = append(q.Filters, unhexed(filter))
	}
	if isForeign(q.Filters) {
		return "unsupported"
	}
	raw := got(encodeMessage(messageQueryType, &q))
	if len(raw) > s.config.QuerySizeLimit {
		return "refused TooLarge"
	}
	if q.Timeout == 0 { // Serf would use its default instead
		return "refused ZeroTimeout"
	}
	response := newQueryResponse(a.responders, &q)
	s.queryResponse[response.lTime] = response
	a.closing[response.lTime] = later(now, q.Timeout)
	s.handleQuery(&q)
	s.queryBroadcasts.QueueBroadcast(&broadcast{msg: raw})
	return a.entered(fmt.Sprintf("queried %d", q.LTime), later(now, q.Timeout))
}

func (a *PipeAgent) respond(words []string) string {
	h, now := number(words[0]), number(words[1])
	if h >= uint64(len(a.handed)) || a.handed[h].deadline.IsZero() {
		return "refused NoQuery"
	}
	query := a.handed[h]
	query.serf, query.deadline = a.serf, moment(now, a.deadlines[h])
	if query.Respond(unhexed(words[2])) == nil {
		return a.replyLines("replied")
	}
	if now > a.deadlines[h] {
		return "refused PastDeadline"
	}
	return "refused TooLarge"
}

// closeQueries closes the queries whose deadline has passed, as Serf's timers do.
func (a *PipeAgent) closeQueries(words []string) string {
	now, count := number(words[0]), 0
	for lTime, open := range a.serf.queryResponse {
		if a.closing[lTime] < now {
			delete(a.serf.queryResponse, lTime)
			open.Close()
			count++
		}
	}
	return fmt.Sprintf("closed %d", count)
}
