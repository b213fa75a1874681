package serf

import (
	"errors"
	"fmt"
	"sync/atomic"
	"time"

	"kitchenrue.example/serfagent"
)

// EventType is the type of an Event.
type EventType int

// The types of events.
const (
	EventMemberJoin EventType = iota
	EventMemberLeave
	EventMemberFailed
	EventMemberUpdate
	EventMemberReap
	EventUser
	EventQuery
)

var eventTypes = []string{"member-join", "member-leave", "member-failed", "member-update", "member-reap", "user", "query"}

// String panics if there is no such type, as Serf's does.
func (t EventType) String() string {
	if t < 0 || int(t) >= len(eventTypes) {
		panic(fmt.Sprintf("unknown event type: %d", int(t)))
	}
	return eventTypes[t]
}

// Event is a value that EventCh delivers: a UserEvent, a *Query or a MemberEvent.
type Event interface {
	EventType() EventType
	String() string
}

// MemberEvent reports a change of members. It has several members if events are coalesced.
type MemberEvent struct {
	Type    EventType
	Members []Member
}

// EventType returns the type of the change.
func (m MemberEvent) EventType() EventType { return m.Type }

// String panics if the type isn't one of member events, as Serf's does.
func (m MemberEvent) String() string {
	if m.Type > EventMemberReap {
		panic(fmt.Sprintf("unknown event type: %d", int(m.Type)))
	}
	return m.Type.String()
}

// UserEvent is an event that a node fired. Its line is on the disk before EventCh delivers it, so it is delivered at most once in all lives
// of a node that keeps its file.
type UserEvent struct {
	LTime    LamportTime
	Name     string
	Payload  []byte
	Coalesce bool
}

// EventType returns EventUser.
func (u UserEvent) EventType() EventType { return EventUser }

func (u UserEvent) String() string { return "user-event: " + u.Name }

// Query is a query that this node handed out and that the program can answer.
type Query struct {
	LTime   LamportTime
	Name    string
	Payload []byte

	serf    *Serf
	pending *serfagent.PendingQuery
	// answered is 1 after the query was answered. Several goroutines may read it.
	answered uint32
}

// EventType returns EventQuery.
func (q *Query) EventType() EventType { return EventQuery }

func (q *Query) String() string { return "query: " + q.Name }

// Deadline returns the last moment at which the query can be answered. For a query that no node handed out, it returns
// the zero time.
func (q *Query) Deadline() time.Time {
	if q.serf == nil {
		return time.Time{}
	}
	return q.serf.startTime.Add(time.Duration(q.pending.Deadline))
}

// Reasons why a query can't be answered.
var (
	errAnswered = errors.New("response already sent")
	errTooLate  = errors.New("response is past the deadline")
	errHandMade = errors.New("no node handed this query out")
)

// Respond answers the query. A query can be answered once. Respond returns an error after the deadline, after an
// earlier answer, and if the node has handed out 8,192 (maxUnanswered) later queries. The packet of the response has at
// most QueryResponseSizeLimit bytes, including the bytes around the payload; if it is longer, Respond returns an error
// and may be called again with a shorter payload. If no node handed the query out, Respond returns an error.
func (q *Query) Respond(payload []byte) error {
	if q.serf == nil {
		return errHandMade
	}
	if atomic.LoadUint32(&q.answered) == 1 {
		return errAnswered
	}
	err := q.serf.respond(q.pending, payload)
	if err == nil {
		atomic.StoreUint32(&q.answered, 1)
	}
	return err
}
