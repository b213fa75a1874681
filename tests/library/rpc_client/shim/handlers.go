package agent

import (
	"sync"

	"github.com/hashicorp/serf/serf"
)

// EventHandler handles events.
type EventHandler interface{ HandleEvent(serf.Event) }

// MockEventHandler keeps the events that it handles.
type MockEventHandler struct {
	sync.Mutex
	Events []serf.Event
}

// HandleEvent keeps an event.
func (mock *MockEventHandler) HandleEvent(one serf.Event) {
	mock.Lock()
	defer mock.Unlock()
	mock.Events = append(mock.Events, one)
}

// MockQueryHandler keeps the queries that it handles. The agent's client answers them with Response.
type MockQueryHandler struct {
	sync.Mutex
	Response []byte
	Queries  []*serf.Query
}

// HandleEvent keeps a query, and ignores other events.
func (mock *MockQueryHandler) HandleEvent(one serf.Event) {
	query, ok := one.(*serf.Query)
	if !ok {
		return
	}
	mock.Lock()
	defer mock.Unlock()
	mock.Queries = append(mock.Queries, query)
}
