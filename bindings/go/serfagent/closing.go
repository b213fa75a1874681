package serfagent

// #include "serf_agent.h"
import "C"

// Closed is a query of this agent that was closed, with the names of the nodes that acked it and with the responses, in
// order of arrival.
type Closed struct {
	Time uint64
	ID   uint32
	// Deadline is the last moment at which the agent counted answers.
	Deadline  uint64
	Acks      []string
	Responses []*Answer
}

// closedAck returns the name of a node that acked a closed query. The first call returns the length, and the second one
// the name.
func (a *Agent) closedAck(index, number C.size_t) (string, error) {
	var length C.size_t
	var name []byte
	for i := 0; i < 2; i++ {
		name = make([]byte, length)
		if err := errorOf(C.serf_agent_closed_ack(a.handle, index, number, &length, ptr(name), size(name))); err != nil {
			return "", err
		}
	}
	return stringOf(name), nil
}

// closedResponse returns a response to a closed query.
func (a *Agent) closedResponse(index, number C.size_t) (sender string, payload []byte, err error) {
	var info C.struct_serf_agent_response
	var from []byte
	// The first call returns the lengths, and the second one the texts.
	for i := 0; i < 2; i++ {
		from, payload = make([]byte, info.from_len), make([]byte, info.payload_len)
		code := C.serf_agent_closed_response(a.handle, index, number, &info, ptr(from), size(from), ptr(payload), size(payload))
		if err = errorOf(code); err != nil {
			return "", nil, err
		}
	}
	return stringOf(from), payload, nil
}

// closedQuery returns a query that the last call closed, with its answers.
func (a *Agent) closedQuery(index C.size_t) (*Closed, error) {
	var info C.struct_serf_agent_closed
	if err := errorOf(C.serf_agent_closed(a.handle, index, &info)); err != nil {
		return nil, err
	}
	closed := &Closed{Time: uint64(info.time), ID: uint32(info.id), Deadline: uint64(info.deadline)}
	for number := C.size_t(0); number < info.acks; number++ {
		name, err := a.closedAck(index, number)
		if err != nil {
			return nil, err
		}
		closed.Acks = append(closed.Acks, name)
	}
	for number := C.size_t(0); number < info.responses; number++ {
		from, payload, err := a.closedResponse(index, number)
		if err != nil {
			return nil, err
		}
		closed.Responses = append(closed.Responses, &Answer{closed.Time, closed.ID, from, payload})
	}
	return closed, nil
}

// CloseDue closes this agent's queries whose deadline is before now. It returns them with their answers, in the order
// in which they were fired. It also forgets the queries that were handed out here and whose deadline is before now.
func (a *Agent) CloseDue(now uint64) ([]*Closed, error) {
	a.mu.Lock()
	defer a.mu.Unlock()
	var count C.size_t
	if err := a.complete(C.serf_agent_close_due(a.handle, C.uint64_t(now), &count)); err != nil {
		return nil, err
	}
	closed := make([]*Closed, count)
	for i := range closed {
		var err error
		if closed[i], err = a.closedQuery(C.size_t(i)); err != nil {
			return nil, err
		}
	}
	return closed, nil
}

// DefaultSnapshotLimit is the size in bytes above which Serf compacts its snapshot.
const DefaultSnapshotLimit uint64 = C.SERF_AGENT_DEFAULT_SNAPSHOT_LIMIT

// ShouldCompact reports whether the file is larger than limit bytes and Compact would remove at least half of it.
func (a *Agent) ShouldCompact(limit uint64) (bool, error) {
	a.mu.Lock()
	defer a.mu.Unlock()
	var should C.bool
	err := errorOf(C.serf_agent_should_compact(a.handle, C.uint64_t(limit), &should))
	return bool(should), err
}
