package serfagent

// #include "serf_agent.h"
import "C"

// Query fires a query. Choose id at random.
func (a *Agent) Query(now uint64, id uint32, name string, payload []byte, params QueryParams) (*FiredQuery, error) {
	a.mu.Lock()
	defer a.mu.Unlock()
	if err := a.forgetFilters(); err != nil {
		return nil, err
	}
	a.staleFilters = len(params.Filters) > 0
	for _, filter := range params.Filters {
		if err := errorOf(C.serf_agent_add_filter(a.handle, ptr(filter), size(filter))); err != nil {
			return nil, err
		}
	}
	cParams := params.toC()
	if err := a.complete(C.serf_agent_query(a.handle, C.uint64_t(now), C.uint32_t(id), ptr(name), size(name), ptr(payload), size(payload),
		ptr(params.Addr), size(params.Addr), &cParams)); err != nil {
		return nil, err
	}
	a.staleFilters = false
	return a.firedQuery()
}

// toC converts the parameters to C.
func (params *QueryParams) toC() C.struct_serf_agent_params {
	timeout := params.Timeout
	if timeout == 0 {
		timeout = DefaultQueryTimeout
	}
	return C.struct_serf_agent_params{
		timeout: C.int64_t(timeout), port: C.uint16_t(params.Port), relay_factor: C.uint8_t(params.RelayFactor),
		want_ack: C.bool(params.WantAck), no_broadcast: C.bool(params.NoBroadcast), tags_pass: C.bool(params.TagsPass),
	}
}

// firedQuery returns the result of a query.
func (a *Agent) firedQuery() (*FiredQuery, error) {
	result, err := a.result()
	if err != nil {
		return nil, err
	}
	query := &FiredQuery{}
	if query.Packet, err = a.packet(false); err != nil {
		return nil, err
	}
	if query.Query, err = a.pendingQuery(result.handed); err != nil {
		return nil, err
	}
	if query.Ack, err = a.packet(true); err != nil {
		return nil, err
	}
	var time C.uint64_t
	err = errorOf(C.serf_agent_query_time(a.handle, &time))
	query.Time = uint64(time)
	return query, err
}

// pendingQuery returns the query that the last call handed out under this number, or nil if the number is 0.
func (a *Agent) pendingQuery(number C.uint64_t) (*PendingQuery, error) {
	if number == 0 {
		return nil, nil
	}
	var info C.struct_serf_agent_pending_query
	var name, payload, source, addr []byte
	// The first call returns the lengths, and the second one the texts.
	for i := 0; i < 2; i++ {
		name, payload = make([]byte, info.name_len), make([]byte, info.payload_len)
		source, addr = make([]byte, info.source_len), make([]byte, info.addr_len)
		if err := errorOf(C.serf_agent_pending_query(a.handle, number, &info, ptr(name), size(name), ptr(payload), size(payload),
			ptr(source), size(source), ptr(addr), size(addr))); err != nil {
			return nil, err
		}
	}
	return &PendingQuery{
		Number: uint64(number), Time: uint64(info.time), ID: uint32(info.id), Name: stringOf(name), Payload: payload,
		Source: stringOf(source), Addr: addr, Port: uint16(info.port), RelayFactor: uint8(info.relay_factor),
		Deadline: uint64(info.deadline),
	}, nil
}

// forgetFilters discards the filters that a failed query left. To do so, it fires a query without a timeout, which the
// library refuses.
func (a *Agent) forgetFilters() error {
	if !a.staleFilters {
		return nil
	}
	var params C.struct_serf_agent_params
	return checkForgotten(C.serf_agent_query(a.handle, 0, 0, &noByte, 0, &noByte, 0, &noByte, 0, &params))
}

// Respond answers a query that was handed out. It returns the packet of the response. Send it to the query's address
// and port.
func (a *Agent) Respond(now, number uint64, payload []byte) ([]byte, error) {
	a.mu.Lock()
	defer a.mu.Unlock()
	if err := a.complete(C.serf_agent_respond(a.handle, C.uint64_t(now), C.uint64_t(number), ptr(payload), size(payload))); err != nil {
		return nil, err
	}
	return a.packet(false)
}

// Forget forgets a query that was handed out and that you won't answer. A query uses memory until you answer or forget
// it, or until CloseDue finds that its deadline has passed.
func (a *Agent) Forget(number uint64) error {
	a.mu.Lock()
	defer a.mu.Unlock()
	return a.complete(C.serf_agent_forget_query(a.handle, C.uint64_t(number)))
}

// NextDeadline returns the earliest deadline of this agent's open queries. The second result is false if no query is
// open.
func (a *Agent) NextDeadline() (uint64, bool, error) {
	a.mu.Lock()
	defer a.mu.Unlock()
	var deadline C.uint64_t
	err := errorOf(C.serf_agent_next_deadline(a.handle, &deadline))
	if err == Nothing {
		return 0, false, nil
	}
	return uint64(deadline), err == nil, err
}

// OpenQueries returns how many of this agent's own queries still accept answers.
func (a *Agent) OpenQueries() (int, error) {
	a.mu.Lock()
	defer a.mu.Unlock()
	var open C.size_t
	err := errorOf(C.serf_agent_open_queries(a.handle, &open))
	return int(open), err
}
