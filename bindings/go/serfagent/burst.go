package serfagent

/*
#include "serf_agent.h"

// A firing. Before the call, it has the lengths of its texts. One buffer has the texts of all firings, in order. After
// the firing was read, it also has its time and the length of its packet, and the buffer has the texts as they are
// handed out and the packets of all firings, in order.
struct firing {
    uint64_t time;
    size_t name_len, payload_len, packet_len;
    uint32_t outcome_code;
    bool coalesce;
};

// How many firings were made or read, and the code of the call that ended the loop.
struct progress {
    size_t count;
    uint32_t code;
};

static struct progress fire_all(struct serf_agent *handle, struct firing *firings, size_t count, const uint8_t *texts) {
    for (size_t i = 0; i < count; i++) {
        struct firing *firing = &firings[i];
        const uint8_t *payload = texts + firing->name_len;
        uint32_t code = serf_agent_burst_fire(handle, texts, firing->name_len, payload, firing->payload_len, firing->coalesce);
        if (code == SERF_AGENT_OUT_OF_MEMORY || code == SERF_AGENT_EMPTY)
            return (struct progress){i, code};
        texts += firing->name_len + firing->payload_len;
    }
    return (struct progress){count, SERF_AGENT_OK};
}

static struct progress read_all(struct serf_agent *handle, struct firing *firings, size_t count, uint8_t *texts,
                                size_t packet_overhead) {
    for (size_t i = 0; i < count; i++) {
        struct firing *firing = &firings[i];
        struct serf_agent_event info;
        uint32_t code = serf_agent_next(handle, &firing->outcome_code);
        if (code == SERF_AGENT_OK && firing->outcome_code == SERF_AGENT_OK) {
            uint8_t *payload = texts + firing->name_len, *packet = payload + firing->payload_len;
            code = serf_agent_event(handle, 0, &info, texts, firing->name_len, payload, firing->payload_len);
            if (code == SERF_AGENT_OK)
                code = serf_agent_packet(handle, &firing->packet_len, packet,
                                         firing->name_len + firing->payload_len + packet_overhead);
            firing->time = info.time;
            firing->coalesce = info.coalesce;
            texts = packet + firing->packet_len;
        }
        if (code != SERF_AGENT_OK)
            return (struct progress){i, code};
    }
    return (struct progress){count, SERF_AGENT_OK};
}
*/
import "C"

import "errors"

// ErrUnread says that outcomes of an earlier burst are still unread, because memory ran out while Burst read them. Call
// Outcomes to read them.
var ErrUnread = errors.New("outcomes of an earlier burst are unread")

// Burst is a list of calls that Agent.Burst makes one after another, with a single flush for all of them. The zero
// value is empty. A burst keeps the slices that you pass to its methods: don't change them before Agent.Burst has
// returned.
type Burst struct {
	calls []burstCall
}

// Outcome is the result of a call of a burst. One of Received, Fired, FiredQuery and Err is set. Err is the reason if
// the call was refused, for example NoMessage.
type Outcome struct {
	// Call is the call's index in its burst.
	Call       int
	Received   *Received
	Fired      *Fired
	FiredQuery *FiredQuery
	Err        error
}

// Fired is an event as it is handed out on this node, and the packet to send.
type Fired struct {
	Event  *Event
	Packet []byte
}

// burstCall is a call of a burst: a packet, an event, or a query with its parameters.
type burstCall struct {
	kind     burstKind
	now      uint64
	id       uint32
	packet   []byte
	tagsPass bool
	name     string
	payload  []byte
	coalesce bool
	params   QueryParams
}

type burstKind int

const (
	receiveCall burstKind = iota
	fireCall
	queryCall
)

// Receive adds a received packet. now and tagsPass mean the same as for Agent.Receive.
func (b *Burst) Receive(now uint64, packet []byte, tagsPass bool) {
	b.calls = append(b.calls, burstCall{kind: receiveCall, now: now, packet: packet, tagsPass: tagsPass})
}

// Fire adds an event to fire.
func (b *Burst) Fire(name string, payload []byte, coalesce bool) {
	b.calls = append(b.calls, burstCall{kind: fireCall, name: name, payload: payload, coalesce: coalesce})
}

// Query adds a query to fire. Choose id at random.
func (b *Burst) Query(now uint64, id uint32, name string, payload []byte, params QueryParams) {
	b.calls = append(b.calls, burstCall{kind: queryCall, now: now, id: id, name: name, payload: payload, params: params})
}

// Len returns the number of calls in the burst.
func (b *Burst) Len() int { return len(b.calls) }

// Reset removes all calls, so that the burst can be filled again.
func (b *Burst) Reset() {
	for i := range b.calls {
		b.calls[i] = burstCall{}
	}
	b.calls = b.calls[:0]
}

// Burst makes the calls of a burst one after another, flushes the lines of all of them together, and returns their
// outcomes in order. A refused call, for example one with a packet that is no message, also has an outcome.
//
// If memory runs out, Burst makes no further call, and returns OutOfMemory with the outcomes that it has read. These
// outcomes are valid. If it has made more calls than it returns outcomes, Outcomes returns the rest; until then, every
// other burst is refused with ErrUnread. If the file fails, the agent is closed, and Burst returns no outcomes.
func (a *Agent) Burst(burst *Burst) ([]Outcome, error) {
	a.mu.Lock()
	defer a.mu.Unlock()
	if len(a.unread) > 0 {
		return nil, ErrUnread
	}
	if err := a.forgetFilters(); err != nil {
		return nil, err
	}
	a.unreadIndex = 0
	callErr := a.makeCalls(burst.calls)
	if err := a.complete(C.SERF_AGENT_OK); err != nil {
		return nil, err
	}
	outcomes, err := a.outcomes()
	// The unread calls are copied, because the caller may fill its burst with other calls before it reads their
	// outcomes.
	a.unread = append([]burstCall(nil), a.unread...)
	if err != nil {
		return outcomes, err
	}
	return outcomes, callErr
}

// Outcomes returns the outcomes that a burst could not return because memory ran out.
func (a *Agent) Outcomes() ([]Outcome, error) {
	a.mu.Lock()
	defer a.mu.Unlock()
	return a.outcomes()
}

// UnreadOutcomes returns how many outcomes of bursts are unread.
func (a *Agent) UnreadOutcomes() (int, error) {
	a.mu.Lock()
	defer a.mu.Unlock()
	var total C.size_t
	err := errorOf(C.serf_agent_outcomes(a.handle, &total))
	return int(total), err
}

// makeCalls makes the calls up to the first one for which memory runs out. Their outcomes are then unread.
func (a *Agent) makeCalls(calls []burstCall) error {
	a.staleFilters = false
	for next := 0; next < len(calls); {
		var code C.uint32_t
		if firings := leadingFirings(calls[next:]); len(firings) > 0 {
			progress := a.fireEvents(firings)
			next, code = next+int(progress.count), progress.code
		} else if code = a.makeCall(&calls[next]); code != C.SERF_AGENT_OUT_OF_MEMORY && code != C.SERF_AGENT_EMPTY {
			next, code = next+1, C.SERF_AGENT_OK
		}
		if a.unread = calls[:next]; code != C.SERF_AGENT_OK {
			return Code(code)
		}
	}
	return nil
}

// leadingFirings returns the firings at the start of calls, up to the first call of another kind.
func leadingFirings(calls []burstCall) []burstCall {
	for i := range calls {
		if calls[i].kind != fireCall {
			return calls[:i]
		}
	}
	return calls
}

// firingBatch holds firings for which Go calls C only twice: one call fires all events, and another one reads all outcomes. That
// saves time, since a call from Go to C takes longer than firing an event.
type firingBatch struct {
	firings []C.struct_firing
	texts   []byte
}

// packetOverhead is the maximum number of bytes that an event's packet has in addition to the event's texts.
const packetOverhead = 64

// prepare fills the batch with the firings of these calls, and returns the total length of their texts in bytes.
func (b *firingBatch) prepare(calls []burstCall) (length int) {
	b.firings = b.firings[:0]
	for i := range calls {
		call := &calls[i]
		b.firings = append(b.firings, C.struct_firing{
			name_len: size(call.name), payload_len: size(call.payload), coalesce: C.bool(call.coalesce),
		})
		length += len(call.name) + len(call.payload)
	}
	return length
}

// fireEvents fires events. It returns how many were fired, and the code of the last call.
func (a *Agent) fireEvents(calls []burstCall) C.struct_progress {
	batch := &a.batch
	batch.prepare(calls)
	batch.texts = batch.texts[:0]
	for i := range calls {
		batch.texts = append(append(batch.texts, calls[i].name...), calls[i].payload...)
	}
	return C.fire_all(a.handle, &batch.firings[0], C.size_t(len(calls)), ptr(batch.texts))
}

// chunkBytes is the maximum size in bytes of a chunk of memory that several short events share. A caller that keeps one
// of these events keeps the whole chunk in memory.
const chunkBytes = 1 << 10

// readFirings appends the outcomes of firings to outcomes.
func (a *Agent) readFirings(calls []burstCall, outcomes []Outcome) ([]Outcome, error) {
	batch := &a.batch
	room := 2*batch.prepare(calls) + packetOverhead*len(calls)
	if room > cap(batch.texts) {
		batch.texts = make([]byte, room)
	}
	batch.texts = batch.texts[:room]
	progress := C.read_all(a.handle, &batch.firings[0], C.size_t(len(calls)), ptr(batch.texts), packetOverhead)
	a.unread, a.unreadIndex = a.unread[progress.count:], a.unreadIndex+int(progress.count)
	unreadTexts, chunk := batch.texts, []byte(nil)
	events := make([]struct {
		Fired
		Event
	}, progress.count)
	for i := range events {
		info, event, callIndex := &batch.firings[i], &events[i], a.unreadIndex-len(events)+i
		if info.outcome_code != C.SERF_AGENT_OK {
			outcomes = append(outcomes, Outcome{Call: callIndex, Err: Code(info.outcome_code)})
			continue
		}
		nameEnd, payloadEnd := int(info.name_len), int(info.name_len+info.payload_len)
		length := payloadEnd + int(info.packet_len)
		if cap(chunk)-len(chunk) < length {
			chunk = make([]byte, 0, chunkSize(length, len(events)-i))
		}
		start := len(chunk)
		chunk = append(chunk, unreadTexts[:length]...)
		texts := chunk[start:]
		unreadTexts = unreadTexts[length:]
		event.Event = Event{uint64(info.time), stringOf(texts[:nameEnd]), texts[nameEnd:payloadEnd:payloadEnd], bool(info.coalesce)}
		event.Fired = Fired{&event.Event, texts[payloadEnd:length:length]}
		outcomes = append(outcomes, Outcome{Call: callIndex, Fired: &event.Fired})
	}
	return outcomes, errorOf(progress.code)
}

// chunkSize returns how many bytes to allocate for a number of events. length is the length of the first one.
func chunkSize(length, events int) int {
	if length*events < chunkBytes {
		return length * events
	}
	if length < chunkBytes {
		return chunkBytes
	}
	return length
}

// makeCall makes a call of a burst that is not a firing.
func (a *Agent) makeCall(call *burstCall) C.uint32_t {
	if call.kind == receiveCall {
		return C.serf_agent_burst_receive(a.handle, C.uint64_t(call.now), ptr(call.packet), size(call.packet), C.bool(call.tagsPass))
	}
	for _, filter := range call.params.Filters {
		a.staleFilters = true
		if code := C.serf_agent_add_filter(a.handle, ptr(filter), size(filter)); code != C.SERF_AGENT_OK {
			return code
		}
	}
	cParams := call.params.toC()
	code := C.serf_agent_burst_query(a.handle, C.uint64_t(call.now), C.uint32_t(call.id), ptr(call.name), size(call.name),
		ptr(call.payload), size(call.payload), ptr(call.params.Addr), size(call.params.Addr), &cParams)
	a.staleFilters = a.staleFilters && code == C.SERF_AGENT_OUT_OF_MEMORY
	return code
}

// outcomes reads the outcomes that are still unread.
func (a *Agent) outcomes() (outcomes []Outcome, err error) {
	outcomes = make([]Outcome, 0, len(a.unread))
	for len(a.unread) > 0 && err == nil {
		if firings := leadingFirings(a.unread); len(firings) > 0 {
			outcomes, err = a.readFirings(firings, outcomes)
		} else {
			outcomes, err = a.readOutcome(&a.unread[0], outcomes)
		}
	}
	if err == nil {
		a.unread = nil
	}
	return outcomes, err
}

// readOutcome appends the outcome of a call that is not a firing.
func (a *Agent) readOutcome(call *burstCall, outcomes []Outcome) ([]Outcome, error) {
	var outcomeCode C.uint32_t
	if err := errorOf(C.serf_agent_next(a.handle, &outcomeCode)); err != nil {
		return outcomes, err
	}
	outcome := Outcome{Call: a.unreadIndex, Err: errorOf(outcomeCode)}
	a.unread, a.unreadIndex = a.unread[1:], a.unreadIndex+1
	var err error
	if outcome.Err == nil && call.kind == receiveCall {
		outcome.Received, err = a.receivedResult(call.packet)
	} else if outcome.Err == nil {
		outcome.FiredQuery, err = a.firedQuery()
	}
	if err != nil {
		return outcomes, err
	}
	return append(outcomes, outcome), nil
}
