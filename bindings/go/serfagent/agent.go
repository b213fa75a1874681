// Package serfagent is the Go binding of the proved Serf agent. An Agent keeps its snapshot in a file.
//
// Each call flushes the lines that it wrote before it returns, so no event reaches a handler before its line is on the
// disk. If the file fails, the agent is closed: open it again on the same file. You may make calls from any goroutine;
// they run one at a time. Moments (now) are nanoseconds of one clock that never goes back.
//
// The library is proved. This package is tested. It needs Linux on x86-64 or aarch64, and cgo. This folder has the
// header and the memory functions that the library calls. In a release, it also has the libraries: libserf_agent_c.a
// for x86-64 and libserf_agent_c_arm64.a for aarch64. In a clone of the repository, the package links the library for
// x86-64 that is built in crates/serf_agent_c/out. To make the linker search another folder first, set CGO_LDFLAGS=-L
// followed by its path.
package serfagent

/*
#cgo CFLAGS: -I${SRCDIR}
#cgo linux,amd64 LDFLAGS: -L${SRCDIR} -L${SRCDIR}/../../../crates/serf_agent_c/out -lserf_agent_c
#cgo linux,arm64 LDFLAGS: -L${SRCDIR} -lserf_agent_c_arm64
#include "serf_agent.h"
#include <stdlib.h>
*/
import "C"

import (
	"runtime"
	"sync"
	"sync/atomic"
	"unsafe"
)

// Agent is a proved agent with its snapshot.
type Agent struct {
	mu     sync.Mutex
	handle *C.struct_serf_agent // in C's memory, which Go neither moves nor copies
	store  textStore
	// staleFilters and staleMembers are set if a failed call may have left filters, or members, that the library would
	// add to the next call.
	staleFilters, staleMembers bool
	// unread has the calls of bursts whose outcomes have not been read yet.
	unread []burstCall
	// unreadIndex is the index of the first unread call in its burst.
	unreadIndex int
	// flushes is the number of flushes and replacements of the file.
	flushes atomic.Uint64
	// buffer receives texts from the library. The package copies each text out of it.
	buffer []byte
	// batch has the firings of a burst that C makes in one call. pending has the bytes that the library wants to write
	// to the file.
	batch   firingBatch
	pending C.struct_serf_agent_bytes
	// appendix has the host's lines, which follow the library's text when the file is replaced.
	appendix []byte
}

// nameBytes is the size in bytes of the part of the buffer for an event's name. bufferBytes is the size of the whole
// buffer.
const (
	nameBytes   = 128
	bufferBytes = 8192
)

// noByte is a byte whose address C gets if there are no bytes.
var noByte C.uint8_t

// ptr returns the address of bytes for C, which needs one even if there are no bytes. The library only reads the bytes
// of a string.
func ptr[Bytes string | []byte](data Bytes) *C.uint8_t {
	if len(data) == 0 {
		return &noByte
	}
	// (a string and a slice both begin with the address of their bytes)
	return *(**C.uint8_t)(unsafe.Pointer(&data))
}

func size[Bytes string | []byte](data Bytes) C.size_t { return C.size_t(len(data)) }

// stringOf returns the bytes as a string, without a copy. Nothing may change the bytes afterwards.
func stringOf(data []byte) string { return *(*string)(unsafe.Pointer(&data)) }

// textStore keeps an agent's snapshot text: a Store, or memory.
type textStore interface {
	Append(data []byte) error
	AppendUnflushed(data []byte) error
	Replace(data []byte) error
	TextSize() int64
	Check() error
	Close() error
}

// Open opens or creates the file at path, and opens an agent with this name on the file's text. If a setting is out of
// its bounds, the error is a SettingError.
func Open(name, path string, settings Settings) (*Agent, error) {
	agent, _, err := OpenWithText(name, path, settings)
	return agent, err
}

// OpenWithText is like Open, and also returns the text on which it opened the agent: the file's text, without filler. A
// record of the agent's calls begins with this text.
func OpenWithText(name, path string, settings Settings) (*Agent, []byte, error) {
	store, err := OpenStore(path)
	if err != nil {
		return nil, nil, err
	}
	text, err := store.Read()
	if err != nil {
		store.Close()
		return nil, nil, err
	}
	agent, err := open(name, store, text, settings)
	return agent, text, err
}

// memoryStore keeps nothing.
type memoryStore struct{}

func (memoryStore) Append([]byte) error          { return nil }
func (memoryStore) AppendUnflushed([]byte) error { return nil }
func (memoryStore) Replace([]byte) error         { return nil }
func (memoryStore) TextSize() int64              { return 0 }
func (memoryStore) Check() error                 { return nil }
func (memoryStore) Close() error                 { return nil }

// OpenInMemory makes an agent with this name that has no file. Its clocks are lost when it ends, and a later agent with
// the same name may hand out an event again.
func OpenInMemory(name string, settings Settings) (*Agent, error) {
	return open(name, memoryStore{}, nil, settings)
}

// open opens an agent on a text. The agent owns the store. If open fails, it closes the store.
func open(name string, store textStore, text []byte, settings Settings) (*Agent, error) {
	agent := &Agent{
		store: store, buffer: make([]byte, bufferBytes), handle: (*C.struct_serf_agent)(C.calloc(1, C.sizeof_struct_serf_agent)),
	}
	runtime.SetFinalizer(agent, (*Agent).free)
	cSettings := C.struct_serf_agent_settings{
		event_buffer:   C.uint64_t(settings.EventBuffer),
		query_buffer:   C.uint64_t(settings.QueryBuffer),
		event_limit:    C.uint64_t(settings.EventLimit),
		query_limit:    C.uint64_t(settings.QueryLimit),
		response_limit: C.uint64_t(settings.ResponseLimit),
		responders:     C.uint64_t(settings.Responders),
		per_time:       C.uint64_t(settings.PerTime),
		ignore_old:     C.bool(settings.IgnoreOld),
		keep_events:    C.bool(settings.KeepEvents),
	}
	code := C.serf_agent_open(agent.handle, ptr(name), size(name), &cSettings, ptr(text), size(text))
	if err := agent.complete(code); err != nil {
		agent.Close()
		if err == BadConfig {
			err = settings.settingError(name)
		}
		return nil, err
	}
	return agent, nil
}

// Close closes the agent and its file. Calls after that return Empty.
func (a *Agent) Close() error {
	a.mu.Lock()
	defer a.mu.Unlock()
	C.serf_agent_close(a.handle)
	a.unread = nil
	return a.store.Close()
}

// free frees the handle. It is the agent's finalizer.
func (a *Agent) free() {
	C.serf_agent_close(a.handle)
	C.free(unsafe.Pointer(a.handle))
}

// complete writes and flushes the bytes that a call left for the file, even if the library refused the call. It returns
// the call's error. If the file fails, it closes the agent and returns the file's error.
func (a *Agent) complete(code C.uint32_t) error {
	data := a.buffer
	if C.serf_agent_pending(a.handle, &a.pending, ptr(data), size(data)) != C.SERF_AGENT_OK ||
		(a.pending.len == 0 && !bool(a.pending.replaces)) {
		return errorOf(code)
	}
	var err error
	if int(a.pending.len) > len(data) {
		data = make([]byte, a.pending.len)
		err = errorOf(C.serf_agent_pending(a.handle, &a.pending, ptr(data), size(data)))
	}
	data = data[:a.pending.len]
	if err == nil && bool(a.pending.replaces) {
		err = a.store.Replace(append(data[:len(data):len(data)], a.appendix...))
	} else if err == nil {
		err = a.store.Append(data)
	}
	if err != nil {
		C.serf_agent_close(a.handle)
		a.unread = nil
		a.store.Close()
		return err
	}
	a.flushes.Add(1)
	if err := errorOf(C.serf_agent_flushed(a.handle)); err != nil {
		return err
	}
	return errorOf(code)
}

// Flushes returns how often the file was flushed or replaced since the agent was opened. It doesn't wait for calls.
func (a *Agent) Flushes() uint64 { return a.flushes.Load() }

// result returns the result of the last call.
func (a *Agent) result() (C.struct_serf_agent_result, error) {
	var result C.struct_serf_agent_result
	err := errorOf(C.serf_agent_result(a.handle, &result))
	return result, err
}

// event returns an event that the last call handed out. The buffer is large enough for the texts of most events.
func (a *Agent) event(index int) (*Event, error) {
	var info C.struct_serf_agent_event
	name, payload := a.buffer[:nameBytes], a.buffer[nameBytes:]
	for {
		code := C.serf_agent_event(a.handle, C.size_t(index), &info, ptr(name), size(name), ptr(payload), size(payload))
		if err := errorOf(code); err != nil {
			return nil, err
		}
		length, payloadLength := int(info.name_len), int(info.payload_len)
		if length <= len(name) && payloadLength <= len(payload) {
			texts := append(append(make([]byte, 0, length+payloadLength), name[:length]...), payload[:payloadLength]...)
			return &Event{uint64(info.time), stringOf(texts[:length]), texts[length:], bool(info.coalesce)}, nil
		}
		name, payload = make([]byte, length), make([]byte, payloadLength)
	}
}

// packet returns the packet that the last call made for sending. If isAck is true, it returns this node's own ack
// instead. It returns nil if there is none.
func (a *Agent) packet(isAck bool) ([]byte, error) {
	var length C.size_t
	for buffer := a.buffer; ; buffer = make([]byte, length) {
		var err error
		if isAck {
			err = errorOf(C.serf_agent_ack(a.handle, &length, ptr(buffer), size(buffer)))
		} else {
			err = errorOf(C.serf_agent_packet(a.handle, &length, ptr(buffer), size(buffer)))
		}
		if err == Nothing {
			return nil, nil
		}
		if err != nil {
			return nil, err
		}
		if int(length) <= len(buffer) {
			return append(make([]byte, 0, length), buffer[:length]...), nil
		}
	}
}

// countedAnswer reads the ack or the response in a packet that the agent counted.
func countedAnswer(packet []byte) (*Answer, error) {
	var info C.struct_serf_agent_answer
	var from, payload []byte
	// The first call returns the lengths, and the second one the texts.
	for i := 0; i < 2; i++ {
		from, payload = make([]byte, info.from_len), make([]byte, info.payload_len)
		code := C.serf_agent_answer(ptr(packet), size(packet), &info, ptr(from), size(from), ptr(payload), size(payload))
		if err := errorOf(code); err != nil {
			return nil, err
		}
	}
	return &Answer{uint64(info.time), uint32(info.id), stringOf(from), payload}, nil
}

// Receive handles a packet from the network. tagsPass says whether this node's tags pass every tag filter of the
// packet's query, which FiltersOf returns. If they do, and the other filters let this node pass, the query is handed
// out. Pass true only if every tag filter could be read and passes. A host without tags passes false.
func (a *Agent) Receive(now uint64, packet []byte, tagsPass bool) (*Received, error) {
	a.mu.Lock()
	defer a.mu.Unlock()
	code := C.serf_agent_receive(a.handle, C.uint64_t(now), ptr(packet), size(packet), C.bool(tagsPass))
	if err := a.complete(code); err != nil {
		return nil, err
	}
	return a.receivedResult(packet)
}

// receivedResult returns the result of a received packet.
func (a *Agent) receivedResult(packet []byte) (*Received, error) {
	result, err := a.result()
	if err != nil {
		return nil, err
	}
	received := &Received{
		Kind: Kind(result.kind), Reason: Reason(result.reason), Rebroadcast: bool(result.rebroadcast), Foreign: uint8(result.foreign),
	}
	if result.events > 0 {
		if received.Event, err = a.event(0); err != nil {
			return nil, err
		}
	}
	if received.Query, err = a.pendingQuery(result.handed); err != nil {
		return nil, err
	}
	if received.Kind == Ack || received.Kind == Response {
		if received.Answer, err = countedAnswer(packet); err != nil {
			return nil, err
		}
	}
	if received.Query != nil {
		received.Ack, err = a.packet(true)
	}
	return received, err
}

// Fire fires an event. It returns the event as it is handed out on this node, and the packet to send.
func (a *Agent) Fire(name string, payload []byte, coalesce bool) (*Event, []byte, error) {
	a.mu.Lock()
	defer a.mu.Unlock()
	if err := a.complete(C.serf_agent_fire(a.handle, ptr(name), size(name), ptr(payload), size(payload), C.bool(coalesce))); err != nil {
		return nil, nil, err
	}
	return a.firedEvent()
}

// firedEvent returns the result of a firing.
func (a *Agent) firedEvent() (*Event, []byte, error) {
	event, err := a.event(0)
	if err != nil {
		return nil, nil, err
	}
	packet, err := a.packet(false)
	return event, packet, err
}

// Merge merges another agent's whole state. It returns the events to hand out, in order.
//
// If memory runs out (OutOfMemory), Merge returns the events that it accepted before, together with that error. Handle
// them as well, since no later merge hands them out again.
func (a *Agent) Merge(packet []byte, isJoin bool) ([]*Event, error) {
	a.mu.Lock()
	defer a.mu.Unlock()
	callErr := a.complete(C.serf_agent_merge(a.handle, ptr(packet), size(packet), C.bool(isJoin)))
	if callErr != nil && callErr != OutOfMemory {
		return nil, callErr
	}
	events, err := a.mergedEvents()
	if err != nil {
		return nil, err
	}
	return events, callErr
}

// mergedEvents returns the events that a merge accepted, in order. If the merge was refused before it began, there are
// none: the library then still has the result of the call before.
func (a *Agent) mergedEvents() ([]*Event, error) {
	result, err := a.result()
	if err != nil || result.kind != C.SERF_AGENT_RESULT_MERGED {
		return nil, err
	}
	events := make([]*Event, result.events)
	for i := range events {
		if events[i], err = a.event(i); err != nil {
			return nil, err
		}
	}
	return events, nil
}

// checkForgotten returns an error if a call has not discarded the leftover filters or members. Every call of this kind
// discards them unless memory runs out.
func checkForgotten(code C.uint32_t) error {
	if code == C.SERF_AGENT_OUT_OF_MEMORY {
		return OutOfMemory
	}
	return nil
}

// Compact replaces the file's text by one line for each clock and, if the settings keep events, the lines of the events
// and queries in the buffers.
func (a *Agent) Compact() error { return a.CompactWith(nil) }

// CompactWith is like Compact, and also writes the host's own lines after those of the library, in the same replacement
// of the file. Each of these lines has to end with a newline. The library skips them when it reads the file.
func (a *Agent) CompactWith(lines []byte) error {
	a.mu.Lock()
	defer a.mu.Unlock()
	code := C.serf_agent_compact(a.handle)
	a.appendix = lines
	defer func() { a.appendix = nil }()
	return a.complete(code)
}

// Clocks returns the agent's clocks.
func (a *Agent) Clocks() (Clocks, error) {
	a.mu.Lock()
	defer a.mu.Unlock()
	var clocks C.struct_serf_agent_clocks
	err := errorOf(C.serf_agent_clocks(a.handle, &clocks))
	return Clocks{
		uint64(clocks.member), uint64(clocks.event), uint64(clocks.query), uint64(clocks.event_minimum), uint64(clocks.query_minimum),
	}, err
}
