package serfagent

// #include "serf_agent.h"
import "C"

import "fmt"

// Code is the reason why the library refused a call.
type Code uint32

// include/serf_agent.h describes each code. If a packet is refused with NoMessage, PacketErrorOf returns the reason.
const (
	Empty          Code = C.SERF_AGENT_EMPTY
	InUse          Code = C.SERF_AGENT_IN_USE
	Pending        Code = C.SERF_AGENT_PENDING
	Nothing        Code = C.SERF_AGENT_NOTHING
	OutOfMemory    Code = C.SERF_AGENT_OUT_OF_MEMORY
	BadConfig      Code = C.SERF_AGENT_BAD_CONFIG
	SinkError      Code = C.SERF_AGENT_SINK_ERROR
	Stopped        Code = C.SERF_AGENT_STOPPED
	TooLarge       Code = C.SERF_AGENT_TOO_LARGE
	Exhausted      Code = C.SERF_AGENT_EXHAUSTED
	NoMessage      Code = C.SERF_AGENT_NO_MESSAGE
	RespondersFull Code = C.SERF_AGENT_RESPONDERS_FULL
	NotPushPull    Code = C.SERF_AGENT_NOT_PUSH_PULL
	TooLong        Code = C.SERF_AGENT_TOO_LONG
	NoTime         Code = C.SERF_AGENT_NO_TIME
	PastDeadline   Code = C.SERF_AGENT_PAST_DEADLINE
	NotPending     Code = C.SERF_AGENT_NOT_PENDING
)

var codeTexts = []string{
	"ok", "the agent is closed", "the handle already has an agent", "bytes for the file are pending", "there is no such item",
	"out of memory", "the settings are out of bounds", "the sink failed", "the agent is stopped",
	"the event, query or response is too large", "the clock is exhausted", "the packet is not a Serf message",
	"the query has as many answers as it accepts", "the packet is not a push/pull", "a text or a list is too long",
	"the query has no timeout", "the deadline of the query has passed", "no query with this number is waiting for an answer",
}

func (c Code) Error() string {
	if int(c) < len(codeTexts) {
		return codeTexts[c]
	}
	return fmt.Sprintf("code %d", uint32(c))
}

// errorOf returns the error for a code of the library, or nil for SERF_AGENT_OK.
func errorOf(code C.uint32_t) error {
	if code == C.SERF_AGENT_OK {
		return nil
	}
	return Code(code)
}
