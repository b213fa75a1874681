package serfagent

// #include "serf_agent.h"
import "C"

// Intent is a join intent of a node, or a leave intent.
type Intent struct {
	// Time is the Lamport time that the node which sent the intent took from its member clock. 2^64 - 1 is not a valid
	// time.
	Time uint64
	// Node is the name of the node that joins or leaves.
	Node string
	// Leave is true for a leave intent.
	Leave bool
	// Prune is true if the members should forget the node at once. Only leave intents can have it.
	Prune bool
}

// IntentOf returns the intent of a packet, or nil if the packet is another message. It doesn't check the content of
// other messages. It needs no agent.
//
// The error is NoMessage if the packet is not a message, or is a malformed intent. IntentErrorOf returns the reason.
func IntentOf(packet []byte) (*Intent, error) {
	var info C.struct_serf_agent_intent
	var node []byte
	// The first call returns the length, and the second one the name.
	for i := 0; i < 2; i++ {
		node = make([]byte, info.node_len)
		err := errorOf(C.serf_agent_intent(ptr(packet), size(packet), &info, ptr(node), size(node)))
		if err == Nothing {
			return nil, nil
		}
		if err != nil {
			return nil, err
		}
	}
	return &Intent{uint64(info.time), stringOf(node), bool(info.leave), bool(info.prune)}, nil
}

// Packet returns the packet of the intent, which you can send. It needs no agent. The error is Exhausted if the time is
// 2^64 - 1.
func (i Intent) Packet() ([]byte, error) {
	var length C.size_t
	var packet []byte
	// The first call returns the length, and the second one the packet.
	for n := 0; n < 2; n++ {
		packet = make([]byte, length)
		var code C.uint32_t
		if i.Leave {
			code = C.serf_agent_leave_packet(
				C.uint64_t(i.Time), ptr(i.Node), size(i.Node), C.bool(i.Prune), &length, ptr(packet), size(packet),
			)
		} else {
			code = C.serf_agent_join_packet(C.uint64_t(i.Time), ptr(i.Node), size(i.Node), &length, ptr(packet), size(packet))
		}
		if err := errorOf(code); err != nil {
			return nil, err
		}
	}
	return packet, nil
}
