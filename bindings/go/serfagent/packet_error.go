package serfagent

// #include "serf_agent.h"
import "C"

import "fmt"

// PacketErrorKind says what is wrong with a packet that is not a message.
type PacketErrorKind uint32

// include/serf_agent.h describes each kind.
const (
	ErrorEmpty       PacketErrorKind = C.SERF_AGENT_ERROR_EMPTY
	ErrorUnknownType PacketErrorKind = C.SERF_AGENT_ERROR_UNKNOWN_TYPE
	ErrorTruncated   PacketErrorKind = C.SERF_AGENT_ERROR_TRUNCATED
	ErrorUnsupported PacketErrorKind = C.SERF_AGENT_ERROR_UNSUPPORTED
	ErrorTooDeep     PacketErrorKind = C.SERF_AGENT_ERROR_TOO_DEEP
	ErrorTrailing    PacketErrorKind = C.SERF_AGENT_ERROR_TRAILING
	ErrorNotAMap     PacketErrorKind = C.SERF_AGENT_ERROR_NOT_A_MAP
	ErrorBadKey      PacketErrorKind = C.SERF_AGENT_ERROR_BAD_KEY
	ErrorTwice       PacketErrorKind = C.SERF_AGENT_ERROR_TWICE
	ErrorWrongKind   PacketErrorKind = C.SERF_AGENT_ERROR_WRONG_KIND
	ErrorOutOfRange  PacketErrorKind = C.SERF_AGENT_ERROR_OUT_OF_RANGE
	ErrorMaxTime     PacketErrorKind = C.SERF_AGENT_ERROR_MAX_TIME
)

var packetErrorWords = []string{
	"None", "Empty", "UnknownType", "Truncated", "Unsupported", "TooDeep", "Trailing", "NotAMap", "BadKey", "Twice", "WrongKind",
	"OutOfRange", "GreatestTime",
}

// String returns the word that traces use for this kind of error (docs/SPEC.md).
func (k PacketErrorKind) String() string {
	return wordOf(packetErrorWords, "PacketErrorKind", uint32(k))
}

// PacketError is the first error in a packet that is not a message.
type PacketError struct {
	Kind PacketErrorKind
	// Offset is the position of the error in the packet, in bytes. The packet's first byte, its type, has offset 0. If
	// the error has no position, Offset is 0 too.
	Offset int
	// Byte is the byte that is unknown (ErrorUnknownType) or unsupported (ErrorUnsupported), and 0 for other kinds.
	Byte uint8
}

// PacketErrorOf returns the reason why a packet is not a message. If the packet is a message, the second result is
// false. PacketErrorOf needs no agent.
func PacketErrorOf(packet []byte) (PacketError, bool) {
	var found C.struct_serf_agent_packet_error
	return packetErrorFrom(C.serf_agent_packet_error(ptr(packet), size(packet), &found), &found)
}

// IntentErrorOf returns the reason why IntentOf refuses a packet with NoMessage. If IntentOf accepts the packet, the
// second result is false. IntentErrorOf needs no agent.
func IntentErrorOf(packet []byte) (PacketError, bool) {
	var found C.struct_serf_agent_packet_error
	return packetErrorFrom(C.serf_agent_intent_error(ptr(packet), size(packet), &found), &found)
}

// packetErrorFrom converts the library's answer to a PacketError. The second result is false if the library found no
// error.
func packetErrorFrom(code C.uint32_t, found *C.struct_serf_agent_packet_error) (PacketError, bool) {
	if code != C.SERF_AGENT_OK {
		return PacketError{}, false
	}
	return PacketError{PacketErrorKind(found.kind), int(found.offset), uint8(found.byte)}, true
}

func (e PacketError) Error() string {
	switch e.Kind {
	case ErrorEmpty:
		return "the packet is empty"
	case ErrorUnknownType:
		return fmt.Sprintf("no message has the type %d", e.Byte)
	case ErrorTruncated:
		return fmt.Sprintf("the packet ends inside the value at %d", e.Offset)
	case ErrorUnsupported:
		return fmt.Sprintf("the byte %#x at %d doesn't begin a supported value", e.Byte, e.Offset)
	case ErrorTooDeep:
		return fmt.Sprintf("the array or map at %d is inside eight others", e.Offset)
	case ErrorTrailing:
		return fmt.Sprintf("the value ends before %d, and more bytes follow", e.Offset)
	case ErrorNotAMap:
		return "the value is not a map"
	case ErrorBadKey:
		return fmt.Sprintf("the key at %d is not raw", e.Offset)
	case ErrorTwice:
		return fmt.Sprintf("the key at %d appears for the second time", e.Offset)
	case ErrorWrongKind:
		return fmt.Sprintf("the value at %d has the wrong type", e.Offset)
	case ErrorOutOfRange:
		return fmt.Sprintf("the integer at %d is out of range", e.Offset)
	case ErrorMaxTime:
		return fmt.Sprintf("the number at %d is not a valid time", e.Offset)
	}
	return fmt.Sprintf("the packet has the error %d", uint32(e.Kind))
}
