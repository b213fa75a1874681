package serfagent

// #include "serf_agent.h"
import "C"

import (
	"fmt"
	"time"
)

// Settings are an agent's settings. DefaultSettings returns Serf's.
type Settings struct {
	// EventBuffer is how many Lamport times of events the agent remembers, and QueryBuffer how many of queries: 1 to
	// 65,536 each.
	EventBuffer, QueryBuffer uint64
	// EventLimit is the maximum size of a fired event in bytes. It is at most 9,216.
	EventLimit uint64
	// QueryLimit is the maximum size in bytes of a fired query's packet, and ResponseLimit that of a response's packet.
	// Each is at most 9,216, and 0 means 1,024.
	QueryLimit, ResponseLimit uint64
	// Responders is how many acks, and how many responses, the agent counts for one query. PerTime is how many events,
	// or queries, it accepts with the same Lamport time. Each is 1 to 65,536.
	Responders, PerTime uint64
	// IgnoreOld makes a join ignore the events that were fired before it.
	IgnoreOld bool
	// KeepEvents makes the file keep events and queries, so that a restart resumes with the events and queries that the
	// buffers had. After a restart, the agent then hands out events that the node missed, as long as the buffer reaches
	// back to their times. A join with IgnoreOld drops these events.
	KeepEvents bool
}

// DefaultSettings returns Serf's settings.
func DefaultSettings() Settings {
	return Settings{
		EventBuffer: 512, QueryBuffer: 512, EventLimit: 512, QueryLimit: 1024, ResponseLimit: 1024, Responders: 1024, PerTime: 1024,
	}
}

// SettingError names the setting that was refused, by its field in Settings, or "name" for the node's name. It wraps
// BadConfig.
type SettingError struct {
	Field           string
	Value, Min, Max uint64
}

func (e *SettingError) Error() string {
	if e.Field == "name" {
		return fmt.Sprintf("the name has %d bytes, and must have %d to %d", e.Value, e.Min, e.Max)
	}
	return fmt.Sprintf("%s is %d, and must be between %d and %d", e.Field, e.Value, e.Min, e.Max)
}

func (e *SettingError) Unwrap() error { return BadConfig }

// settingError returns the first setting that is out of the bounds in the header. It is the setting that the library
// refused.
func (s *Settings) settingError(name string) error {
	const maxCount, maxLength = 1 << 16, 9216
	for _, setting := range []SettingError{
		{"name", uint64(len(name)), 1, 128}, {"EventBuffer", s.EventBuffer, 1, maxCount}, {"QueryBuffer", s.QueryBuffer, 1, maxCount},
		{"EventLimit", s.EventLimit, 0, maxLength}, {"QueryLimit", s.QueryLimit, 0, maxLength},
		{"ResponseLimit", s.ResponseLimit, 0, maxLength},
		{"Responders", s.Responders, 1, maxCount}, {"PerTime", s.PerTime, 1, maxCount},
	} {
		if setting := setting; setting.Value < setting.Min || setting.Value > setting.Max {
			return &setting
		}
	}
	return BadConfig
}

// Event is an event that is handed out. Run its handler. The name can have any bytes. The name and the payload are parts
// of one piece of memory, as are those of other short events of the same burst: to keep only a name, copy it by
// strings.Clone.
type Event struct {
	Time     uint64
	Name     string
	Payload  []byte
	Coalesce bool
}

// PendingQuery is a query that is handed out. Run its handler, and answer it by calling Respond with its Number.
type PendingQuery struct {
	Number, Time uint64
	ID           uint32
	Name         string
	Payload      []byte
	// Source is the name of the node that fired the query. Addr and Port are the address to which responses are sent.
	// Addr is the address in bytes, as in a net.IP, but it comes from the network and can have any length.
	Source      string
	Addr        []byte
	Port        uint16
	RelayFactor uint8
	// Deadline is the last moment at which the query can be answered.
	Deadline uint64
}

// Kind is the kind of a received packet.
type Kind uint32

// These are the kinds of received packets.
const (
	NewEvent Kind = C.SERF_AGENT_RESULT_EVENT
	NewQuery Kind = C.SERF_AGENT_RESULT_QUERY
	Ack      Kind = C.SERF_AGENT_RESULT_ACK
	Response Kind = C.SERF_AGENT_RESULT_RESPONSE
	Ignored  Kind = C.SERF_AGENT_RESULT_IGNORED
	Foreign  Kind = C.SERF_AGENT_RESULT_FOREIGN
	PushPull Kind = C.SERF_AGENT_RESULT_PUSH_PULL
)

var kindWords = []string{"Nothing", "NewEvent", "NewQuery", "Ack", "Response", "Ignored", "Foreign", "PushPull"}

func (k Kind) String() string { return wordOf(kindWords, "Kind", uint32(k)) }

// wordOf returns the word for a number, or the kind and the number if there is no word.
func wordOf(words []string, kind string, number uint32) string {
	if int(number) < len(words) {
		return words[number]
	}
	return fmt.Sprintf("%s %d", kind, number)
}

// Reason is the reason why a packet was ignored.
type Reason uint32

// These are the reasons why a packet can be ignored. If a packet was accepted, its reason is 0.
const (
	Oversize        Reason = C.SERF_AGENT_OVERSIZE
	BelowMinimum    Reason = C.SERF_AGENT_BELOW_MINIMUM
	TooOld          Reason = C.SERF_AGENT_TOO_OLD
	Seen            Reason = C.SERF_AGENT_SEEN
	TimeFull        Reason = C.SERF_AGENT_TIME_FULL
	NotOpen         Reason = C.SERF_AGENT_NOT_OPEN
	OtherID         Reason = C.SERF_AGENT_OTHER_ID
	AfterDeadline   Reason = C.SERF_AGENT_CLOSED
	AckNotRequested Reason = C.SERF_AGENT_ACK_NOT_REQUESTED
	AckTwice        Reason = C.SERF_AGENT_ACK_TWICE
	ResponseTwice   Reason = C.SERF_AGENT_RESPONSE_TWICE
)

var reasonWords = []string{
	"None", "Oversize", "BelowMinimum", "TooOld", "Seen", "TimeFull", "NotOpen", "OtherId", "Closed", "AckNotAsked", "AckTwice",
	"ResponseTwice",
}

// String returns the word that traces use for the reason (docs/SPEC.md).
func (r Reason) String() string { return wordOf(reasonWords, "Reason", uint32(r)) }

// Answer is an ack or a response that was counted. It has the Lamport time and the ID of its query, the name of the
// node that sent it, and the payload if it is a response.
type Answer struct {
	Time    uint64
	ID      uint32
	From    string
	Payload []byte
}

// Received is the result of a received packet. If Rebroadcast is true, send the packet on unchanged.
type Received struct {
	Kind        Kind
	Reason      Reason
	Event       *Event
	Query       *PendingQuery
	Ack         []byte
	Answer      *Answer
	Rebroadcast bool
	Foreign     uint8
}

// DefaultQueryTimeout is how long a query accepts answers if its Timeout is 0. It is Serf's timeout in a cluster of 10 to
// 99 nodes: 16 gossip intervals of 0.2 seconds for each digit of the number of nodes.
const DefaultQueryTimeout = 6400 * time.Millisecond

// QueryParams are the parameters of a query to fire. Timeout is how long the agent accepts answers; 0 means
// DefaultQueryTimeout. Addr and Port are the address to which answers are sent; Addr is the address in bytes, as in a
// net.IP.
type QueryParams struct {
	Timeout              time.Duration
	Addr                 []byte
	Port                 uint16
	RelayFactor          uint8
	WantAck, NoBroadcast bool
	// TagsPass says that this node's tags pass every tag filter in Filters, so that the query may be handed out on this
	// node.
	TagsPass bool
	Filters  [][]byte
}

// FiredQuery is a query that was fired. It has the packet to send, and the query's Lamport time, which is also in each
// Answer to the query. If the query is handed out on this node, it also has the PendingQuery and this node's own ack.
type FiredQuery struct {
	Packet []byte
	Query  *PendingQuery
	Ack    []byte
	Time   uint64
}

// Clocks are an agent's clocks, and the minimum times that it accepts.
type Clocks struct {
	Member, Event, Query, EventMinimum, QueryMinimum uint64
}
