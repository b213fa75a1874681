package guard

import (
	"fmt"
	"sync/atomic"
)

// Reason is the reason why something was dropped. The set of reasons is fixed, so nothing that the network sends can
// add one.
type Reason uint8

// These are the reasons for which the guard drops a packet, a part of a packet, a stream or an entry of a push/pull.
const (
	none Reason = iota
	// TooLong: a packet or a stream with more bytes than its bound. Inflated: a packet or a stream whose content, after
	// decompression, has more bytes than the bound.
	TooLong
	Inflated
	// Empty: no bytes, although memberlist would read the first one.
	Empty
	// Short: a stream that ended, or reached its deadline, within its message. A stream without any bytes isn't
	// counted.
	Short
	// Plain: not encrypted, although it has to be. Sealed: not encrypted with any key that this node has. OldSeal:
	// encrypted with version 0.
	Plain
	Sealed
	OldSeal
	// Checksum: the CRC doesn't match. Compression: the content can't be decompressed.
	Checksum
	Compression
	// Nested: a wrapper that is not allowed there. Kind: a message type that is not allowed here.
	Nested
	Kind
	// Parts: a compound with no parts or more than 127, or one that is cut off. The guard keeps the parts before the
	// cut.
	Parts
	// Malformed: not MessagePack as memberlist writes it, which is a map with each field at most once and of its type.
	// Trailing: bytes after the end.
	Malformed
	Trailing
	// Name, Address, Meta, Versions and Range: a field has a value that is not allowed. Length: too many entries or
	// bytes are announced. Payload: an ack's payload is too long.
	Name
	Address
	Meta
	Versions
	Range
	Length
	Payload
	// Unasked: an ack or nack for a ping that this node did not send. Rate: too many indirect pings in a second.
	Unasked
	Rate
	// Full: a new node, although the maximum number of nodes is known. Unproven: a new node whose address didn't answer a
	// ping, or of which there were too many to ping. Names: a new node at an address that has the maximum number of names.
	Full
	Unproven
	Names
	// Crowded: a stream that was closed in favor of others. It was the oldest incomplete one, or there was no room in
	// time for its bytes or its push/pull.
	Crowded

	reasonCount

	// held: nothing was dropped. Either the guard keeps the message until a candidate answers, or the message was the
	// answer to one of the guard's own pings.
	held
)

var reasonNames = [reasonCount]string{
	"none", "too long", "inflated", "empty", "short", "plain", "sealed", "old seal", "checksum", "compression", "nested", "kind", "parts",
	"malformed", "trailing", "name", "address", "meta", "versions", "range", "length", "payload", "unasked", "rate", "full", "unproven",
	"names", "crowded",
}

func (r Reason) String() string {
	if r >= reasonCount {
		return fmt.Sprintf("reason %d", uint8(r))
	}
	return reasonNames[r]
}

// Reasons returns all reasons.
func Reasons() []Reason {
	all := make([]Reason, 0, reasonCount-1)
	for reason := none + 1; reason < reasonCount; reason++ {
		all = append(all, reason)
	}
	return all
}

// or returns r, or next if r is none.
func (r Reason) or(next Reason) Reason {
	if r != none {
		return r
	}
	return next
}

// refusalError is the error that a refused stream returns to memberlist.
type refusalError Reason

func (r refusalError) Error() string {
	text := Reason(r).String()
	switch Reason(r) {
	case Full:
		text = "the node knows as many members as its limit allows, so it admits no new one"
	case Unproven:
		text = "the node admits no new member whose address doesn't answer its ping (UDP)"
	case Names:
		text = "the node knows as many members at that IP address as its limit allows, so it admits no new one there"
	}
	return "guard: " + text
}

// drops has the number of drops for each reason.
type drops [reasonCount]atomic.Uint64

// add counts a drop. Reasons that drop nothing, such as none and held, are not counted.
func (d *drops) add(reason Reason) {
	if reason != none && reason < reasonCount {
		d[reason].Add(1)
	}
}

// counts returns the counts that aren't 0.
func (d *drops) counts() map[Reason]uint64 {
	nonzero := map[Reason]uint64{}
	for reason := none + 1; reason < reasonCount; reason++ {
		if count := d[reason].Load(); count > 0 {
			nonzero[reason] = count
		}
	}
	return nonzero
}
