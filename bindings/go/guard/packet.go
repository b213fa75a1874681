package guard

import (
	"crypto/cipher"
	"encoding/binary"
	"hash/crc32"
	"net"
)

// inspector inspects packets, one at a time.
type inspector struct {
	*core
	// plain and inflated are buffers for decrypted and decompressed content. parts has the parts of a compound that the
	// inspector keeps.
	plain, inflated []byte
	parts           [][]byte
	// from is the address of the packet's sender.
	from net.Addr
}

func newInspector(c *core) *inspector {
	return &inspector{core: c, plain: make([]byte, 0, c.bounds.PacketBytes), inflated: make([]byte, 0, c.bounds.PacketBytes+1)}
}

// checksumHeader is the length in bytes of the type and the CRC before a packet's content (net.go, ingestPacket).
const checksumHeader = 5

// unwrap removes a packet's wrappers, and returns a compound or a single message. memberlist accepts wrappers in only
// one order: encryption, checksum, compression, compound. If needsEncryption is false, plain packets are accepted
// although there are keys.
func (ins *inspector) unwrap(packet []byte, needsEncryption bool) (body []byte, ciphers []cipher.AEAD, reason Reason) {
	if len(packet) == 0 {
		return nil, nil, Empty
	}
	body = packet
	if ciphers = ins.ring.currentCiphers(); len(ciphers) > 0 {
		body, reason = open(ciphers, packet, nil, ins.plain)
		switch {
		case reason == Sealed && !needsEncryption:
			// memberlist reads the packet without decrypting it.
			body, ciphers, reason = packet, nil, none
		case reason == Sealed && !ins.looksEncrypted(packet):
			return nil, nil, Plain
		case reason != none:
			return nil, nil, reason
		}
	}
	if body[0] == msgChecksum && len(body) >= checksumHeader {
		if binary.BigEndian.Uint32(body[1:]) != crc32.ChecksumIEEE(body[checksumHeader:]) {
			return nil, nil, Checksum
		}
		body = body[checksumHeader:]
	}
	if len(body) == 0 {
		return nil, nil, Empty
	}
	if body[0] == msgCompress {
		body, reason = ins.decompress(body[1:])
	}
	return body, ciphers, reason
}

// looksEncrypted reports whether a packet that no key decrypts has the form of an encrypted one.
func (ins *inspector) looksEncrypted(packet []byte) bool {
	return len(packet) >= sealOverhead && packet[0] <= sealVersion
}

// decompress returns the content of a compressed message.
func (ins *inspector) decompress(packed []byte) ([]byte, Reason) {
	r := newReader(packed)
	var values [maxFields]value
	if reason := r.readFields(ins.schemas.byType[msgCompress], &values); reason != none {
		return nil, reason
	}
	if r.At < len(packed) {
		return nil, Trailing
	}
	return inflate(values[fieldCompressBuf].bytes, ins.inflated, ins.bounds.PacketBytes, nil)
}

// inspect returns the bytes of a packet that memberlist may read: all of them, or a compound without its bad parts, or
// nil if nothing is left. It counts each drop.
func (ins *inspector) inspect(packet []byte) []byte {
	if len(packet) > ins.bounds.PacketBytes {
		ins.drops.add(TooLong)
		return nil
	}
	body, ciphers, reason := ins.unwrap(packet, ins.verifyIn)
	if reason == none && body[0] != msgCompound {
		reason = ins.inspectMessage(body)
	}
	if reason != none {
		ins.drops.add(reason)
		return nil
	}
	if body[0] != msgCompound {
		return packet
	}
	isChanged, reason := ins.inspectCompound(body[1:])
	switch {
	case reason != none:
		ins.drops.add(reason)
		return nil
	case !isChanged:
		return packet
	case len(ins.parts) == 0:
		return nil
	}
	out := encodeCompound(ins.parts)
	if len(ciphers) > 0 {
		out = seal(ciphers[0], make([]byte, 0, sealOverhead+len(out)), out, nil)
	}
	return out
}

// maxParts is the maximum number of parts of a compound. With more parts, memberlist's count would overflow, since it
// doubles the number in a byte (util.go, decodeCompoundMessage).
const maxParts = 127

// inspectCompound collects in ins.parts the parts that memberlist may read. isChanged is true if it leaves some out.
func (ins *inspector) inspectCompound(body []byte) (isChanged bool, reason Reason) {
	ins.parts = ins.parts[:0]
	if len(body) == 0 || body[0] == 0 || body[0] > maxParts || len(body) < 1+2*int(body[0]) {
		return false, Parts
	}
	count := int(body[0])
	lengths, rest := body[1:1+2*count], body[1+2*count:]
	for i := 0; i < count; i++ {
		length := int(binary.BigEndian.Uint16(lengths[2*i:]))
		if length > len(rest) {
			ins.drops.add(Parts)
			return true, none
		}
		part := rest[:length]
		rest = rest[length:]
		if reason := ins.inspectMessage(part); reason != none {
			ins.drops.add(reason)
			isChanged = true
			continue
		}
		ins.parts = append(ins.parts, part)
	}
	if len(rest) > 0 {
		ins.drops.add(Trailing)
		isChanged = true
	}
	return isChanged, none
}

// encodeCompound makes a compound of the parts.
func encodeCompound(parts [][]byte) []byte {
	out := []byte{msgCompound, byte(len(parts))}
	for _, part := range parts {
		out = binary.BigEndian.AppendUint16(out, uint16(len(part)))
	}
	for _, part := range parts {
		out = append(out, part...)
	}
	return out
}

// inspectMessage inspects one message of a packet (net.go, handleCommand).
func (ins *inspector) inspectMessage(message []byte) Reason {
	if len(message) == 0 {
		return Empty
	}
	switch msgType := message[0]; {
	case msgType == msgUser:
		return none
	case isWrapper(msgType):
		return Nested
	case msgType >= msgErr || msgType == msgPushPull:
		return Kind
	}
	r := newReader(message[1:])
	var values [maxFields]value
	if reason := r.readFields(ins.schemas.byType[message[0]], &values); reason != none {
		return reason
	}
	if r.At < len(r.Data) {
		return Trailing
	}
	return ins.checkState(message, &values)
}

// checkState makes the checks that need more than the message itself: the pings that were sent, the rate of indirect
// pings, the known members, and the candidates.
func (ins *inspector) checkState(message []byte, values *[maxFields]value) Reason {
	switch message[0] {
	case msgAck, msgNack:
		number := uint32(values[fieldSeqNo].number)
		isOurs := message[0] == msgAck && ins.candidates.acceptAck(number)
		if !ins.pings.isExpected(number) {
			if isOurs {
				return held
			}
			return Unasked
		}
	case msgIndirectPing:
		if !ins.indirectPings.allows(ins.bounds.IndirectPings) {
			return Rate
		}
	case msgSuspect, msgDead:
		if ins.candidates.holdLater(values[fieldSuspectNode].bytes, message) {
			return held
		}
	case msgAlive:
		return ins.checkAlive(aliveReport(values))
	}
	return none
}

// recordSentPing records the sequence number if a packet that is sent contains a ping. The ping is the packet's first
// message.
func (ins *inspector) recordSentPing(packet []byte) {
	body, _, reason := ins.unwrap(packet, ins.verifyOut)
	if reason == none && body[0] == msgCompound && len(body) > 4 && len(body) > 2+2*int(body[1]) {
		body = body[2+2*int(body[1]):]
	}
	if reason != none {
		if reason != Inflated { // No ping is that long.
			ins.pings.addUnreadable()
		}
		return
	}
	if body[0] > msgIndirectPing {
		return
	}
	r := newReader(body[1:])
	var values [maxFields]value
	if reason := r.readFields(ins.schemas.byType[body[0]], &values); reason != none {
		ins.pings.addUnreadable()
		return
	}
	ins.pings.add(uint32(values[fieldSeqNo].number))
}
