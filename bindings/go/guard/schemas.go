package guard

import (
	"net"

	"kitchenrue.example/guard/msgpack"
)

// The types of messages, numbered as in memberlist's net.go.
const (
	msgPing byte = iota
	msgIndirectPing
	msgAck
	msgSuspect
	msgAlive
	msgDead
	msgPushPull
	msgCompound
	msgUser
	msgCompress
	msgEncrypt
	msgNack
	msgChecksum
	msgErr
)

// isWrapper reports whether a message of this type contains another message.
func isWrapper(msgType byte) bool {
	return msgType == msgCompound || msgType == msgCompress || msgType == msgChecksum || msgType == msgEncrypt
}

// fieldKind is the kind of value that a field may have.
type fieldKind uint8

const (
	kindNumber  fieldKind = iota // a number from min to max
	kindText                     // min to max bytes
	kindBytes                    // min to max bytes; nil counts as no bytes
	kindAddress                  // 4 or 16 bytes, or also no bytes if min is 0
	kindFlag
)

// field is a field of a message. It is required if min is above 0.
type field struct {
	name     string
	kind     fieldKind
	min, max uint64
	reason   Reason
}

const (
	// maxFields is the maximum number of fields in a message.
	maxFields = 8
	maxUint16 = 1<<16 - 1
	maxUint32 = 1<<32 - 1
	maxName   = 255
	// maxMeta is memberlist's MetaMaxSize.
	maxMeta      = 512
	versionBytes = 6
	// nodeStates is the number of states that a node has: alive, suspect, dead, left.
	nodeStates = 4
	// maxErrorText is the maximum length in bytes of an error message's text.
	maxErrorText = 4096
)

type schema []field

// indexOf returns the index of a field, or -1 if it isn't in the schema.
func (s schema) indexOf(name []byte) int {
	for i := range s {
		if s[i].name == string(name) {
			return i
		}
	}
	return -1
}

// schemas has the fields of each message type, and those of an entry of a push/pull. For a message of a stream, these
// are the fields before the entries or the bytes. The names in a ping may be empty, since memberlist then skips its
// check of the name.
type schemas struct {
	byType [msgErr + 1]schema
	node   schema
}

// These are the indexes of the fields that need more checks than those of their bounds.
const (
	fieldSeqNo                                        = 0 // sequence number of a ping, an indirect ping, an ack and a nack
	fieldAliveIncarnation, fieldAliveNode             = 0, 1
	fieldAliveAddr, fieldAlivePort                    = 2, 3
	fieldAliveMeta, fieldAliveVsn                     = 4, 5
	fieldSuspectNode                                  = 1 // the same index in msgDead
	fieldNodeName, fieldNodeAddr, fieldNodePort       = 0, 1, 2
	fieldNodeMeta, fieldNodeIncarnation               = 3, 4
	fieldNodeVsn, fieldNodeState                      = 5, 6
	fieldPushPullNodes, fieldPushPullStateLen         = 0, 1
	fieldPushPullJoin, fieldUserLen, fieldCompressBuf = 2, 0, 1
)

func newSchemas(s *Settings) *schemas {
	numberField := func(name string, max uint64, reason Reason) field { return field{name, kindNumber, 0, max, reason} }
	bytesField := func(name string, min, max int, reason Reason) field {
		return field{name, kindBytes, uint64(min), uint64(max), reason}
	}
	textField := func(name string, min uint64) field { return field{name, kindText, min, maxName, Name} }
	addressField := func(name string, min uint64) field { return field{name, kindAddress, min, 16, Address} }
	flagField := func(name string) field { return field{name, kindFlag, 0, 0, Malformed} }
	sequence, incarnation := numberField("SeqNo", maxUint32, Range), numberField("Incarnation", maxUint32, Range)
	addr, port := addressField("Addr", 4), numberField("Port", maxUint16, Range)
	meta, vsn := bytesField("Meta", 0, maxMeta, Meta), bytesField("Vsn", versionBytes, versionBytes, Versions)
	source := schema{addressField("SourceAddr", 0), numberField("SourcePort", maxUint16, Range), textField("SourceNode", 0)}
	suspect := schema{incarnation, textField("Node", 1), textField("From", 1)}
	return &schemas{
		byType: [...]schema{
			msgPing:         append(schema{sequence, textField("Node", 0)}, source...),
			msgIndirectPing: append(schema{sequence, addressField("Target", 4), port, textField("Node", 0), flagField("Nack")}, source...),
			msgAck:          {sequence, bytesField("Payload", 0, s.AckBytes, Payload)},
			msgNack:         {sequence},
			msgSuspect:      suspect,
			msgDead:         suspect,
			msgAlive:        {incarnation, textField("Node", 1), addr, port, meta, vsn},
			msgCompress:     {numberField("Algo", 0, Compression), bytesField("Buf", 1, s.StreamBytes, Compression)},
			msgPushPull: {
				numberField("Nodes", uint64(s.Nodes), Length), numberField("UserStateLen", uint64(s.StreamBytes), Length),
				flagField("Join"),
			},
			msgUser: {numberField("UserMsgLen", uint64(s.UserBytes), Length)},
			msgErr:  {{"Error", kindText, 0, maxErrorText, Length}},
		},
		node: schema{textField("Name", 1), addr, port, meta, incarnation, vsn, numberField("State", nodeStates-1, Range)},
	}
}

// check returns the reason why a value isn't allowed for the field, or none if it is allowed.
func (f *field) check(v value) Reason {
	isBytes := v.kind == msgpack.Text || v.kind == msgpack.Bytes || v.kind == msgpack.Nil
	n := uint64(len(v.bytes))
	switch f.kind {
	case kindNumber:
		if v.kind == msgpack.Negative {
			return f.reason
		}
		if v.kind != msgpack.Number {
			return Malformed
		}
		n = v.number
	case kindText:
		if v.kind != msgpack.Text {
			return Malformed
		}
	case kindBytes, kindAddress:
		if !isBytes {
			return Malformed
		}
		if f.kind == kindAddress && !isUsableAddress(v.bytes, f.min) {
			return f.reason
		}
	case kindFlag:
		if v.kind != msgpack.Flag {
			return Malformed
		}
	}
	if n < f.min || n > f.max {
		return f.reason
	}
	return none
}

// isUsableAddress reports whether a node may have this address. This node sends packets to the address, so it has to be
// that of a single host.
func isUsableAddress(b []byte, min uint64) bool {
	if len(b) != net.IPv4len && len(b) != net.IPv6len {
		return len(b) == 0 && min == 0
	}
	ip := net.IP(b)
	return !ip.IsMulticast() && !ip.Equal(net.IPv4bcast)
}

// VersionRange is a range of versions that includes both ends.
type VersionRange struct{ Min, Max uint8 }

// accepts reports whether a node that understands min to max, and speaks current, supports the whole range.
// memberlist's verifyProtocol accepts all these nodes together, because each one's current version is within every
// other's range.
func (r VersionRange) accepts(min, max, current uint8) bool {
	return min <= r.Min && max >= r.Max && r.Min <= current && current <= r.Max
}

// acceptsVersions checks a node's six versions: the minimum, maximum and current version of the protocol, and then of
// the delegate.
func (s *Settings) acceptsVersions(vsn []byte) bool {
	return vsn[0] > 0 && s.Protocols.accepts(vsn[0], vsn[1], vsn[2]) && s.Delegates.accepts(vsn[3], vsn[4], vsn[5])
}
