package guard

import (
	"encoding/binary"

	"kitchenrue.example/guard/msgpack"
)

// reader accepts only the encodings that go-msgpack writes for memberlist's types, and reads them as go-msgpack does.
// In these types, no field's value contains other values.
type reader struct{ msgpack.Reader }

func newReader(data []byte) reader { return reader{msgpack.Reader{Data: data}} }

// failure returns the reason why the reader has stopped, or none if it has not.
func (r *reader) failure() Reason {
	switch err := r.Err.(type) {
	case nil:
		return none
	case refusalError:
		return Reason(err)
	}
	return Malformed
}

// failWith stops the reader for a reason. It does nothing if reason is none.
func (r *reader) failWith(reason Reason) {
	if reason != none {
		r.Fail(refusalError(reason))
	}
}

type value struct {
	kind   msgpack.Kind
	number uint64
	bytes  []byte
}

// readScalar reads a value that contains no other values.
func (r *reader) readScalar() value {
	kind, size := r.Next()
	switch kind {
	case msgpack.Text, msgpack.Bytes:
		if size > 1<<30 {
			r.failWith(Malformed)
		}
		return value{kind: kind, bytes: r.Take(int(size))}
	case msgpack.Array, msgpack.Map:
		r.failWith(Malformed)
	}
	return value{kind: kind, number: size}
}

// maxKey is the maximum length in bytes of a field's name, and maxUnknownValue that of an unknown field's value.
const (
	maxKey          = 64
	maxUnknownValue = 1024
)

// readFields reads a map into values. The keys are the schema's fields, each at most once; readFields skips unknown
// fields. If a value is not allowed, it still reads the rest as far as possible, so that the caller knows where the map
// ends.
func (r *reader) readFields(s schema, values *[maxFields]value) Reason {
	head := r.Uint(1)
	if head&0xf0 != 0x80 {
		r.failWith(Malformed)
	}
	var seenFields uint
	var firstReason Reason
	for n := head & 0x0f; n > 0 && r.Err == nil; n-- {
		key := r.readScalar()
		if key.kind != msgpack.Text || len(key.bytes) > maxKey {
			r.failWith(Malformed)
		}
		index, v := s.indexOf(key.bytes), r.readScalar()
		reason := none
		switch {
		case index < 0 && len(v.bytes) > maxUnknownValue, index >= 0 && seenFields&(1<<index) != 0:
			reason = Malformed
		case index >= 0:
			seenFields |= 1 << index
			values[index] = v
			reason = s[index].check(v)
		}
		firstReason = firstReason.or(reason)
	}
	for i, f := range s {
		if seenFields&(1<<i) == 0 && f.min > 0 {
			firstReason = firstReason.or(f.reason)
		}
	}
	return r.failure().or(firstReason)
}

// appendNumber and appendText encode a value as go-msgpack does. appendText is for texts of less than 32 bytes.
func appendNumber(out []byte, n uint64) []byte {
	switch {
	case n < 0x80:
		return append(out, byte(n))
	case n < 1<<16:
		return binary.BigEndian.AppendUint16(append(out, 0xcd), uint16(n))
	}
	return binary.BigEndian.AppendUint32(append(out, 0xce), uint32(n))
}

func appendText(out []byte, text string) []byte {
	return append(append(out, 0xa0|byte(len(text))), text...)
}

// appendBytes encodes a text or bytes of any length below 64 KiB.
func appendBytes(out, b []byte) []byte {
	if len(b) < 32 {
		return appendText(out, string(b))
	}
	return append(binary.BigEndian.AppendUint16(append(out, 0xda), uint16(len(b))), b...)
}
