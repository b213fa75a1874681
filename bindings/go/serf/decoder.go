package serf

import (
	"bytes"

	"github.com/hashicorp/go-msgpack/codec"

	"kitchenrue.example/guard/msgpack"
)

// encode appends a value to a prefix, encoded as MessagePack in Serf's form: texts and bytes both become raw values.
func encode(value interface{}, prefix ...byte) []byte {
	buffer := bytes.NewBuffer(prefix)
	if err := codec.NewEncoder(buffer, &codec.MsgpackHandle{}).Encode(value); err != nil {
		// (every type that this package encodes can be encoded)
		panic(err)
	}
	return buffer.Bytes()
}

// decodeFirst decodes the value at the start of a message of this type into a Go value, and returns the bytes that
// follow the value. Before it decodes the value, it scans it once without decoding. So it refuses a length that exceeds
// the message before anything is allocated.
func decodeFirst(message []byte, kind byte, into interface{}) ([]byte, error) {
	if len(message) == 0 || message[0] != kind {
		return nil, msgpack.ErrKind
	}
	d := newDecoder(message[1:])
	if d.Skip(); d.Err != nil {
		return nil, d.Err
	}
	return d.Data[d.At:], codec.NewDecoderBytes(d.Data[:d.At], &codec.MsgpackHandle{}).Decode(into)
}

// decodeWhole is decodeFirst, but returns an error if bytes follow the value.
func decodeWhole(message []byte, kind byte, into interface{}) error {
	rest, err := decodeFirst(message, kind, into)
	if err == nil && len(rest) > 0 {
		err = msgpack.ErrKind
	}
	return err
}

// decoder reads the values of a message in Serf's form: texts are raw, and nil stands for the zero value of any kind.
type decoder struct{ msgpack.Reader }

func newDecoder(data []byte) *decoder { return &decoder{msgpack.Reader{Data: data}} }

// readHeader reads the header of a value that must have one of two kinds. It returns the number itself, or the length of a
// text, an array or a map. For nil it returns 0.
func (d *decoder) readHeader(expected, alternative msgpack.Kind) uint64 {
	found, value := d.Next()
	if found != expected && found != alternative && found != msgpack.Nil {
		d.Fail(msgpack.ErrKind)
		return 0
	}
	return value
}

// readMapHeader returns the number of pairs of a map, and readArrayHeader the number of values of an array.
func (d *decoder) readMapHeader() int { return d.Count(d.readHeader(msgpack.Map, msgpack.Map), 2) }
func (d *decoder) readArrayHeader() int {
	return d.Count(d.readHeader(msgpack.Array, msgpack.Array), 1)
}

// readText reads a text, and readUnsigned a non-negative integer.
func (d *decoder) readText() []byte     { return d.Take(int(d.readHeader(msgpack.Text, msgpack.Bytes))) }
func (d *decoder) readUnsigned() uint64 { return d.readHeader(msgpack.Number, msgpack.Number) }

// finish returns the decoder's error, or an error if bytes follow the value.
func (d *decoder) finish() error {
	if d.Err == nil && d.At < len(d.Data) {
		return msgpack.ErrKind
	}
	return d.Err
}

// readMap reads a map and calls readField with each key. If readField returns true, it has read the value; if it
// returns false, readMap skips the value.
func (d *decoder) readMap(readField func(key string) bool) {
	for pairs := d.readMapHeader(); pairs > 0 && d.Err == nil; pairs-- {
		if key := string(d.readText()); d.Err == nil && !readField(key) {
			d.Skip()
		}
	}
}
