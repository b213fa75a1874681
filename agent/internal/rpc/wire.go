package rpc

import (
	"bufio"
	"bytes"
	"encoding/binary"
	"fmt"
	"io"
	"sync"

	"github.com/hashicorp/go-msgpack/codec"

	"kitchenrue.example/guard/msgpack"
)

// The maximum sizes in bytes of a request's header and body.
const (
	maxHeader = 1 << 10
	maxBody   = 64 << 10
)

// reader reads MessagePack values from a stream. It reads each value whole, within a limit, before go-msgpack decodes
// it. So it never trusts a length from a client before the bytes have arrived.
type reader struct {
	stream *bufio.Reader
	values msgpack.Reader
	// plain reads the value that a plainDecoder decodes.
	plain msgpack.Reader
	// decoder decodes the bytes in encoded. The reader keeps it because it caches what it has learned about types.
	encoded bytes.Reader
	decoder *codec.Decoder
}

func newReader(in io.Reader) *reader {
	r := &reader{stream: bufio.NewReaderSize(in, 4<<10)}
	r.values.More = r.readMore
	r.decoder = codec.NewDecoder(&r.encoded, msgpackHandle())
	return r
}

// decode reads the next value, of at most limit bytes, and decodes it into the value that the pointer to points to.
func (r *reader) decode(limit int, to interface{}) error {
	value, err := r.nextValue(limit)
	if err != nil {
		return err
	}
	if message, ok := to.(plainDecoder); ok {
		r.plain = msgpack.Reader{Data: value}
		if message.decodePlain(&r.plain) {
			return nil
		}
	}
	r.encoded.Reset(value)
	if err := r.decoder.Decode(to); err != nil {
		return fmt.Errorf("the value has the wrong type: %w", err)
	}
	return nil
}

// nextValue returns the bytes of the next value. They are valid until the next read.
func (r *reader) nextValue(limit int) ([]byte, error) {
	if whole := r.nextWhole(limit); whole != nil {
		return whole, nil
	}
	r.values.Data, r.values.At, r.values.Max, r.values.Err = r.values.Data[:0], 0, limit, nil
	r.values.Skip()
	return r.values.Data, r.values.Err
}

// nextWhole returns the bytes of the next value in place if all of them have arrived, or nil.
func (r *reader) nextWhole(limit int) []byte {
	arrived, _ := r.stream.Peek(r.stream.Buffered())
	if len(arrived) > limit {
		arrived = arrived[:limit]
	}
	value := msgpack.Reader{Data: arrived}
	if value.Skip(); value.Err != nil {
		return nil
	}
	_, _ = r.stream.Discard(value.At)
	return arrived[:value.At]
}

// readMore reads count bytes from the stream.
func (r *reader) readMore(count int) error {
	start := len(r.values.Data)
	if count > r.values.Max-start {
		return msgpack.ErrLong
	}
	r.values.Data = append(r.values.Data, make([]byte, count)...)
	_, err := io.ReadFull(r.stream, r.values.Data[start:])
	return err
}

// msgpackHandle returns the settings of MessagePack for Serf's protocol. Strings are encoded as raw, and bytes as bin, so that
// a client that expects bytes doesn't receive a string.
func msgpackHandle() *codec.MsgpackHandle {
	handle := &codec.MsgpackHandle{WriteExt: true}
	handle.RawToString = true
	return handle
}

// encoder encodes values. It is pooled because it caches what it learned about types.
type encoder struct {
	out     bytes.Buffer
	encoder *codec.Encoder
}

// encoders is the pool of the encoders that are not in use.
var encoders = sync.Pool{New: func() interface{} {
	e := &encoder{}
	e.encoder = codec.NewEncoder(&e.out, msgpackHandle())
	return e
}}

// maxPooled is the maximum size in bytes of a buffer that stays in the pool.
const maxPooled = 64 << 10

// successFrame returns the encoded answer to a request that succeeded and has no body in its answer. It returns the same
// bytes as encode, in less time.
func successFrame(seq uint64) []byte {
	const start = "\x82\xa5Error\xa0\xa3Seq"
	frame := append(make([]byte, 0, len(start)+9), start...)
	switch {
	case seq < 1<<7:
		return append(frame, byte(seq))
	case seq < 1<<8:
		return append(frame, 0xcc, byte(seq))
	case seq < 1<<16:
		return binary.BigEndian.AppendUint16(append(frame, 0xcd), uint16(seq))
	case seq < 1<<32:
		return binary.BigEndian.AppendUint32(append(frame, 0xce), uint32(seq))
	}
	return binary.BigEndian.AppendUint64(append(frame, 0xcf), seq)
}

// encode encodes values one after another.
func encode(values ...interface{}) ([]byte, error) {
	e := encoders.Get().(*encoder)
	e.out.Reset()
	for _, value := range values {
		if err := e.encoder.Encode(value); err != nil {
			return nil, err
		}
	}
	data := append([]byte(nil), e.out.Bytes()...)
	if e.out.Cap() <= maxPooled {
		encoders.Put(e)
	}
	return data, nil
}
