// Package msgpack reads MessagePack value by value, from bytes or from a stream. It never trusts a length before the
// bytes have arrived, and allocates no memory for a length alone.
package msgpack

import (
	"encoding/binary"
	"errors"
)

// These are the errors for which a Reader stops.
var (
	ErrLong = errors.New("a value is longer than the bytes that are available or allowed")
	ErrKind = errors.New("a value has the wrong type")
	ErrDeep = errors.New("a value is nested too deeply")
)

// MaxDepth is the maximum nesting of arrays and maps in a value that Skip passes over.
const MaxDepth = 8

// Reader reads one value after another. After the first error it reads nothing more, and keeps that error.
type Reader struct {
	// Data has the bytes that were received. At is how many of them the Reader has read.
	Data []byte
	At   int
	// More appends at least minimum bytes to Data, which may then have at most Max bytes. If More is nil, no bytes
	// follow those in Data.
	More func(minimum int) error
	Max  int
	// Err is the error for which the Reader has stopped, or nil.
	Err error
}

// Fail stops the reader with this error, unless it has stopped already.
func (r *Reader) Fail(err error) {
	if r.Err == nil {
		r.Err = err
	}
}

// Take reads a number of bytes. It returns nil if they are not available.
func (r *Reader) Take(count int) []byte {
	if lacking := count - (len(r.Data) - r.At); lacking > 0 && r.Err == nil {
		r.Err = ErrLong
		if r.More != nil {
			r.Err = r.More(lacking)
		}
	}
	if r.Err != nil {
		return nil
	}
	r.At += count
	return r.Data[r.At-count : r.At : r.At]
}

// Uint reads a big-endian number of size bytes. It returns 0 if they are not available.
func (r *Reader) Uint(size int) uint64 {
	var buf [8]byte
	copy(buf[8-size:], r.Take(size))
	return binary.BigEndian.Uint64(buf[:])
}

// Kind is the kind of a value.
type Kind uint8

// The kinds of values. A Number is not negative. A Text is a string or bytes, since go-msgpack writes both alike; Bytes
// are MessagePack's bin.
const (
	Nil Kind = iota
	Flag
	Number
	Negative
	Float
	Text
	Bytes
	Array
	Map
)

// Next reads a value. If the value contains bytes or other values, Next reads only its head. It returns the kind, and
// the number or the flag, or how many bytes, values or pairs follow. After an error it returns Nil.
func (r *Reader) Next() (Kind, uint64) {
	head := r.Take(1)
	if head == nil {
		return Nil, 0
	}
	switch b := head[0]; {
	case b <= 0x7f:
		return Number, uint64(b)
	case b <= 0x8f:
		return Map, uint64(b & 0x0f)
	case b <= 0x9f:
		return Array, uint64(b & 0x0f)
	case b <= 0xbf:
		return Text, uint64(b & 0x1f)
	case b == 0xc0:
		return Nil, 0
	case b == 0xc2 || b == 0xc3:
		return Flag, uint64(b & 1)
	case b >= 0xc4 && b <= 0xc6:
		return Bytes, r.Uint(1 << (b - 0xc4))
	case b == 0xca || b == 0xcb:
		r.Take(4 << (b - 0xca))
		return Float, 0
	case b >= 0xcc && b <= 0xcf:
		return Number, r.Uint(1 << (b - 0xcc))
	case b >= 0xd0 && b <= 0xd3:
		if n := r.Uint(1 << (b - 0xd0)); n>>(8<<(b-0xd0)-1) == 0 {
			return Number, n
		}
		return Negative, 0
	case b >= 0xd9 && b <= 0xdb:
		return Text, r.Uint(1 << (b - 0xd9))
	case b == 0xdc || b == 0xdd:
		return Array, r.Uint(2 << (b - 0xdc))
	case b == 0xde || b == 0xdf:
		return Map, r.Uint(2 << (b - 0xde))
	case b >= 0xe0:
		return Negative, 0
	}
	r.Fail(ErrKind)
	return Nil, 0
}

// Count checks and returns n, the number of values that follow, each at least size bytes long. If the remaining bytes
// can't contain so many values, it fails with ErrLong and returns 0.
func (r *Reader) Count(n, size uint64) int {
	available := len(r.Data) - r.At
	if r.More != nil {
		available = r.Max - r.At
	}
	if r.Err != nil || n > uint64(available)/size {
		r.Fail(ErrLong)
		return 0
	}
	return int(n)
}

// Skip passes over a value and everything it contains.
func (r *Reader) Skip() { r.skip(0) }

// skip is Skip for a value inside depth arrays and maps.
func (r *Reader) skip(depth int) {
	count := 0
	switch kind, n := r.Next(); kind {
	case Map:
		count = 2 * r.Count(n, 2)
	case Array:
		count = r.Count(n, 1)
	case Text, Bytes:
		r.Take(int(n))
		return
	default:
		return
	}
	if depth >= MaxDepth {
		r.Fail(ErrDeep)
	}
	for ; count > 0 && r.Err == nil; count-- {
		r.skip(depth + 1)
	}
}
