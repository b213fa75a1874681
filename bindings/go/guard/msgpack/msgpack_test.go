package msgpack

import (
	"strings"
	"testing"
)

// Skip passes over a value of each form, and fails if it is cut off or nested too deeply.
func TestSkip(t *testing.T) {
	for _, value := range []string{
		"\x07", "\xe0", "\xc0", "\xc2", "\xc3", "\xcc1", "\xcd12", "\xce1234", "\xcf12345678", "\xd01", "\xd112", "\xd21234",
		"\xd312345678", "\xca1234", "\xcb12345678",
		"\xa1a", "\xd9\x01a", "\xda\x00\x01a", "\xdb\x00\x00\x00\x01a", "\xc4\x01a", "\xc5\x00\x01a", "\xc6\x00\x00\x00\x01a",
		"\x90", "\x91\xa1a", "\xdc\x00\x01\xc0", "\xdd\x00\x00\x00\x01\xc0", "\x80", "\x81\xa1a\x91\xc0", "\xde\x00\x01\xa1a\xc0",
		"\xdf\x00\x00\x00\x01\xa1a\xc0",
		strings.Repeat("\x91", MaxDepth) + "\x05",
	} {
		d := &Reader{Data: []byte(value + "\x05")}
		if d.Skip(); d.Err != nil || d.At != len(value) {
			t.Errorf("%q: %d %v", value, d.At, d.Err)
		}
		for length := range value {
			d := &Reader{Data: []byte(value[:length])}
			if d.Skip(); d.Err == nil {
				t.Errorf("%q was passed over", value[:length])
			}
		}
	}
	for _, count := range []int{MaxDepth + 1, 10_000} {
		d := &Reader{Data: []byte(strings.Repeat("\x91", count) + "\x05")}
		if d.Skip(); d.Err != ErrDeep {
			t.Error(count, d.Err)
		}
	}
}

// If the remaining bytes can't contain as many values as a count says, the Reader refuses the count before it reads any
// of them. This also holds for a stream.
func TestCountsAreNotTrusted(t *testing.T) {
	for _, text := range []string{"\xdf\x00\x00\x00\x06", "\xdd\x00\x00\x00\x0b", "\xde\x00\x06", "\xdc\x00\x0b", "\x86", "\x9b"} {
		d := &Reader{Data: []byte(text + strings.Repeat("\xc0", 10))}
		if d.Skip(); d.Err != ErrLong || d.At != len(text) {
			t.Errorf("%q: %d %v", text, d.At, d.Err)
		}
		stream := &Reader{Max: len(text) + 10}
		stream.More = func(count int) error {
			stream.Data = append(stream.Data, text[len(stream.Data):len(stream.Data)+count]...)
			return nil
		}
		if stream.Skip(); stream.Err != ErrLong || stream.At != len(text) {
			t.Errorf("%q, of a stream: %d %v", text, stream.At, stream.Err)
		}
	}
}

// Next returns each kind with its number. After an error it returns Nil.
func TestKinds(t *testing.T) {
	for text, want := range map[string]struct {
		kind Kind
		n    uint64
	}{
		"\xc0": {Nil, 0}, "\xc2": {Flag, 0}, "\xc3": {Flag, 1}, "\x7f": {Number, 127}, "\xd0\x7f": {Number, 127},
		"\xd1\x01\x00":                         {Number, 256},
		"\xcf\xff\xff\xff\xff\xff\xff\xff\xff": {Number, 1<<64 - 1}, "\xff": {Negative, 0}, "\xe0": {Negative, 0},
		"\xd0\x80": {Negative, 0}, "\xd3\x80\x00\x00\x00\x00\x00\x00\x00": {Negative, 0},
		"\xcb12345678": {Float, 0}, "\xa2": {Text, 2}, "\xd9\x02": {Text, 2}, "\xc4\x02": {Bytes, 2}, "\x93": {Array, 3},
		"\xdc\x00\x03": {Array, 3},
		"\x83":         {Map, 3}, "\xdf\x00\x00\x00\x03": {Map, 3}, "\xc1": {Nil, 0}, "\xd4\x00": {Nil, 0},
	} {
		d := &Reader{Data: []byte(text)}
		if kind, n := d.Next(); kind != want.kind || n != want.n || (d.Err != nil) != (text[0] == 0xc1 || text[0] == 0xd4) ||
			d.Err == nil && d.At != len(text) {
			t.Errorf("%q: %d %d %v", text, kind, n, d.Err)
		}
		first := d.Err
		if d.Fail(ErrDeep); first == nil {
			first = ErrDeep
		}
		if kind, n := d.Next(); kind != Nil || n != 0 || d.Take(0) != nil || d.Err != first {
			t.Errorf("%q: %d %d after an error, which is %v and was %v", text, kind, n, d.Err, first)
		}
	}
}
