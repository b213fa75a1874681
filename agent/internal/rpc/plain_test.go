package rpc

import (
	"bytes"
	"io"
	"math/rand"
	"reflect"
	"strings"
	"testing"

	"github.com/hashicorp/go-msgpack/codec"

	"kitchenrue.example/agent/internal/testkit"
	"kitchenrue.example/guard/msgpack"
)

// plainEncoding returns a value as Serf's Go client writes it: without MessagePack's type bin.
func plainEncoding(t *testing.T, value interface{}) string {
	var out bytes.Buffer
	testkit.Must(t, codec.NewEncoder(&out, &codec.MsgpackHandle{}).Encode(value))
	return out.String()
}

// The requests of Serf's client are decoded without go-msgpack. They keep their content when the next request
// overwrites their bytes.
func TestUsualRequestsArePlain(t *testing.T) {
	var header requestHeader
	want := requestHeader{"event", 1 << 40}
	if in := (msgpack.Reader{Data: []byte(plainEncoding(t, want))}); !header.decodePlain(&in) || header != want {
		t.Errorf("%+v", header)
	}
	for _, want := range []eventBody{
		{"deploy", []byte("v1"), true}, {strings.Repeat("n", 40), bytes.Repeat([]byte("p"), 300), false}, {"empty", nil, true},
	} {
		for _, data := range []string{plainEncoding(t, want), string(mustEncode(t, want))} {
			var body eventBody
			in := msgpack.Reader{Data: []byte(data)}
			isPlain := body.decodePlain(&in)
			for i := range in.Data {
				in.Data[i] = 0
			}
			if !isPlain || !reflect.DeepEqual(body, want) {
				t.Errorf("%q: %+v", data, body)
			}
		}
	}
}

// checkPlain lets a message decode a value by itself. The result has to be the same as go-msgpack's. If the message
// can't decode the value, it has to be unchanged.
func checkPlain(t *testing.T, value string, plain, want plainDecoder) (isPlain bool) {
	t.Helper()
	unchanged := reflect.ValueOf(plain).Elem().Interface()
	in := msgpack.Reader{Data: []byte(value)}
	if !plain.decodePlain(&in) {
		if found := reflect.ValueOf(plain).Elem().Interface(); !reflect.DeepEqual(found, unchanged) {
			t.Errorf("%q is not plain, and left %+v", value, found)
		}
		return false
	}
	if err := codec.NewDecoder(strings.NewReader(value), msgpackHandle()).Decode(want); err != nil || !reflect.DeepEqual(plain, want) {
		t.Errorf("%q: %+v, and go-msgpack returns %+v, %v", value, plain, want, err)
	}
	return true
}

// Whatever a client sends, a request has the content that go-msgpack finds in it.
func TestPlainRequestsAreThoseOfMsgpack(t *testing.T) {
	names := []string{
		"\xa7Command", "\xa3Seq", "\xa4Name", "\xa7Payload", "\xa8Coalesce", "\xd9\x04Name", "\xda\x00\x03Seq", "\xc4\x04Name", "\xa4name",
		"\xa5Other", "\x01", "\xc0",
	}
	values := []string{
		"\xa5event", "\xd9\x01e", "\xda\x00\x02ab", "\xdb\x00\x00\x00\x01a", "\xa0", "\xc4\x02v1", "\xc5\x00\x01v", "\xc4\x00", "\xc0",
		"\xc2", "\xc3", "\x00", "\x07", "\xcc\xff",
		"\xcd\x01\x00", "\xce\x00\x01\x00\x00", "\xcf\xff\xff\xff\xff\xff\xff\xff\xff", "\xd0\x7f", "\xd1\x01\x00",
		"\xd3\x00\x00\x00\x00\x00\x00\x00\x07", "\xff", "\xd0\x80",
		"\xcb\x3f\xf0\x00\x00\x00\x00\x00\x00", "\x90", "\x80", "\x91\x01", "\xc1", "\xa3ab",
	}
	random := rand.New(rand.NewSource(1))
	plain := 0
	for i := 0; i < 200_000; i++ {
		count := random.Intn(4)
		value := string([]byte{0x80 + byte(count)})
		if random.Intn(8) == 0 {
			value = []string{"\xde\x00", "\xdf\x00\x00\x00"}[random.Intn(2)] + string([]byte{byte(count)})
		}
		for ; count > 0; count-- {
			value += names[random.Intn(len(names))] + values[random.Intn(len(values))]
		}
		if random.Intn(8) == 0 {
			value = value[:random.Intn(len(value))]
		}
		if checkPlain(t, value, &requestHeader{}, &requestHeader{}) {
			plain++
		}
		if checkPlain(t, value, &eventBody{}, &eventBody{}) {
			plain++
		}
		if t.Failed() {
			return
		}
	}
	if plain < 10_000 {
		t.Errorf("only %d were plain", plain)
	}
}

// A value that has arrived whole is read in place, and one that arrives in parts is put together.
func TestValuesAreReadInPlace(t *testing.T) {
	value, next := plainEncoding(t, eventBody{"deploy", []byte("v1"), true}), "\x07"
	r := newReader(strings.NewReader(value + next))
	arrived, err := r.stream.Peek(len(value + next))
	testkit.Must(t, err)
	found, err := r.nextValue(len(value))
	testkit.Must(t, err)
	if string(found) != value || &found[0] != &arrived[0] {
		t.Errorf("%q", found)
	}
	if found, err = r.nextValue(1); err != nil || string(found) != next {
		t.Errorf("%q %v", found, err)
	}
	long := newReader(strings.NewReader(value))
	_, err = long.stream.Peek(len(value))
	testkit.Must(t, err)
	if found, err := long.nextValue(len(value) - 1); err != msgpack.ErrLong {
		t.Errorf("above the limit: %q %v", found, err)
	}
	for first := 1; first < len(value); first++ {
		r := newReader(io.MultiReader(strings.NewReader(value[:first]), strings.NewReader(value[first:]+next)))
		_, err := r.stream.Peek(1)
		testkit.Must(t, err)
		for _, want := range []string{value, next} {
			if found, err := r.nextValue(len(value)); err != nil || string(found) != want {
				t.Fatalf("%d: %q %v", first, found, err)
			}
		}
	}
}

// success returns the same bytes as encode.
func TestAnswerWithoutBody(t *testing.T) {
	for shift := 0; shift <= 64; shift++ {
		for _, seq := range []uint64{1<<shift - 1, 1 << shift, 1<<shift + 1} {
			found, err := encodeAnswer(seq, nil, nil)
			if want := mustEncode(t, answerHeader{Seq: seq}); err != nil || !bytes.Equal(found, want) {
				t.Errorf("%d: %q, not %q; %v", seq, found, want, err)
			}
		}
	}
}
