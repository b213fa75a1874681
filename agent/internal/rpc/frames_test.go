package rpc

import (
	"bytes"
	"net"
	"reflect"
	"strings"
	"sync"
	"testing"
	"time"

	"kitchenrue.example/agent/internal/testkit"
	"kitchenrue.example/serf"
)

// Frames that wait are written together, in order, up to maxWrite bytes. A longer frame is written alone.
func TestFramesAreWrittenTogether(t *testing.T) {
	c := &client{timeouts: testTimeouts}
	c.changed = sync.NewCond(&c.mu)
	var want, found []byte
	var lengths []int
	for i, length := range []int{10, maxWrite - 10, 1, 2 * maxWrite, 5, 6} {
		frame := bytes.Repeat([]byte{byte(i)}, length)
		want = append(want, frame...)
		testkit.Must(t, c.queueFrame(frame))
	}
	var room []byte
	for len(c.frames) > 0 {
		together, length := c.nextFrames(room[:0])
		if length != testTimeouts.send {
			t.Error(length)
		}
		lengths = append(lengths, len(together))
		found = append(found, together...)
		room, c.isWriting = together, false
	}
	if wanted := []int{maxWrite, 1, 2 * maxWrite, 11}; !reflect.DeepEqual(lengths, wanted) || !bytes.Equal(found, want) {
		t.Error(lengths)
	}
	if c.bytes != 0 {
		t.Errorf("%d bytes are counted that don't wait", c.bytes)
	}
	c.isClosing = true
	if together, _ := c.nextFrames(room[:0]); len(together) > 0 {
		t.Error(together)
	}
}

// pipeEnd is a connection that passes on one write at a time.
type pipeEnd struct {
	net.Conn
	written chan []byte
}

func (p *pipeEnd) Close() error                     { return nil }
func (p *pipeEnd) SetWriteDeadline(time.Time) error { return nil }

func (p *pipeEnd) Write(data []byte) (int, error) {
	p.written <- append([]byte(nil), data...)
	return len(data), nil
}

// An answer is written at once, or after the frames that wait or are being written.
func TestAnswersKeepTheirPlace(t *testing.T) {
	conn := &pipeEnd{written: make(chan []byte)}
	c := &client{timeouts: testTimeouts, conn: conn, cancel: func() {}}
	c.changed = sync.NewCond(&c.mu)
	answered := make(chan error, 1)
	frame := func(seq uint64) []byte { return mustEncode(t, answerHeader{Seq: seq}) }
	expectFrames := func(seqs ...uint64) {
		t.Helper()
		var want []byte
		for _, seq := range seqs {
			want = append(want, frame(seq)...)
		}
		select {
		case data := <-conn.written:
			if !bytes.Equal(data, want) {
				t.Fatalf("%q, not %q", data, want)
			}
		case <-time.After(time.Minute):
			t.Fatal("nothing is written")
		}
	}
	go func() { answered <- c.answer(1, nil) }()
	testkit.Eventually(t, "the answer is being written", func() bool {
		c.mu.Lock()
		defer c.mu.Unlock()
		return c.isWriting
	})
	// While the first frame is being written, these frames wait.
	for _, err := range []error{c.queueFrame(frame(2)), c.answer(3, nil)} {
		testkit.Must(t, err)
	}
	go c.writeQueued()
	expectFrames(1)
	testkit.Check(t, <-answered)
	expectFrames(2, 3)
	c.mu.Lock()
	c.isClosing = true
	c.changed.Broadcast()
	c.mu.Unlock()
	if err := c.answer(4, nil); err != net.ErrClosed {
		t.Error(err)
	}
}

// Each stream receives an event's record after its own header.
func TestEventToManyStreams(t *testing.T) {
	s, _, _ := startServer(t, "")
	first, second := dial(t, s).handshake(), dial(t, s).handshake()
	seqs := map[*peer][]uint64{first: {first.request("stream", streamBody{"user"})}, second: nil}
	first.expect(seqs[first][0], "")
	for range []int{1, 2} {
		seq := second.request("stream", streamBody{"*"})
		second.expect(seq, "")
		seqs[second] = append(seqs[second], seq)
	}
	testkit.Eventually(t, "three streams are open", func() bool { return countStreams(s) == 3 })
	for number := uint64(1); number <= 100; number++ {
		s.Publish(serf.UserEvent{Name: "deploy", LTime: serf.LamportTime(number), Payload: []byte("v1")})
	}
	for p, all := range seqs {
		for number := uint64(1); number <= 100; number++ {
			found := map[uint64]bool{}
			for range all {
				var header answerHeader
				var user userEvent
				p.read(&header)
				p.read(&user)
				found[header.Seq] = true
				if wanted := (userEvent{"user", number, "deploy", []byte("v1"), false}); header.Error != "" ||
					!reflect.DeepEqual(user, wanted) {
					t.Fatal(header, user)
				}
			}
			if len(found) != len(all) || !found[all[0]] {
				t.Fatal(found, all)
			}
		}
	}
}

// Strings are written raw, and bytes as bin, as Serf's agents and clients do. Both forms are accepted when reading.
func TestBytesAreBin(t *testing.T) {
	all := []serf.Member{{Name: "a", Addr: net.IPv4(127, 0, 0, 1), Tags: map[string]string{"k": "v"}}}
	for want, value := range map[string]interface{}{
		"\xa7Payload\xc4\x03\xff\xfe\x00":  userEvent{Event: "user", Name: "x", Payload: []byte("\xff\xfe\x00")},
		"\xa7Payload\xc4\x01\x80":          queryEvent{Event: "query", Name: "x", Payload: []byte("\x80")},
		"\xa4Addr\xc4\x04\x7f\x00\x00\x01": membersAnswer{membersOf(all)},
		"\xa1k\xa1v":                       membersAnswer{membersOf(all)},
		"\xa3Log\xa4text":                  logLine{"text"},
	} {
		if data := mustEncode(t, value); !bytes.Contains(data, []byte(want)) {
			t.Errorf("%q, without %q", data, want)
		}
	}
	for _, payload := range []string{"\xa2v1", "\xc4\x02v1"} {
		var body eventBody
		if err := newReader(strings.NewReader("\x82\xa4Name\xa1x\xa7Payload"+payload)).decode(maxBody, &body); err != nil ||
			body.Name != "x" || string(body.Payload) != "v1" {
			t.Errorf("%q: %+v %v", payload, body, err)
		}
	}
}

// After a value that can't be encoded, the next one is encoded correctly.
func TestEncodingAfterError(t *testing.T) {
	want, err := encode(requestHeader{"members", 1})
	testkit.Must(t, err)
	for i := 0; i < 10; i++ {
		if _, err := encode("half", func() {}); err == nil {
			t.Error("a function has no bytes")
		}
		for range []int{1, 2} {
			if found, err := encode(requestHeader{"members", 1}); err != nil || !bytes.Equal(found, want) {
				t.Fatal(found, err)
			}
		}
	}
}
