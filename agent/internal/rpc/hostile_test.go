package rpc

import (
	"bytes"
	"errors"
	"io"
	"net"
	"strings"
	"testing"
	"time"

	"kitchenrue.example/agent/internal/testkit"
	"kitchenrue.example/guard/msgpack"
	"kitchenrue.example/serf"
)

func TestBeforeHandshake(t *testing.T) {
	s, f, _ := startServer(t, "sesame")
	p := dial(t, s)
	p.expect(p.request("members"), "Handshake required")
	p.expectClosed()
	p = dial(t, s).handshake()
	p.expect(p.request("event", eventBody{Name: "x"}), "Authentication required")
	p.expect(p.request("members"), "Authentication required")
	p.expect(p.request("auth", authBody{"sesame"}), "")
	p.expect(p.request("event", eventBody{Name: "y"}), "")
	if len(f.calls) != 1 {
		t.Error(f.calls)
	}
	p = dial(t, s).handshake()
	p.expect(p.request("auth", authBody{"foo"}), "Invalid authentication token")
	p.expectClosed()
	p = dial(t, s).handshake()
	p.expect(p.request("nonsense"), "Authentication required")
	p.expectClosed()
	quick := testTimeouts
	quick.handshake = 500 * time.Millisecond
	s, _, _ = startServerWith(t, "sesame", quick)
	p = dial(t, s)
	p.request("handshake", handshakeBody{1})
	p.expectClosed()
}

// Only the whole token authenticates a client. The client has a single attempt, after the handshake.
func TestTokens(t *testing.T) {
	s, f, _ := startServer(t, "sesame")
	for _, token := range []string{"", "s", "sesam", "sesame ", "sesame\x00", "sesamesesame", "Sesame"} {
		p := dial(t, s).handshake()
		p.expect(p.request("auth", authBody{token}), "Invalid authentication token")
		// A second attempt with the right token is too late.
		_, _ = p.conn.Write(mustEncode(t, requestHeader{"auth", 2}, authBody{"sesame"}, requestHeader{"event", 3}, eventBody{Name: "x"}))
		p.expectClosed()
	}
	p := dial(t, s)
	p.write(
		requestHeader{"auth", 1}, authBody{"sesame"}, requestHeader{"handshake", 2}, handshakeBody{1}, requestHeader{"event", 3},
		eventBody{Name: "x"},
	)
	p.expect(1, "Handshake required")
	p.expectClosed()
	testkit.Eventually(t, "no client is connected", func() bool { return countConnected(s) == 0 })
	if len(f.calls) > 0 {
		t.Error(f.calls)
	}
}

// A client that is disconnected has time to read why, and its further requests are not served.
func TestLastAnswerIsRead(t *testing.T) {
	slow := testTimeouts
	slow.lastRead = time.Hour
	s, _, _ := startServerWith(t, "sesame", slow)
	p := dial(t, s).handshake()
	p.expect(p.request("auth", authBody{"rice"}), "Invalid authentication token")
	p.write(requestHeader{"auth", 3}, authBody{"sesame"})
	_ = p.conn.SetReadDeadline(time.Now().Add(200 * time.Millisecond))
	var late net.Error
	if _, err := p.in.stream.ReadByte(); !errors.As(err, &late) || !late.Timeout() {
		t.Error(err)
	}
}

func TestBadRequests(t *testing.T) {
	header := func(command string) string { return string(mustEncode(t, requestHeader{command, 1})) }
	for name, bytes := range map[string]string{
		"half a header":          "\x82\xa7Comm",
		"half a body":            header("event") + "\x83\xa4Name\xa1",
		"a length of 4 GB":       header("event") + "\x81\xa4Name\xdb\xff\xff\xff\xff",
		"a list of 4 G":          header("join") + "\x81\xa8Existing\xdd\xff\xff\xff\xff",
		"a map of 4 G":           "\xdf\xff\xff\xff\xff",
		"a long header":          "\x81\xa7Command\xda\x08\x00" + strings.Repeat("x", 2048),
		"a long body":            header("event") + "\x81\xa7Payload\xdb\x00\x01\x00\x00" + strings.Repeat("x", 65536),
		"deep":                   header("event") + strings.Repeat("\x91", 9) + "\xc0",
		"no value":               "\xc1",
		"an extension":           "\xd4\x00\x00",
		"no map":                 "\x01",
		"another kind":           header("event") + "\x81\xa4Name\x01\x01\x01",
		"a list for a header":    "\x91\x91\xc0",
		"text for a number":      "\x82\xa7Command\xa5stats\xa3Seq\xa1x",
		"a list for a text":      header("event") + "\x81\xa4Name\x91\xc0",
		"the web's own protocol": "GET / HTTP/1.1\r\n\r\n",
	} {
		timeouts := testTimeouts
		if strings.HasPrefix(name, "half") {
			timeouts.request = 500 * time.Millisecond
		}
		s, f, _ := startServerWith(t, "", timeouts)
		p := dial(t, s).handshake()
		if _, err := io.WriteString(p.conn, bytes); err != nil {
			t.Fatal(err)
		}
		p.expectClosed()
		testkit.Eventually(t, "no client is connected", func() bool { return countConnected(s) == 0 })
		if len(f.calls) > 0 {
			t.Errorf("%s: %v", name, f.calls)
		}
	}
}

func TestUnknownCommand(t *testing.T) {
	s, _, _ := startServer(t, "")
	p := dial(t, s).handshake()
	p.expect(p.request("nonsense"), "Unsupported command")
	p.expectClosed()
}

func TestTooManyClients(t *testing.T) {
	slow := testTimeouts
	slow.handshake = time.Hour
	s, _, _ := startServerWith(t, "", slow)
	stream := func(p *peer) { p.expect(p.request("stream", streamBody{"*"}), "") }
	all := []*peer{dial(t, s), dial(t, s).handshake()}
	stream(all[1])
	for len(all) < MaxClients {
		all = append(all, dial(t, s).handshake())
	}
	// The oldest client has just sent a request, so it isn't the one that was idle the longest.
	all[0].handshake()
	waitUntilIdle(t, s)
	late := dial(t, s).handshake()
	all[2].expectClosed()
	if countConnected(s) != MaxClients {
		t.Error(countConnected(s))
	}
	for i, p := range append(all, late) {
		if i != 1 && i != 2 {
			stream(p)
		}
	}
	testkit.Eventually(t, "all streams are open", func() bool { return countStreams(s) == MaxClients })
	dial(t, s).expectClosed()
	if countConnected(s) != MaxClients {
		t.Error(countConnected(s))
	}
}

// waitUntilIdle waits until no request of a client runs, because a client with a running request isn't disconnected.
func waitUntilIdle(t *testing.T, s *Server) {
	t.Helper()
	testkit.Eventually(t, "no request runs", func() bool {
		return countClients(s, func(c *client) int {
			if c.isBusy {
				return 1
			}
			return 0
		}) == 0
	})
}

// A process that may have few files open serves fewer clients, so that idle ones don't take all of its files.
func TestClientsOfFewFiles(t *testing.T) {
	for files, want := range map[uint64]int{0: 1, 2: 1, 40: 13, 383: 127, 384: MaxClients, 1024: MaxClients, 1 << 63: MaxClients} {
		if found := maxClientsOf(files); found != want {
			t.Error(files, found)
		}
	}
	s, _, _ := startServer(t, "")
	if s.maxClients != MaxClients {
		t.Skip("this process may have few files open")
	}
	s.mu.Lock()
	s.maxClients = 3
	s.mu.Unlock()
	var idle []*peer
	for i := 0; i < 5; i++ {
		idle = append(idle, dial(t, s).handshake())
		waitUntilIdle(t, s)
	}
	if count := countConnected(s); count != 3 {
		t.Fatal(count, "clients")
	}
	for _, p := range idle[:2] {
		p.expectClosed()
	}
	p := dial(t, s).handshake()
	p.expect(p.request("event", eventBody{Name: "x"}), "")
}

func TestTooManyStreams(t *testing.T) {
	s, f, _ := startServer(t, "")
	p := dial(t, s).handshake()
	for i := 0; i < maxStreams; i++ {
		p.expect(p.request("stream", streamBody{"query"}), "")
	}
	for command, body := range map[string]interface{}{
		"stream": streamBody{"*"}, "monitor": monitorBody{"err"}, "query": queryBody{Name: "x"},
	} {
		p.expect(p.request(command, body), errTooManyStreams.Error())
	}
	if len(f.calls) != 0 {
		t.Error(f.calls)
	}
	query, _ := fireTestQuery(t, f, f.withNode(t))
	for i := uint64(0); i < 2*maxUnanswered; i++ {
		s.Publish(query)
		if unanswered := countClients(s, func(c *client) int { return len(c.unanswered) }); unanswered > maxUnanswered {
			t.Fatal(unanswered)
		}
	}
}

// A client that never reads is disconnected when too much is queued for it, even if it has a long timeout. Nothing else
// waits for this client.
func TestSlowClient(t *testing.T) {
	timeouts := testTimeouts
	timeouts.send = time.Hour
	s, _, _ := startServerWith(t, "", timeouts)
	slow, other := dial(t, s).handshake(), dial(t, s).handshake()
	for _, p := range []*peer{slow, other} {
		p.expect(p.request("stream", streamBody{"user:deploy"}), "")
	}
	other.expect(other.request("stop", stopBody{2}), "")
	testkit.Eventually(t, "one stream is open", func() bool { return countStreams(s) == 1 })
	payload := bytes.Repeat([]byte("x"), 4000)
	began := time.Now()
	for i := 0; i < 10000; i++ {
		s.Publish(serf.UserEvent{Name: "deploy", Payload: payload})
	}
	if length := time.Since(began); length > time.Minute {
		t.Errorf("Publish waited %v", length)
	}
	testkit.Eventually(t, "one client is connected", func() bool { return countConnected(s) == 1 })
	other.expect(other.request("tags", tagsBody{}), "")
}

// A client that reads nothing for too long is disconnected, even if little is queued for it.
func TestClientThatReadsNothing(t *testing.T) {
	timeouts := testTimeouts
	timeouts.send = 500 * time.Millisecond
	s, _, _ := startServerWith(t, "", timeouts)
	p := dial(t, s).handshake()
	p.expect(p.request("stream", streamBody{"user:deploy"}), "")
	testkit.Eventually(t, "one stream is open", func() bool { return countStreams(s) == 1 })
	for i := 0; i < 1800; i++ {
		s.Publish(serf.UserEvent{Name: "deploy", Payload: make([]byte, 4000)})
	}
	testkit.Eventually(t, "no client is connected", func() bool { return countConnected(s) == 0 })
}

func TestClientThatOnlySends(t *testing.T) {
	timeouts := testTimeouts
	timeouts.send = 500 * time.Millisecond
	s, f, _ := startServerWith(t, "", timeouts)
	f.moreMembers = make([]serf.Member, 2000)
	p := dial(t, s).handshake()
	data, err := encode(requestHeader{"members", 1})
	testkit.Must(t, err)
	many := bytes.Repeat(data, 1000)
	_ = p.conn.SetWriteDeadline(time.Now().Add(2 * time.Minute))
	for i := 0; i < 1000; i++ {
		if _, err = p.conn.Write(many); err != nil {
			break
		}
	}
	if err == nil {
		t.Error("the client isn't disconnected")
	}
	testkit.Eventually(t, "no client is connected", func() bool { return countConnected(s) == 0 })
}

// A join of addresses that don't answer delays neither other clients nor the end.
func TestSlowJoin(t *testing.T) {
	s, f, _ := startServer(t, "")
	f.joins = make(chan struct{})
	defer close(f.joins)
	for i := 0; i < 3; i++ {
		dial(t, s).handshake().request("join", joinBody{Existing: make([]string, 1000)})
	}
	p := dial(t, s).handshake()
	p.expect(p.request("tags", tagsBody{}), "")
	began := time.Now()
	s.Close()
	if length := time.Since(began); length > time.Minute {
		t.Errorf("the end waited %v", length)
	}
}

func TestReader(t *testing.T) {
	for _, test := range []struct {
		bytes string
		err   error
	}{
		{"\xc0", nil}, {"\x81\xa1x\x01", nil}, {"\xcf12345678", nil}, {"\xa1x", nil}, {"\xc6\x00\x00\x00\x01x", nil},
		{"\xdd\x00\x00\x00\x01\x01", nil},
		{"", io.EOF}, {"\xa2x", io.ErrUnexpectedEOF}, {"\x92\x01", io.EOF}, {"\xcf1234", io.ErrUnexpectedEOF},
		{"\xda\xff\xff", msgpack.ErrLong}, {"\xdd\xff\xff\xff\xff", msgpack.ErrLong}, {"\xdf\xff\xff\xff\xff", msgpack.ErrLong},
		{strings.Repeat("\x91", 8) + "\x01", nil}, {strings.Repeat("\x91", 9) + "\x01", msgpack.ErrDeep},
	} {
		for _, hasArrived := range []bool{false, true} {
			r := newReader(strings.NewReader(test.bytes))
			if hasArrived {
				_, _ = r.stream.Peek(1)
			}
			value, err := r.nextValue(64)
			if !errors.Is(err, test.err) || err == nil && string(value) != test.bytes {
				t.Errorf("%q, has arrived %v: %q %v", test.bytes, hasArrived, value, err)
			}
		}
	}
}
