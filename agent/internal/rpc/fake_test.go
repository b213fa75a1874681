package rpc

import (
	"bytes"
	"errors"
	"io"
	"net"
	"sync"
	"testing"
	"time"

	"github.com/hashicorp/memberlist"
	"github.com/hashicorp/serf/coordinate"

	"kitchenrue.example/agent/internal/logs"
	"kitchenrue.example/agent/internal/testkit"
	"kitchenrue.example/serf"
)

// fakeBackend is a backend that records its calls.
type fakeBackend struct {
	mu         sync.Mutex
	calls      []string
	isShutdown bool
	// node answers queries and has keys, in tests that need one.
	node *serf.Serf
	// moreMembers has further members, for long answers.
	moreMembers []serf.Member
	// If joins isn't nil, each join lasts until joins is closed.
	joins chan struct{}
}

func (f *fakeBackend) record(what string) {
	f.mu.Lock()
	defer f.mu.Unlock()
	f.calls = append(f.calls, what)
}

func (f *fakeBackend) Fire(name string, payload []byte, _ bool) error {
	f.record("fire " + name + " " + string(payload))
	if name == "large" {
		return errors.New("user event exceeds its limit")
	}
	return nil
}

func (f *fakeBackend) Members() []serf.Member {
	return append([]serf.Member{
		{
			Name: "alpha", Addr: net.IPv4(127, 0, 0, 1), Port: 7946, Tags: map[string]string{"role": "web"}, Status: serf.StatusAlive,
			ProtocolMin: 1, DelegateCur: 5,
		},
		{Name: "beta", Addr: net.ParseIP("::1"), Status: serf.StatusFailed},
	}, f.moreMembers...)
}

func (f *fakeBackend) Join(existing []string, replay bool) (int, error) {
	if f.joins != nil {
		<-f.joins
	}
	if len(existing) == 0 {
		return 0, errors.New("nobody was joined")
	}
	return len(existing), nil
}

func (f *fakeBackend) Leave() error { f.record("leave"); return nil }

func (f *fakeBackend) Shutdown() { f.mu.Lock(); f.isShutdown = true; f.mu.Unlock() }

func (f *fakeBackend) wasShutdown() bool {
	f.mu.Lock()
	defer f.mu.Unlock()
	return f.isShutdown
}

func (f *fakeBackend) ForceLeave(name string, prune bool) error {
	f.record("force-leave " + name)
	return nil
}

func (f *fakeBackend) UpdateTags(set map[string]string, remove []string) error {
	f.record("tags")
	return nil
}

func (f *fakeBackend) Query(name string, payload []byte, params *serf.QueryParam) (*serf.QueryResponse, error) {
	f.record("query " + name)
	if name == "large" {
		return nil, errors.New("query exceeds limit of 1024 bytes")
	}
	return f.node.Query(name, payload, params)
}

func (f *fakeBackend) KeyManager() *serf.KeyManager { return f.node.KeyManager() }

func (f *fakeBackend) Coordinate(node string) (*coordinate.Coordinate, bool) {
	return &coordinate.Coordinate{Vec: []float64{1, 2}, Height: 3}, node == "alpha"
}

func (f *fakeBackend) Stats() map[string]map[string]string {
	return map[string]map[string]string{"agent": {"name": "alpha"}}
}

// withNode adds a node with a key to the backend, and returns the node's events.
func (f *fakeBackend) withNode(t *testing.T) <-chan serf.Event {
	t.Helper()
	events := make(chan serf.Event, 64)
	c := serf.DefaultConfig()
	c.NodeName, c.EventCh, c.LogOutput, c.MemberlistConfig = "alpha", events, io.Discard, memberlist.DefaultLocalConfig()
	c.MemberlistConfig.BindAddr, c.MemberlistConfig.BindPort, c.MemberlistConfig.SecretKey = "127.0.0.1", 0, make([]byte, 32)
	var err error
	if f.node, err = serf.Create(c); err != nil {
		t.Fatal(err)
	}
	t.Cleanup(func() { _ = f.node.Shutdown() })
	return events
}

// fireTestQuery returns a query that the node hands out, and its responses.
func fireTestQuery(t *testing.T, f *fakeBackend, events <-chan serf.Event) (*serf.Query, *serf.QueryResponse) {
	t.Helper()
	response, err := f.node.Query("load", nil, &serf.QueryParam{RequestAck: true, Timeout: time.Hour})
	testkit.Must(t, err)
	for e := range events {
		if q, ok := e.(*serf.Query); ok {
			return q, response
		}
	}
	return nil, nil
}

// testTimeouts allow for clients that a busy machine makes slow.
var testTimeouts = timeouts{time.Minute, time.Minute, time.Minute, 200 * time.Millisecond, time.Millisecond}

// startServer starts a server.
func startServer(t *testing.T, token string) (*Server, *fakeBackend, *logs.Log) {
	t.Helper()
	return startServerWith(t, token, testTimeouts)
}

// startServerWith is startServer with other timeouts.
func startServerWith(t *testing.T, token string, timeouts timeouts) (*Server, *fakeBackend, *logs.Log) {
	t.Helper()
	f := &fakeBackend{}
	log := logs.New(&bytes.Buffer{}, logs.Trace)
	s, err := listen("127.0.0.1:0", token, f, log, timeouts)
	testkit.Must(t, err)
	t.Cleanup(s.Close)
	return s, f, log
}

// peer is a client.
type peer struct {
	t    *testing.T
	conn net.Conn
	in   *reader
	seq  uint64
}

// dial connects a peer to the server.
func dial(t *testing.T, s *Server) *peer {
	t.Helper()
	conn, err := net.Dial("tcp", s.Addr().String())
	testkit.Must(t, err)
	t.Cleanup(func() { conn.Close() })
	return &peer{t: t, conn: conn, in: newReader(conn)}
}

func mustEncode(t *testing.T, values ...interface{}) []byte {
	t.Helper()
	data, err := encode(values...)
	testkit.Must(t, err)
	return data
}

func (p *peer) write(values ...interface{}) {
	p.t.Helper()
	if _, err := p.conn.Write(mustEncode(p.t, values...)); err != nil {
		p.t.Fatal(err)
	}
}

// request sends a request, and returns its sequence number.
func (p *peer) request(command string, body ...interface{}) uint64 {
	p.t.Helper()
	p.seq++
	p.write(append([]interface{}{requestHeader{command, p.seq}}, body...)...)
	return p.seq
}

func (p *peer) read(to interface{}) {
	p.t.Helper()
	_ = p.conn.SetReadDeadline(time.Now().Add(2 * time.Minute))
	testkit.Must(p.t, p.in.decode(1<<20, to))
}

// expect expects a header with this sequence number and error.
func (p *peer) expect(seq uint64, want string) {
	p.t.Helper()
	var header answerHeader
	p.read(&header)
	if header.Seq != seq || header.Error != want {
		p.t.Fatalf("%+v, not %d %q", header, seq, want)
	}
}

// handshake makes the handshake, and returns the peer.
func (p *peer) handshake() *peer {
	p.t.Helper()
	p.expect(p.request("handshake", handshakeBody{1}), "")
	return p
}

// expectClosed expects that the connection ends soon.
func (p *peer) expectClosed() {
	p.t.Helper()
	_ = p.conn.SetReadDeadline(time.Now().Add(2 * time.Minute))
	for {
		if _, err := p.in.stream.ReadByte(); err != nil {
			var late net.Error
			if errors.As(err, &late) && late.Timeout() {
				p.t.Fatal("the client isn't disconnected")
			}
			return
		}
	}
}
