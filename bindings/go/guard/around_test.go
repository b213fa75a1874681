package guard

import (
	"bytes"
	"errors"
	"fmt"
	"io"
	"net"
	"reflect"
	"sync"
	"testing"
	"time"

	"github.com/hashicorp/memberlist"
)

// memoryNet is a network in memory. It has its transports by their addresses.
type memoryNet struct {
	mu    sync.Mutex
	nodes map[string]*memoryTransport
}

// transportAt returns the transport with this address, or nil.
func (n *memoryNet) transportAt(addr string) *memoryTransport {
	n.mu.Lock()
	defer n.mu.Unlock()
	return n.nodes[addr]
}

// memoryTransport is a program's own transport. It doesn't use the names of nodes.
type memoryTransport struct {
	net     *memoryNet
	ip      net.IP
	packets chan *memberlist.Packet
	streams chan net.Conn
	// closed is closed by Shutdown. Shutdown waits until sending counts no more packets that are being sent to this
	// transport, and returns err. mu is held while sending changes and while closed is being closed.
	closed  chan struct{}
	mu      sync.Mutex
	sending sync.WaitGroup
	err     error
}

const memoryPort = 7946

// add adds a transport at 10.0.0.last to the network.
func (n *memoryNet) add(last byte) *memoryTransport {
	m := &memoryTransport{
		net: n, ip: net.IP{10, 0, 0, last}, packets: make(chan *memberlist.Packet), streams: make(chan net.Conn),
		closed: make(chan struct{}),
	}
	n.mu.Lock()
	defer n.mu.Unlock()
	if n.nodes == nil {
		n.nodes = map[string]*memoryTransport{}
	}
	n.nodes[m.addr().String()] = m
	return m
}

func (m *memoryTransport) addr() *net.UDPAddr { return &net.UDPAddr{IP: m.ip, Port: memoryPort} }

// receive delivers a packet of the network to this transport.
func (m *memoryTransport) receive(b []byte, from net.Addr) {
	m.mu.Lock()
	defer m.mu.Unlock()
	select {
	case <-m.closed:
		return
	default:
	}
	m.sending.Add(1)
	go func() {
		defer m.sending.Done()
		m.packets <- &memberlist.Packet{Buf: append([]byte(nil), b...), From: from, Timestamp: time.Now()}
	}()
}

func (m *memoryTransport) FinalAdvertiseAddr(string, int) (net.IP, int, error) {
	return m.ip, memoryPort, nil
}

func (m *memoryTransport) WriteTo(b []byte, addr string) (time.Time, error) {
	if to := m.net.transportAt(addr); to != nil {
		to.receive(b, m.addr())
	}
	return time.Now(), nil
}

func (m *memoryTransport) PacketCh() <-chan *memberlist.Packet { return m.packets }

func (m *memoryTransport) DialTimeout(addr string, timeout time.Duration) (net.Conn, error) {
	to := m.net.transportAt(addr)
	if to == nil {
		return nil, errors.New("nobody is there")
	}
	here, there := net.Pipe()
	select {
	case to.streams <- there:
		return here, nil
	case <-time.After(timeout):
		return nil, errors.New("nobody accepts")
	}
}

func (m *memoryTransport) StreamCh() <-chan net.Conn { return m.streams }

func (m *memoryTransport) Shutdown() error {
	m.mu.Lock()
	close(m.closed)
	m.mu.Unlock()
	m.sending.Wait()
	return m.err
}

// namedTransport is a program's own transport that uses the names of nodes.
type namedTransport struct {
	*memoryTransport
	mu    sync.Mutex
	names []string
}

// recordSend records the name of the node to which something is sent.
func (n *namedTransport) recordSend(name string) {
	n.mu.Lock()
	defer n.mu.Unlock()
	n.names = append(n.names, name)
}

func (n *namedTransport) IngestPacket(net.Conn, net.Addr, time.Time, bool) error {
	return errors.New("not used")
}
func (n *namedTransport) IngestStream(net.Conn) error { return errors.New("not used") }

func (n *namedTransport) WriteToAddress(b []byte, to memberlist.Address) (time.Time, error) {
	n.recordSend("packet to " + to.Name)
	return n.WriteTo(b, to.Addr)
}

func (n *namedTransport) DialAddressTimeout(to memberlist.Address, timeout time.Duration) (net.Conn, error) {
	n.recordSend("stream to " + to.Name)
	return n.DialTimeout(to.Addr, timeout)
}

// testAround makes a guard around a transport, without a memberlist over it.
func testAround(t *testing.T, inner memberlist.Transport, isKeyed bool, settings Settings) *Transport {
	t.Helper()
	guarded, err := Around(inner, testConfig("child", isKeyed), settings)
	if err != nil {
		t.Fatal(err)
	}
	t.Cleanup(func() { guarded.Shutdown() })
	return guarded
}

// nextPacket returns the packet that memberlist receives next, or nil if none arrives within wait.
func nextPacket(g *Transport, wait time.Duration) *memberlist.Packet {
	select {
	case packet := <-g.PacketCh():
		return packet
	case <-time.After(wait):
		return nil
	}
}

// A guard around a program's own transport drops the packets and streams that a guard over sockets drops, and passes on
// honest ones byte for byte.
func TestAround(t *testing.T) {
	for _, isKeyed := range []bool{false, true} {
		inner, c := new(memoryNet).add(1), &child{childOptions: childOptions{IsKeyed: isKeyed}}
		settings := Defaults()
		settings.AdmitUnproven = true
		g := testAround(t, inner, isKeyed, settings)
		from := &net.UDPAddr{IP: net.IP{10, 0, 0, 9}, Port: 9}
		for i, packet := range honestPackets() {
			packet = c.seal(packet)
			inner.receive(packet, from)
			if got := nextPacket(g, time.Minute); got == nil || !bytes.Equal(got.Buf, packet) || got.From != from ||
				got.Timestamp.IsZero() {
				t.Fatalf("honest packet %d: %v", i, got)
			}
		}
		for _, test := range packetCases() {
			before, packet := g.Drops()[test.reason], c.seal(test.bytes)
			inner.receive(packet, from)
			eventually(t, test.name+" isn't counted", func() bool {
				// An earlier compound may pass only now, without its bad parts. Until somebody takes it, the guard
				// inspects no later packet.
				if got := nextPacket(g, time.Millisecond); got != nil && bytes.Equal(got.Buf, packet) {
					t.Errorf("%s passes", test.name)
				}
				return g.Drops()[test.reason] > before
			})
		}
		read := func(stream []byte) []byte {
			here, there := net.Pipe()
			go func() {
				there.Write(stream)
				there.Close()
			}()
			inner.streams <- here
			conn := <-g.StreamCh()
			defer conn.Close()
			conn.SetDeadline(time.Now().Add(time.Minute))
			out, _ := io.ReadAll(conn)
			return out
		}
		honest := c.sealStream(pushPull([]map[string]any{node("one", nil)}, 100))
		if !bytes.Equal(read(honest), honest) {
			t.Error("an honest stream doesn't pass")
		}
		for _, test := range streamCases() {
			if isKeyed && test.reason == Short {
				test.reason = Malformed // The encrypted content is complete, so the stream isn't short.
			}
			before := g.Drops()[test.reason]
			if out := read(c.sealStream(test.bytes)); bytes.Equal(out, c.sealStream(test.bytes)) || g.Drops()[test.reason] == before {
				t.Errorf("%s: %d bytes pass, %v", test.name, len(out), g.Drops())
			}
		}
	}
}

// A guard sends through the program's own transport, and passes the node's name if that transport can use it. The guard
// records the pings that it sends, and inspects the answers.
func TestSendingAround(t *testing.T) {
	network := new(memoryNet)
	plain, named, other := network.add(1), &namedTransport{memoryTransport: network.add(2)}, network.add(3)
	for _, inner := range []memberlist.Transport{plain, named} {
		g := testAround(t, inner, false, Settings{})
		to := memberlist.Address{Addr: other.addr().String(), Name: "other"}
		ack := message(msgAck, map[string]any{"SeqNo": 9, "Payload": nil})
		if inspectPacket(g, ack) != nil {
			t.Error("an early ack passes")
		}
		ping := message(msgPing, withChanges(ping, map[string]any{"SeqNo": 9}))
		if _, err := g.WriteToAddress(ping, to); err != nil {
			t.Error(err)
		}
		if got := <-other.packets; !bytes.Equal(got.Buf, ping) {
			t.Errorf("%x was sent", got.Buf)
		}
		if inspectPacket(g, ack) == nil {
			t.Error("an ack doesn't pass")
		}
		go func() {
			conn := <-other.streams
			conn.Write(message(msgUser, map[string]any{"UserMsgLen": 0})) // Only a node that dials may send this.
			conn.Close()
		}()
		conn, err := g.DialAddressTimeout(to, time.Minute)
		if err != nil {
			t.Fatal(err)
		}
		if out, err := io.ReadAll(conn); len(out) > 0 || err == nil || g.Drops()[Kind] != 1 {
			t.Errorf("an answer of the wrong kind: %d bytes, %v, %v", len(out), err, g.Drops())
		}
		conn.Close()
	}
	if want := []string{"packet to other", "stream to other"}; !reflect.DeepEqual(named.names, want) {
		t.Errorf("%q", named.names)
	}
}

// Nodes with a guarded transport in memory form a cluster, and survive packets that crash memberlist.
func TestClusterAround(t *testing.T) {
	network := new(memoryNet)
	var lists []*memberlist.Memberlist
	var guards []*Transport
	for n := byte(1); n <= 3; n++ {
		c := testConfig(fmt.Sprint("node", n), false)
		// (the guard pings a new node again if it answers late, and then counts its second answer)
		c.ProbeInterval, c.ProbeTimeout = time.Hour, 10*time.Second
		guarded, err := Around(network.add(n), c, Defaults())
		if err != nil {
			t.Fatal(err)
		}
		c.Transport = guarded
		list, err := memberlist.Create(c)
		if err != nil {
			t.Fatal(err)
		}
		t.Cleanup(func() { list.Shutdown() })
		if c.BindPort != 0 || guarded.Port() != 0 || list.LocalNode().Addr.String() != fmt.Sprint("10.0.0.", n) {
			t.Errorf("port %d, port %d, %v", c.BindPort, guarded.Port(), list.LocalNode())
		}
		lists, guards = append(lists, list), append(guards, guarded)
	}
	for n, list := range lists[1:] {
		if _, err := list.Join([]string{lists[n].LocalNode().Address()}); err != nil {
			t.Fatal(err)
		}
	}
	hostile := packetCases()
	for _, test := range hostile {
		network.transportAt("10.0.0.1:7946").receive(test.bytes, &net.UDPAddr{IP: net.IP{10, 0, 0, 9}})
	}
	for _, list := range lists {
		eventually(t, "not all nodes are members", func() bool { return list.NumMembers() == 3 })
	}
	eventually(t, "not all drops are counted", func() bool {
		var total uint64
		for _, count := range guards[0].Drops() {
			total += count
		}
		return total >= uint64(len(hostile))
	})
	if drops := guards[1].Drops(); len(drops) > 0 {
		t.Errorf("of what honest nodes send: %v", drops)
	}
}

// Until memberlist requests the channels, the guard reads nothing from the program's transport. Shutdown reads the
// packets that are still being received, since the transport may wait for that, and returns the transport's error.
func TestShutdownAround(t *testing.T) {
	inner := new(memoryNet).add(1)
	inner.err = errors.New("it failed")
	g, err := Around(inner, testConfig("child", false), Defaults())
	if err != nil {
		t.Fatal(err)
	}
	for n := 0; n < 10; n++ {
		inner.receive(alive("one", nil), nil)
	}
	time.Sleep(50 * time.Millisecond)
	for n := 0; n < 10; n++ {
		select {
		case <-inner.packets:
		case <-time.After(time.Minute):
			t.Fatal("the guard accepted a packet")
		}
	}
	g.PacketCh()
	for n := 0; n < 10; n++ {
		inner.receive(alive("one", nil), nil)
	}
	done := make(chan error, 1)
	go func() { done <- g.Shutdown() }()
	select {
	case err := <-done:
		if err != inner.err || g.Shutdown() != inner.err {
			t.Error(err)
		}
	case <-time.After(time.Minute):
		t.Fatal("Shutdown waits")
	}
	select {
	case <-inner.closed:
	default:
		t.Error("the program's transport wasn't shut down")
	}
}

// Shutdown of a guard returns even if memberlist never requested its channels, and even if its transport waits until
// somebody reads a received packet.
func TestShutdownBeforeChannelsAround(t *testing.T) {
	inner := new(memoryNet).add(1)
	g, err := Around(inner, testConfig("child", false), Defaults())
	if err != nil {
		t.Fatal(err)
	}
	inner.receive(alive("one", nil), nil)
	done := make(chan error, 1)
	go func() { done <- g.Shutdown() }()
	select {
	case err := <-done:
		if err != nil {
			t.Error(err)
		}
	case <-time.After(time.Minute):
		t.Fatal("Shutdown waits")
	}
	g.PacketCh()
	g.StreamCh()
	g.running.Wait()
}

// If a transport closes its channels, the goroutines that read them end.
func TestClosedChannelsAround(t *testing.T) {
	inner := new(memoryNet).add(1)
	g, err := Around(inner, testConfig("child", false), Defaults())
	if err != nil {
		t.Fatal(err)
	}
	g.StreamCh()
	close(inner.packets)
	close(inner.streams)
	g.running.Wait()
	if err := g.Shutdown(); err != nil {
		t.Error(err)
	}
}

func TestSettingsAround(t *testing.T) {
	inner := new(memoryNet).add(1)
	for name, test := range map[string]struct {
		inner    memberlist.Transport
		settings Settings
	}{
		"no transport": {nil, Settings{}}, "below 0": {inner, Settings{Streams: -1}},
		"a small PacketBytes": {inner, Settings{PacketBytes: 1000}},
	} {
		if _, err := Around(test.inner, testConfig("child", false), test.settings); err == nil {
			t.Errorf("%s: accepted", name)
		}
	}
	c := testConfig("child", false)
	c.Keyring, c.SecretKey = nil, testKey
	if _, err := Around(inner, c, Settings{}); err != nil || c.Keyring == nil || c.Events == nil {
		t.Errorf("%v %v %v", err, c.Keyring, c.Events)
	}
}
