package main

import (
	"errors"
	"hash/fnv"
	"math/rand"
	"net"
	"sync"
	"time"

	"github.com/hashicorp/memberlist"
)

// Limits of the network: the delay of a packet, the delay of a late packet, and the time to open a stream.
const (
	minDelay     = 200 * time.Microsecond
	delayRange   = 3 * time.Millisecond
	maxLateDelay = 5 * time.Second
	dialRange    = 5 * time.Millisecond
)

// The lengths of an endpoint's queues. When a queue is full, further packets are lost, and further streams are refused.
const (
	queuedPackets = 4096
	queuedStreams = 64
)

var (
	errTimeout = errors.New("simulated network: i/o timeout")
	errRefused = errors.New("simulated network: connection refused")
	errBroken  = errors.New("simulated network: connection reset")
)

// address is an address of an endpoint.
type address string

func (address) Network() string  { return "simulated" }
func (a address) String() string { return string(a) }

// noise has the shares of packets that are lost, repeated and late. The share of lost packets is also the share of
// streams that can't be opened or that break.
type noise struct {
	lose, repeat, late float64
}

// network connects the endpoints of the nodes.
type network struct {
	journal *journal

	mu        sync.Mutex
	rng       *rand.Rand
	endpoints map[string]*endpoint
	// partOf maps each address to the number of its part, if the network is cut into parts.
	partOf map[string]int
	noise  noise
	// recordedPackets has the packets that a hostile member recorded. recordShare is the share of packets that it records.
	recordedPackets [][]byte
	recordShare     float64
	// relays counts the relayed messages that were seen. Messages in encrypted or compressed packets can't be seen.
	relays int
	// packets counts the packets that were sent. openStreams counts the ends of streams that their owners have not
	// closed.
	packets, openStreams int
}

func newNetwork(j *journal, rng *rand.Rand) *network {
	return &network{journal: j, rng: rng, endpoints: map[string]*endpoint{}, partOf: map[string]int{}}
}

// setNoise replaces the noise.
func (n *network) setNoise(now noise) {
	n.mu.Lock()
	defer n.mu.Unlock()
	n.noise = now
}

// partition cuts the network into these parts, and breaks the streams between them. If there are no parts, the network is
// whole.
func (n *network) partition(partOf map[string]int) {
	n.mu.Lock()
	n.partOf = partOf
	var broken []*stream
	for _, e := range n.sortedEndpoints() {
		for _, s := range e.sortedStreams() {
			if partOf[string(s.local)] != partOf[string(s.remote)] {
				broken = append(broken, s)
			}
		}
	}
	n.mu.Unlock()
	for _, s := range broken {
		s.Conn.Close()
	}
}

// sortedEndpoints returns the endpoints in the order of their addresses. The caller holds mu.
func (n *network) sortedEndpoints() []*endpoint {
	var ordered []*endpoint
	for _, e := range n.endpoints {
		at := len(ordered)
		for at > 0 && ordered[at-1].address > e.address {
			at--
		}
		ordered = append(ordered[:at], append([]*endpoint{e}, ordered[at:]...)...)
	}
	return ordered
}

// traffic returns how many packets were sent.
func (n *network) traffic() int {
	n.mu.Lock()
	defer n.mu.Unlock()
	return n.packets
}

// streamsLeft returns the number of ends of streams that their owners have not closed.
func (n *network) streamsLeft() int {
	n.mu.Lock()
	defer n.mu.Unlock()
	return n.openStreams
}

// endpoint is the transport of one life of a node.
type endpoint struct {
	network *network
	address string
	packets chan *memberlist.Packet
	streams chan net.Conn

	mu     sync.Mutex
	isDead bool
	// openStreams has the open ends of streams that belong to this endpoint.
	openStreams map[*stream]bool
	// count is the number of the next stream.
	count int
}

var _ memberlist.Transport = &endpoint{}

// openEndpoint makes the endpoint at an address. It replaces an earlier endpoint there.
func (n *network) openEndpoint(at string) *endpoint {
	e := &endpoint{
		network: n, address: at, packets: make(chan *memberlist.Packet, queuedPackets), streams: make(chan net.Conn, queuedStreams),
		openStreams: map[*stream]bool{},
	}
	n.mu.Lock()
	defer n.mu.Unlock()
	n.endpoints[at] = e
	return e
}

// hasEnded reports whether the endpoint was shut down or its node was killed.
func (e *endpoint) hasEnded() bool {
	e.mu.Lock()
	defer e.mu.Unlock()
	return e.isDead
}

// kill ends the endpoint at once: nothing more is received or sent.
func (e *endpoint) kill() {
	e.mu.Lock()
	e.isDead = true
	e.mu.Unlock()
	for _, s := range e.sortedStreams() {
		s.Conn.Close()
	}
	for {
		select {
		case conn := <-e.streams:
			conn.Close()
		default:
			return
		}
	}
}

// sortedStreams returns the streams in the order in which they were opened.
func (e *endpoint) sortedStreams() []*stream {
	e.mu.Lock()
	defer e.mu.Unlock()
	var ordered []*stream
	for s := range e.openStreams {
		at := len(ordered)
		for at > 0 && ordered[at-1].number > s.number {
			at--
		}
		ordered = append(ordered[:at], append([]*stream{s}, ordered[at:]...)...)
	}
	return ordered
}

// Shutdown implements memberlist.Transport.
func (e *endpoint) Shutdown() error {
	e.kill()
	return nil
}

// FinalAdvertiseAddr implements memberlist.Transport.
func (e *endpoint) FinalAdvertiseAddr(string, int) (net.IP, int, error) {
	host, _, err := net.SplitHostPort(e.address)
	return net.ParseIP(host), port, err
}

// PacketCh implements memberlist.Transport.
func (e *endpoint) PacketCh() <-chan *memberlist.Packet { return e.packets }

// StreamCh implements memberlist.Transport.
func (e *endpoint) StreamCh() <-chan net.Conn { return e.streams }

// WriteTo implements memberlist.Transport.
func (e *endpoint) WriteTo(packet []byte, to string) (time.Time, error) {
	if !e.hasEnded() {
		e.network.send(e.address, to, packet)
	}
	return time.Now(), nil
}

// isRelay reports whether a packet is a relayed message.
func isRelay(packet []byte) bool {
	if len(packet) > checksumBytes && packet[0] == checksummed {
		packet = packet[checksumBytes:]
	}
	return len(packet) > 1 && packet[0] == userMessage && packet[1] == relayMessage
}

// relaysSent returns how many relayed messages were seen.
func (n *network) relaysSent() int {
	n.mu.Lock()
	defer n.mu.Unlock()
	return n.relays
}

// send sends a packet. The network may lose, repeat or delay it.
func (n *network) send(from, to string, packet []byte) {
	n.mu.Lock()
	defer n.mu.Unlock()
	n.packets++
	sum := fnv.New32a()
	sum.Write(packet)
	n.journal.add("packet %s %s %d %08x", from, to, len(packet), sum.Sum32())
	if isRelay(packet) {
		n.relays++
	}
	if n.recordShare > 0 && n.rng.Float64() < n.recordShare {
		n.recordedPackets = append(n.recordedPackets, append([]byte(nil), packet...))
	}
	peer := n.endpoints[to]
	if peer == nil || n.partOf[from] != n.partOf[to] || n.rng.Float64() < n.noise.lose {
		return
	}
	count := 1
	if n.rng.Float64() < n.noise.repeat {
		count = 2
	}
	for ; count > 0; count-- {
		delay := minDelay + time.Duration(n.rng.Int63n(int64(delayRange)))
		if n.rng.Float64() < n.noise.late {
			delay = time.Duration(n.rng.Int63n(int64(maxLateDelay)))
		}
		copied := append([]byte(nil), packet...)
		time.AfterFunc(delay, func() { peer.deliver(address(from), copied) })
	}
}

// deliver passes a packet to the endpoint's node. The packet is lost if the queue is full.
func (e *endpoint) deliver(from address, packet []byte) {
	if e.hasEnded() {
		return
	}
	select {
	case e.packets <- &memberlist.Packet{Buf: packet, From: from, Timestamp: time.Now()}:
	default:
	}
}

// DialTimeout implements memberlist.Transport.
func (e *endpoint) DialTimeout(to string, timeout time.Duration) (net.Conn, error) {
	n := e.network
	n.mu.Lock()
	peer := n.endpoints[to]
	isCut := peer == nil || n.partOf[e.address] != n.partOf[to] || n.rng.Float64() < n.noise.lose
	delay := time.Duration(n.rng.Int63n(int64(dialRange)))
	bytesUntilBreak := -1
	if n.rng.Float64() < n.noise.lose {
		bytesUntilBreak = n.rng.Intn(2000)
	}
	n.journal.add("dial %s %s", e.address, to)
	n.mu.Unlock()
	if isCut {
		time.Sleep(timeout)
		return nil, errTimeout
	}
	time.Sleep(delay)
	if peer.hasEnded() || e.hasEnded() {
		return nil, errRefused
	}
	here, there := net.Pipe()
	near := e.addStream(&stream{Conn: here, local: address(e.address), remote: address(to), bytesUntilBreak: bytesUntilBreak})
	far := peer.addStream(&stream{Conn: there, local: address(to), remote: address(e.address), bytesUntilBreak: bytesUntilBreak})
	select {
	case peer.streams <- far:
		return near, nil
	default:
		near.Close()
		far.Close()
		return nil, errRefused
	}
}

// addStream registers an end of a stream that belongs to this endpoint.
func (e *endpoint) addStream(s *stream) *stream {
	s.owner = e
	e.mu.Lock()
	e.count++
	s.number = e.count
	e.openStreams[s] = true
	e.mu.Unlock()
	e.network.mu.Lock()
	defer e.network.mu.Unlock()
	e.network.openStreams++
	return s
}

// stream is one end of a stream.
type stream struct {
	net.Conn
	owner         *endpoint
	number        int
	local, remote address
	// bytesUntilBreak is the number of bytes that this end can write until the stream breaks, or -1 if the stream doesn't
	// break.
	bytesUntilBreak int
	close           sync.Once
}

func (s *stream) LocalAddr() net.Addr  { return s.local }
func (s *stream) RemoteAddr() net.Addr { return s.remote }

func (s *stream) Write(data []byte) (int, error) {
	if s.bytesUntilBreak >= 0 && len(data) > s.bytesUntilBreak {
		count, _ := s.Conn.Write(data[:s.bytesUntilBreak])
		s.Conn.Close()
		return count, errBroken
	}
	if s.bytesUntilBreak >= 0 {
		s.bytesUntilBreak -= len(data)
	}
	return s.Conn.Write(data)
}

func (s *stream) Close() error {
	s.close.Do(func() {
		s.owner.mu.Lock()
		delete(s.owner.openStreams, s)
		s.owner.mu.Unlock()
		s.owner.network.mu.Lock()
		s.owner.network.openStreams--
		s.owner.network.mu.Unlock()
	})
	return s.Conn.Close()
}
