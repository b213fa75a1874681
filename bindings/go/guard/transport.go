package guard

import (
	"bytes"
	"fmt"
	"io"
	"log"
	"net"
	"net/netip"
	"sync"
	"time"

	"github.com/hashicorp/memberlist"
)

// Transport implements memberlist.NodeAwareTransport over UDP and TCP (New) or over another transport (Around). It
// inspects everything it receives before memberlist reads it.
type Transport struct {
	*core
	carrier
	log        *log.Logger
	packets    chan *memberlist.Packet
	conns      chan net.Conn
	inspectors sync.Pool
	// closed is closed when the transport is shut down. The transport delivers nothing after that.
	closed    chan struct{}
	closeOnce sync.Once
	closeErr  error
	// running counts the goroutines that receive, and proving the goroutine that runs prove.
	running, proving sync.WaitGroup
}

var _ memberlist.NodeAwareTransport = &Transport{}

// carrier sends and receives packets and streams. It is either sockets or another transport.
type carrier interface {
	// receive starts goroutines that deliver the packets and streams that arrive. t.running counts these goroutines.
	// Only the first call has an effect.
	receive(t *Transport)
	send(b []byte, to memberlist.Address) (time.Time, error)
	dial(to memberlist.Address, timeout time.Duration) (net.Conn, error)
	finalAdvertiseAddr(given string, port int) (net.IP, int, error)
	// port returns the port on which the sockets listen, or 0 if there are no sockets.
	port() int
	// close makes the goroutines of receive end.
	close() error
}

func newTransport(shared *core, carrier carrier, log *log.Logger) *Transport {
	t := &Transport{
		core:    shared,
		carrier: carrier,
		log:     log,
		packets: make(chan *memberlist.Packet),
		conns:   make(chan net.Conn),
		closed:  make(chan struct{}),
	}
	t.inspectors.New = func() any { return newInspector(shared) }
	return t
}

// Port returns the port on which the transport listens. It returns 0 if this transport is around another one.
func (t *Transport) Port() int { return t.port() }

// PacketCh implements memberlist.Transport.
func (t *Transport) PacketCh() <-chan *memberlist.Packet {
	t.receive(t)
	return t.packets
}

// StreamCh implements memberlist.Transport.
func (t *Transport) StreamCh() <-chan net.Conn {
	t.receive(t)
	return t.conns
}

// Shutdown implements memberlist.Transport. It also shuts down the transport that this one wraps.
func (t *Transport) Shutdown() error {
	t.closeOnce.Do(func() {
		close(t.closed)
		t.receive(t) // Packets and streams that arrive while the carrier closes have to be received too.
		t.closeErr = t.close()
	})
	t.running.Wait()
	t.proving.Wait()
	return t.closeErr
}

// deliver inspects a packet, and passes a copy of the bytes that memberlist may read to memberlist.
func (t *Transport) deliver(ins *inspector, packet []byte, from net.Addr, at time.Time) {
	ins.from = from
	if allowed := ins.inspect(packet); allowed != nil {
		t.passToMemberlist(&memberlist.Packet{Buf: append([]byte(nil), allowed...), From: from, Timestamp: at})
	}
}

// passToMemberlist passes a packet to memberlist.
func (t *Transport) passToMemberlist(packet *memberlist.Packet) {
	select {
	case t.packets <- packet:
	case <-t.closed:
	}
}

// deliverStream passes a connection to memberlist, as a stream that is inspected when memberlist first reads from it.
func (t *Transport) deliverStream(conn net.Conn) {
	s := t.newStream(conn, false)
	s.peer = addrOf(conn.RemoteAddr())
	t.streams.add(s)
	select {
	case t.conns <- s:
	case <-t.closed:
		s.Close()
	}
}

// IngestPacket implements memberlist.IngestionAwareTransport. The connection's whole content is one packet.
func (t *Transport) IngestPacket(conn net.Conn, from net.Addr, at time.Time, shouldClose bool) error {
	if shouldClose {
		defer conn.Close()
	}
	var packet bytes.Buffer
	if _, err := io.Copy(&packet, io.LimitReader(conn, int64(t.bounds.PacketBytes)+1)); err != nil {
		return fmt.Errorf("guard: reading a packet: %w", err)
	}
	ins := t.inspectors.Get().(*inspector)
	defer t.inspectors.Put(ins)
	t.deliver(ins, packet.Bytes(), from, at)
	return nil
}

// IngestStream implements memberlist.IngestionAwareTransport.
func (t *Transport) IngestStream(conn net.Conn) error {
	t.deliverStream(conn)
	return nil
}

// WriteTo implements memberlist.Transport.
func (t *Transport) WriteTo(b []byte, to string) (time.Time, error) {
	return t.WriteToAddress(b, memberlist.Address{Addr: to})
}

// WriteToAddress implements memberlist.NodeAwareTransport. A transport that wraps this one has to send through it: the
// guard drops acks to pings that it did not see.
func (t *Transport) WriteToAddress(b []byte, to memberlist.Address) (time.Time, error) {
	ins := t.inspectors.Get().(*inspector)
	ins.recordSentPing(b)
	t.inspectors.Put(ins)
	return t.send(b, to)
}

// DialTimeout implements memberlist.Transport.
func (t *Transport) DialTimeout(to string, timeout time.Duration) (net.Conn, error) {
	return t.DialAddressTimeout(memberlist.Address{Addr: to}, timeout)
}

// DialAddressTimeout implements memberlist.NodeAwareTransport. The answer is inspected too, since a forged member can
// make this node dial it.
func (t *Transport) DialAddressTimeout(to memberlist.Address, timeout time.Duration) (net.Conn, error) {
	conn, err := t.dial(to, timeout)
	if err != nil {
		return nil, err
	}
	s := t.newStream(conn, true)
	if parsed, err := netip.ParseAddrPort(to.Addr); err == nil {
		s.peer = unmap(parsed)
	}
	return s, nil
}

// FinalAdvertiseAddr implements memberlist.Transport. It returns the given address if there is one. Otherwise, it
// returns the address on which the transport listens or, if that is 0.0.0.0, a private address of the host. If this
// transport is around another one, it returns the result of the other one.
func (t *Transport) FinalAdvertiseAddr(given string, port int) (net.IP, int, error) {
	return t.finalAdvertiseAddr(given, port)
}
