package guard

import (
	"errors"
	"net"
	"sync"
	"time"

	"github.com/hashicorp/memberlist"
)

// Around makes a guard around a program's own transport, such as one over TLS or in memory. The guard inspects
// everything that inner receives, and sends through inner. The bounds are those of New, and you have to set the same
// fields of config before the call. Around wraps config.Events, and sets config.Keyring if only SecretKey is set, but
// it sets no address and no port. If packets of inner may be longer than PacketBytes, raise that bound.
//
// The guard begins to read the channels of inner when memberlist requests the guard's channels. If memberlist.Create
// fails before that, inner is unchanged. The guard's Shutdown also shuts down inner.
func Around(inner memberlist.Transport, config *memberlist.Config, settings Settings) (*Transport, error) {
	if inner == nil {
		return nil, errors.New("guard: Around needs a transport")
	}
	c, err := newCore(config, settings)
	if err != nil {
		return nil, err
	}
	carrier := &around{inner: inner, drained: make(chan struct{})}
	carrier.nodeAware, _ = inner.(memberlist.NodeAwareTransport)
	c.setUpMembers(config)
	return newTransport(c, carrier, logger(config)), nil
}

// around sends and receives packets and streams through another transport.
type around struct {
	inner memberlist.Transport
	// nodeAware is inner if it can use the names of nodes, or else nil.
	nodeAware memberlist.NodeAwareTransport
	startOnce sync.Once
	// drained is closed after inner was shut down, when nobody has to read its channels any more.
	drained chan struct{}
}

// receive starts the goroutines that read the channels of inner. The methods below implement carrier too.
func (a *around) receive(t *Transport) {
	a.startOnce.Do(func() {
		t.startProving()
		t.running.Add(2)
		go a.receivePackets(t)
		go a.receiveStreams(t)
	})
}

// receivePackets inspects the packets of inner, and passes them to memberlist.
func (a *around) receivePackets(t *Transport) {
	defer t.running.Done()
	ins := newInspector(t.core)
	for {
		select {
		case packet, ok := <-a.inner.PacketCh():
			if !ok {
				return
			}
			ins.from = packet.From
			// The bytes that inspect returns are those of the packet or are in new memory, so no copy is needed.
			if allowed := ins.inspect(packet.Buf); allowed != nil {
				t.passToMemberlist(&memberlist.Packet{Buf: allowed, From: packet.From, Timestamp: packet.Timestamp})
			}
		case <-a.drained:
			return
		}
	}
}

// receiveStreams passes the streams of inner to memberlist, which inspects them when it reads them.
func (a *around) receiveStreams(t *Transport) {
	defer t.running.Done()
	for {
		select {
		case conn, ok := <-a.inner.StreamCh():
			if !ok {
				return
			}
			t.deliverStream(conn)
		case <-a.drained:
			return
		}
	}
}

// close shuts down inner. The shutdown may wait until somebody reads the packets and streams that inner has received,
// so the channels of inner are read until the shutdown is done.
func (a *around) close() error {
	defer close(a.drained)
	return a.inner.Shutdown()
}

func (a *around) port() int { return 0 }

func (a *around) send(b []byte, to memberlist.Address) (time.Time, error) {
	if a.nodeAware != nil {
		return a.nodeAware.WriteToAddress(b, to)
	}
	return a.inner.WriteTo(b, to.Addr)
}

func (a *around) dial(to memberlist.Address, timeout time.Duration) (net.Conn, error) {
	if a.nodeAware != nil {
		return a.nodeAware.DialAddressTimeout(to, timeout)
	}
	return a.inner.DialTimeout(to.Addr, timeout)
}

func (a *around) finalAdvertiseAddr(given string, port int) (net.IP, int, error) {
	return a.inner.FinalAdvertiseAddr(given, port)
}
