//go:build faults

// This file is built with `-tags faults`, for tests only. Its transport loses, repeats and delays packets, so their
// order changes too, and it cuts links to addresses. The file that KITCHENRUE_FAULTS names selects these faults, and
// the transport reads that file again every tenth of a second. Its lines are `lose SHARE`, `repeat SHARE`, `late
// SHARE`, `cut ADDRESS..` and `refuse streams`. The address of an accepted stream does not say which node opened the
// stream, so `cut` applies only to streams that this node opens.

package serf

import (
	"errors"
	"fmt"
	"math/rand"
	"net"
	"os"
	"strings"
	"sync/atomic"
	"time"

	"github.com/hashicorp/memberlist"
)

// reloadInterval is how often the file is read, and maxDelay the maximum delay of a packet.
const (
	reloadInterval = 100 * time.Millisecond
	maxDelay       = 300 * time.Millisecond
)

var errCut = errors.New("the link is cut")

// faults has the shares of packets that are lost, repeated and delayed, the addresses that are cut off, and whether the
// node refuses streams from other nodes.
type faults struct {
	loseShare, repeatShare, lateShare float64
	cut                               map[string]bool
	refusesStreams                    bool
}

// readFaults reads the lines of the file of faults.
func readFaults(text string) *faults {
	f := &faults{cut: map[string]bool{}}
	for _, line := range strings.Split(text, "\n") {
		words := strings.Fields(line)
		if len(words) < 2 {
			continue
		}
		switch words[0] {
		case "lose":
			fmt.Sscan(words[1], &f.loseShare)
		case "repeat":
			fmt.Sscan(words[1], &f.repeatShare)
		case "late":
			fmt.Sscan(words[1], &f.lateShare)
		case "refuse":
			f.refusesStreams = true
		case "cut":
			for _, address := range words[1:] {
				f.cut[address] = true
			}
		}
	}
	return f
}

// isCut reports whether an address, with or without a port, is cut off.
func (f *faults) isCut(address string) bool {
	if host, _, err := net.SplitHostPort(address); err == nil {
		address = host
	}
	return f.cut[address]
}

// deliver delivers a packet from or to an address: not at all, once or twice, and perhaps late.
func (f *faults) deliver(address string, deliverOnce func()) {
	if f.isCut(address) || rand.Float64() < f.loseShare {
		return
	}
	count, isLate := 1, rand.Float64() < f.lateShare
	if rand.Float64() < f.repeatShare {
		count = 2
	}
	for ; count > 0; count-- {
		if isLate {
			time.AfterFunc(time.Duration(rand.Int63n(int64(maxDelay))), deliverOnce)
		} else {
			deliverOnce()
		}
	}
}

// faultyTransport wraps a transport and injects faults.
type faultyTransport struct {
	memberlist.NodeAwareTransport
	faults  atomic.Pointer[faults]
	packets chan *memberlist.Packet
	streams chan net.Conn
	done    chan struct{}
}

var _ memberlist.NodeAwareTransport = &faultyTransport{}

// withFaults adds the faults that the file selects to a transport. If KITCHENRUE_FAULTS is not set, it returns the
// transport unchanged.
func withFaults(inner memberlist.NodeAwareTransport) (memberlist.Transport, error) {
	path := os.Getenv("KITCHENRUE_FAULTS")
	if path == "" {
		return inner, nil
	}
	t := &faultyTransport{
		NodeAwareTransport: inner, packets: make(chan *memberlist.Packet), streams: make(chan net.Conn), done: make(chan struct{}),
	}
	t.read(path)
	go func() {
		ticker := time.NewTicker(reloadInterval)
		defer ticker.Stop()
		for {
			select {
			case <-t.done:
				return
			case <-ticker.C:
				t.read(path)
			}
		}
	}()
	go t.receive()
	return t, nil
}

// read reads the file of faults, and applies it from the next packet on.
func (t *faultyTransport) read(path string) {
	// (without the file there are no faults)
	text, _ := os.ReadFile(path)
	t.faults.Store(readFaults(string(text)))
}

// receive passes the packets and streams that arrive on to memberlist, and injects the faults.
func (t *faultyTransport) receive() {
	for {
		select {
		case <-t.done:
			return
		case packet := <-t.NodeAwareTransport.PacketCh():
			t.faults.Load().deliver(packet.From.String(), func() {
				// (memberlist changes the bytes of a packet that it reads)
				copied := *packet
				copied.Buf = append([]byte(nil), packet.Buf...)
				select {
				case t.packets <- &copied:
				case <-t.done:
				}
			})
		case stream := <-t.NodeAwareTransport.StreamCh():
			if t.faults.Load().refusesStreams {
				stream.Close()
				continue
			}
			select {
			case t.streams <- stream:
			case <-t.done:
				stream.Close()
				return
			}
		}
	}
}

func (t *faultyTransport) PacketCh() <-chan *memberlist.Packet { return t.packets }
func (t *faultyTransport) StreamCh() <-chan net.Conn           { return t.streams }

func (t *faultyTransport) WriteTo(b []byte, address string) (time.Time, error) {
	return t.WriteToAddress(b, memberlist.Address{Addr: address})
}

func (t *faultyTransport) WriteToAddress(b []byte, address memberlist.Address) (time.Time, error) {
	copied := append([]byte(nil), b...)
	t.faults.Load().deliver(address.Addr, func() { _, _ = t.NodeAwareTransport.WriteToAddress(copied, address) })
	return time.Now(), nil
}

func (t *faultyTransport) DialTimeout(address string, timeout time.Duration) (net.Conn, error) {
	return t.DialAddressTimeout(memberlist.Address{Addr: address}, timeout)
}

func (t *faultyTransport) DialAddressTimeout(address memberlist.Address, timeout time.Duration) (net.Conn, error) {
	if t.faults.Load().isCut(address.Addr) {
		return nil, errCut
	}
	return t.NodeAwareTransport.DialAddressTimeout(address, timeout)
}

func (t *faultyTransport) Shutdown() error {
	close(t.done)
	// (the listeners of the inner transport may block until somebody reads what they received)
	result := make(chan error, 1)
	go func() { result <- t.NodeAwareTransport.Shutdown() }()
	for {
		select {
		case err := <-result:
			return err
		case <-t.NodeAwareTransport.PacketCh():
		case stream := <-t.NodeAwareTransport.StreamCh():
			stream.Close()
		}
	}
}
