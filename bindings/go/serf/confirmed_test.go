package serf

import (
	"errors"
	"net"
	"sync"
	"sync/atomic"
	"testing"
	"time"

	"github.com/hashicorp/memberlist"
)

var errNetworkCut = errors.New("the network is cut")

// cutTransport is a transport that a test can cut off. It then neither sends nor accepts anything.
type cutTransport struct {
	*memberlist.NetTransport
	isCut   atomic.Bool
	streams chan net.Conn
}

// newCutTransport returns a transport on loopback that isn't cut off yet.
func newCutTransport(t *testing.T) *cutTransport {
	t.Helper()
	inner := newNetTransport(t)
	c := &cutTransport{NetTransport: inner, streams: make(chan net.Conn)}
	stopped := make(chan struct{})
	t.Cleanup(func() { close(stopped) })
	go func() {
		for {
			select {
			case stream := <-inner.StreamCh():
				if c.isCut.Load() {
					stream.Close()
					continue
				}
				c.streams <- cutStream{stream, c}
			case <-stopped:
				return
			}
		}
	}()
	return c
}

func (c *cutTransport) StreamCh() <-chan net.Conn { return c.streams }

func (c *cutTransport) WriteTo(b []byte, addr string) (time.Time, error) {
	if c.isCut.Load() {
		return time.Now(), nil
	}
	return c.NetTransport.WriteTo(b, addr)
}

func (c *cutTransport) WriteToAddress(b []byte, addr memberlist.Address) (time.Time, error) {
	return c.WriteTo(b, addr.Addr)
}

func (c *cutTransport) DialTimeout(addr string, timeout time.Duration) (net.Conn, error) {
	if c.isCut.Load() {
		return nil, errNetworkCut
	}
	stream, err := c.NetTransport.DialTimeout(addr, timeout)
	if err != nil {
		return nil, err
	}
	return cutStream{stream, c}, nil
}

func (c *cutTransport) DialAddressTimeout(addr memberlist.Address, timeout time.Duration) (net.Conn, error) {
	return c.DialTimeout(addr.Addr, timeout)
}

// cutStream is a stream of a cutTransport. If it is still open when the transport is cut off, nothing more is sent over it.
type cutStream struct {
	net.Conn
	transport *cutTransport
}

func (c cutStream) Write(b []byte) (int, error) {
	if c.transport.isCut.Load() {
		return 0, errNetworkCut
	}
	return c.Conn.Write(b)
}

// handlerRuns counts, over all lives of a node, how often the handler of each event ran.
type handlerRuns struct {
	mu     sync.Mutex
	counts map[string]int
	// isStopped: no more handlers begin.
	isStopped atomic.Bool
}

// run runs the handler of an event, as a program that tracks handlers does.
func (h *handlerRuns) run(node *Serf, event UserEvent) {
	if h.isStopped.Load() || node.Begin(event) != nil {
		return
	}
	h.mu.Lock()
	h.counts[event.Name]++
	h.mu.Unlock()
	_ = node.Done(event)
}

// count returns how often the handler of an event ran.
func (h *handlerRuns) count(name string) int {
	h.mu.Lock()
	defer h.mu.Unlock()
	return h.counts[name]
}

// startHandling starts a node that tracks handlers. It first runs the handlers that never began in the node's earlier
// lives.
func (h *handlerRuns) startHandling(t *testing.T, name, folder string, opts ...option) *testNode {
	t.Helper()
	var node atomic.Pointer[Serf]
	handle := func(e Event) {
		if event, ok := e.(UserEvent); ok {
			for node.Load() == nil {
				time.Sleep(time.Millisecond)
			}
			h.run(node.Load(), event)
		}
	}
	n := startNode(t, name, folder, append([]option{withTracking, withOnEvent(handle)}, opts...)...)
	for _, e := range n.Unfinished() {
		if !e.HasBegun {
			h.run(n.Serf, e.UserEvent)
		}
	}
	node.Store(n.Serf)
	return n
}

// A confirmed firing survives a kill of the node that fired it. When that node is killed, it has sent no packet with
// the event, and has run no handler. After its restart, the node sends the event, and the handler runs once on each
// node.
func TestConfirmedFiringSurvivesItsFirer(t *testing.T) {
	folder, network := t.TempDir(), newCutTransport(t)
	runs := map[string]*handlerRuns{}
	for _, name := range []string{"a", "b", "c"} {
		runs[name] = &handlerRuns{counts: map[string]int{}}
	}
	ran := func(event string, counts ...int) bool {
		for i, name := range []string{"a", "b", "c"} {
			if runs[name].count(event) != counts[i] {
				return false
			}
		}
		return true
	}
	a := runs["a"].startHandling(t, "a", folder, func(o *nodeOptions) { o.MemberlistConfig.Transport = network })
	b, c := runs["b"].startHandling(t, "b", folder), runs["c"].startHandling(t, "c", folder)
	a.join(b)
	c.join(b)
	a.fireNew("before", nil)
	eventually(t, "the nodes see one another", func() bool { return ran("before", 1, 1, 1) })

	network.isCut.Store(true)
	runs["a"].isStopped.Store(true)
	a.fireNew("confirmed", []byte("v1"))
	port := a.memberlist().LocalNode().Port
	a.kill()
	if !ran("confirmed", 0, 0, 0) {
		t.Fatal("the event left a node that was cut off, or its handler ran")
	}

	runs["a"].isStopped.Store(false)
	a = runs["a"].startHandling(t, "a", folder, atPort(port))
	// (b or c may have the event already, since the new node joins a member of its snapshot by itself)
	if count := runs["a"].count("confirmed"); count != 1 {
		t.Errorf("at the start the handler ran %d times", count)
	}
	a.join(c)
	eventually(t, "the handler runs on all nodes", func() bool { return ran("confirmed", 1, 1, 1) })
	// (if a second copy of the confirmed event existed, it would arrive before an event that is fired now)
	b.fireNew("after", nil)
	eventually(t, "a later event runs on all nodes", func() bool { return ran("after", 1, 1, 1) })
	if !ran("confirmed", 1, 1, 1) || !ran("before", 1, 1, 1) {
		t.Error("a handler ran twice")
	}
}
