package serf

import (
	"context"
	"errors"
	"net"
	"strings"
	"testing"
	"time"
)

// FireContext behaves like Fire if the context does not end.
func TestFireContext(t *testing.T) {
	a := startNode(t, "a", t.TempDir())
	ctx, cancel := context.WithCancel(context.Background())
	for i, within := range []context.Context{ctx, context.Background(), ctx} {
		if fired, err := a.FireContext(within, "x", []byte("payload"), false); err != nil || fired != LamportTime(i+1) {
			t.Error(fired, err)
		}
	}
	if _, err := a.FireContext(ctx, strings.Repeat("x", 600), nil, false); err == nil ||
		!strings.Contains(err.Error(), "limit of 512 bytes") {
		t.Error(err)
	}
	cancel()
	if _, err := a.FireContext(ctx, "x", []byte("too late"), false); err != context.Canceled {
		t.Error(err)
	}
	eventually(t, "all are delivered", func() bool { return len(a.payloads("x")) == 3 })
	check(t, a.Shutdown())
	live, cancel := context.WithCancel(context.Background())
	defer cancel()
	if _, err := a.FireContext(live, "x", nil, false); err != ErrEnded {
		t.Error(err)
	}
}

// If the context ends while the firing waits for the flush of other firings, the event is not fired. If the context
// ends during the event's own flush, the caller receives an UncertainError, and may reuse the payload's memory.
func TestFireContextDuringFlush(t *testing.T) {
	f := &fakeAgent{flushGate: make(chan struct{})}
	a := startNode(t, "a", "", withAgent(f))
	results := make(chan error, 1)
	payload := []byte("first")
	ctx, cancel := context.WithCancel(context.Background())
	go func() {
		_, err := a.FireContext(ctx, "x", payload, false)
		results <- err
	}()
	eventually(t, "the agent is busy", f.isBusy)
	cancel()
	promptly(t, "a firing whose flush is running", func() {
		var uncertain *UncertainError
		if err := <-results; !errors.As(err, &uncertain) || !errors.Is(err, context.Canceled) {
			t.Error(err)
		}
	})
	copy(payload, "XXXXX")
	ctx, cancel = context.WithCancel(context.Background())
	go func() {
		_, err := a.FireContext(ctx, "x", []byte("second"), false)
		results <- err
	}()
	eventually(t, "the second one waits", func() bool { return a.waitingFirings() == 1 })
	cancel()
	promptly(t, "a firing that waits for the flush of others", func() {
		if err := <-results; err != context.Canceled {
			t.Error(err)
		}
	})
	close(f.flushGate)
	must(t, a.UserEvent("x", []byte("third"), false))
	eventually(t, "the others are delivered", func() bool { return strings.Join(a.payloads("x"), " ") == "first third" })
}

// If there is no room for a firing, FireContext returns when its context ends.
func TestFireContextWithoutRoom(t *testing.T) {
	a := startNode(t, "a", "", withAgent(&fakeAgent{}))
	a.fillPipe()
	soon, cancel := context.WithTimeout(context.Background(), 200*time.Millisecond)
	defer cancel()
	if _, err := a.FireContext(soon, "x", nil, false); err != context.DeadlineExceeded || a.waitingFirings() != 0 {
		t.Error(err, a.waitingFirings())
	}
	a.pauseReading(false)
	check(t, a.UserEvent("y", nil, false))
	eventually(t, "a later event is delivered", func() bool { return len(a.payloads("y")) == 1 })
	if count := len(a.payloads("x")); count != 0 {
		t.Error("an event was fired although its context had ended")
	}
}

// If the context does not end, JoinContext behaves like Join and tries all addresses.
func TestJoinContext(t *testing.T) {
	a, b, c := startNode(t, "a", ""), startNode(t, "b", ""), startNode(t, "c", "")
	ctx, cancel := context.WithCancel(context.Background())
	if count, err := c.JoinContext(ctx, []string{a.address(), "127.0.0.1:1", b.address()}, true); count != 2 || err != nil {
		t.Error(count, err)
	}
	if count, err := c.JoinContext(ctx, []string{"127.0.0.1:1", "127.0.0.1:2"}, true); count != 0 || err == nil ||
		!strings.Contains(err.Error(), "127.0.0.1:1") || !strings.Contains(err.Error(), "127.0.0.1:2") {
		t.Error(count, err)
	}
	cancel()
	if count, err := c.JoinContext(ctx, []string{a.address()}, true); count != 0 || err != context.Canceled {
		t.Error(count, err)
	}
	eventually(t, "all are members", func() bool { return a.NumNodes() == 3 && b.NumNodes() == 3 })
	must(t, c.Leave())
	live, cancel := context.WithCancel(context.Background())
	defer cancel()
	if _, err := c.JoinContext(live, []string{a.address()}, true); err != ErrLeft {
		t.Error(err)
	}
}

// JoinContext returns when its context ends, even if the other side never answers, and tries no further address.
func TestJoinContextWithoutAnswer(t *testing.T) {
	silent, err := net.Listen("tcp", "127.0.0.1:0")
	must(t, err)
	defer silent.Close()
	a := startNode(t, "a", "", func(o *nodeOptions) { o.MemberlistConfig.TCPTimeout = 2 * time.Minute })
	b := startNode(t, "b", "")
	soon, cancel := context.WithTimeout(context.Background(), 200*time.Millisecond)
	defer cancel()
	began := time.Now()
	count, err := a.JoinContext(soon, []string{silent.Addr().String(), b.address()}, true)
	if count != 0 || err != context.DeadlineExceeded {
		t.Error(count, err)
	}
	if took := time.Since(began); took >= a.config.MemberlistConfig.TCPTimeout {
		t.Error("it waited for", took)
	}
	// (memberlist's attempt ends when the connection is closed, or after memberlist's own timeout)
	check(t, silent.Close())
	eventually(t, "the silent one is given up", func() bool { return a.ignoringJoins.Load() == 0 })
	if a.NumNodes() != 1 {
		t.Error(a.Members())
	}
}
