package serf

import (
	"io"
	"log"
	"net"
	"strings"
	"sync/atomic"
	"testing"
	"time"

	"github.com/hashicorp/memberlist"

	"kitchenrue.example/guard"
)

// A packet that memberlist could not read is refused, counted and logged, and the node continues.
func TestMalformedPacketsAreRefused(t *testing.T) {
	logs := &logBuffer{}
	a := startNode(t, "a", "", withLog(logs))
	conn, err := net.Dial("udp", a.Memberlist().LocalNode().Address())
	must(t, err)
	defer conn.Close()
	// (an alive message whose only field is a map of 2^32 - 1 fields)
	if _, err := conn.Write([]byte("\x04\x81\xa1x\xdf\xff\xff\xff\xff")); err != nil {
		t.Fatal(err)
	}
	eventually(t, "it is counted", func() bool { return a.Stats()["refused_malformed"] == "1" })
	eventually(t, "it is logged", func() bool {
		return strings.Contains(
			logs.String(), "1 packets, streams or parts of them were refused by the guard; by reason since the start: malformed 1",
		)
	})
	check(t, a.UserEvent("x", nil, false))
}

// ownTransport is a program's own transport, which counts what goes through it.
type ownTransport struct {
	*memberlist.NetTransport
	sent, shutdowns atomic.Int64
}

func (o *ownTransport) WriteTo(b []byte, addr string) (time.Time, error) {
	o.sent.Add(1)
	return o.NetTransport.WriteTo(b, addr)
}

func (o *ownTransport) WriteToAddress(b []byte, addr memberlist.Address) (time.Time, error) {
	return o.WriteTo(b, addr.Addr)
}

func (o *ownTransport) Shutdown() error {
	o.shutdowns.Add(1)
	return o.NetTransport.Shutdown()
}

func newOwnTransport(t *testing.T) *ownTransport {
	t.Helper()
	return &ownTransport{NetTransport: newNetTransport(t)}
}

// newNetTransport returns memberlist's transport on loopback, at a port that the system chooses. The system chooses it for
// TCP, and another process may use the same number for UDP, so newNetTransport tries several times.
func newNetTransport(t *testing.T) *memberlist.NetTransport {
	t.Helper()
	for attempt := 0; ; attempt++ {
		transport, err := memberlist.NewNetTransport(
			&memberlist.NetTransportConfig{BindAddrs: []string{"127.0.0.1"}, Logger: log.New(io.Discard, "", 0)},
		)
		if err == nil {
			return transport
		}
		if attempt == 9 || !strings.Contains(err.Error(), "address already in use") {
			t.Fatal(err)
		}
	}
}

// The guard also wraps a program's own transport. A packet that is longer than usual passes if the configuration allows
// it.
func TestOwnTransportIsGuarded(t *testing.T) {
	own := newOwnTransport(t)
	a := startNode(t, "a", "", func(o *nodeOptions) {
		o.MemberlistConfig.Transport, o.MemberlistConfig.UDPBufferSize = own, 20_000
	})
	b := startNode(t, "b", "")
	b.join(a)
	conn, err := net.Dial("udp", a.address())
	must(t, err)
	defer conn.Close()
	// (an alive message whose only field is a map of 2^32 - 1 fields)
	if _, err := conn.Write([]byte("\x04\x81\xa1x\xdf\xff\xff\xff\xff")); err != nil {
		t.Fatal(err)
	}
	eventually(t, "it is counted", func() bool { return a.Stats()["refused_malformed"] == "1" })
	if _, err := conn.Write(append([]byte{8}, make([]byte, 15_000)...)); err != nil {
		t.Fatal(err)
	}
	check(t, a.UserEvent("x", []byte("payload"), false))
	eventually(t, "b has the event", func() bool { return len(b.payloads("x")) == 1 })
	if own.sent.Load() == 0 || a.Stats()["refused_too_long"] != "" {
		t.Error(own.sent.Load(), a.Stats())
	}
	check(t, a.Shutdown())
	if own.shutdowns.Load() != 1 {
		t.Error(own.shutdowns.Load())
	}
}

// If a program's own transport is already a guard, the node uses it unchanged, and its refusals are counted.
func TestOwnGuard(t *testing.T) {
	config := loopbackConfig("a")
	guarded, err := guard.New(config.MemberlistConfig, guard.Settings{UserBytes: 7})
	must(t, err)
	a := startNode(t, "a", "", func(o *nodeOptions) { o.MemberlistConfig.Transport = guarded })
	if a.guard != guarded {
		t.Error("another guard is around it")
	}
	conn, err := net.Dial("udp", a.address())
	must(t, err)
	defer conn.Close()
	if _, err := conn.Write([]byte{200, 1}); err != nil {
		t.Fatal(err)
	}
	eventually(t, "it is counted", func() bool { return a.Stats()["refused_kind"] == "1" })
}

// If Create fails before memberlist has the program's transport, the program can use the transport again.
func TestOwnTransportAfterFailure(t *testing.T) {
	own := newOwnTransport(t)
	for _, breaks := range []func(*Config){
		func(c *Config) { c.MemberlistConfig.ProtocolVersion = 1; c.Guard.Streams = -1 },
		func(c *Config) { c.MemberlistConfig.AdvertiseAddr = "no address" },
	} {
		config := loopbackConfig("a")
		config.MemberlistConfig.Transport = own
		breaks(&config)
		if node, err := Create(&config); err == nil {
			t.Error("it was created")
			_ = node.Shutdown()
		}
		if own.shutdowns.Load() != 0 {
			t.Error("the transport was shut down")
		}
	}
	a := startNode(t, "a", "", func(o *nodeOptions) { o.MemberlistConfig.Transport = own })
	startNode(t, "b", "").join(a)
}

// A node accepts no more members than its guard allows. Failed members count, even if memberlist has forgotten them, but they give way to
// new ones.
func TestNumberOfMembersIsLimited(t *testing.T) {
	for _, status := range []string{"alive", "failed"} {
		a, c := startNode(t, "a", "", func(o *nodeOptions) { o.Guard.Members = 2 }), startNode(t, "c", "")
		if status == "alive" {
			startNode(t, "b", "").join(a)
		} else {
			a.delegate().NotifyJoin(nodeB())
			a.delegate().NotifyLeave(nodeB())
		}
		eventually(t, "a knows b", func() bool { return a.statusOf("b") == status })
		_, _ = c.Join([]string{a.address()}, false)
		if status == "alive" {
			eventually(t, "c is refused", func() bool { return a.Stats()["refused_full"] != "" })
		} else {
			eventually(t, "c takes the place of b", func() bool { return a.statusOf("c") == "alive" && a.statusOf("b") == "" })
		}
		if a.NumNodes() != 2 {
			t.Error(status, a.Members())
		}
	}
}

// A node that listens beyond loopback without a key logs a warning.
func TestWarningWithoutKey(t *testing.T) {
	for _, test := range []struct {
		addr     string
		key      []byte
		isWarned bool
	}{{"0.0.0.0", nil, true}, {"0.0.0.0", make([]byte, 16), false}, {"127.0.0.1", nil, false}} {
		logs := &logBuffer{}
		startNode(t, "a", "", withLog(logs), func(o *nodeOptions) {
			o.MemberlistConfig.BindAddr, o.MemberlistConfig.AdvertiseAddr, o.MemberlistConfig.SecretKey = test.addr, "127.0.0.1", test.key
		})
		if strings.Contains(logs.String(), "gossip is not encrypted") != test.isWarned {
			t.Error(test.addr, test.key)
		}
	}
}

// Joining a node whose table of members is full fails, and the error says why. If one of its members has failed, that
// member makes room.
func TestJoinOfAFullNode(t *testing.T) {
	full := startNode(t, "full", "", withFailures, func(o *nodeOptions) { o.Guard.Members = 2 })
	second, third := startNode(t, "second", ""), startNode(t, "third", "")
	second.join(full)
	if _, err := third.Join([]string{full.address()}, false); err == nil ||
		!strings.Contains(err.Error(), "as many members as its limit allows") {
		t.Error(err)
	}
	must(t, second.Shutdown())
	eventually(t, "the failed member makes no room", func() bool {
		_, err := third.Join([]string{full.address()}, false)
		return err == nil && full.statusOf("third") == "alive" && full.statusOf("second") == ""
	})
}

// A join fails if the address that the node reports doesn't answer.
func TestJoinFromASilentAddress(t *testing.T) {
	at := startNode(t, "at", "")
	silent := startNode(t, "silent", "", func(o *nodeOptions) { o.MemberlistConfig.AdvertiseAddr = "127.7.7.7" })
	if _, err := silent.Join([]string{at.address()}, false); err == nil || !strings.Contains(err.Error(), "doesn't answer its ping") {
		t.Error(err)
	}
}
