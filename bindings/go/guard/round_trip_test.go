package guard

import (
	"fmt"
	"net"
	"testing"
	"time"

	"github.com/hashicorp/memberlist"
)

// slowTransport is a transport in memory whose packets and streams arrive with a delay: a packet or a write takes oneWay.
// Its streams have addresses.
type slowTransport struct {
	*memoryTransport
	oneWay time.Duration
}

func (s slowTransport) WriteTo(b []byte, addr string) (time.Time, error) {
	if to := s.net.transportAt(addr); to != nil {
		b = append([]byte(nil), b...)
		time.AfterFunc(s.oneWay, func() {
			select {
			case to.packets <- &memberlist.Packet{Buf: b, From: s.addr(), Timestamp: time.Now()}:
			case <-to.closed:
			}
		})
	}
	return time.Now(), nil
}

func (s slowTransport) DialTimeout(addr string, timeout time.Duration) (net.Conn, error) {
	time.Sleep(2 * s.oneWay)
	to := s.net.transportAt(addr)
	here, there := net.Pipe()
	select {
	case to.streams <- slowConn{there, s.addr(), s.oneWay}:
		return slowConn{here, to.addr(), s.oneWay}, nil
	case <-time.After(timeout):
		return nil, fmt.Errorf("%s doesn't accept", addr)
	}
}

// slowConn is one end of a stream of a slow network.
type slowConn struct {
	net.Conn
	remote net.Addr
	oneWay time.Duration
}

func (s slowConn) RemoteAddr() net.Addr { return s.remote }

func (s slowConn) Write(b []byte) (int, error) {
	time.Sleep(s.oneWay)
	return s.Conn.Write(b)
}

// joinTime returns how long the last of six nodes takes to join the others. It returns an hour if the node doesn't know
// all of them after the join, because the machine was too busy.
func joinTime(t *testing.T, settings Settings, oneWay time.Duration) time.Duration {
	network := new(memoryNet)
	var lists []*memberlist.Memberlist
	for n := byte(1); n <= 6; n++ {
		c := testConfig(fmt.Sprint("node", n), false)
		c.PushPullInterval, c.ProbeInterval, c.ProbeTimeout = time.Hour, time.Hour, 20*oneWay
		guarded, err := Around(slowTransport{network.add(n), oneWay}, c, settings)
		if err != nil {
			t.Fatal(err)
		}
		c.Transport = guarded
		list, err := memberlist.Create(c)
		if err != nil {
			t.Fatal(err)
		}
		defer list.Shutdown()
		lists = append(lists, list)
	}
	last := lists[len(lists)-1]
	for _, list := range lists[1 : len(lists)-1] {
		if _, err := list.Join([]string{"10.0.0.1:7946"}); err != nil {
			t.Fatal(err)
		}
	}
	eventually(t, "not all nodes are members", func() bool { return lists[0].NumMembers() == len(lists)-1 })
	began := time.Now()
	if _, err := last.Join([]string{"10.0.0.1:7946"}); err != nil {
		t.Fatal(err)
	}
	took := time.Since(began)
	if last.NumMembers() != len(lists) {
		return time.Hour
	}
	return took
}

// If new nodes have to prove their addresses, a join takes one round trip longer, however many members there are. (The
// machine may be busy. So the fastest of several joins counts, and if even that one is too slow, the test repeats them in
// a slower network.)
func TestJoinTakesOneRoundTripMore(t *testing.T) {
	for oneWay := 25 * time.Millisecond; oneWay <= 200*time.Millisecond; oneWay *= 2 {
		without, with := time.Hour, time.Hour
		for tries := 0; tries < 4; tries++ {
			without = min(without, joinTime(t, Settings{AdmitUnproven: true}, oneWay))
			with = min(with, joinTime(t, Settings{}, oneWay))
			if more := with - without; more < 3*oneWay && more > oneWay {
				t.Logf("a join takes %v, and %v without proofs; a round trip takes %v", with, without, 2*oneWay)
				return
			}
		}
		t.Logf("a join takes %v, and %v without proofs; a round trip takes %v", with, without, 2*oneWay)
	}
	t.Error("a join doesn't take one round trip more")
}

// When a join returns, the node knows all members, although each of them had to answer a ping. (On a busy machine, some
// may answer too late for one join, but not for all of ten.)
func TestJoinKnowsAllMembers(t *testing.T) {
	network := new(memoryNet)
	start := func(n int) *memberlist.Memberlist {
		c := testConfig(fmt.Sprint("node", n), false)
		c.PushPullInterval, c.ProbeInterval = time.Hour, time.Hour
		guarded, err := Around(network.add(byte(n)), c, Settings{})
		if err != nil {
			t.Fatal(err)
		}
		c.Transport = guarded
		list, err := memberlist.Create(c)
		if err != nil {
			t.Fatal(err)
		}
		t.Cleanup(func() { list.Shutdown() })
		return list
	}
	first, known := start(1), 0
	for n := 2; n <= 20; n++ {
		list := start(n)
		if _, err := list.Join([]string{"10.0.0.1:7946"}); err != nil {
			t.Fatal(n, err)
		}
		if known = list.NumMembers(); known == n && n > 10 {
			return
		}
		eventually(t, "a node is not a member", func() bool { return first.NumMembers() == n })
	}
	t.Errorf("after the join of the last of 20 nodes it knows %d members", known)
}
