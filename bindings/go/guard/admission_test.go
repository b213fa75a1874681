package guard

import (
	"bytes"
	"fmt"
	"io"
	"net"
	"net/netip"
	"strings"
	"sync/atomic"
	"testing"
	"time"

	"github.com/hashicorp/go-msgpack/codec"
	"github.com/hashicorp/memberlist"
)

// provingGuard makes a guard around a transport in memory at 10.0.0.1. New nodes have to prove their addresses to the
// guard. The transport at 10.0.0.9 receives the guard's pings. The guard pings a node only once a minute and waits for
// minutes, so that a test on a busy machine answers in time.
func provingGuard(t *testing.T, isKeyed bool, settings Settings) (g *Transport, inner, other *memoryTransport) {
	return provingGuardWith(t, isKeyed, settings, time.Minute)
}

// provingGuardWith is provingGuard with another time between two pings of one node.
func provingGuardWith(t *testing.T, isKeyed bool, settings Settings, interval time.Duration) (g *Transport, inner, other *memoryTransport) {
	network := new(memoryNet)
	inner, other = network.add(1), network.add(9)
	g = testAround(t, inner, isKeyed, settings)
	g.candidates.interval = interval
	g.PacketCh()
	return g, inner, other
}

// newcomer returns an alive message of a node at 10.0.0.9.
func newcomer(name string) []byte {
	return alive(name, map[string]any{"Addr": []byte{10, 0, 0, 9}, "Port": memoryPort})
}

// decodePing decodes a ping that the guard sent.
func decodePing(t *testing.T, packet *memberlist.Packet, isKeyed bool) (number uint32, name string) {
	t.Helper()
	if packet == nil {
		t.Fatal("there is no ping")
	}
	plain := packet.Buf
	if isKeyed {
		plain = openWith(testKey, plain)
	}
	var ping struct {
		SeqNo            uint32
		Node, SourceNode string
		SourceAddr       []byte
	}
	if len(plain) == 0 || plain[0] != msgPing || codec.NewDecoderBytes(plain[1:], &codec.MsgpackHandle{}).Decode(&ping) != nil {
		t.Fatalf("%x is no ping", plain)
	}
	if ping.SourceNode != "child" || len(ping.SourceAddr) > 0 || ping.SeqNo < minNumber {
		t.Errorf("%+v", ping)
	}
	return ping.SeqNo, ping.Node
}

// nextReceived returns the next packet that a transport receives, or nil if none arrives within wait.
func nextReceived(m *memoryTransport, wait time.Duration) *memberlist.Packet {
	select {
	case packet := <-m.packets:
		return packet
	case <-time.After(wait):
		return nil
	}
}

// ackOf returns the ack of the ping with this sequence number.
func ackOf(number uint32) []byte {
	return message(msgAck, map[string]any{"SeqNo": number, "Payload": []byte("coordinate")})
}

// memberlist learns of a new node only after the node has answered a ping. After that, it also receives the messages
// about the node that arrived in the meantime. The ping is no longer than the message that caused it.
func TestNewNodeHasToAnswer(t *testing.T) {
	for _, isKeyed := range []bool{false, true} {
		c := &child{childOptions: childOptions{IsKeyed: isKeyed}}
		g, inner, other := provingGuard(t, isKeyed, Settings{})
		from := &net.UDPAddr{IP: net.IP{10, 0, 0, 7}, Port: memoryPort}
		packet := c.seal(newcomer("new"))
		inner.receive(packet, from)
		sent := nextReceived(other, time.Minute)
		number, name := decodePing(t, sent, isKeyed)
		if name != "new" || len(sent.Buf) > len(packet) {
			t.Errorf("a ping of %d bytes for %q after a packet of %d", len(sent.Buf), name, len(packet))
		}
		suspicion := message(msgSuspect, map[string]any{"Incarnation": 1, "Node": "new", "From": "x"})
		inner.receive(c.seal(suspicion), from)
		inner.receive(c.seal(ackOf(number+1)), from)
		inner.receive(c.seal(ackOf(9)), from)
		eventually(t, "foreign acks pass", func() bool { return g.Drops()[Unasked] == 2 })
		if got := nextPacket(g, 50*time.Millisecond); got != nil {
			t.Fatalf("%x passes before the answer", got.Buf)
		}
		inner.receive(c.seal(compound(ackOf(number), []byte{msgUser, 5})), &net.UDPAddr{IP: net.IP{10, 0, 0, 8}})
		var passed []byte
		for n := 0; n < 2; n++ {
			got := nextPacket(g, time.Minute)
			if got == nil {
				t.Fatal("memberlist doesn't get the node")
			}
			plain := got.Buf
			if isKeyed {
				plain = openWith(testKey, plain)
			}
			passed = append(passed, plain...)
		}
		// (go-msgpack encodes the fields in another order, so the test only looks for parts)
		for _, text := range []string{"\x08\x05", "Node\xa3new", "Meta\xa4meta", "Addr\xa4\x0a\x00\x00\x09", "From\xa1x"} {
			if !bytes.Contains(passed, []byte(text)) {
				t.Errorf("%q is not in what passes: %q", text, passed)
			}
		}
		if bytes.Contains(passed, []byte("coordinate")) {
			t.Error("memberlist gets the ack")
		}
		// After memberlist has reported the node, each report of it passes.
		g.members.NotifyJoin(&memberlist.Node{Name: "new", Addr: net.IP{10, 0, 0, 9}, Port: memoryPort})
		inner.receive(packet, from)
		if got := nextPacket(g, time.Minute); got == nil || !bytes.Equal(got.Buf, packet) {
			t.Error("a known node is not passed on byte for byte")
		}
		moved := c.seal(alive("new", map[string]any{"Addr": []byte{10, 0, 0, 8}, "Port": memoryPort}))
		inner.receive(moved, from)
		if got := nextPacket(g, 50*time.Millisecond); got != nil {
			t.Error("a known node passes at another address")
		}
		if drops := g.Drops(); len(drops) != 1 {
			t.Errorf("dropped: %v", drops)
		}
	}
}

// A node that doesn't answer is pinged three times, then counted, and not pinged again for a while. During that time,
// an ack with its number has no effect, so that there are few numbers to guess.
func TestSilentNode(t *testing.T) {
	g, inner, other := provingGuardWith(t, false, Settings{}, minPingInterval)
	inner.receive(newcomer("new"), nil)
	number, _ := decodePing(t, nextReceived(other, time.Minute), false)
	for n := 1; n < 3; n++ {
		if again, _ := decodePing(t, nextReceived(other, time.Minute), false); again != number {
			t.Errorf("the number changed from %d to %d", number, again)
		}
	}
	eventually(t, "it isn't given up", func() bool { return g.Drops()[Unproven] == 1 })
	setAge := func(age time.Duration) {
		g.candidates.mu.Lock()
		defer g.candidates.mu.Unlock()
		for _, silent := range g.candidates.queue {
			silent.reportedAt = time.Now().Add(-age)
		}
	}
	// (however slow the machine is, silentTime is not over while the next reports arrive)
	setAge(-time.Hour)
	for n := 0; n < 5; n++ {
		inner.receive(newcomer("new"), nil)
	}
	eventually(t, "its reports aren't counted", func() bool { return g.Drops()[Unproven] == 6 })
	setAge(answerIntervals * minPingInterval)
	if nextReceived(other, 700*time.Millisecond) != nil {
		t.Error("it is pinged again")
	}
	inner.receive(ackOf(number), nil)
	eventually(t, "a late answer has an effect", func() bool { return g.Drops()[Unasked] == 1 })
	setAge(silentTime)
	eventually(t, "it stays silent", func() bool { return g.candidates.count.Load() == 0 })
	inner.receive(newcomer("new"), nil)
	if again, _ := decodePing(t, nextReceived(other, time.Minute), false); again == number {
		t.Error("a number is used again")
	}
}

// However many nodes are reported, the number of pings and of kept nodes is limited, both in total and for a single
// address. The limits of one origin leave room for the other origins, and for the host itself.
func TestFloodOfCandidates(t *testing.T) {
	// (nobody requests the channels of these guards, so nothing is sent, and no goroutine but this one uses the candidates)
	g := testAround(t, new(memoryNet).add(1), false, Settings{})
	at := func(i int) netip.AddrPort {
		return netip.AddrPortFrom(netip.AddrFrom4([4]byte{10, 9, byte(i >> 8), byte(i)}), 7)
	}
	peer := func(i int) netip.Addr { return netip.AddrFrom4([4]byte{10, 8, byte(i >> 8), byte(i)}) }
	var added [originCount]int
	add := func(i int, from origin, target netip.AddrPort, by netip.Addr) bool {
		_, reason := g.candidates.add(nameAt{fmt.Sprint(from, " ", i), target}, from, by, nil, []byte{msgUser}, nil)
		if reason == held {
			added[from]++
		} else if reason != Unproven {
			t.Fatal(reason)
		}
		return reason == held
	}
	began := time.Now()
	for from := fromDialed; from < originCount; from++ {
		for i := 0; i < 20_000; i++ {
			add(i, from, at(i), peer(i))
		}
	}
	took := time.Since(began).Seconds()
	for from, limit := range pingLimits {
		if max := limit.burst + took*limit.perSecond + 1; float64(added[from]) > max || float64(added[from]) < limit.burst {
			t.Errorf("origin %d: %d candidates, and %g are allowed", from, added[from], max)
		}
	}
	g = testAround(t, new(memoryNet).add(1), false, Settings{NamesPerAddress: 10})
	added = [originCount]int{}
	for i := 0; i < 100; i++ {
		for _, from := range []origin{fromDialed, fromMember, fromStranger} {
			add(i, from, at(1), netip.Addr{})
		}
		add(i, fromAccepted, at(1), peer(1))
	}
	if added != [originCount]int{10, 10, 10, 10} {
		t.Errorf("%v candidates at one address", added)
	}
	if !add(1000, fromAccepted, at(1), peer(2)) {
		t.Error("another host has no room for a candidate at this address")
	}
	for i := 0; i < 100; i++ {
		add(2000+i, fromAccepted, at(100+i), peer(3))
	}
	if added[fromAccepted] != 21 {
		t.Errorf("one host reports %d candidates", added[fromAccepted]-11)
	}
	for _, old := range g.candidates.queue {
		old.reportedAt, old.pings = old.reportedAt.Add(-silentTime), maxPings
	}
	g.candidates.takeDue(time.Now())
	g.candidates.takeDue(time.Now())
	if c := g.candidates; c.count.Load() != 0 || len(c.byKey)+len(c.byNumber)+len(c.limits)+len(c.queue) != 0 {
		t.Errorf("%d candidates are left", c.count.Load())
	}
}

// A node that is silent after a stranger's report is pinged again if a member reports it.
func TestSilentNodeOfAnotherOrigin(t *testing.T) {
	g, _, _ := provingGuard(t, false, Settings{})
	node := nameAt{"new", netip.MustParseAddrPort("10.0.0.9:7946")}
	first, _ := g.candidates.add(node, fromStranger, netip.Addr{}, nil, nil, nil)
	g.candidates.mu.Lock()
	first.isSilent, first.reportedAt = true, time.Now().Add(time.Hour)
	g.candidates.mu.Unlock()
	if _, reason := g.candidates.add(node, fromStranger, netip.Addr{}, nil, nil, nil); reason != Unproven {
		t.Errorf("a stranger's report: %v", reason)
	}
	if second, reason := g.candidates.add(node, fromMember, netip.Addr{}, nil, nil, nil); reason != held || second == first {
		t.Errorf("a member's report: %v", reason)
	}
}

// One IP address may have only a limited number of names, on all its ports together. A node with one of these names is
// always admitted.
func TestNamesPerAddress(t *testing.T) {
	g, _, _ := provingGuard(t, false, Settings{NamesPerAddress: 3})
	admit := func(name string, port uint16) Reason {
		return g.members.admit(nameAt{name, netip.AddrPortFrom(netip.MustParseAddr("10.0.0.9"), port)})
	}
	node := func(name string, port uint16) *memberlist.Node {
		return &memberlist.Node{Name: name, Addr: net.IP{10, 0, 0, 9}, Port: port}
	}
	for i, name := range []string{"alive", "left", "admitted"} {
		if reason := admit(name, uint16(i)); reason != none {
			t.Fatal(name, reason)
		}
	}
	g.members.NotifyJoin(node("alive", 0))
	g.members.NotifyJoin(node("left", 1))
	g.members.NotifyLeave(node("left", 1))
	for name, want := range map[string]Reason{"more": Names, "alive": none, "left": none, "admitted": none} {
		if reason := g.members.refusalAfterProof(nameAt{name, netip.MustParseAddrPort("10.0.0.9:9")}); reason != want {
			t.Errorf("%s: %v", name, reason)
		}
	}
	if reason := g.members.admit(nameAt{"more", netip.MustParseAddrPort("10.0.0.8:9")}); reason != none {
		t.Errorf("at another address: %v", reason)
	}
}

// If there are too many members, one that failed makes room for a node that has proven its address.
func TestRoomForAProvenNode(t *testing.T) {
	members, calls := 4, 0
	settings := Settings{Members: 4, Known: func(string) (int, bool) { return members, false }}
	node := nameAt{"new", netip.MustParseAddrPort("10.0.0.9:7946")}
	g, _, _ := provingGuard(t, false, settings)
	if reason := g.members.refusalAfterProof(node); reason != Full {
		t.Errorf("without MakeRoom: %v", reason)
	}
	settings.MakeRoom = func() bool {
		calls++
		members--
		return calls == 1
	}
	g, _, _ = provingGuard(t, false, settings)
	if reason := g.members.refusalAfterProof(node); reason != none || calls != 0 {
		t.Errorf("before it is proven: %v, %d calls", reason, calls)
	}
	if reason := g.members.admit(node); reason != none || calls != 1 {
		t.Errorf("when it is proven: %v, %d calls", reason, calls)
	}
	members = 9
	if reason := g.members.admit(nameAt{"more", node.addr}); reason != Full || calls != 2 {
		t.Errorf("without one that failed: %v, %d calls", reason, calls)
	}
}

// The address of a node is read as memberlist reads it.
func TestAddressOfAReport(t *testing.T) {
	g, _, _ := provingGuard(t, false, Settings{})
	g.bindPort = func() int { return 7946 }
	for _, test := range []struct {
		addr net.IP
		port uint64
		want string
	}{
		{net.IP{10, 0, 0, 9}, 5, "10.0.0.9:5"}, {net.IP{10, 0, 0, 9}.To16(), 5, "10.0.0.9:5"}, {net.IP{10, 0, 0, 9}, 0, "10.0.0.9:7946"},
		{net.ParseIP("2001:db8::1"), 5, "[2001:db8::1]:5"},
	} {
		if got := g.nodeOf(&report{addr: test.addr, port: test.port}).addr.String(); got != test.want {
			t.Errorf("%v, port %d: %s", test.addr, test.port, got)
		}
	}
	g.protocol = 1
	if got := g.nodeOf(&report{addr: net.IP{10, 0, 0, 9}, port: 5}).addr.Port(); got != 7946 {
		t.Errorf("protocol 1: port %d", got)
	}
}

// Forged nodes don't become members at a guarded node, and so not at a stock node in the same cluster either. During
// the attack and after it, guarded and stock nodes can still join.
func TestForgedNodesStayOut(t *testing.T) {
	for _, isKeyed := range []bool{false, true} {
		start := func(name string, isStock bool) *child {
			return startChild(t, childOptions{Name: name, IsKeyed: isKeyed, IsProving: true, IsHonest: true, IsAlone: isStock})
		}
		victim, stock := start("victim", false), start("stock", true)
		stock.mustSucceed("join " + victim.address)
		var sent atomic.Int64
		done, flooded := make(chan struct{}), make(chan struct{})
		go func() {
			defer close(flooded)
			for count := 0; ; count++ {
				select {
				case <-done:
					return
				default:
				}
				sent.Store(int64(count))
				forged := map[string]any{"Addr": []byte{127, 1, byte(count >> 8), byte(count)}}
				victim.udp.Write(victim.seal(alive(fmt.Sprint("forged", count), forged)))
				if count%1000 == 999 {
					entry := node(fmt.Sprint("forged", count), withChanges(forged, map[string]any{"State": 0}))
					victim.call(victim.sealStream(pushPullOf([]map[string]any{entry}, nil)), true)
				}
			}
		}()
		eventually(t, "the flood doesn't begin", func() bool { return sent.Load() >= 1000 })
		during := []*child{start("guarded2", false), start("stock2", true)}
		for _, c := range during {
			c.mustSucceed("join " + victim.address)
		}
		eventually(t, "nobody joins during the flood", func() bool { return victim.count("members") == 4 })
		close(done)
		<-flooded
		after := start("guarded3", false)
		after.mustSucceed("join " + victim.address)
		for _, c := range append(during, victim, stock, after) {
			eventually(t, "not all nodes are members", func() bool { return c.count("members") == 5 })
			var names []string
			if c.ask("names", &names); strings.Contains(fmt.Sprint(names), "forged") {
				t.Errorf("%s has forged members: %v", c.Name, names)
			}
		}
		if victim.drops()["unproven"] == 0 {
			t.Errorf("%d forged nodes, dropped: %v", sent.Load(), victim.drops())
		}
	}
}

// A refused join fails with an error that says why, at a stock node too: either the table of members is full, or the
// address that the node reports doesn't answer.
func TestRefusedJoin(t *testing.T) {
	for i := 0; i < 4; i++ {
		isKeyed, isStock := i&1 != 0, i&2 != 0
		full := startChild(t, childOptions{Name: "full", IsKeyed: isKeyed, IsProving: true, Members: 1})
		open := startChild(t, childOptions{Name: "open", IsKeyed: isKeyed, IsProving: true})
		joiner := startChild(t, childOptions{Name: "joiner", IsKeyed: isKeyed, IsAlone: isStock, IsProving: true})
		absent := startChild(t, childOptions{Name: "absent", IsKeyed: isKeyed, IsAlone: isStock, IsProving: true, Advertise: "127.7.7.7"})
		for _, test := range []struct {
			from, at *child
			reason   Reason
		}{{joiner, full, Full}, {absent, open, Unproven}} {
			var answer string
			if test.from.ask("join "+test.at.address, &answer); !strings.Contains(answer, refusalError(test.reason).Error()) {
				t.Errorf("%s joins %s: %q", test.from.Name, test.at.Name, answer)
			}
			if count := test.at.count("members"); count != 1 {
				t.Errorf("%s has %d members", test.at.Name, count)
			}
		}
		joiner.mustSucceed("join " + open.address)
	}
}

// A MergeDelegate sees each node that joins, and may refuse it.
func TestMergeSeesNewNodes(t *testing.T) {
	// (the push/pull waits for nine seconds if nobody answers, and for a fifth of the three seconds after an answer)
	g, inner, other := provingGuardWith(t, false, Settings{}, 3*time.Second)
	g.hasMerge, g.probeTimeout = true, 3*time.Second
	here, there := net.Pipe()
	go io.Copy(io.Discard, there)
	go there.Write(pushPull([]map[string]any{node("new", map[string]any{"State": 0, "Addr": []byte{10, 0, 0, 9}, "Port": memoryPort}),
		node("gone", map[string]any{"State": 0, "Addr": []byte{10, 0, 0, 77}})}, 0))
	inner.streams <- here
	conn := <-g.StreamCh()
	defer conn.Close()
	go func() {
		if packet := nextReceived(other, time.Minute); packet != nil {
			number, _ := decodePing(t, packet, false)
			inner.receive(ackOf(number), nil)
		}
	}()
	conn.SetDeadline(time.Now().Add(time.Minute))
	read := make([]byte, 4096)
	n, err := conn.Read(read)
	if err != nil || !bytes.Contains(read[:n], []byte("Name\xa3new")) || bytes.Contains(read[:n], []byte("gone")) {
		t.Errorf("%q %v", read[:n], err)
	}
}

// After a burst, new nodes are pinged at a steady rate.
func TestPingsEachSecond(t *testing.T) {
	var b bucket
	now, taken := time.Now(), 0
	for second := 0; second < 3; second++ {
		for i := 0; i < 100; i++ {
			if b.takeIfAllowed(now.Add(time.Duration(second)*time.Second), 20, 5) {
				taken++
			}
		}
	}
	if taken != 20+5+5 {
		t.Errorf("%d pings in three seconds", taken)
	}
}

// A push/pull doesn't wait for candidates that are quiet long after another one has answered.
func TestQuietCandidates(t *testing.T) {
	g, _, _ := provingGuard(t, false, Settings{})
	interval, now := g.candidates.interval, time.Now()
	for _, test := range []struct {
		since, answered time.Duration
		want            bool
	}{{0, -1, false}, {interval, 0, false}, {interval, interval, true}, {interval, interval / 10, false}, {2 * interval, interval, false}} {
		waiting := newGroup()
		waiting.pingsBeganAt = now.Add(-test.since)
		if test.answered >= 0 {
			waiting.lastAnswerAt = now.Add(-test.answered)
		}
		if got := g.candidates.isQuiet(waiting); got != test.want {
			t.Errorf("pinged %v ago, the last answer %v ago: %v", test.since, test.answered, got)
		}
	}
}

// If a push/pull is refused as a whole, memberlist doesn't receive any of its entries.
func TestBrokenPushPull(t *testing.T) {
	g, inner, other := provingGuard(t, false, Settings{})
	entry := map[string]any{"State": 0, "Addr": []byte{10, 0, 0, 9}, "Port": memoryPort}
	broken := append(message(msgPushPull, map[string]any{"Nodes": 2, "UserStateLen": 0, "Join": false}), encode(node("new", entry))...)
	readStream(g, append(broken, 0xc1), false)
	number, _ := decodePing(t, nextReceived(other, time.Minute), false)
	inner.receive(ackOf(number), nil)
	eventually(t, "the answer isn't read", func() bool { return g.candidates.count.Load() == 0 })
	if nextPacket(g, 100*time.Millisecond) != nil {
		t.Error("memberlist gets the entry")
	}
	if g.Drops()[Malformed] != 1 {
		t.Errorf("dropped: %v", g.Drops())
	}
}
