package guard

import (
	"bytes"
	"fmt"
	"math/rand"
	"net"
	"net/netip"
	"reflect"
	"runtime"
	"testing"
	"time"

	"github.com/hashicorp/go-msgpack/codec"
	"github.com/hashicorp/memberlist"
)

// An honest node can join while 800 streams are idle, and while streams hold all the memory that they may.
func TestIdleStreams(t *testing.T) {
	for _, isKeyed := range []bool{false, true} {
		c := startChild(t, childOptions{IsKeyed: isKeyed})
		hold := func(count int, bytes []byte) {
			for n := 0; n < count; n++ {
				conn, err := net.Dial("tcp", c.address)
				if err != nil {
					t.Fatal(err)
				}
				t.Cleanup(func() { conn.Close() })
				conn.SetDeadline(time.Now().Add(5 * time.Second))
				conn.Write(bytes)
			}
		}
		hold(800, c.sealStream(pushPull(nil, 0))[:1])
		c.mustJoin()
		much := append(message(msgPushPull, map[string]any{"Nodes": 0, "UserStateLen": 3 << 20, "Join": false}), zeros(3<<20-100)...)
		if isKeyed {
			much = sealStreamWith(testKey, much)
			much = much[:len(much)-1]
		}
		hold(10, much)
		c.mustJoin()
		if drops := c.drops(); drops["crowded"] < 800-128 {
			t.Errorf("%v", drops)
		}
		t.Logf("%d KiB at most", c.peakKiB())
	}
}

// As many push/pulls as the bounds allow start at once. One more waits until another one ends, or until the oldest one
// has used up its time and is closed.
func TestPushPulls(t *testing.T) {
	knowsThree := func(string) (int, bool) { return 3, false }
	for _, settings := range []Settings{{PushPulls: 2}, {StreamBytes: 8000, AllBytes: 8000, Known: knowsThree}} {
		checkPushPullPlaces(t, settings)
	}
}

// If there are no other push/pulls, one starts even if its answer exceeds the bound.
func TestLongAnswer(t *testing.T) {
	g := testGuard(t, false, Settings{StreamBytes: 8000, AllBytes: 8000, Known: func(string) (int, bool) { return 100, false }})
	if whole := pushPull(nil, 0); !bytes.Equal(readStream(g, whole, false), whole) {
		t.Errorf("it was refused: %v", g.Drops())
	}
}

// checkPushPullPlaces tests settings that allow two push/pulls at once.
func checkPushPullPlaces(t *testing.T, settings Settings) {
	g := testGuard(t, false, settings)
	whole := pushPull(nil, 0)
	start := func() (*stream, chan int) {
		here, there := net.Pipe()
		go there.Write(whole)
		s, done := g.newStream(here, false), make(chan int, 1)
		g.streams.add(s)
		s.SetDeadline(time.Now().Add(60 * time.Second))
		go func() {
			n, _ := s.Read(make([]byte, 1000))
			done <- n
			<-s.done
			s.Close()
		}()
		return s, done
	}
	first, done := start()
	if <-done != len(whole) {
		t.Fatal("the first one isn't read")
	}
	second, done := start()
	<-done
	third, done := start()
	second.Close()
	if <-done != len(whole) {
		t.Error("none starts after another one ended")
	}
	_, done = start()
	if <-done != len(whole) {
		t.Error("none starts after the oldest one has had its time")
	}
	select {
	case <-first.done:
	default:
		t.Error("the oldest wasn't closed")
	}
	third.Close()
	if drops := g.Drops(); !reflect.DeepEqual(drops, map[Reason]uint64{Crowded: 1}) {
		t.Errorf("%v", drops)
	}
}

// If there is no room for a stream, the guard closes the incomplete stream that holds the largest number of bytes.
func TestEviction(t *testing.T) {
	g := testGuard(t, false, Settings{StreamBytes: 8000, AllBytes: 8000})
	user := func(n int) []byte { return append(message(msgUser, map[string]any{"UserMsgLen": n}), zeros(n)...) }
	here, there := net.Pipe()
	first := g.newStream(here, false)
	g.streams.add(first)
	go there.Write(user(7000)[:6000])
	go func() {
		first.Read(make([]byte, 10))
		first.Close()
	}()
	eventually(t, "the first one isn't read", func() bool {
		g.streams.mu.Lock()
		defer g.streams.mu.Unlock()
		return g.streams.total.bytes >= 6000
	})
	if got := readStream(g, user(6000), false); len(got) != len(user(6000)) {
		t.Errorf("%d bytes were read", len(got))
	}
	<-first.done
	if drops := g.Drops(); !reflect.DeepEqual(drops, map[Reason]uint64{Crowded: 1}) {
		t.Errorf("%v", drops)
	}
}

// Closed streams release everything that they held.
func TestStreamsGiveBackAll(t *testing.T) {
	g := testGuard(t, true, Settings{})
	for _, test := range append(streamCases(), testCase{bytes: pushPull(nil, 100_000)}) {
		readStream(g, sealStreamWith(testKey, test.bytes), false)
		readStream(g, sealStreamWith(testKey, test.bytes), true)
	}
	if g.streams.total != (load{}) || g.streams.evictedLoad != (load{}) || len(g.streams.accepted) != 0 {
		t.Errorf("%v, %v, %d streams", g.streams.total, g.streams.evictedLoad, len(g.streams.accepted))
	}
}

// The garbage collector runs after streams have taken AllBytes, and the estimated answers to push/pulls count towards
// that.
func TestGarbageCollection(t *testing.T) {
	members := 0
	g := testGuard(t, false, Settings{StreamBytes: 8000, AllBytes: 8000, Known: func(string) (int, bool) { return members, false }})
	user := append(message(msgUser, map[string]any{"UserMsgLen": 5000}), zeros(5000)...)
	collections := func(stream []byte) uint32 {
		var before, after runtime.MemStats
		runtime.ReadMemStats(&before)
		for n := 0; n < 10; n++ {
			readStream(g, stream, false)
		}
		runtime.ReadMemStats(&after)
		return after.NumForcedGC - before.NumForcedGC
	}
	if count := collections(user); count < 9 || count > 20 {
		t.Errorf("it ran %d times for user messages", count)
	}
	alone := collections(pushPull(nil, 0))
	if members = 10; collections(pushPull(nil, 0)) < alone+9 {
		t.Errorf("it ran no more often than %d times for push/pulls, although there are members", alone)
	}
}

// When the maximum number of nodes is known, new ones are not admitted, but known ones still are.
func TestMembers(t *testing.T) {
	for _, isKeyed := range []bool{false, true} {
		c := startChild(t, childOptions{IsKeyed: isKeyed, Members: 10})
		for n := 0; n < 30; n++ {
			c.udp.Write(c.seal(alive(fmt.Sprint("node", n), nil)))
		}
		eventually(t, "fewer members than allowed", func() bool { return c.count("members") == 10 })
		var nodes []map[string]any
		for n := 30; n < 60; n++ {
			nodes = append(nodes, node(fmt.Sprint("node", n), map[string]any{"State": 0}))
		}
		c.call(c.sealStream(pushPull(nodes, 0)), false)
		c.udp.Write(c.seal(alive("node0", map[string]any{"Incarnation": 2})))
		if !c.isAlive() {
			t.Fatal("no answer")
		}
		count := c.count("members")
		// A packet may be lost, or still be on its way.
		if drops := c.drops(); count != 10 || drops["full"] <= 30 || drops["full"] > 21+30 {
			t.Errorf("%d members, dropped: %v", count, drops)
		}
	}
}

// admits reports whether there is a place for a node with this name and a proven address.
func admits(g *Transport, name string) bool {
	return g.members.admit(nameAt{name, netip.MustParseAddrPort("127.0.0.9:9")}) == none
}

func TestPlaces(t *testing.T) {
	members, isKnown := 2, false
	g := testGuard(t, false, Settings{Members: 4, Known: func(string) (int, bool) { return members, isKnown }})
	admits := func(name string) bool { return admits(g, name) }
	if !admits("a") || !admits("b") || !admits("a") || admits("c") {
		t.Error("two places are not for two nodes")
	}
	for name := range g.members.admitted {
		g.members.admitted[name] = place{at: time.Now().Add(-time.Hour)}
	}
	g.members.sweptAt = time.Time{}
	if !admits("c") {
		t.Error("a node that never joined keeps its place")
	}
	members, isKnown = 100, true
	if !admits("d") {
		t.Error("a known node is refused")
	}
}

// If a node joins while the guard checks whether another one may have a place, it keeps its place.
func TestJoinDuringAdmission(t *testing.T) {
	var g *Transport
	g = testGuard(t, false, Settings{Members: 1, Known: func(name string) (int, bool) {
		if name == "b" {
			g.members.NotifyJoin(&memberlist.Node{Name: "a"})
		}
		return 0, false
	}})
	if !admits(g, "a") || admits(g, "b") {
		t.Error("one place was given to two nodes")
	}
}

// A node that joined and one that left take one place each.
func TestPlacesOfEvents(t *testing.T) {
	g := testGuard(t, false, Settings{Members: 3})
	admits := func(name string) bool { return admits(g, name) }
	for _, name := range []string{"a", "b", "c"} {
		if !admits(name) {
			t.Errorf("%s has no place", name)
		}
		g.members.NotifyJoin(&memberlist.Node{Name: name})
	}
	g.members.NotifyLeave(&memberlist.Node{Name: "c"})
	if admits("d") || !admits("c") {
		t.Error("a node that left lost its place")
	}
}

// An ack passes only after its ping was sent.
func TestAcks(t *testing.T) {
	for _, isKeyed := range []bool{false, true} {
		c := &child{childOptions: childOptions{IsKeyed: isKeyed}}
		g := testGuard(t, isKeyed, Settings{})
		to := fmt.Sprint("127.0.0.1:", g.Port())
		out := message(msgPing, withChanges(ping, map[string]any{"SeqNo": 9}))
		for i, packet := range [][]byte{
			out, compound(out, []byte{msgUser}), compressed(compound(out, out)), withChecksum(compressed(out)),
		} {
			ack := c.seal(message(msgAck, map[string]any{"SeqNo": 9, "Payload": nil}))
			if inspectPacket(g, ack) != nil {
				t.Errorf("%d: an early ack passes", i)
			}
			if _, err := g.WriteTo(c.seal(packet), to); err != nil {
				t.Error(err)
			}
			if inspectPacket(g, ack) == nil {
				t.Errorf("%d: an ack doesn't pass", i)
			}
			g.pings.add(9 + 4096)
		}
		ack := c.seal(message(msgAck, map[string]any{"SeqNo": 77, "Payload": nil}))
		for i, test := range []struct {
			sent   []byte
			passes bool
		}{
			{compressed(zeros(20_000)), false}, {[]byte{msgUser}, false}, {[]byte{msgCompress, 1}, true},
			{message(msgPing, map[string]any{"SeqNo": 1, "Node": string(zeros(300))}), true},
		} {
			g.pings.unreadableAt.Store(0)
			// After a packet that can't be read every ack passes, since the packet may have contained a ping.
			if _, err := g.WriteTo(c.seal(test.sent), to); err != nil || (inspectPacket(g, ack) != nil) != test.passes {
				t.Errorf("%d: %v", i, err)
			}
		}
	}
}

func TestIndirectPings(t *testing.T) {
	g, began, passed := testGuard(t, false, Settings{IndirectPings: 5}), time.Now(), 0
	for n := 0; n < 1000; n++ {
		if inspectPacket(g, message(msgIndirectPing, withChanges(ping, map[string]any{"Target": []byte{127, 0, 0, 1}}))) != nil {
			passed++
		}
	}
	if limit := 5 * (2 + int(time.Since(began)/time.Second)); passed < 5 || passed > limit || g.Drops()[Rate] != uint64(1000-passed) {
		t.Errorf("%d passed, dropped: %v", passed, g.Drops())
	}
}

// Keys that are added or removed take effect at once.
func TestKeys(t *testing.T) {
	c := testConfig("child", true)
	g, err := New(c, Settings{AdmitUnproven: true})
	if err != nil {
		t.Fatal(err)
	}
	defer g.Shutdown()
	other := []byte("another sixteen!")
	passes := func() string {
		return fmt.Sprint(
			inspectPacket(g, sealWith(testKey, alive("a", nil))) != nil, inspectPacket(g, sealWith(other, alive("a", nil))) != nil,
		)
	}
	for i, test := range []struct {
		change func() error
		want   string
	}{
		{func() error { return nil }, "true false"}, {func() error { return c.Keyring.AddKey(other) }, "true true"},
		{func() error { return c.Keyring.UseKey(other) }, "true true"},
		{func() error { return c.Keyring.RemoveKey(testKey) }, "false true"},
	} {
		if err := test.change(); err != nil || passes() != test.want {
			t.Errorf("%d: %v %s", i, err, passes())
		}
	}
}

// If GossipVerifyIncoming is false, the guard also inspects packets and streams that are not encrypted.
func TestUnverifiedGossip(t *testing.T) {
	c := testConfig("child", true)
	c.GossipVerifyIncoming = false
	g, err := New(c, Settings{AdmitUnproven: true})
	if err != nil {
		t.Fatal(err)
	}
	defer g.Shutdown()
	old := sealWith(testKey, append(zeros(40), 1))
	old[0] = 0
	for i, test := range []struct {
		packet []byte
		passes bool
	}{
		{alive("a", nil), true}, {message(msgPing, ping), true}, {versionsAlive(1), false}, {sealWith(testKey, alive("b", nil)), true},
		{old, false},
	} {
		if passed := inspectPacket(g, test.packet) != nil; passed != test.passes {
			t.Errorf("packet %d: passes: %v", i, passed)
		}
	}
	if len(readStream(g, pushPull(nil, 5), false)) == 0 {
		t.Error("a plain stream doesn't pass")
	}
}

func TestSettings(t *testing.T) {
	for name, settings := range map[string]Settings{
		"below 0": {Streams: -1}, "AllBytes below StreamBytes": {AllBytes: 1000}, "a small PacketBytes": {PacketBytes: 1000},
	} {
		if g, err := New(testConfig("child", false), settings); err == nil {
			t.Errorf("%s: accepted", name)
			g.Shutdown()
		}
	}
	c := testConfig("child", false)
	c.BindAddr = "0.0.0.0"
	g, err := New(c, Defaults())
	if err != nil {
		t.Fatal(err)
	}
	defer g.Shutdown()
	if c.BindPort == 0 || c.AdvertisePort != c.BindPort || g.Port() != c.BindPort {
		t.Errorf("ports %d and %d", c.BindPort, c.AdvertisePort)
	}
	if ip, port, err := g.FinalAdvertiseAddr("", 0); err == nil && (!ip.IsPrivate() || port != c.BindPort) {
		t.Errorf("%v %d", ip, port)
	}
	if ip, port, err := g.FinalAdvertiseAddr("192.0.2.7", 5); err != nil || len(ip) != 4 || port != 5 {
		t.Errorf("%v %d %v", ip, port, err)
	}
	if _, _, err := g.FinalAdvertiseAddr("nowhere", 5); err == nil {
		t.Error("a name was accepted as an address")
	}
}

// structTypeOf makes a struct type like those of memberlist from a schema, and randomValueOf encodes a random value of that type
// with go-msgpack.
func structTypeOf(s schema) reflect.Type {
	var fields []reflect.StructField
	for _, field := range s {
		fieldType := reflect.TypeOf([]byte(nil))
		switch {
		case field.kind == kindText:
			fieldType = reflect.TypeOf("")
		case field.kind == kindFlag:
			fieldType = reflect.TypeOf(true)
		case field.kind == kindNumber && field.max == maxUint16:
			fieldType = reflect.TypeOf(uint16(0))
		case field.kind == kindNumber && field.max == maxUint32:
			fieldType = reflect.TypeOf(uint32(0))
		case field.kind == kindNumber:
			fieldType = reflect.TypeOf(0)
		}
		fields = append(fields, reflect.StructField{Name: field.name, Type: fieldType})
	}
	return reflect.StructOf(fields)
}

func randomValueOf(r *rand.Rand, s schema) []byte {
	values := map[string]any{"Xtra": 1.5}
	for _, field := range s {
		switch field.kind {
		case kindText:
			values[field.name] = "some text"[r.Intn(8):]
		case kindFlag:
			values[field.name] = r.Intn(2) == 0
		case kindNumber:
			values[field.name] = r.Int63n(int64(min(field.max, 1<<20) + 1))
		default:
			values[field.name] = zeros(int(min(min(field.max, 300), field.min+4*uint64(r.Intn(2)))))
		}
	}
	return encode(values)
}

// If the guard accepts a message, go-msgpack decodes it to the same values as the guard.
func TestSameAsGoMsgpack(t *testing.T) {
	settings := Defaults()
	shapes, r, accepted := newSchemas(&settings), rand.New(rand.NewSource(int64(envNumber("GUARD_SEED", 1)))), 0
	for kind, s := range append(shapes.byType[:], shapes.node) {
		for n := envNumber("GUARD_READS", 5000); n > 0 && s != nil; n-- {
			bytes := mutate(r, randomValueOf(r, s))
			reader := newReader(bytes)
			var values [maxFields]value
			if reader.readFields(s, &values) != none {
				continue
			}
			accepted++
			into := reflect.New(structTypeOf(s))
			decoder := codec.NewDecoderBytes(bytes[:reader.At], &codec.MsgpackHandle{})
			if err := decoder.Decode(into.Interface()); err != nil {
				t.Fatalf("type %d, %x: %v", kind, bytes, err)
			}
			for i := range s {
				field := into.Elem().Field(i)
				if decoded, want := fmt.Sprint(field.Interface()), formatLike(values[i], field); decoded != want {
					t.Fatalf("type %d, %x: %s is decoded as %s, and the guard read %s", kind, bytes, s[i].name, decoded, want)
				}
			}
			// go-msgpack has to stop at the same byte as the guard.
			var rest any
			if err := decoder.Decode(&rest); err == nil {
				t.Fatalf("type %d, %x: go-msgpack read more", kind, bytes)
			}
		}
	}
	t.Logf("%d were accepted", accepted)
}

// formatLike prints a value as the field of this kind would print it.
func formatLike(v value, like reflect.Value) string {
	switch like.Kind() {
	case reflect.String:
		return string(v.bytes)
	case reflect.Slice:
		return fmt.Sprint(append([]byte(nil), v.bytes...))
	case reflect.Bool:
		return fmt.Sprint(v.number == 1)
	}
	return fmt.Sprint(v.number)
}

func BenchmarkPacket(b *testing.B) {
	user := append([]byte{msgUser}, zeros(350)...)
	mixed := compound(message(msgPing, ping), user, user, user)
	for _, bench := range []struct {
		name    string
		isKeyed bool
		packet  []byte
	}{
		{"ping", false, message(msgPing, ping)}, {"compound", false, mixed}, {"compressed", false, compressed(mixed)},
		{"ping with a key", true, message(msgPing, ping)}, {"compound with a key", true, mixed},
	} {
		b.Run(bench.name, func(b *testing.B) {
			g, c := testGuard(b, bench.isKeyed, Defaults()), &child{childOptions: childOptions{IsKeyed: bench.isKeyed}}
			ins, packet := newInspector(g.core), c.seal(bench.packet)
			b.ReportAllocs()
			for n := 0; n < b.N; n++ {
				if ins.inspect(packet) == nil {
					b.Fatal("dropped")
				}
			}
		})
	}
}
