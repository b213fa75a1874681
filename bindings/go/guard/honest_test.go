package guard

import (
	"bytes"
	"fmt"
	"net"
	"strings"
	"testing"
	"time"
)

// eventually waits until the condition holds, and fails the test with what after a minute.
func eventually(t *testing.T, what string, holds func() bool) {
	t.Helper()
	for end := time.Now().Add(60 * time.Second); !holds(); time.Sleep(20 * time.Millisecond) {
		if time.Now().After(end) {
			t.Fatal(what)
		}
	}
}

// mustSucceed sends a line to the child, and expects the empty text as its answer.
func (c *child) mustSucceed(line string) {
	c.Helper()
	var answer string
	if c.ask(line, &answer); answer != "" {
		c.Errorf("%s: %s: %s", c.Name, line, answer)
	}
}

// count sends a line to the child, and returns the number that it answers.
func (c *child) count(line string) (n int) {
	c.ask(line, &n)
	return n
}

// Guarded and stock nodes form a cluster, and the guard drops nothing that they send.
func TestHonest(t *testing.T) {
	count, length := envNumber("GUARD_NODES", 3), time.Duration(envNumber("GUARD_SECONDS", 2))*time.Second
	for i := 0; i < 4; i++ {
		isKeyed, isCompressed := i&1 != 0, i&2 != 0
		t.Run(fmt.Sprintf("keyed=%v compressed=%v", isKeyed, isCompressed), func(t *testing.T) {
			t.Parallel()
			var nodes []*child
			for n := 0; n < count; n++ {
				nodes = append(nodes, startChild(t, childOptions{
					Name: fmt.Sprint("node", n), IsKeyed: isKeyed, IsAlone: n%3 == 0, IsHonest: true, IsCompressed: isCompressed,
				}))
			}
			for n := 1; n < count; n++ {
				nodes[n].mustSucceed("join " + nodes[n-1].address)
			}
			for _, c := range nodes {
				eventually(t, "not all nodes are members", func() bool { return c.count("members") == count })
			}
			// Pings and push/pulls continue during this time.
			for end := time.Now().Add(length); time.Now().Before(end); time.Sleep(length / 4) {
				for _, c := range nodes {
					c.mustSucceed("say")
				}
			}
			for _, c := range nodes {
				eventually(t, "messages are missing", func() bool { return c.count("heard") >= 50 })
			}
			nodes[1].mustSucceed("leave")
			eventually(t, "the leave wasn't received", func() bool {
				return nodes[0].count("members") == count-1 && nodes[2].count("members") == count-1
			})
			for _, c := range nodes {
				drops := c.drops()
				if drops["unproven"] > 0 {
					// (on a busy machine, a new node may answer too late)
					delete(drops, "unproven")
					delete(drops, "unasked")
				}
				if len(drops) > 0 {
					t.Errorf("%s dropped: %v", c.Name, drops)
				}
			}
		})
	}
}

// manyNames is the maximum number of names at one address in tests that invent many nodes at one address.
const manyNames = 1 << 20

// testGuard makes a guard's transport that no memberlist uses. It admits new nodes without a ping, since nobody answers
// for the nodes that the tests invent.
func testGuard(t testing.TB, isKeyed bool, settings Settings) *Transport {
	t.Helper()
	settings.AdmitUnproven = true
	if settings.NamesPerAddress == 0 || settings.NamesPerAddress == Defaults().NamesPerAddress {
		settings.NamesPerAddress = manyNames
	}
	guarded, err := New(testConfig("child", isKeyed), settings)
	if err != nil {
		t.Fatal(err)
	}
	t.Cleanup(func() { guarded.Shutdown() })
	return guarded
}

// inspectPacket returns the bytes of a packet that memberlist may read, or nil.
func inspectPacket(g *Transport, packet []byte) []byte { return newInspector(g.core).inspect(packet) }

// honestPackets returns packets that memberlist itself sends.
func honestPackets() [][]byte {
	from := func(name string) map[string]any { return map[string]any{"Incarnation": 3, "Node": "a", "From": name} }
	big := compound(message(msgPing, ping), alive("one", nil), alive("two", nil), message(msgSuspect, from("b")), message(
		msgDead, from("a"),
	),
		append([]byte{msgUser}, zeros(700)...))
	indirect := withChanges(ping, map[string]any{"Target": []byte{127, 0, 0, 1}, "Port": 9, "Nack": true})
	return [][]byte{
		message(msgPing, ping), message(msgPing, map[string]any{"SeqNo": 1, "Node": "child"}), message(msgIndirectPing, indirect),
		alive("one", nil), alive("six", map[string]any{"Addr": net.ParseIP("2001:db8::1")}), alive("nil", map[string]any{"Meta": nil}),
		alive("new", map[string]any{"Later": true}), {msgUser}, big, withChecksum(big), compressed(big), withChecksum(compressed(big)),
	}
}

// Honest packets and streams pass byte for byte.
func TestByteForByte(t *testing.T) {
	for _, isKeyed := range []bool{false, true} {
		g := testGuard(t, isKeyed, Defaults())
		c := &child{childOptions: childOptions{IsKeyed: isKeyed}}
		for i, data := range honestPackets() {
			data = c.seal(data)
			before := append([]byte(nil), data...)
			if got := inspectPacket(g, data); !bytes.Equal(got, before) {
				t.Errorf("packet %d: %x", i, got)
			}
		}
		var nodes []map[string]any
		for n := 0; n < 500; n++ {
			nodes = append(nodes, node(fmt.Sprint("node ", n), map[string]any{"State": n % 4, "Meta": zeros(n)}))
		}
		whole := pushPull(nodes, 100_000)
		readStream(g, nil, false) // No bytes arrive, so nothing is dropped.
		user := append(message(msgUser, map[string]any{"UserMsgLen": 5}), "hello"...)
		ack, failed := message(msgAck, map[string]any{"SeqNo": 1, "Payload": nil}), message(msgErr, map[string]any{"Error": "text"})
		for i, data := range [][]byte{
			whole, compressed(whole), pushPull(nil, 0), message(msgPing, ping), compressed(message(msgPing, ping)), user, compressed(user),
			ack, compressed(ack), failed, compressed(failed), whole,
		} {
			data = c.sealStream(data)
			if got := readStream(g, data, i > 6); !bytes.Equal(got, data) {
				t.Errorf("stream %d: %d bytes of %d", i, len(got), len(data))
			}
		}
		if drops := g.Drops(); len(drops) > 0 {
			t.Errorf("dropped: %v", drops)
		}
	}
}

// readStream returns the bytes that memberlist may read of a stream with this data.
func readStream(g *Transport, data []byte, isDialed bool) []byte {
	here, there := net.Pipe()
	go func() {
		there.Write(data)
		there.Close()
	}()
	s := g.newStream(here, isDialed)
	if !isDialed {
		g.streams.add(s)
	}
	defer s.Close()
	var out bytes.Buffer
	out.ReadFrom(s)
	return out.Bytes()
}

// The guard cuts out bad parts and entries, and memberlist reads the rest. If there is a key, the guard encrypts the
// rest again.
func TestCut(t *testing.T) {
	for _, isKeyed := range []bool{false, true} {
		for _, wrap := range []func([]byte) []byte{func(b []byte) []byte { return b }, withChecksum, compressed} {
			c := startChild(t, childOptions{IsKeyed: isKeyed, Members: 100})
			c.udp.Write(c.seal(wrap(compound(versionsAlive(1), alive("first", nil), []byte{}, alive("second", nil)))))
			eventually(t, "a good part of a packet was lost", func() bool { return c.count("members") == 3 })
			if drops := c.drops(); len(drops) != 2 || drops["versions"] != 1 || drops["empty"] != 1 {
				t.Errorf("%v", drops)
			}
		}
		for _, wrap := range []func([]byte) []byte{func(b []byte) []byte { return b }, compressed} {
			c := startChild(t, childOptions{IsKeyed: isKeyed, Members: 100})
			nodes := []map[string]any{
				node("bad", map[string]any{"Vsn": []byte{1}}), node("first", map[string]any{"State": 0}),
				node("none", map[string]any{"Addr": zeros(3)}), node("last", map[string]any{"State": 0}),
			}
			if answer := c.call(c.sealStream(wrap(pushPull(nodes, 1000))), false); len(answer) == 0 {
				t.Error("no answer")
			}
			eventually(t, "a good entry was lost", func() bool { return c.count("members") == 3 })
			if drops := c.drops(); len(drops) != 2 || drops["versions"] != 1 || drops["address"] != 1 {
				t.Errorf("%v", drops)
			}
		}
	}
}

// A stock node passes on entries that make another node's join fail. A guarded node can join through that stock node
// nevertheless.
func TestPoison(t *testing.T) {
	for _, isKeyed := range []bool{false, true} {
		stock := startChild(t, childOptions{Name: "stock", IsKeyed: isKeyed, IsAlone: true, IsHonest: true})
		for _, packet := range [][]byte{
			alive("poison1", map[string]any{"Vsn": []byte{5, 5, 5, 2, 5, 4}}),
			alive("poison2", map[string]any{"Vsn": []byte{1, 1, 1, 2, 5, 4}}),
			alive("poison3", map[string]any{"Meta": zeros(600)}),
		} {
			stock.udp.Write(stock.seal(packet))
		}
		eventually(t, "the stock node doesn't accept the bad entries", func() bool { return stock.count("members") == 4 })
		plain := startChild(t, childOptions{Name: "plain", IsKeyed: isKeyed, IsAlone: true})
		guarded := startChild(t, childOptions{Name: "guarded", IsKeyed: isKeyed, IsHonest: true})
		var answer string
		if plain.ask("join "+stock.address, &answer); answer == "" {
			t.Error("a stock node joined")
		}
		guarded.mustSucceed("join " + stock.address)
		eventually(t, "the guarded node isn't a member", func() bool {
			var names, others []string
			stock.ask("names", &names)
			guarded.ask("names", &others)
			both := fmt.Sprint(names, others)
			return strings.Count(both, "guarded") == 2 && strings.Count(both, "stock") == 2
		})
		if drops := guarded.drops(); drops["versions"] < 2 || drops["meta"] < 1 {
			t.Errorf("%v", drops)
		}
	}
}
