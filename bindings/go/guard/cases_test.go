package guard

import (
	"bytes"
	"encoding/binary"
	"fmt"
	"net"
	"testing"
	"time"
)

var ping = map[string]any{"SeqNo": 7, "Node": "child", "SourceAddr": []byte{127, 0, 0, 1}, "SourcePort": 9, "SourceNode": "other"}

// withExtra returns a ping with an unknown field whose value has these bytes.
func withExtra(value ...byte) []byte {
	out := message(msgPing, withChanges(ping, map[string]any{"Xtra": 0}))
	at := bytes.Index(out, []byte("Xtra")) + 4
	return append(append(append([]byte(nil), out[:at]...), value...), out[at+1:]...)
}

// versionsAlive returns an alive message with these bytes as its versions.
func versionsAlive(v ...byte) []byte { return alive("v", map[string]any{"Vsn": v}) }

func zeros(n int) []byte { return make([]byte, n) }

// testCase is a packet or a stream, with the reason for which the guard drops it. The first letter of its name says
// what memberlist does without the guard. D: it crashes. M: it allocates 40 MiB or more. P: it accepts the message and
// passes it on to others. If the name begins with another letter, memberlist refuses the message, or accepts it without
// harm.
type testCase struct {
	name   string
	bytes  []byte
	reason Reason
}

// packetCases returns packets that the guard drops.
func packetCases() []testCase {
	var many [][]byte
	for len(many) < 128 {
		many = append(many, []byte{msgUser})
	}
	nested := message(msgPing, ping)
	for i := 0; i < 3; i++ {
		nested = compound(nested)
	}
	noParts := compound()
	sum := withChecksum(message(msgPing, ping))
	sum[1]++
	broken := message(msgCompress, map[string]any{"Algo": 0, "Buf": []byte{255, 255, 255}})
	twice := append([]byte{msgNack, 0x82}, bytes.Repeat(encode("SeqNo"), 1)...)
	twice = append(append(append(twice, 7), encode("SeqNo")...), 7)
	cases := []testCase{
		{"a Vsn of 7", versionsAlive(1, 5, 2, 2, 5, 4, 0), Versions},
		{"P a Vsn that no node supports", versionsAlive(5, 5, 5, 2, 5, 4), Versions},
		{"P a delegate version that no node supports", versionsAlive(1, 5, 2, 5, 5, 5), Versions},
		{"a Vsn of 0", versionsAlive(0, 0, 0, 0, 0, 0), Versions},
		{"D an empty part", compound([]byte{}), Empty},
		{"D an empty body after a CRC", withChecksum(nil), Empty},
		{"D an empty result of LZW", compressed(nil), Empty},
		{"128 parts", compound(many...), Parts},
		{"D 255 parts", append([]byte{msgCompound, 255}, zeros(600)...), Parts},
		{"no part", noParts, Parts},
		{"a compound without a number", []byte{msgCompound}, Parts},
		{"lengths that are cut off", []byte{msgCompound, 9, 0}, Parts},
		{"a part that is cut off", []byte{msgCompound, 1, 0, 9, 1}, Parts},
		{"bytes after a compound", append(compound([]byte{msgUser, 1}), 0), Trailing},
		{"D a map of 32-bit length", withExtra(0xdf, 255, 255, 255, 255), Malformed},
		{"D an array of 32-bit length", withExtra(0xdd, 255, 255, 255, 255), Malformed},
		{"M a str32", withExtra(0xdb, 127, 255, 255, 255), Malformed},
		{"M a bin32", withExtra(0xc6, 127, 255, 255, 255), Malformed},
		{"M an ext32", withExtra(0xc9, 127, 255, 255, 255, 1), Malformed},
		{"M a str32 in a field", append([]byte{msgAck, 0x81}, append(encode("Payload"), 0xdb, 127, 255, 255, 255)...), Malformed},
		{"nesting", withExtra(append(bytes.Repeat([]byte{0x91}, 9000), 0xc0)...), Malformed},
		{"D deep nesting, compressed", compressed(withExtra(append(bytes.Repeat([]byte{0x91}, 10<<20), 0xc0)...)), Inflated},
		{"M a decompression bomb", compressed(zeros(10 << 20)), Inflated},
		{"compounds in a compound", nested, Nested},
		{"compressed twice", compressed(compressed(message(msgPing, ping))), Nested},
		{"compressed in a compound", compound(compressed(message(msgPing, ping))), Nested},
		{"a CRC in a compound", compound(withChecksum(message(msgPing, ping))), Nested},
		{"encrypted within", []byte{msgEncrypt, 1, 2, 3}, Nested},
		{"a wrong CRC", sum, Checksum},
		{"an unknown compression", message(msgCompress, map[string]any{"Algo": 1, "Buf": lzwOf([]byte("x"))}), Compression},
		{"broken compression", broken, Compression},
		{"bytes after what is compressed", append(compressed(message(msgPing, ping)), 0), Trailing},
		{"an array for a map", message(msgPing, []any{7, "child"}), Malformed},
		{"a field twice", twice, Malformed},
		{"a text for a number", message(msgPing, withChanges(ping, map[string]any{"SeqNo": "7"})), Malformed},
		{"a number below 0", message(msgPing, withChanges(ping, map[string]any{"SeqNo": -1})), Range},
		{"a number of 33 bits", alive("n", map[string]any{"Incarnation": uint64(1) << 32}), Range},
		{"a port of 17 bits", alive("n", map[string]any{"Port": 1 << 16}), Range},
		{"bytes after a ping", append(message(msgPing, ping), 0), Trailing},
		{"no name", alive("", nil), Name},
		{"a name of 256 bytes", alive(string(zeros(256)), nil), Name},
		{"a suspect without a name", message(msgSuspect, map[string]any{"Incarnation": 1, "From": "other"}), Name},
		{"a dead from nobody", message(msgDead, map[string]any{"Incarnation": 1, "Node": "other", "From": ""}), Name},
		{"P Meta of 513 bytes", alive("m", map[string]any{"Meta": zeros(513)}), Meta},
		{"P no address", alive("a", map[string]any{"Addr": absent}), Address},
		{"P an address of 5 bytes", alive("a", map[string]any{"Addr": zeros(5)}), Address},
		{"a multicast address", alive("a", map[string]any{"Addr": []byte{224, 0, 0, 1}}), Address},
		{"a broadcast address", alive("a", map[string]any{"Addr": []byte{255, 255, 255, 255}}), Address},
		{"a broadcast address in 16 bytes", alive("a", map[string]any{"Addr": []byte(net.IPv4bcast.To16())}), Address},
		{
			"a ping from a multicast address", message(msgPing, withChanges(ping, map[string]any{"SourceAddr": []byte{239, 1, 1, 1}})),
			Address,
		},
		{"an indirect ping of no address", message(msgIndirectPing, withChanges(ping, map[string]any{"Port": 9})), Address},
		{"an unknown type", []byte{200, 1}, Kind},
		{"a push/pull in a packet", pushPull(nil, 0), Kind},
		{"an error in a packet", message(msgErr, map[string]any{"Error": "x"}), Kind},
		{"an ack without a ping", message(msgAck, map[string]any{"SeqNo": 1 << 30, "Payload": nil}), Unasked},
		{"a nack without a ping", message(msgNack, map[string]any{"SeqNo": 1 << 30}), Unasked},
		{"an ack with 2,000 bytes", message(msgAck, map[string]any{"SeqNo": 1, "Payload": zeros(2000)}), Payload},
		{"a packet of 11,000 bytes", append([]byte{msgUser}, zeros(11000)...), TooLong},
	}
	for n := 1; n < 6; n++ {
		cases = append(cases, testCase{fmt.Sprintf("D a Vsn of %d", n), versionsAlive(versionsOf[:n]...), Versions})
	}
	return cases
}

// sealedPackets returns packets from a sender without the key, and packets that only a sender with the key can make.
// The test sends them unchanged.
func sealedPackets() []testCase {
	old := sealWith(testKey, append([]byte{msgUser}, bytes.Repeat([]byte{200}, 40)...))
	old[0] = 0
	padded := sealWith(testKey, bytes.Repeat([]byte{3}, 48))
	padded[0] = 0
	later := sealWith(testKey, message(msgPing, ping))
	later[0] = 2
	return []testCase{
		{"not encrypted, though it looks so", message(msgPing, ping), Sealed},
		{"not encrypted", append([]byte{msgUser}, zeros(100)...), Plain},
		{"D the version made 0", old, OldSeal},
		{"encryption's version 0, with its padding", padded, OldSeal},
		{"encryption's version 2", later, Plain},
		{"another key", sealWith([]byte("another sixteen!"), message(msgPing, ping)), Sealed},
		{"D nothing encrypted", sealWith(testKey, nil), Empty},
		{"cut off", sealWith(testKey, nil)[:20], Plain},
	}
}

func TestPacketCases(t *testing.T) {
	for _, isKeyed := range []bool{false, true} {
		t.Run(fmt.Sprint("keyed=", isKeyed), func(t *testing.T) {
			c := startChild(t, childOptions{IsKeyed: isKeyed})
			for _, test := range packetCases() {
				c.mustDrop(test, func() { c.udp.Write(c.seal(test.bytes)) })
			}
			if isKeyed {
				for _, test := range sealedPackets() {
					c.mustDrop(test, func() { c.udp.Write(test.bytes) })
				}
			} else {
				c.mustDrop(testCase{name: "an empty packet", reason: Empty}, func() { c.udp.Write(nil) })
			}
			c.mustJoin()
			t.Logf("%d KiB at most", c.peakKiB())
		})
	}
}

// mustDrop sends a case, and expects that the child drops it for the case's reason and survives.
func (c *child) mustDrop(test testCase, send func()) {
	c.Helper()
	if c.IsKeyed && test.reason == Short && test.bytes[0] != msgEncrypt {
		test.reason = Malformed // The encrypted content is complete, so the stream isn't short.
	}
	if c.IsAlone {
		c.logWithoutGuard(test, send)
		return
	}
	before := c.drops()
	send()
	if !c.isAlive() {
		c.Fatalf("%s: no answer", test.name)
	}
	after := c.drops()
	for reason, count := range after {
		if count != before[reason] && reason != test.reason.String() {
			c.Errorf("%s: dropped as %s, not as %s", test.name, reason, test.reason)
		}
	}
	if after[test.reason.String()] == before[test.reason.String()] {
		c.Errorf("%s: not dropped as %s", test.name, test.reason)
	}
}

// logWithoutGuard logs what memberlist does with a case without the guard. It is for use by hand.
func (c *child) logWithoutGuard(test testCase, send func()) {
	other := startChild(c.T, c.childOptions)
	c.udp, c.address = other.udp, other.address
	send()
	time.Sleep(200 * time.Millisecond) // (memberlist queues reports about nodes)
	what := "lives"
	if !other.isAlive() {
		what = "DIES"
	}
	c.Logf("%-6s %6d KiB %s", what, other.peakKiB(), test.name)
}

// pushPullHeader returns the head of a push/pull that announces these numbers of entries and of state bytes.
func pushPullHeader(nodes, length any) []byte {
	return message(msgPushPull, map[string]any{"Nodes": nodes, "UserStateLen": length, "Join": true})
}

// pushPullWithBadEntry returns a push/pull whose second of three entries has these changes.
func pushPullWithBadEntry(changes map[string]any) []byte {
	return pushPull([]map[string]any{node("first", nil), node("bad", changes), node("last", nil)}, 50)
}

// streamCases returns streams that the guard refuses, or out of which it cuts an entry.
func streamCases() []testCase {
	nested := pushPull(nil, 0)
	at := bytes.Index(nested, []byte("Join"))
	user := func(n any) []byte { return message(msgUser, map[string]any{"UserMsgLen": n}) }
	return []testCase{
		{"D nodes below 0", pushPullHeader(-1, 0), Length},
		{"D 2^40 nodes", pushPullHeader(1<<40, 0), Length},
		{"M 10,000,000 nodes", pushPullHeader(10_000_000, 0), Length},
		{"a state of -1 bytes", pushPullHeader(0, -1), Length},
		{"D a state of 2^50 bytes", pushPullHeader(0, 1<<50), Length},
		{"M a state of 2^30 bytes", pushPullHeader(0, 1<<30), Length},
		{"D a user's message of 2^50 bytes", user(1 << 50), Length},
		{"a user's message of 65,537 bytes", append(user(65537), zeros(65537)...), Length},
		{"D an empty result of LZW", compressed(nil), Empty},
		{"M a decompression bomb", compressed(zeros(20 << 20)), Inflated},
		{"a push/pull of more than 4 MiB", append(pushPullHeader(0, 4<<20), zeros(4<<20)...), TooLong},
		{"compressed twice", compressed(compressed(pushPull(nil, 0))), Nested},
		{"a compound", compound([]byte{msgUser}), Nested},
		{"D a map of 32-bit length", append(nested[:at+4:at+4], 0xdf, 255, 255, 255, 255), Malformed},
		{"an array for a map", message(msgPushPull, []any{0, 0, true}), Malformed},
		{"M a text of 2^31 bytes", append(nested[:at+4:at+4], 0xdb, 127, 255, 255, 255), Malformed},
		{"an entry that is a number", append(pushPullHeader(1, 0), 7), Malformed},
		{"an ack to nobody", message(msgAck, map[string]any{"SeqNo": 1, "Payload": nil}), Kind},
		{"an unknown type", []byte{99, 0}, Kind},
		{"cut off within an entry", pushPullWithBadEntry(nil)[:100], Short},
		{"fewer bytes than the state has", pushPullHeader(0, 50), Short},
		{"D an entry's Vsn of 1", pushPullWithBadEntry(map[string]any{"Vsn": zeros(1)}), Versions},
		{"D an entry's Vsn of 5", pushPullWithBadEntry(map[string]any{"Vsn": zeros(5)}), Versions},
		{"an entry's Vsn that no node supports", pushPullWithBadEntry(map[string]any{"Vsn": []byte{5, 5, 5, 2, 5, 4}}), Versions},
		{"an entry without a name", pushPullWithBadEntry(map[string]any{"Name": absent}), Name},
		{"an entry's name of 256 bytes", pushPullWithBadEntry(map[string]any{"Name": string(zeros(256))}), Name},
		{"an entry's address of 5 bytes", pushPullWithBadEntry(map[string]any{"Addr": zeros(5)}), Address},
		{"an entry's Meta of 60,000 bytes", pushPullWithBadEntry(map[string]any{"Meta": zeros(60000)}), Meta},
		{"an entry's state of 4", pushPullWithBadEntry(map[string]any{"State": 4}), Range},
		{"an entry's incarnation of 33 bits", pushPullWithBadEntry(map[string]any{"Incarnation": 1 << 32}), Range},
		{"an entry with an unknown field of 2,000 bytes", pushPullWithBadEntry(map[string]any{"Xtra": zeros(2000)}), Malformed},
	}
}

// sealedStreams is sealedPackets for streams.
func sealedStreams() []testCase {
	old := sealStreamWith(testKey, append([]byte{msgUser}, bytes.Repeat([]byte{200}, 40)...))
	old[streamHeader] = 0
	long := binary.BigEndian.AppendUint32([]byte{msgEncrypt}, 20<<20)
	return []testCase{
		{"not encrypted", pushPull(nil, 0), Plain},
		{"D the version made 0", old, OldSeal},
		{"another key", sealStreamWith([]byte("another sixteen!"), pushPull(nil, 0)), Sealed},
		{"D nothing encrypted", sealStreamWith(testKey, nil), Empty},
		{"M 20 MiB encrypted", long, TooLong},
		{"cut off", sealStreamWith(testKey, pushPull(nil, 0))[:30], Short},
		{"bytes after a push/pull", sealStreamWith(testKey, append(pushPull(nil, 0), 0)), Trailing},
	}
}

func TestStreamCases(t *testing.T) {
	for _, isKeyed := range []bool{false, true} {
		t.Run(fmt.Sprint("keyed=", isKeyed), func(t *testing.T) {
			c := startChild(t, childOptions{IsKeyed: isKeyed})
			for _, test := range streamCases() {
				c.mustDrop(test, func() { c.call(c.sealStream(test.bytes), true) })
			}
			if isKeyed {
				for _, test := range sealedStreams() {
					c.mustDrop(test, func() { c.call(test.bytes, true) })
				}
			} else {
				c.mustDrop(testCase{name: "encrypted", reason: Sealed}, func() { c.call(sealStreamWith(testKey, pushPull(nil, 0)), true) })
			}
			c.mustJoin()
			t.Logf("%d KiB at most", c.peakKiB())
		})
	}
}

// The guard also drops these cases if they are the answer to a push/pull of this node.
func TestAnswers(t *testing.T) {
	for _, isKeyed := range []bool{false, true} {
		c := startChild(t, childOptions{IsKeyed: isKeyed})
		cases := append(streamCases(), testCase{"a ping as an answer", message(msgPing, ping), Kind},
			testCase{"an error that is long", message(msgErr, map[string]any{"Error": string(zeros(5000))}), Length})
		for _, test := range cases {
			if bytes.HasPrefix(test.bytes, []byte{msgAck}) || test.bytes[0] == msgUser {
				continue
			}
			c.mustDrop(test, func() {
				address := serveOnce(t, c.sealStream(test.bytes))
				var answer string
				c.ask("join "+address, &answer)
			})
		}
		c.mustJoin()
	}
}

// serveOnce answers one connection with these bytes. It returns the address to dial.
func serveOnce(t *testing.T, bytes []byte) string {
	l, err := net.Listen("tcp", "127.0.0.1:0")
	if err != nil {
		t.Fatal(err)
	}
	go func() {
		defer l.Close()
		conn, err := l.Accept()
		if err != nil {
			return
		}
		defer conn.Close()
		conn.SetDeadline(time.Now().Add(time.Minute))
		conn.Read(make([]byte, 65536))
		conn.Write(bytes)
		conn.(*net.TCPConn).CloseWrite()
		conn.Read(make([]byte, 65536))
	}()
	return l.Addr().String()
}
