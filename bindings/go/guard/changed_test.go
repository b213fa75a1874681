package guard

import (
	"fmt"
	"io"
	"math/rand"
	"net"
	"os"
	"strconv"
	"sync"
	"sync/atomic"
	"testing"
	"time"
)

// envNumber reads a number from the environment, for longer runs by hand: GUARD_PACKETS and GUARD_STREAMS of each type,
// GUARD_SECONDS for the flood and for honest nodes, GUARD_NODES honest nodes, GUARD_READS comparisons with go-msgpack,
// and GUARD_SEED.
func envNumber(variable string, otherwise int) int {
	if n, err := strconv.Atoi(os.Getenv(variable)); err == nil {
		return n
	}
	return otherwise
}

// fragments are the bytes that mutate inserts into messages.
var fragments = [][]byte{
	{0}, {0x7f}, {0x80}, {0x8f}, {0x90}, {0x9f, 0x9f}, {0xa0}, {0xbf}, {0xc0}, {0xc1}, {0xc2}, {0xc4, 0xff}, {0xc5, 0xff, 0xff},
	{0xc6, 0xff, 0xff, 0xff, 0xff}, {0xc9, 0x7f, 0xff, 0xff, 0xff, 1}, {0xcb}, {0xcc, 0xff}, {0xcd, 0xff, 0xff},
	{0xce, 0xff, 0xff, 0xff, 0xff},
	{0xcf, 0xff, 0xff, 0xff, 0xff, 0xff, 0xff, 0xff, 0xff}, {0xd0, 0x80}, {0xd3, 0xff, 0xff, 0xff, 0xff, 0xff, 0xff, 0xff, 0xff},
	{0xd3, 0, 0, 1, 0, 0, 0, 0, 0}, {0xd8, 1}, {0xd9, 0xff}, {0xda, 0xff, 0xff}, {0xdb, 0x7f, 0xff, 0xff, 0xff}, {0xdc, 0xff, 0xff},
	{0xdd, 0xff, 0xff, 0xff, 0xff}, {0xde, 0xff, 0xff}, {0xdf, 0xff, 0xff, 0xff, 0xff}, {0xe0}, {0xff}, {0xa3, 'V', 's', 'n', 0xa1, 1},
	{0xa4, 'X', 't', 'r', 'a', 0xdf}, {0x91, 0x91, 0x91, 0x91, 0x91, 0x91, 0x91, 0x91}, {msgCompound, 1}, {msgCompress}, {msgEncrypt},
	{msgChecksum, 0, 0, 0, 0},
}

// mutate changes a message at up to three places.
func mutate(r *rand.Rand, m []byte) []byte {
	out := append([]byte(nil), m...)
	for n := 1 + r.Intn(3); n > 0; n-- {
		at, fragment := r.Intn(len(out)+1), fragments[r.Intn(len(fragments))]
		switch r.Intn(7) {
		case 0:
			if at < len(out) {
				out[at] ^= 1 << r.Intn(8)
			}
		case 1:
			if at < len(out) {
				out[at] = byte(r.Intn(256))
			}
		case 2:
			out = out[:at]
		case 3:
			until := at + r.Intn(len(out)-at+1)
			out = append(out[:at:at], out[until:]...)
		case 4:
			until := at + r.Intn(len(out)-at+1)
			out = append(out[:until:until], out[at:]...)
		case 5:
			out = append(out[:at:at], append(append([]byte(nil), fragment...), out[at:]...)...)
		case 6:
			out = append(out[:at:at], append(append([]byte(nil), fragment...), out[min(len(out), at+len(fragment)):]...)...)
		}
	}
	return out
}

type generator struct {
	name string
	make func(r *rand.Rand) []byte
}

// changedPackets returns generators of packets that were changed inside or outside of their wrappers.
func changedPackets() []generator {
	name := func(r *rand.Rand) string { return fmt.Sprint("node", r.Intn(5000)) }
	number := func(r *rand.Rand) uint32 { return uint32(r.Intn(2000)) }
	suspect := func(r *rand.Rand) map[string]any {
		return map[string]any{"Incarnation": number(r), "Node": name(r), "From": name(r)}
	}
	plain := []generator{
		{"ping", func(r *rand.Rand) []byte { return message(msgPing, ping) }},
		{"indirect", func(r *rand.Rand) []byte {
			return message(msgIndirectPing, withChanges(ping, map[string]any{"Target": []byte{127, 0, 0, 1}, "Port": 9, "Nack": true}))
		}},
		{"ack", func(r *rand.Rand) []byte {
			return message(msgAck, map[string]any{"SeqNo": number(r), "Payload": zeros(r.Intn(50))})
		}},
		{"nack", func(r *rand.Rand) []byte { return message(msgNack, map[string]any{"SeqNo": number(r)}) }},
		{"suspect", func(r *rand.Rand) []byte { return message(msgSuspect, suspect(r)) }},
		{"dead", func(r *rand.Rand) []byte { return message(msgDead, suspect(r)) }},
		{"alive", func(r *rand.Rand) []byte { return alive(name(r), map[string]any{"Incarnation": number(r)}) }},
		{"user", func(r *rand.Rand) []byte { return append([]byte{msgUser}, zeros(r.Intn(50))...) }},
	}
	random := func(r *rand.Rand) []byte { return plain[r.Intn(len(plain))].make(r) }
	three := func(r *rand.Rand) []byte { return compound(random(r), random(r), random(r)) }
	wrapped := func(wrap func([]byte) []byte) func(r *rand.Rand) []byte {
		return func(r *rand.Rand) []byte {
			if r.Intn(2) == 0 {
				return wrap(mutate(r, three(r)))
			}
			return mutate(r, wrap(three(r)))
		}
	}
	var makers []generator
	for _, message := range plain {
		message := message
		makers = append(makers, generator{message.name, func(r *rand.Rand) []byte { return mutate(r, message.make(r)) }})
	}
	return append(makers,
		generator{"compound", func(r *rand.Rand) []byte {
			if r.Intn(2) == 0 {
				return compound(random(r), mutate(r, random(r)), random(r))
			}
			return mutate(r, three(r))
		}},
		generator{"compressed", wrapped(compressed)}, generator{"with a CRC", wrapped(withChecksum)},
		generator{"compressed, with a CRC", wrapped(func(b []byte) []byte { return withChecksum(compressed(b)) })})
}

// senders are the kinds of senders: in a cluster without a key, with the key, and without the key but changing packets
// that others encrypted.
var senders = []string{"without a key", "from a sender with the key", "changed without the key"}

func TestChangedPackets(t *testing.T) {
	count, r := envNumber("GUARD_PACKETS", 200), rand.New(rand.NewSource(int64(envNumber("GUARD_SEED", 1))))
	for sender, name := range senders {
		c := startChild(t, childOptions{IsKeyed: sender > 0})
		began := time.Now()
		for _, kind := range changedPackets() {
			for n := 1; n <= count; n++ {
				packet := kind.make(r)
				if sender == 1 {
					packet = c.seal(packet)
				} else if sender == 2 {
					packet = mutate(r, c.seal(packet))
				}
				c.udp.Write(packet)
				if (n%500 == 0 || n == count) && !c.isAlive() {
					c.Fatalf("%s, %s: no answer after %d", name, kind.name, n)
				}
			}
		}
		c.mustJoin()
		t.Logf(
			"%s: %d of each type, %v, %d KiB at most, dropped: %v", name, count, time.Since(began).Round(time.Second), c.peakKiB(),
			c.drops(),
		)
	}
}

// changedStreams returns generators of streams that were changed inside or outside of their wrapper.
func changedStreams() []generator {
	states := func(r *rand.Rand) []byte {
		var nodes []map[string]any
		for n := r.Intn(5); n >= 0; n-- {
			nodes = append(nodes, node(fmt.Sprint("node", r.Intn(5000)), map[string]any{"State": r.Intn(4)}))
		}
		return pushPull(nodes, r.Intn(100))
	}
	user := func(r *rand.Rand) []byte {
		return append(message(msgUser, map[string]any{"UserMsgLen": 40}), zeros(40)...)
	}
	plain := []func(r *rand.Rand) []byte{states, user}
	compressedAndChanged := func(r *rand.Rand) []byte {
		m := plain[r.Intn(2)](r)
		if r.Intn(2) == 0 {
			return compressed(mutate(r, m))
		}
		return mutate(r, compressed(m))
	}
	changed := func(make func(r *rand.Rand) []byte) func(r *rand.Rand) []byte {
		return func(r *rand.Rand) []byte { return mutate(r, make(r)) }
	}
	return []generator{
		{"push/pull", changed(states)}, {"user", changed(user)},
		{"ping", changed(func(r *rand.Rand) []byte { return message(msgPing, ping) })},
		{"compressed", compressedAndChanged},
		{"ack", changed(func(r *rand.Rand) []byte { return message(msgAck, map[string]any{"SeqNo": 1, "Payload": nil}) })},
		{"error", changed(func(r *rand.Rand) []byte { return message(msgErr, map[string]any{"Error": "text"}) })},
		{"a bad entry", func(r *rand.Rand) []byte {
			bad := append(encode(node("a", nil)), mutate(r, encode(node("b", nil)))...)
			return append(append(pushPullHeader(3, 0), bad...), encode(node("c", nil))...)
		}},
	}
}

func TestChangedStreams(t *testing.T) {
	count, seed := envNumber("GUARD_STREAMS", 10), int64(envNumber("GUARD_SEED", 1))
	for sender, name := range senders {
		c := startChild(t, childOptions{IsKeyed: sender > 0})
		began := time.Now()
		for _, kind := range changedStreams() {
			var workers sync.WaitGroup
			for worker := int64(0); worker < 4; worker++ {
				workers.Add(1)
				go func(r *rand.Rand) {
					defer workers.Done()
					for n := 0; n < (count+3)/4; n++ {
						c.send(c.changedStream(r, kind, sender))
					}
				}(rand.New(rand.NewSource(seed + worker)))
			}
			workers.Wait()
			if !c.isAlive() {
				c.Fatalf("%s, %s: no answer", name, kind.name)
			}
		}
		c.mustJoin()
		t.Logf(
			"%s: %d of each type, %v, %d KiB at most, dropped: %v", name, count, time.Since(began).Round(time.Second), c.peakKiB(),
			c.drops(),
		)
		c.changedAnswers(rand.New(rand.NewSource(seed)), count, sender)
	}
}

// changedStream makes a stream as this kind of sender can send it.
func (c *child) changedStream(r *rand.Rand, kind generator, sender int) []byte {
	out := kind.make(r)
	if sender == 1 {
		return c.sealStream(out)
	} else if sender == 2 {
		return mutate(r, c.sealStream(out))
	}
	return out
}

// send sends a stream, and waits until the child closes it.
func (c *child) send(bytes []byte) {
	conn, err := net.Dial("tcp", c.address)
	if err != nil {
		c.Error(err)
		return
	}
	defer conn.Close()
	conn.SetDeadline(time.Now().Add(time.Minute))
	conn.Write(bytes)
	conn.(*net.TCPConn).CloseWrite()
	io.Copy(io.Discard, conn)
	conn.(*net.TCPConn).SetLinger(0)
}

// changedAnswers makes the child join a node that answers with changed streams.
func (c *child) changedAnswers(r *rand.Rand, count, sender int) {
	kinds := changedStreams()
	for n := 0; n < count; n++ {
		var answer string
		c.ask("join "+serveOnce(c.T, c.changedStream(r, kinds[n%len(kinds)], sender)), &answer)
	}
	c.mustJoin()
	c.Logf("%s: %d answers, %d KiB at most, dropped: %v", senders[sender], count, c.peakKiB(), c.drops())
}

// Changed packets, changed streams and idle streams arrive at once, as fast as possible.
func TestAllAtOnce(t *testing.T) {
	length := time.Duration(envNumber("GUARD_SECONDS", 1)) * time.Second
	for sender, name := range senders[:2] {
		c := startChild(t, childOptions{IsKeyed: sender > 0})
		counts := c.flood(length, 0)
		if !c.isAlive() {
			c.Fatal("no answer")
		}
		c.mustJoin()
		t.Logf(
			"%s: %d packets, %d streams, %d idle ones, %d KiB at most, dropped: %v", name, counts[0], counts[1], counts[2], c.peakKiB(),
			c.drops(),
		)
	}
}

// flood sends changed packets, changed streams and idle streams for the given time, and counts each kind.
func (c *child) flood(length time.Duration, seed int64) (counts [3]int64) {
	packets, streams, end, sender := changedPackets(), changedStreams(), time.Now().Add(length), 0
	if c.IsKeyed {
		sender = 1
	}
	send := []func(*rand.Rand){
		func(r *rand.Rand) { c.udp.Write(c.seal(packets[r.Intn(len(packets))].make(r))) },
		func(r *rand.Rand) { c.send(c.changedStream(r, streams[r.Intn(len(streams))], sender)) },
		func(r *rand.Rand) {
			if conn, err := net.Dial("tcp", c.address); err == nil {
				conn.Write(c.sealStream(pushPull(nil, 1<<20))[:1+r.Intn(1<<20)])
				time.AfterFunc(3*time.Second, func() { conn.Close() })
			}
			time.Sleep(5 * time.Millisecond)
		},
	}
	var workers sync.WaitGroup
	for i, kind := range []int{0, 0, 1, 1, 2} {
		workers.Add(1)
		go func(kind int, r *rand.Rand) {
			defer workers.Done()
			for time.Now().Before(end) {
				send[kind](r)
				atomic.AddInt64(&counts[kind], 1)
			}
		}(kind, rand.New(rand.NewSource(seed+int64(i))))
	}
	workers.Wait()
	return counts
}
