package guard

import (
	"fmt"
	"math/rand"
	"net"
	"os"
	"strings"
	"testing"
	"time"
)

// The types of Serf's messages within user messages and user states.
const (
	leaveIntent = iota
	joinIntent
	stateOfSerf
	eventOfSerf
	queryOfSerf
)

// TestOutside attacks another process, an agent of a Serf cluster that tests/by_hand/hostile_hour.py starts. It sends
// each single case, changed packets and streams, answers when the agent dials, and floods of members, intents, events,
// queries and states. GUARD_AT is the agent's address and GUARD_NAME its name. GUARD_KEYED is set if the agent has this
// test's key. GUARD_SECONDS is how long the test lasts.
func TestOutside(t *testing.T) {
	address := os.Getenv("GUARD_AT")
	if address == "" {
		t.Skip("set GUARD_AT to the address of an agent")
	}
	c := &child{T: t, childOptions: childOptions{Name: os.Getenv("GUARD_NAME"), IsKeyed: os.Getenv("GUARD_KEYED") != ""}, address: address}
	var err error
	if c.udp, err = net.Dial("udp", address); err != nil {
		t.Fatal(err)
	}
	c.answerWithChangedStreams()
	rounds, counts := int64(0), map[string]int{}
	for end := time.Now().Add(time.Duration(envNumber("GUARD_SECONDS", 10)) * time.Second); time.Now().Before(end); rounds++ {
		r := rand.New(rand.NewSource(rounds + int64(envNumber("GUARD_SEED", 1))))
		c.sendRound(r, counts)
		for i, count := range c.flood(20*time.Second, r.Int63()) {
			counts[[]string{"changed packets", "changed streams", "idle streams"}[i]] += int(count)
		}
		if !c.isAlive() {
			t.Fatalf("no answer in round %d", rounds)
		}
	}
	c.mustJoin()
	t.Logf("%d rounds: %v", rounds, counts)
}

// sendRound sends each single case and each flood once.
func (c *child) sendRound(r *rand.Rand, counts map[string]int) {
	for _, test := range packetCases() {
		c.udp.Write(c.seal(test.bytes))
		counts["single packets"]++
	}
	for _, test := range streamCases() {
		c.send(c.sealStream(test.bytes))
		counts["single streams"]++
	}
	if c.IsKeyed {
		for _, test := range sealedPackets() {
			c.udp.Write(test.bytes)
			c.udp.Write(mutate(r, c.seal(message(msgPing, ping))))
			counts["packets without the key"] += 2
		}
		for _, test := range sealedStreams() {
			c.send(test.bytes)
			counts["streams without the key"]++
		}
	}
	for _, flood := range floodsOf(c.Name) {
		for n := 0; n < flood.count; n++ {
			c.udp.Write(c.seal(flood.make(r)))
			if n%500 == 499 && !c.isAlive() {
				c.Fatalf("%s: no answer after %d", flood.name, n)
			}
		}
		counts[flood.name] += flood.count
	}
	for n := 0; n < 100; n++ {
		c.send(c.sealStream(stateFlood(r)))
		counts["states"]++
	}
}

// answerWithChangedStreams answers connections to the forged members, which share one address, with changed streams.
func (c *child) answerWithChangedStreams() {
	l, err := net.Listen("tcp", "127.0.0.9:9")
	if err != nil {
		c.Fatal(err)
	}
	c.Cleanup(func() { l.Close() })
	kinds, sender := changedStreams(), 0
	if c.IsKeyed {
		sender = 1
	}
	go func() {
		for n := int64(0); ; n++ {
			conn, err := l.Accept()
			if err != nil {
				return
			}
			go func(r *rand.Rand) {
				defer conn.Close()
				conn.SetDeadline(time.Now().Add(5 * time.Second))
				conn.Read(make([]byte, 65536))
				conn.Write(c.changedStream(r, kinds[r.Intn(len(kinds))], sender))
			}(rand.New(rand.NewSource(n)))
		}
	}()
}

type flood struct {
	generator
	count int
}

// someTime returns a Lamport time: a small one, any time, one that is implausibly far ahead, or one near the threshold
// from which on package serf drops times. That threshold is 2^62 plus the time of day in nanoseconds.
func someTime(r *rand.Rand) uint64 {
	switch r.Intn(5) {
	case 0:
		return r.Uint64()
	case 1:
		return ^uint64(0) - uint64(r.Intn(3))
	case 2:
		return 1<<63 + uint64(r.Intn(3))
	case 3:
		return 1<<62 + uint64(time.Now().UnixNano()) + uint64(r.Intn(200_000)) - 100_000
	}
	return uint64(r.Intn(1 << 20))
}

// serfMessage returns a message of Serf's inside a user message of memberlist's.
func serfMessage(kind byte, what any) []byte { return append([]byte{msgUser, kind}, encode(what)...) }

// floodsOf returns floods of well-formed messages to a node with this name.
func floodsOf(name string) []flood {
	stranger := func(r *rand.Rand) string { return fmt.Sprint("stranger", r.Intn(1<<20)) }
	someone := func(r *rand.Rand) string {
		if r.Intn(100) == 0 {
			return name
		}
		return stranger(r)
	}
	intent := func(r *rand.Rand) []byte {
		return serfMessage(
			[]byte{leaveIntent, joinIntent}[r.Intn(2)], map[string]any{"LTime": someTime(r), "Node": someone(r), "Prune": r.Intn(2) == 0},
		)
	}
	event := func(r *rand.Rand) []byte {
		return serfMessage(eventOfSerf, map[string]any{"LTime": someTime(r), "Name": "flood", "Payload": zeros(r.Intn(500)), "CC": false})
	}
	query := func(r *rand.Rand) []byte {
		return serfMessage(queryOfSerf, map[string]any{
			"LTime": someTime(r), "ID": r.Uint32(), "Addr": []byte{127, 0, 0, 9}, "Port": 9, "Filters": [][]byte{}, "Flags": r.Intn(2),
			"Timeout": r.Int63(), "Name": []string{"flood", "_serf_conflict", "_serf_list-keys"}[r.Intn(3)], "Payload": []byte(stranger(r)),
		})
	}
	return []flood{
		{generator{"members", func(r *rand.Rand) []byte { return alive(stranger(r), map[string]any{"Incarnation": r.Intn(100)}) }}, 20_000},
		{generator{"deaths", func(r *rand.Rand) []byte {
			return message(
				[]byte{msgSuspect, msgDead}[r.Intn(2)], map[string]any{"Incarnation": r.Intn(100), "Node": someone(r), "From": stranger(r)},
			)
		}}, 2_000},
		{generator{"intents", intent}, 60_000}, {generator{"events", event}, 20_000}, {generator{"queries", query}, 5_000},
		{generator{"changed messages of Serf's", func(r *rand.Rand) []byte {
			body := [](func(*rand.Rand) []byte){intent, event, query}[r.Intn(3)](r)
			return append([]byte{msgUser}, mutate(r, body[1:])...)
		}}, 20_000},
	}
}

// stateFlood returns a push/pull with new members and a Serf state. A third of the states are changed.
func stateFlood(r *rand.Rand) []byte {
	var nodes []map[string]any
	for n := r.Intn(200); n > 0; n-- {
		nodes = append(nodes, node(fmt.Sprint("stranger", r.Intn(1<<20)), map[string]any{"State": r.Intn(4)}))
	}
	times, slots := map[string]any{}, []any{}
	for n := r.Intn(50); n > 0; n-- {
		times[fmt.Sprint("stranger", r.Intn(1<<20))] = someTime(r)
		texts := []any{map[string]any{"Name": "flood", "Payload": []byte(strings.Repeat("x", r.Intn(400)))}}
		slots = append(slots, map[string]any{"LTime": someTime(r), "Events": texts})
	}
	state := append([]byte{stateOfSerf}, encode(map[string]any{
		"LTime": someTime(r), "StatusLTimes": times, "LeftMembers": []string{}, "EventLTime": someTime(r), "Events": slots,
		"QueryLTime": someTime(r),
	})...)
	if r.Intn(3) == 0 {
		state = mutate(r, state)
	}
	return pushPullOf(nodes, state)
}

// TestForgeOutside sends forged members to another process, an agent that tests/by_hand/forged_members.py starts.
// GUARD_FORGED is the number of forged members. The test sends most of them by UDP and some in push/pulls, and nobody
// answers for them. GUARD_AT and GUARD_KEYED mean the same as for TestOutside.
func TestForgeOutside(t *testing.T) {
	count := envNumber("GUARD_FORGED", 0)
	if count == 0 {
		t.Skip("set GUARD_FORGED to a number, and GUARD_AT to the address of an agent")
	}
	c := &child{T: t, childOptions: childOptions{IsKeyed: os.Getenv("GUARD_KEYED") != ""}, address: os.Getenv("GUARD_AT")}
	var err error
	if c.udp, err = net.Dial("udp", c.address); err != nil {
		t.Fatal(err)
	}
	began, bytes := time.Now(), 0
	for n := 0; n < count; n++ {
		name, place := fmt.Sprint("forged", n), map[string]any{"Addr": []byte{127, byte(100 + n>>16), byte(n >> 8), byte(n)}, "Port": 7946}
		packet := c.seal(alive(name, withChanges(place, map[string]any{"Meta": []byte{0xff, 0x80}, "Vsn": []byte{1, 5, 2, 2, 5, 5}})))
		c.udp.Write(packet)
		bytes += len(packet)
		if n%50 == 49 {
			time.Sleep(2 * time.Millisecond)
		}
		if n%1000 == 999 {
			entry := node(name, withChanges(place, map[string]any{"State": 0, "Name": name + "state", "Vsn": []byte{1, 5, 2, 2, 5, 5}}))
			// (the connection comes from an address that no other sender has)
			conn, err := (&net.Dialer{LocalAddr: &net.TCPAddr{IP: net.IP{127, 66, 66, 66}}}).Dial("tcp", c.address)
			if err == nil {
				conn.Write(c.sealStream(pushPullOf([]map[string]any{entry}, nil)))
				time.AfterFunc(time.Second, func() { conn.Close() })
			}
		}
	}
	t.Logf("%d forged members in %d bytes and %.1f seconds", count, bytes, time.Since(began).Seconds())
}
