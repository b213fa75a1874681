package serf

import (
	"encoding/binary"
	"fmt"
	"os"
	"path/filepath"
	"strings"
	"sync/atomic"
	"testing"
	"time"

	"kitchenrue.example/serfagent"
)

// withTime returns a message with a time: its beginning, the time in eight bytes, and its end.
func withTime(begin string, time uint64, end string) []byte {
	return append(binary.BigEndian.AppendUint64([]byte(begin+"\xcf"), time), end...)
}

// farPackets has functions that make packets which move a clock to a time.
var farPackets = map[string]func(time uint64) []byte{
	"an event": func(time uint64) []byte { return withTime("\x03\x82\xa5LTime", time, "\xa4Name\xa3far") },
	"an event whose time comes last": func(time uint64) []byte {
		return withTime("\x03\x83\xa4Name\xa3far\xa7unknown\x91\x80\xa5LTime", time, "")
	},
	"a query": func(time uint64) []byte {
		return withTime("\x04\x84\xa7Timeout\xce\x3b\x9a\xca\x00\xa5LTime", time, "\xa2ID\x07\xa4Name\xa3far")
	},
	"a join":  func(time uint64) []byte { return withTime("\x01\x82\xa5LTime", time, "\xa4Node\xa5ghost") },
	"a leave": func(time uint64) []byte { return withTime("\x00\x82\xa5LTime", time, "\xa4Node\xa1a") },
}

// farStates has functions that make states which move a clock to a time.
var farStates = map[string]func(time uint64) []byte{
	"a state's member clock": func(time uint64) []byte { return withTime("\x02\x81\xa5LTime", time, "") },
	"a status":               func(time uint64) []byte { return withTime("\x02\x81\xacStatusLTimes\x81\xa1b", time, "") },
	"a state's event clock":  func(time uint64) []byte { return withTime("\x02\x81\xaaEventLTime", time, "") },
	"a state's event": func(time uint64) []byte {
		return withTime(
			"\x02\x82\xaaEventLTime\x01\xa6Events\x92\xc0\x82\xa5LTime", time, "\xa6Events\x91\x82\xa4Name\xa3far\xa7Payload\xa0",
		)
	},
	"a state's query clock": func(time uint64) []byte { return withTime("\x02\x81\xaaQueryLTime", time, "") },
}

// expectWorking checks that two nodes still work: each of the three clocks advances, and the other node receives what was sent.
func expectWorking(t *testing.T, a, b *testNode) {
	t.Helper()
	must(t, a.UserEvent("deploy", []byte("on"), false))
	eventually(t, "the event arrives", func() bool { return len(b.payloads("deploy")) == 1 })
	if _, err := a.Query("load", nil, &QueryParam{Timeout: time.Minute}); err != nil {
		t.Fatal(err)
	}
	eventually(t, "the query arrives", func() bool { return b.lastQuery("load") != nil })
	must(t, a.Leave())
	eventually(t, "the leave arrives", func() bool { return b.statusOf("a") == "left" || b.statusOf("a") == "leaving" })
}

// farTimeAfter returns the first time that will still be far when this duration has passed.
func farTimeAfter(later time.Duration) uint64 { return farThreshold(time.Now().Add(later)) }

// clocks returns the node's clocks.
func (n *testNode) clocks() serfagent.Clocks {
	n.t.Helper()
	clocks, err := n.agent.Clocks()
	if err != nil {
		n.t.Fatal(err)
	}
	return clocks
}

// A message with a far time in any place is dropped and counted, and moves no clock.
func TestFarTimesAreDropped(t *testing.T) {
	a, b := startPair(t)
	before := a.clocks()
	want := int64(0)
	for _, far := range []uint64{farTimeAfter(time.Hour), 2 * FarTime, 1<<64 - 2} {
		for what, packet := range farPackets {
			want++
			a.delegate().NotifyMsg(packet(far))
			eventually(t, what+" is dropped", func() bool { return a.droppedFar.Load() == want })
		}
		for what, state := range farStates {
			want++
			a.delegate().MergeRemoteState(state(far), false)
			eventually(t, what+" is dropped", func() bool { return a.droppedFar.Load() == want })
		}
	}
	if after := a.clocks(); after.Event != before.Event || after.Query != before.Query || after.Member >= FarTime {
		t.Errorf("%+v, then %+v", before, after)
	}
	if a.Stats()["dropped"] != fmt.Sprint(want) || len(a.payloads("far")) > 0 || a.lastQuery("far") != nil || a.statusTime("b") >= FarTime {
		t.Error(a.Stats(), a.payloads("far"))
	}
	expectWorking(t, a, b)
}

// The threshold rises by one per nanosecond, and is between 2^62 and 2^63 for any time of day.
func TestFarThreshold(t *testing.T) {
	second := time.Unix(1_800_000_000, 7)
	for _, test := range []struct {
		now  time.Time
		want uint64
	}{
		{time.Time{}, 1 << 62}, {time.Unix(-1, 999_999_999), 1 << 62}, {time.Unix(0, 0), 1 << 62}, {time.Unix(0, 1), 1<<62 + 1},
		{second, 1<<62 + 1_800_000_000_000_000_007}, {time.Unix(4_611_686_017, 999_999_999), 1<<62 + 4_611_686_017_999_999_999},
		{time.Unix(4_611_686_018, 0), 1 << 63}, {time.Unix(1<<40, 0), 1 << 63},
	} {
		if found := farThreshold(test.now); found != test.want {
			t.Errorf("%v: %d, want %d", test.now, found, test.want)
		}
	}
}

// floodNearBound sends a node packets and states with times near the threshold and near 2^63, for a while. (It leaves out the leave intent
// of the node itself.)
func floodNearBound(a *testNode, duration time.Duration) {
	for end := time.Now().Add(duration); time.Now().Before(end); {
		for _, near := range []uint64{
			farTimeAfter(-time.Millisecond), farTimeAfter(0) - 1, farTimeAfter(0), farTimeAfter(time.Second), 1<<63 - 1, 1 << 63,
		} {
			for what, packet := range farPackets {
				if what != "a leave" {
					a.delegate().NotifyMsg(packet(near))
				}
			}
			for _, state := range farStates {
				a.delegate().MergeRemoteState(state(near), false)
			}
		}
		time.Sleep(time.Millisecond)
	}
}

// waitUntilIdle waits until a node has processed what it received and its queues stay empty for a while.
func waitUntilIdle(t *testing.T, a *testNode) {
	t.Helper()
	calm := 0
	eventually(t, "the queues stay empty", func() bool {
		for _, q := range []*queue{a.packets, a.states} {
			q.mu.Lock()
			if calm++; len(q.messages) > 0 {
				calm = 0
			}
			q.mu.Unlock()
		}
		return calm >= 20
	})
}

// A flood of times near the threshold moves the clocks there. The node still works. If a node with clocks near 0 joins
// then, each of the two receives the events that the other fires. (An event that is fired while parts of the flood
// still wait is soon too old for the new node.)
func TestNodeThatJoinsAfterFlood(t *testing.T) {
	// (nothing else sends a query or an intent again if all its packets are lost)
	withRetransmits := func(o *nodeOptions) { o.MemberlistConfig.RetransmitMult = 6 }
	a, b := startPair(t, withRetransmits)
	floodNearBound(a, time.Second)
	waitUntilIdle(t, a)
	// (the node may still be processing the last part of the flood)
	a.waitForMark(farTimeAfter(0) - 1)
	eventually(t, "both have clocks near the threshold", func() bool {
		for _, node := range []*testNode{a, b} {
			if clocks := node.clocks(); clocks.Event < FarTime || clocks.Query < FarTime || clocks.Member < FarTime {
				return false
			}
		}
		return a.droppedFar.Load() > 0
	})
	if err := a.UserEvent("before", nil, false); err != nil {
		t.Fatal(err)
	}
	c := startNode(t, "c", "", withRetransmits)
	if clocks := c.clocks(); clocks.Event > 9 || clocks.Query > 9 || clocks.Member > 9 {
		t.Fatalf("the clocks of a new node: %+v", clocks)
	}
	if _, err := c.Join([]string{a.address()}, false); err != nil {
		t.Fatal(err)
	}
	eventually(t, "the earlier event arrives", func() bool { return len(c.payloads("before")) == 1 })
	if err := c.UserEvent("mine", nil, false); err != nil {
		t.Fatal(err)
	}
	for _, node := range []*testNode{a, b, c} {
		eventually(t, "its event arrives", func() bool { return len(node.payloads("mine")) == 1 })
	}
	if _, err := c.Query("mine", nil, &QueryParam{Timeout: time.Minute}); err != nil {
		t.Fatal(err)
	}
	eventually(t, "its query arrives", func() bool { return a.lastQuery("mine") != nil && b.lastQuery("mine") != nil })
	expectWorking(t, a, c)
	if err := c.Leave(); err != nil {
		t.Fatal(err)
	}
	eventually(t, "its leave arrives", func() bool { return b.statusOf("c") == "left" || b.statusOf("c") == "leaving" })
}

// Times near a clock can't move it far beyond the threshold: each packet moves it by at most 512.
func TestFarTimesNearOwnClock(t *testing.T) {
	var back atomic.Int64
	a := startNode(t, "a", t.TempDir(), func(o *nodeOptions) {
		o.timeOfDay = func() time.Time { return time.Now().Add(-time.Duration(back.Load())) }
	})
	clockOf := map[string]func(serfagent.Clocks) uint64{
		"an event":                       func(clocks serfagent.Clocks) uint64 { return clocks.Event },
		"an event whose time comes last": func(clocks serfagent.Clocks) uint64 { return clocks.Event },
		"a query":                        func(clocks serfagent.Clocks) uint64 { return clocks.Query },
		"a join":                         func(clocks serfagent.Clocks) uint64 { return clocks.Member },
	}
	for what, clock := range clockOf {
		back.Store(0)
		first := farTimeAfter(0) - 1
		a.delegate().NotifyMsg(farPackets[what](first))
		eventually(t, what+" is taken", func() bool { return clock(a.clocks()) == first+1 })
		// (the time of day is set back, so the clock is beyond the threshold)
		back.Store(int64(time.Hour))
		for _, near := range []uint64{first + 1, first + 2 + 512} {
			a.delegate().NotifyMsg(farPackets[what](near))
			eventually(t, what+" near the clock is processed", func() bool { return clock(a.clocks()) == near+1 })
		}
		dropped, before := a.droppedFar.Load(), a.clocks()
		a.delegate().NotifyMsg(farPackets[what](first + 4 + 2*512))
		eventually(t, what+" farther from it is dropped", func() bool { return a.droppedFar.Load() == dropped+1 })
		if after := a.clocks(); after != before {
			t.Errorf("%s: %+v, and then %+v", what, before, after)
		}
	}
}

// A time that is near one clock may be far from another.
func TestFarTimesNearAnotherClock(t *testing.T) {
	for near, packet := range farPackets {
		if near == "a leave" {
			continue
		}
		var back atomic.Int64
		a := startNode(t, "a", "", func(o *nodeOptions) {
			o.timeOfDay = func() time.Time { return time.Now().Add(-time.Duration(back.Load())) }
		})
		first := farTimeAfter(0) - 1
		a.delegate().NotifyMsg(packet(first))
		eventually(t, near+" is taken", func() bool {
			return a.clocks().Event == first+1 || a.clocks().Query == first+1 || a.clocks().Member == first+1
		})
		back.Store(int64(time.Hour))
		before := a.clocks()
		isOf := func(what string) string { return strings.Fields(what)[1] }
		dropped := int64(0)
		for what, other := range farPackets {
			if isOf(what) != isOf(near) && !(near == "a join" && what == "a leave") {
				dropped++
				a.delegate().NotifyMsg(other(first + 5))
			}
		}
		eventually(t, fmt.Sprint("the others are dropped, after ", near), func() bool { return a.droppedFar.Load() == dropped })
		if after := a.clocks(); after != before {
			t.Errorf("%s: %+v, and then %+v", near, before, after)
		}
	}
}

// For every message that the library accepts, readTimes reads the same times as the library, even if some bytes were
// changed.
func TestReadTimesAgreesWithLibrary(t *testing.T) {
	accepted := 0
	for _, whole := range append(allPackets(farPackets), append(allPackets(farStates), unhex(t, statePacket), unhex(t, leavePacket))...) {
		for i := range whole {
			for _, value := range []byte{
				whole[i], whole[i] ^ 1, 0x01, 0x7f, 0x80, 0x81, 0x90, 0x91, 0xa1, 0xc0, 0xc4, 0xcc, 0xd0, 0xd3, 0xff,
			} {
				damaged := append([]byte(nil), whole...)
				damaged[i] = value
				times, err := readTimes(damaged)
				if isMalformed(damaged) {
					continue
				}
				if accepted++; err != nil {
					t.Fatalf("%q: %v", damaged, err)
				}
				if member, ok := libraryMemberTime(damaged); ok && member != times.member {
					t.Fatalf("%q: %d, want %d", damaged, times.member, member)
				}
			}
		}
	}
	if accepted < 500 {
		t.Errorf("the library accepts only %d of the packets", accepted)
	}
}

// allPackets returns the packets of these makers with the time 2^62.
func allPackets(makers map[string]func(uint64) []byte) (packets [][]byte) {
	for _, packet := range makers {
		packets = append(packets, packet(1<<62))
	}
	return packets
}

// libraryMemberTime returns the largest time of the member clock in an intent or a state, as the library reads it.
func libraryMemberTime(packet []byte) (uint64, bool) {
	if intent, err := serfagent.IntentOf(packet); err == nil && intent != nil {
		return intent.Time, true
	}
	members, err := serfagent.MembersOf(packet)
	if err != nil || members == nil {
		return 0, false
	}
	latest := members.MemberClock
	for _, status := range members.Statuses {
		if status.Time > latest {
			latest = status.Time
		}
	}
	return latest, true
}

// Dropped packets are logged at most once a second, with the reason.
func TestDropsAreLogged(t *testing.T) {
	logs := &logBuffer{}
	a := startNode(t, "a", "", withAgent(&fakeAgent{}), withLog(logs))
	for i := 0; i < 100; i++ {
		a.delegate().NotifyMsg(farPackets["an event"](2 * FarTime))
	}
	eventually(t, "it is logged", func() bool {
		return strings.Contains(logs.String(), " packets or states were dropped, since they contain a time that is implausibly far ahead")
	})
}

// A leave that failed can be repeated, and the node continues until then.
func TestFailedLeaveCanBeRepeated(t *testing.T) {
	f := &fakeAgent{}
	a, b := startNode(t, "a", t.TempDir()), startNode(t, "b", "", withAgent(f))
	f.memoryFailures.Store(1)
	if err := b.Leave(); err != serfagent.OutOfMemory {
		t.Fatal(err)
	}
	// (others may have received a leave intent in the meantime)
	eventually(t, "b queues a join intent", func() bool { return b.intents.NumQueued() == 1 })
	b.join(a)
	eventually(t, "a receives b's join intent", func() bool { return a.statusTime("b") == f.ownMemberTime() })
	check(t, b.Leave())
	if _, err := b.Join([]string{a.address()}, true); err != ErrLeft {
		t.Error("it joined after its leave")
	}
}

// With an exhausted member clock no leave can be sent, and everything else works.
func TestLeaveWithExhaustedClock(t *testing.T) {
	folder := t.TempDir()
	must(t, os.WriteFile(filepath.Join(folder, "b"), []byte("clock: 18446744073709551614\n"), 0o600))
	a, b := startNode(t, "a", folder), startNode(t, "b", folder)
	for range []int{1, 2} {
		if err := b.Leave(); err != serfagent.Exhausted {
			t.Fatal(err)
		}
	}
	b.join(a)
	must(t, b.UserEvent("deploy", nil, false))
	eventually(t, "its events arrive", func() bool { return len(a.payloads("deploy")) == 1 })
}
