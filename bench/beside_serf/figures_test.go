package serf

// This test prints what Serf's own calls cost: a figure per line, each the minimum of many samples. bench/beside_serf.py puts the
// file into a copy of Serf's package, without Serf's own tests, and runs it there.

import (
	"fmt"
	"io"
	"log"
	"testing"
	"time"

	"github.com/hashicorp/memberlist"
)

const (
	slots   = 512
	samples = 200
	longest = 5 * time.Second
)

// printMinimum prints the minimum time per call of samples with this many calls. The preparation before each sample is not measured.
func printMinimum(name string, calls int, prepare func(), call func(number int)) {
	best, spent := time.Duration(1<<62), time.Duration(0)
	for i := 0; i < samples && spent < longest; i++ {
		prepare()
		began := time.Now()
		for number := 0; number < calls; number++ {
			call(number)
		}
		took := time.Since(began)
		spent += took
		if took < best {
			best = took
		}
	}
	fmt.Printf("serf: %s: %.1f ns\n", name, float64(best.Nanoseconds())/float64(calls))
}

func nothing() {}

// agent makes an agent of Serf without a snapshot. Its events are read and discarded.
func agent(t *testing.T) *Serf {
	events := make(chan Event, 4096)
	go func() {
		for range events {
		}
	}()
	config := DefaultConfig()
	config.MemberlistConfig = memberlist.DefaultLocalConfig()
	config.MemberlistConfig.BindAddr, config.MemberlistConfig.BindPort = "127.0.0.1", 0
	config.NodeName, config.EventBuffer, config.EventCh = "a", slots, events
	config.Logger = log.New(io.Discard, "", 0)
	config.MemberlistConfig.Logger = config.Logger
	made, err := Create(config)
	if err != nil {
		t.Fatal(err)
	}
	return made
}

func packet(t *testing.T, kind messageType, message interface{}) []byte {
	data, err := encodeMessage(kind, message)
	if err != nil {
		t.Fatal(err)
	}
	return data
}

func event(n uint64) *messageUserEvent {
	return &messageUserEvent{LTime: LamportTime(n), Name: "deploy", Payload: []byte("v0")}
}

func TestFigures(t *testing.T) {
	s := agent(t)
	defer s.Shutdown()
	d := &delegate{serf: s}
	var packets [][]byte
	state := messagePushPull{EventLTime: slots + 1, StatusLTimes: map[string]LamportTime{}}
	for n := uint64(1); n <= slots; n++ {
		packets = append(packets, packet(t, messageUserEventType, event(n)))
		state.Events = append(
			state.Events, &userEvents{LTime: LamportTime(n), Events: []userEvent{{Name: "deploy", Payload: []byte("v0")}}},
		)
	}
	whole := packet(t, messagePushPullType, &state)
	forget := func() {
		s.eventLock.Lock()
		s.eventBuffer, s.eventClock = make([]*userEvents, slots), LamportClock{}
		s.eventLock.Unlock()
	}
	printMinimum("decode a user event", slots, nothing, func(number int) {
		var found messageUserEvent
		if err := decodeMessage(packets[number%16][1:], &found); err != nil {
			t.Fatal(err)
		}
	})
	forget()
	d.MergeRemoteState(whole, false)
	printMinimum("receive a repeated event's packet, 1 event a time", slots, nothing, func(number int) { d.NotifyMsg(packets[number]) })
	printMinimum("merge a state of 512 slots, all seen", 1, nothing, func(int) { d.MergeRemoteState(whole, false) })
	printMinimum("merge a state of 512 slots, all new", 1, forget, func(int) { d.MergeRemoteState(whole, false) })
}
