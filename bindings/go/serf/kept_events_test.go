package serf

import (
	"bytes"
	"fmt"
	"os"
	"path/filepath"
	"strings"
	"testing"
	"time"
)

// An event of time 0, which no node fires but anybody may send, is counted like any other.
func TestKeptEventOfTimeZero(t *testing.T) {
	const limit, times = 1 << 20, 8
	k := newKeptEvents(limit, times)
	k.countLine("#event 0 65 65")
	if !k.admit(0, []byte("e"), []byte("e"), false) || !k.admit(0, []byte("other"), nil, false) {
		t.Error("an event of time 0 was refused")
	}
	if common := k.sharedRoom; common != limit/2 || k.slots[0].bytes != 2*eventOverhead+4+2*int64(len("other")) {
		t.Error(common, k.slots[0].bytes)
	}
}

// A flood of events at some times takes no room from other times, and all times together stay within the limit.
func TestKeptEventsAreLimited(t *testing.T) {
	const limit, times = 1 << 20, 8
	k := newKeptEvents(limit, times)
	payload := bytes.Repeat([]byte("x"), 1000)
	size := int64(eventOverhead + 2*(1000+len("e000000")))
	flood := func(time uint64) (admitted int64) {
		for i := 0; i < 2000; i++ {
			if k.admit(time, []byte(fmt.Sprintf("e%06d", i)), payload, false) {
				admitted++
			}
		}
		return admitted
	}
	firstAdmitted := flood(1)
	if bytes := firstAdmitted * size; bytes > k.timeShare+limit/2 || bytes < k.timeShare+limit/2-size {
		t.Error(bytes, k.timeShare)
	}
	totalAdmitted := firstAdmitted
	for time := uint64(2); time <= times; time++ {
		admitted := flood(time)
		if admitted*size > k.timeShare || admitted*size < k.timeShare-size {
			t.Error(time, admitted)
		}
		totalAdmitted += admitted
	}
	if totalAdmitted*size > limit || totalAdmitted*size < limit-times*size {
		t.Error(totalAdmitted * size)
	}
	if again := k.admit(1, []byte("e000000"), payload, false); !again {
		t.Error("an event that was counted before was refused")
	}
	if !k.admit(1, []byte("own"), payload, true) || k.admit(1, []byte("other"), payload, false) {
		t.Error("an event that is in the file in any case was not counted")
	}
	// a time that overwrites the first one has its own room, and events of an overwritten time need none
	if again := flood(1 + times); again < firstAdmitted-1 || again > firstAdmitted {
		t.Error(again, firstAdmitted)
	}
	if !k.admit(1, []byte("passed"), payload, false) {
		t.Error("an event of an overwritten time was refused")
	}
	// the events of a file are counted
	other := newKeptEvents(limit, times)
	other.countLine(fmt.Sprintf("#event 1 %x %x", "e", payload))
	for _, line := range []string{"#event 1 65", "#event x 65 65", "#event 1 6 65", "#event 1 65 6", "event-clock: 01", "#query 1 65"} {
		other.countLine(line)
	}
	if slot := other.slots[1]; slot.bytes != eventOverhead+2*1001 || slot.time != 1 || len(slot.hashes) != 1 {
		t.Error(slot)
	}
	var none *keptEvents
	if !none.admitPacket(encode(eventMessage{LTime: 1}, eventType)) || !none.admitState(nil) {
		t.Error("an event was refused without the setting")
	}
}

func withKeptEvents(o *nodeOptions) { o.KeepEvents, o.KeepEventsSize = true, MinKeepEventsSize }

// A flood leaves a file of limited size, from which the next life continues: nothing is handed out twice.
func TestFloodOfKeptEvents(t *testing.T) {
	folder := t.TempDir()
	path := filepath.Join(folder, "a")
	timesHandedOut := map[string]int{}
	payload := bytes.Repeat([]byte("z"), 480)
	var longest int64
	for life := 0; life < 2; life++ {
		a := startNode(t, "a", folder, withKeptEvents)
		a.delegate().MergeRemoteState(
			encode(
				stateMessage{
					LTime: 3, EventLTime: 1, Events: []*slotMessage{nil, {LTime: 1, Events: []eventMessage{{Name: "of a state"}}}},
				},
				stateType,
			),
			false,
		)
		for time := uint64(1); time < 200; time++ {
			for i := 0; i < 40; i++ {
				name := fmt.Sprintf("e%d-%d-%d", time, i, i%2*life)
				packet := encode(eventMessage{LTime: time, Name: name, Payload: payload}, eventType)
				eventually(t, "the queue has room", func() bool { return a.packets.add(packet, false) })
			}
			if size := textSize(t, path); size > longest {
				longest = size
			}
		}
		eventually(t, "all is processed", func() bool { return len(a.packets.ready) == 0 && len(a.states.ready) == 0 })
		if dropped := a.Stats()["dropped_kept"]; dropped == "0" {
			t.Error("nothing was dropped")
		}
		// a state for whose events there is no room is dropped too, except for its member clock
		before := a.droppedKept.Load()
		var many []eventMessage
		for i := 0; i < 40; i++ {
			many = append(many, eventMessage{Name: fmt.Sprint("s", i), Payload: payload})
		}
		a.delegate().MergeRemoteState(
			encode(stateMessage{LTime: 77, EventLTime: 300, Events: []*slotMessage{{many, 199}}}, stateType), false,
		)
		eventually(t, "the state is dropped", func() bool { return a.droppedKept.Load() > before })
		eventually(t, "its member clock is observed", func() bool { return a.Stats()["member_time"] >= "77" })
		check(t, a.UserEvent("own", []byte(fmt.Sprint(life)), false))
		check(t, a.Shutdown())
		a.mu.Lock()
		for _, e := range a.received {
			if e, ok := e.(UserEvent); ok {
				timesHandedOut[e.Name+string(e.Payload)]++
			}
		}
		a.mu.Unlock()
	}
	if max := int64(2*MinKeepEventsSize + compactCheckGrowth + 4<<20); longest > max {
		t.Errorf("%d bytes, want at most %d", longest, max)
	}
	for name, count := range timesHandedOut {
		if count > 1 {
			t.Error(name, count)
		}
	}
	if len(timesHandedOut) < 500 || timesHandedOut["of a state"] != 1 {
		t.Error(len(timesHandedOut), timesHandedOut["of a state"])
	}
	bound := newKeptEvents(MinKeepEventsSize, 512)
	if err := readFileLines(path, bound.countLine); err != nil || bound.sharedRoom < -(2<<10) {
		t.Error(bound.sharedRoom, err)
	}
}

// A growing file is compacted soon, without waiting for the next check.
func TestGrowingFileIsCompacted(t *testing.T) {
	folder := t.TempDir()
	a := startNode(t, "a", folder, withKeptEvents, func(o *nodeOptions) { o.snapshotCheckInterval = time.Hour })
	payload := bytes.Repeat([]byte("z"), 480)
	for time := uint64(1); time < 5000; time++ {
		packet := encode(eventMessage{LTime: time, Name: "e", Payload: payload}, eventType)
		eventually(t, "the queue has room", func() bool { return a.packets.add(packet, false) })
	}
	eventually(t, "the file is compacted", func() bool {
		return len(a.packets.ready) == 0 && textSize(t, filepath.Join(folder, "a")) < 2*compactCheckGrowth
	})
	if a.droppedKept.Load() > 0 {
		t.Error(a.droppedKept.Load())
	}
}

// A file of any length and with any lines is read.
func TestLongSnapshots(t *testing.T) {
	path := filepath.Join(t.TempDir(), "file")
	writeFile(
		t, path,
		"alive: a 1:1\n#"+strings.Repeat("x", 5*maxLineLength)+"\nalive: b 2:2\n"+strings.Repeat("y", maxLineLength)+"\nalive: c 3:3",
	)
	f, found, err := openSnapshot(path, false, plainLines{t, path})
	if err != nil || fmt.Sprint(found) != "[c: 3:3 b: 2:2 a: 1:1]" {
		t.Fatal(found, err)
	}
	f.close()
	// (the added part is a hole, which uses no space on the disk)
	if err := os.Truncate(path, 300<<20); err != nil {
		t.Skip(err)
	}
	if f, _, err = openSnapshot(path, false, plainLines{t, path}); err != nil {
		t.Fatal(err)
	}
	f.close()
}
