package serfagent

import (
	"fmt"
	"os"
	"path/filepath"
	"testing"
)

// otherEvents returns the packets of another agent's events e1, e2 and so on. The index is their Lamport time.
func otherEvents(t *testing.T) [10][]byte {
	var packets [10][]byte
	other, _ := openTestAgent(t, "other")
	for time := 1; time < len(packets); time++ {
		_, packet, err := other.Fire(fmt.Sprint("e", time), nil, false)
		must(t, err)
		packets[time] = packet
	}
	return packets
}

func openKeeping(t *testing.T, path string, keeps bool) *Agent {
	t.Helper()
	settings := DefaultSettings()
	settings.EventBuffer, settings.QueryBuffer, settings.KeepEvents = 8, 8, keeps
	agent, err := Open("keeps", path, settings)
	must(t, err)
	return agent
}

// runLife opens the agent on a file, passes it the events with these times, and ends it as a kill would. It returns the
// agent's result for each event, for example "3 new, 1 seen, 2 below".
func runLife(t *testing.T, path string, keeps bool, packets [10][]byte, times ...int) (result string) {
	t.Helper()
	agent := openKeeping(t, path, keeps)
	defer agent.Close()
	for i, time := range times {
		received, err := agent.Receive(1, packets[time], false)
		must(t, err)
		verdict := map[Reason]string{0: "new", Seen: "seen", BelowMinimum: "below"}[received.Reason]
		if verdict == "new" && (received.Event == nil || received.Event.Time != uint64(time)) {
			t.Error(time, received)
		}
		if i > 0 {
			result += ", "
		}
		result += fmt.Sprint(time, " ", verdict)
	}
	return result
}

// After a kill, the agent still knows the events that it handed out. It hands out the others, even if their times are
// below the last clock line.
func TestRestartResumes(t *testing.T) {
	packets, path := otherEvents(t), filepath.Join(t.TempDir(), "file")
	if found := runLife(t, path, true, packets, 3, 1, 3); found != "3 new, 1 new, 3 seen" {
		t.Error(found)
	}
	lines := "event-clock: 03\n#event 3 6533 \n#event 1 6531 \n"
	if text := textOf(t, path); text != lines {
		t.Errorf("%q", text)
	}
	if found := runLife(t, path, true, packets, 3, 1, 2, 2); found != "3 seen, 1 seen, 2 new, 2 seen" {
		t.Error(found)
	}
	if text := textOf(t, path); text != lines+"#event 2 6532 \n" {
		t.Errorf("%q", text)
	}
}

func TestRestartWithoutKeepEvents(t *testing.T) {
	packets, path := otherEvents(t), filepath.Join(t.TempDir(), "file")
	if DefaultSettings().KeepEvents {
		t.Error("it isn't off by default")
	}
	if found := runLife(t, path, false, packets, 3, 1); found != "3 new, 1 new" {
		t.Error(found)
	}
	if found := runLife(t, path, false, packets, 3, 2); found != "3 below, 2 below" {
		t.Error(found)
	}
	if text := textOf(t, path); text != "event-clock: 3\n" {
		t.Errorf("%q", text)
	}
}

// An incomplete line of an event doesn't count, so the agent hands out the event.
func TestTornLine(t *testing.T) {
	packets, path := otherEvents(t), filepath.Join(t.TempDir(), "file")
	text := "event-clock: 03\n#event 3 6533 \nevent-clock: 05\n#event 5 65"
	must(t, os.WriteFile(path, []byte(text), 0600))
	if found := runLife(t, path, true, packets, 3, 5, 4); found != "3 seen, 5 new, 4 new" {
		t.Error(found)
	}
	if found := textOf(t, path); found != text+"#\n#event 5 6535 \n#event 4 6534 \n" {
		t.Errorf("%q", found)
	}
}

func TestKeepEventsTurnedOnAndOff(t *testing.T) {
	packets, path := otherEvents(t), filepath.Join(t.TempDir(), "file")
	for _, test := range []struct {
		keeps bool
		times []int
		want  string
	}{
		{false, []int{3}, "3 new"}, {true, []int{2, 5}, "2 below, 5 new"}, {false, []int{4, 7}, "4 below, 7 new"},
		{true, []int{6, 8, 9}, "6 below, 8 new, 9 new"}, {true, []int{8, 9}, "8 seen, 9 seen"},
	} {
		if found := runLife(t, path, test.keeps, packets, test.times...); found != test.want {
			t.Errorf("%s instead of %s", found, test.want)
		}
	}
}

// A compaction keeps the events that the buffers hold.
func TestCompactionKeepsEvents(t *testing.T) {
	packets, path := otherEvents(t), filepath.Join(t.TempDir(), "file")
	runLife(t, path, true, packets, 3, 1)
	agent := openKeeping(t, path, true)
	must(t, agent.Compact())
	agent.Close()
	if text := textOf(t, path); text != "#least event-clock: 1\n#event 1 6531 \n#event 3 6533 \n#least query-clock: 1\nevent-clock: 03\n" {
		t.Errorf("%q", text)
	}
	if found := runLife(t, path, true, packets, 1, 3, 2); found != "1 seen, 3 seen, 2 new" {
		t.Error(found)
	}
}

// A burst's lines are appended together, with one flush.
func TestBurstKeepsEvents(t *testing.T) {
	packets, path := otherEvents(t), filepath.Join(t.TempDir(), "file")
	agent := openKeeping(t, path, true)
	var burst Burst
	for _, time := range []int{3, 2, 3} {
		burst.Receive(1, packets[time], false)
	}
	if outcomes, err := agent.Burst(&burst); err != nil || len(outcomes) != 3 || agent.Flushes() != 1 {
		t.Error(outcomes, err, agent.Flushes())
	}
	agent.Close()
	if text := textOf(t, path); text != "event-clock: 03\n#event 3 6533 \n#event 2 6532 \n" {
		t.Errorf("%q", text)
	}
	if found := runLife(t, path, true, packets, 3, 2, 1); found != "3 seen, 2 seen, 1 new" {
		t.Error(found)
	}
}
