package serfagent

import (
	"bytes"
	"os"
	"path/filepath"
	"strings"
	"testing"
)

// must ends the test if err is an error; check only reports the error.
func must(t *testing.T, err error) {
	t.Helper()
	if err != nil {
		t.Fatal(err)
	}
}

func check(t *testing.T, err error) {
	t.Helper()
	if err != nil {
		t.Error(err)
	}
}

// openTestAgent opens an agent in a new folder, and returns the path of its snapshot too.
func openTestAgent(t *testing.T, name string) (*Agent, string) {
	path := filepath.Join(t.TempDir(), name+".snapshot")
	agent, err := Open(name, path, DefaultSettings())
	must(t, err)
	t.Cleanup(func() { agent.Close() })
	return agent, path
}

// textOf returns the text of a file without its filler.
func textOf(t *testing.T, path string) string {
	text, err := os.ReadFile(path)
	must(t, err)
	end, _, err := textEnd(bytes.NewReader(text), int64(len(text)))
	must(t, err)
	return string(text[:end])
}

func TestBurstOutcomesInOrder(t *testing.T) {
	sender, _ := openTestAgent(t, "one")
	receiver, path := openTestAgent(t, "other")
	_, packet, err := sender.Fire("deploy", nil, false)
	must(t, err)
	var burst Burst
	burst.Receive(1, packet, false)
	burst.Receive(1, packet[:len(packet)-1], false)
	burst.Fire("own", nil, false)
	burst.Receive(1, packet, false)
	if burst.Len() != 4 {
		t.Error(burst.Len())
	}
	if text := textOf(t, path); text != "" {
		t.Errorf("a burst that isn't made writes %q", text)
	}
	outcomes, err := receiver.Burst(&burst)
	if err != nil || len(outcomes) != 4 {
		t.Fatal(outcomes, err)
	}
	if received := outcomes[0].Received; received.Event.Time != 1 || !received.Rebroadcast {
		t.Error(received)
	}
	if outcomes[1].Err != NoMessage || outcomes[1].Received != nil {
		t.Error(outcomes[1])
	}
	if fired := outcomes[2].Fired; fired.Event.Time != 2 || len(fired.Packet) == 0 {
		t.Error(fired)
	}
	if received := outcomes[3].Received; received.Kind != Ignored || received.Reason != Seen {
		t.Error(received)
	}
	for i, sender := range outcomes {
		if sender.Call != i {
			t.Error(i, sender.Call)
		}
	}
	if text := textOf(t, path); text != "event-clock: 1\nevent-clock: 2\n" {
		t.Errorf("%q", text)
	}
}

// An agent hands out texts that just fit into the buffer, texts that just don't, and texts of the maximum length.
func TestTextsOfEveryLength(t *testing.T) {
	settings := DefaultSettings()
	settings.EventLimit = 9216
	agent, err := Open("long", filepath.Join(t.TempDir(), "snapshot"), settings)
	must(t, err)
	defer agent.Close()
	other, _ := openTestAgent(t, "other")
	for _, lengths := range [][2]int{
		{0, 0}, {1, 0}, {nameBytes - 1, 1}, {nameBytes, bufferBytes - nameBytes}, {nameBytes + 1, 0}, {3, bufferBytes - nameBytes + 1},
		{400, 8700}, {9100, 0}, {0, 9100},
	} {
		name, payload := strings.Repeat("n", lengths[0]), bytes.Repeat([]byte("p"), lengths[1])
		event, packet, err := agent.Fire(name, payload, false)
		if err != nil || event.Name != name || !bytes.Equal(event.Payload, payload) {
			t.Fatal(lengths, err)
		}
		received, err := other.Receive(0, packet, false)
		if err != nil || received.Event == nil || received.Event.Name != name || !bytes.Equal(received.Event.Payload, payload) {
			t.Fatal(lengths, received, err)
		}
		if event.Payload == nil || cap(event.Payload) != len(event.Payload) {
			t.Error("more bytes follow the payload")
		}
	}
}

// A name can have any bytes, and every call passes all of them.
func TestNamesOfAnyBytes(t *testing.T) {
	for _, name := range []string{"", "a\x00b", "\x00", "\xff\xfe", "größer", strings.Repeat("\x00", nameBytes+1)} {
		agent, _ := openTestAgent(t, "one")
		other, _ := openTestAgent(t, "other")
		event, packet, err := agent.Fire(name, []byte("v\x00"), false)
		if err != nil || event.Name != name || string(event.Payload) != "v\x00" {
			t.Fatalf("%q: %v %v", name, event, err)
		}
		if received, err := other.Receive(1, packet, false); err != nil || received.Event == nil || received.Event.Name != name {
			t.Errorf("%q: %v %v", name, received, err)
		}
		var burst Burst
		burst.Fire(name, []byte("v2"), false)
		burst.Query(1, 7, name, nil, QueryParams{})
		outcomes, err := agent.Burst(&burst)
		if err != nil || outcomes[0].Fired.Event.Name != name || outcomes[1].FiredQuery.Query.Name != name {
			t.Errorf("%q: %v %v", name, outcomes, err)
		}
		query, err := agent.Query(1, 8, name, nil, QueryParams{})
		if err != nil || query.Query.Name != name || query.Query.Source != "one" {
			t.Errorf("%q: %v %v", name, query, err)
		}
		intentPacket, err := Intent{Time: 3, Node: name}.Packet()
		must(t, err)
		if intent, err := IntentOf(intentPacket); err != nil || intent.Node != name {
			t.Errorf("%q: %v %v", name, intent, err)
		}
		line, err := OpenLine(4, name, nil)
		must(t, err)
		if open, _, err := OpenEventsOf(append([]byte("#done 0\n"), line...)); err != nil || len(open) != 1 || open[0].Name != name {
			t.Errorf("%q: %v %v", name, open, err)
		}
	}
}

func TestEmptyBurstAndClosedAgent(t *testing.T) {
	agent, _ := openTestAgent(t, "one")
	var burst Burst
	if outcomes, err := agent.Burst(&burst); err != nil || len(outcomes) != 0 {
		t.Error(outcomes, err)
	}
	burst.Fire("x", nil, false)
	burst.Reset()
	if burst.Len() != 0 {
		t.Error(burst.Len())
	}
	burst.Fire("x", nil, false)
	agent.Close()
	if outcomes, err := agent.Burst(&burst); err != Empty || len(outcomes) != 0 {
		t.Error(outcomes, err)
	}
}
