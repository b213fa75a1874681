package serfagent

import (
	"errors"
	"testing"
)

// failingStore returns err from Append.
type failingStore struct {
	memoryStore
	err error
}

func (f *failingStore) Append([]byte) error { return f.err }

// If the file fails, a burst has no outcomes, and the agent is closed.
func TestBurstWithFailingFile(t *testing.T) {
	store := &failingStore{}
	agent, err := open("one", store, nil, DefaultSettings())
	must(t, err)
	defer agent.Close()
	var burst Burst
	burst.Fire("x", nil, false)
	if outcomes, err := agent.Burst(&burst); err != nil || len(outcomes) != 1 || outcomes[0].Fired == nil {
		t.Fatal(outcomes, err)
	}
	store.err = ErrFull
	if outcomes, err := agent.Burst(&burst); !errors.Is(err, ErrFull) || len(outcomes) != 0 {
		t.Error(outcomes, err)
	}
	if outcomes, err := agent.Burst(&burst); err != Empty || len(outcomes) != 0 {
		t.Error(outcomes, err)
	}
}

// A burst is refused while outcomes of another one are unread.
func TestBurstWhileOutcomesAreUnread(t *testing.T) {
	agent, err := OpenInMemory("one", DefaultSettings())
	must(t, err)
	defer agent.Close()
	var burst Burst
	burst.Fire("x", nil, false)
	burst.Receive(1, nil, false)
	if err := agent.makeCalls(burst.calls); err != nil || agent.complete(0) != nil {
		t.Fatal(err)
	}
	if outcomes, err := agent.Burst(&burst); err != ErrUnread || len(outcomes) != 0 {
		t.Error(outcomes, err)
	}
	// This reads only the first outcome, as if memory had run out after it.
	first, err := agent.readFirings(agent.unread[:1], nil)
	if err != nil || len(first) != 1 || first[0].Call != 0 || first[0].Fired.Event.Time != 1 {
		t.Error(first, err)
	}
	if outcomes, err := agent.Outcomes(); err != nil || len(outcomes) != 1 || outcomes[0].Call != 1 || outcomes[0].Err != NoMessage {
		t.Error(outcomes, err)
	}
	for i := 0; i < 2; i++ {
		if outcomes, err := agent.Burst(&burst); err != nil || len(outcomes) != 2 || outcomes[0].Call != 0 || outcomes[1].Call != 1 {
			t.Error(outcomes, err)
		}
	}
}
