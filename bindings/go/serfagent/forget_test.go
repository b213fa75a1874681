package serfagent

import (
	"testing"
	"time"
)

// Forget forgets a query, and so does CloseDue after the query's deadline. The other queries stay.
func TestForgottenQueries(t *testing.T) {
	agent, err := openLimited(t, 0, 0)
	if err != nil {
		t.Fatal(err)
	}
	handOut := func(timeout time.Duration) uint64 {
		t.Helper()
		query, err := agent.Query(5, 7, "load", nil, QueryParams{Timeout: timeout})
		if err != nil {
			t.Fatal(err)
		}
		return query.Query.Number
	}
	long, short, other := handOut(1000), handOut(10), handOut(1000)
	for _, test := range []struct {
		number uint64
		want   error
	}{{other, nil}, {other, NotPending}, {0, NotPending}, {other + 1, NotPending}} {
		if err := agent.Forget(test.number); err != test.want {
			t.Error(test.number, err)
		}
	}
	if _, err := agent.Respond(6, other, nil); err != NotPending {
		t.Error(err)
	}
	for _, test := range []struct {
		now  uint64
		want error
	}{{15, TooLarge}, {16, NotPending}} {
		if _, err := agent.CloseDue(test.now); err != nil {
			t.Error(err)
		}
		if _, err := agent.Respond(15, short, make([]byte, 2000)); err != test.want {
			t.Error(test.now, err)
		}
	}
	if _, err := agent.Respond(16, long, nil); err != nil {
		t.Error(err)
	}
	if next := handOut(10); next != other+1 {
		t.Error(next)
	}
}
