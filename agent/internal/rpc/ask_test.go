package rpc

import (
	"strings"
	"testing"

	"kitchenrue.example/serf"
)

// The members are printed by name, without control characters. A wrong token is an error, and so is an agent that isn't running.
func TestAskMembers(t *testing.T) {
	s, f, _ := startServer(t, "token")
	f.moreMembers = []serf.Member{
		{Name: "a\n\x1b[2J", Addr: []byte{10, 0, 0, 1}, Port: 1, Tags: map[string]string{"x": "1", "b": "2"}, Status: serf.StatusLeft},
	}
	var out strings.Builder
	if err := AskMembers(s.Addr().String(), "token", &out); err != nil {
		t.Error(err)
	}
	want := "a??[2J  10.0.0.1:1      left   b=2,x=1\nalpha   127.0.0.1:7946  alive  role=web\nbeta    [::1]:0         failed\n"
	if out.String() != want {
		t.Errorf("%q", out.String())
	}
	for token, says := range map[string]string{"": "Authentication required", "wrong": "Invalid authentication token"} {
		if err := AskMembers(s.Addr().String(), token, &out); err == nil || !strings.Contains(err.Error(), says) {
			t.Errorf("%q: %v", token, err)
		}
	}
	if err := AskMembers("127.0.0.1:1", "", &out); err == nil || !strings.Contains(err.Error(), "connection refused") {
		t.Error(err)
	}
}
