package handlers

import (
	"net"
	"reflect"
	"testing"

	"kitchenrue.example/serf"
)

var self = Self{"alpha", map[string]string{"role": "web", "a-b.c": "x\ty", "z": "1,2=3\x00"}}

func TestEnvironment(t *testing.T) {
	common := []string{"SERF_SELF_NAME=alpha", "SERF_SELF_ROLE=web", "SERF_TAG_A_B_C=x\ty", "SERF_TAG_ROLE=web", "SERF_TAG_Z=1,2=3"}
	for _, test := range []struct {
		e    serf.Event
		want []string
	}{
		{serf.MemberEvent{Type: serf.EventMemberReap}, nil},
		{serf.UserEvent{Name: "na me", LTime: 1 << 63}, []string{"SERF_USER_EVENT=na me", "SERF_USER_LTIME=9223372036854775808"}},
		{&serf.Query{Name: "load", LTime: 7}, []string{"SERF_QUERY_NAME=load", "SERF_QUERY_LTIME=7"}},
	} {
		want := append(append([]string{"SERF_EVENT=" + test.e.EventType().String()}, common...), test.want...)
		if found := environment(self, test.e); !reflect.DeepEqual(found, want) {
			t.Errorf("%q", found)
		}
	}
}

func TestInput(t *testing.T) {
	members := []serf.Member{
		{Name: "alpha", Addr: net.IPv4(127, 0, 1, 1), Tags: map[string]string{"role": "web", "x": "a\tb\nc"}},
		{Name: "beta", Addr: net.ParseIP("::1")},
	}
	for _, test := range []struct {
		e    serf.Event
		want string
	}{
		{serf.UserEvent{}, ""},
		{serf.UserEvent{Payload: []byte("v1")}, "v1\n"},
		{serf.UserEvent{Payload: []byte("v1\n")}, "v1\n"},
		{&serf.Query{Payload: []byte("a\nb")}, "a\nb\n"},
		{serf.MemberEvent{Type: serf.EventMemberJoin, Members: members}, "alpha\t127.0.1.1\tweb\trole=web,x=a\\tb\\nc\nbeta\t::1\t\t\n"},
	} {
		if found := string(standardInput(test.e)); found != test.want {
			t.Errorf("%q", found)
		}
	}
}
