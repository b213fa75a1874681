package serfagent

import (
	"bytes"
	"reflect"
	"strings"
	"testing"
)

// Intents as Serf's agents send them.
var intents = []struct {
	packet string
	intent Intent
}{
	{"\x01\x82\xa5LTime\x01\xa4Node\xa4beta", Intent{1, "beta", false, false}},
	{"\x00\x83\xa5LTime\x03\xa4Node\xa5gamma\xa5Prune\xc2", Intent{3, "gamma", true, false}},
	{"\x00\x83\xa5LTime\x06\xa4Node\xa5delta\xa5Prune\xc3", Intent{6, "delta", true, true}},
}

func TestIntents(t *testing.T) {
	for _, test := range intents {
		found, err := IntentOf([]byte(test.packet))
		if err != nil || !reflect.DeepEqual(*found, test.intent) {
			t.Errorf("%x: %v %v", test.packet, found, err)
		}
		packet, err := test.intent.Packet()
		if err != nil || !bytes.Equal(packet, []byte(test.packet)) {
			t.Errorf("%v: %x %v", test.intent, packet, err)
		}
	}
}

func TestNoIntents(t *testing.T) {
	for _, packet := range []string{"\x03", "\x09\xc1"} {
		found, err := IntentOf([]byte(packet))
		if found != nil || err != nil {
			t.Errorf("%x: %v %v", packet, found, err)
		}
		if found, ok := IntentErrorOf([]byte(packet)); ok {
			t.Errorf("%x: %v", packet, found)
		}
	}
	bad := map[string]PacketError{
		"":                                      {ErrorEmpty, 0, 0},
		"\x63":                                  {ErrorUnknownType, 0, 99},
		"\x01\x81\xa4Node\xdb\xff\xff\xff\xffa": {ErrorTruncated, 7, 0},
		"\x00\x81\xa5Prune\x01":                 {ErrorWrongKind, 8, 0},
		"\x01\x81\xa5LTime\xcf" + strings.Repeat("\xff", 8): {ErrorMaxTime, 8, 0},
	}
	for packet, want := range bad {
		if _, err := IntentOf([]byte(packet)); err != NoMessage {
			t.Errorf("%x: %v", packet, err)
		}
		if found, ok := IntentErrorOf([]byte(packet)); !ok || found != want {
			t.Errorf("%x: %v %v", packet, ok, found)
		}
	}
	if _, err := (Intent{Time: ^uint64(0)}).Packet(); err != Exhausted {
		t.Errorf("the time 2^64 - 1: %v", err)
	}
}

func TestMembers(t *testing.T) {
	agent, err := Open("a", t.TempDir()+"/snapshot", DefaultSettings())
	must(t, err)
	defer agent.Close()
	statuses, left := []Status{{"b", 7}, {"", 0}, {"b", 9}}, []string{"gone", ""}
	packet, err := agent.LocalState(statuses, left)
	must(t, err)
	want := &Members{1, statuses, left}
	if found, err := MembersOf(packet); err != nil || !reflect.DeepEqual(found, want) {
		t.Errorf("%v %v", found, err)
	}
	for _, other := range []string{"", "\x03\x80", "\x02", intents[0].packet} {
		if found, err := MembersOf([]byte(other)); found != nil || err != nil {
			t.Errorf("%x: %v %v", other, found, err)
		}
	}
	if found, err := MembersOf([]byte("\x02\x80")); err != nil || !reflect.DeepEqual(found, &Members{}) {
		t.Errorf("%v %v", found, err)
	}
}

func TestQueryTime(t *testing.T) {
	agent, err := Open("a", t.TempDir()+"/snapshot", DefaultSettings())
	must(t, err)
	defer agent.Close()
	for time := uint64(1); time < 4; time++ {
		query, err := agent.Query(0, 7, "load", nil, QueryParams{Timeout: 1000})
		if err != nil || query.Time != time || query.Query.Time != time {
			t.Errorf("%v %v", query, err)
		}
	}
}

func TestMemberTimes(t *testing.T) {
	path := t.TempDir() + "/snapshot"
	for life, want := range []uint64{1, 9} {
		agent, err := Open("a", path, DefaultSettings())
		must(t, err)
		for _, time := range []uint64{want, want + 7} {
			if found, err := agent.NextMemberTime(); err != nil || found != time {
				t.Errorf("life %d: %d %v", life, found, err)
			}
			check(t, agent.ObserveMember(want+6))
		}
		if err := agent.ObserveMember(^uint64(0)); err != Exhausted {
			t.Error(err)
		}
		agent.Close()
	}
}
