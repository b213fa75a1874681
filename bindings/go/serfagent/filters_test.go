package serfagent

import (
	"reflect"
	"strings"
	"testing"
)

// A query has filters by the name of this node, by another name, by a tag, or of an unknown type. The test checks
// whether the agent hands it out, once with tagsPass false and once with tagsPass true.
func TestTagsPass(t *testing.T) {
	node, other, tag, unknown := "\x00\x91\xa4test", "\x00\x91\xa1c", "\x01\x82\xa4Expr\xa0\xa3Tag\xa1a", "\x02"
	firingAgent, _ := openTestAgent(t, "asks")
	agent, _ := openTestAgent(t, "test")
	for _, test := range []struct {
		filters       []string
		wantHandedOut [2]bool
	}{
		{nil, [2]bool{true, true}}, {[]string{tag}, [2]bool{false, true}}, {[]string{node, tag, tag}, [2]bool{false, true}},
		{[]string{tag, other}, [2]bool{}}, {[]string{tag, unknown}, [2]bool{}}, {[]string{node}, [2]bool{true, true}},
		{[]string{""}, [2]bool{}},
	} {
		filters := make([][]byte, 0)
		for _, filter := range test.filters {
			filters = append(filters, []byte(filter))
		}
		firePacket := func() []byte {
			query, err := firingAgent.Query(1, 7, "who", nil, QueryParams{Timeout: 1000, Filters: filters})
			must(t, err)
			return query.Packet
		}
		for i, passes := range []bool{false, true} {
			first := firePacket()
			if filtersFound, err := FiltersOf(first); err != nil || !reflect.DeepEqual(filtersFound, filters) {
				t.Errorf("%q: %q %v", test.filters, filtersFound, err)
			}
			received, err := agent.Receive(1, first, passes)
			if err != nil || received.Kind != NewQuery || (received.Query != nil) != test.wantHandedOut[i] {
				t.Errorf("%q, %v: %v %v", test.filters, passes, received, err)
			}
			var burst Burst
			burst.Receive(1, firePacket(), passes)
			outcomes, err := agent.Burst(&burst)
			if err != nil || (outcomes[0].Received.Query != nil) != test.wantHandedOut[i] {
				t.Errorf("%q, %v, in a burst: %v %v", test.filters, passes, outcomes, err)
			}
			params := QueryParams{Timeout: 1000, WantAck: true, TagsPass: passes, Filters: filters}
			own, err := agent.Query(1, 8, "who", nil, params)
			if err != nil || (own.Query != nil) != test.wantHandedOut[i] || (own.Ack != nil) != test.wantHandedOut[i] {
				t.Errorf("its own of %q, %v: %v %v", test.filters, passes, own, err)
			}
			burst.Reset()
			burst.Query(1, 8, "who", nil, params)
			outcomes, err = agent.Burst(&burst)
			if err != nil || (outcomes[0].FiredQuery.Query != nil) != test.wantHandedOut[i] {
				t.Errorf("its own of %q, %v, in a burst: %v %v", test.filters, passes, outcomes, err)
			}
		}
		received, err := agent.Receive(1, firePacket(), false)
		if err != nil || (received.Query != nil) != test.wantHandedOut[0] {
			t.Errorf("%q, and nothing is said: %v %v", test.filters, received, err)
		}
	}
	for _, packet := range []string{"", "\x04", "\x03\x80"} {
		if filtersFound, err := FiltersOf([]byte(packet)); filtersFound != nil || err != nil {
			t.Errorf("%x: %q %v", packet, filtersFound, err)
		}
	}
}

// Filters are encoded as Serf does, for each length of a list and of a text.
func TestFilterEncoding(t *testing.T) {
	long, longer := strings.Repeat("x", 32), strings.Repeat("y", 65536)
	for want, made := range map[string][]byte{
		"\x00\x90": FilterByNames(), "\x00\x91\xa4test": FilterByNames("test"),
		"\x00\x92\xda\x00\x20" + long + "\xdb\x00\x01\x00\x00" + longer: FilterByNames(long, longer),
		"\x00\xdc\x00\x10" + strings.Repeat("\xa1b", 16):                FilterByNames(strings.Split(strings.Repeat("b", 16), "")...),
		"\x01\x82\xa4Expr\xa0\xa3Tag\xa1a":                              FilterByTag("a", ""),
		"\x01\x82\xa4Expr\xda\x00\x20" + long + "\xa3Tag\xa4role":       FilterByTag("role", long),
	} {
		if string(made) != want {
			t.Errorf("%.40q: %.40q", want, made)
		}
	}
}
