package serf

import (
	"encoding/hex"
	"reflect"
	"strings"
	"testing"

	"kitchenrue.example/serfagent"
)

// Messages that Serf's own agents sent, captured from the network.
const (
	joinPacket  = "0182a54c54696d6501a44e6f6465a567616d6d61"
	leavePacket = "0083a54c54696d6502a44e6f6465a462657461a55072756e65c2"
	prunePacket = "0083a54c54696d6505a44e6f6465a462657461a55072756e65c3"
	statePacket = "0286aa4576656e744c54696d6501a64576656e747392c0c0a54c54696d6503ab4c6566744d656d6265727391a462657461aa51756572794c54696d6501ac5374617475734c54696d657382a5616c70686100a46265746102"
)

func unhex(t *testing.T, text string) []byte {
	t.Helper()
	data, err := hex.DecodeString(text)
	must(t, err)
	return data
}

func TestSerfsIntents(t *testing.T) {
	for text, want := range map[string]serfagent.Intent{
		joinPacket:  {Time: 1, Node: "gamma"},
		leavePacket: {Time: 2, Node: "beta", Leave: true},
		prunePacket: {Time: 5, Node: "beta", Leave: true, Prune: true},
	} {
		packet := unhex(t, text)
		if found, err := parseIntent(packet); err != nil || !reflect.DeepEqual(found, want) {
			t.Errorf("%+v %v", found, err)
		}
		if written, err := want.Packet(); err != nil || !reflect.DeepEqual(written, packet) {
			t.Errorf("%x %v", written, err)
		}
	}
	members, err := serfagent.MembersOf(unhex(t, statePacket))
	want := &serfagent.Members{
		MemberClock: 3, Statuses: []serfagent.Status{{Name: "alpha"}, {Name: "beta", Time: 2}}, Left: []string{"beta"},
	}
	if err != nil || !reflect.DeepEqual(members, want) {
		t.Errorf("%+v %v", members, err)
	}
}

func TestMalformedIntents(t *testing.T) {
	for packet, wantErr := range map[string]string{
		"\x00":                                       "ends inside",
		"\x00\xdf\xff\xff":                           "ends inside",
		"\x01\x01":                                   "is not a map",
		"\x01\x81\x01\x01":                           "is not raw",
		"\x00\x81\xa4Node\xdb\xff\xff\xff\xff":       "ends inside",
		"\x01\x81\xa4Node\xa1x\x00":                  "more bytes follow",
		"\x01\x82\xa4Node\xa1x\xa5LTime\xff":         "out of range",
		"\x01\x81\xa1y" + strings.Repeat("\x91", 20): "eight others",
		"\x01\x81\xa5LTime\xcf\xff\xff\xff\xff\xff\xff\xff\xff": "is not a valid time",
	} {
		if found, err := parseIntent([]byte(packet)); err == nil || !strings.Contains(err.Error(), wantErr) {
			t.Errorf("%q: %+v %v", packet, found, err)
		}
	}
}

// An intent for a node that isn't a member yet is held, and raises the member clock above its time.
func TestIntentsRaiseMemberClock(t *testing.T) {
	a, _ := startPair(t)
	a.delegate().NotifyMsg(intentPacket(t, 50, "beta", true))
	eventually(t, "the intent is held", func() bool {
		a.members.mu.Lock()
		defer a.members.mu.Unlock()
		held, isHeld := a.members.intents["beta"]
		return isHeld && held.Time == 50
	})
	if clocks := a.clocks(); clocks.Member < 51 {
		t.Error(clocks)
	}
}
