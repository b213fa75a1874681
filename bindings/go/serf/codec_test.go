package serf

import (
	"bytes"
	"net"
	"reflect"
	"strings"
	"testing"
	"time"

	"kitchenrue.example/serfagent"
)

// Messages that Serf's own agents sent, captured from the network.
const (
	queryPacket       = "048ba441646472a47f000101a746696c7465727393a60092a178a179b40182a445787072a3776562a3546167a4726f6c65af0182a445787072a162a3546167a161a5466c61677301a24944ce2f3cc807a54c54696d6501a44e616d65a46c6f6164a75061796c6f6164c0a4506f7274cd1f0aab52656c6179466163746f7200aa536f757263654e6f6465a5616c706861a754696d656f7574ce11e1a300"
	relayPacket       = "0982a8446573744164647283a24950a47f000101a4506f7274cd1f0aa45a6f6e65a0a8446573744e616d65a5616c7068610585a5466c61677301a446726f6da5616c706861a24944ce130af890a54c54696d6502a75061796c6f6164c0"
	keyRequestPacket  = "0781a34b6579da0020b19e7fa4ded89f425da562d476d10541e89391c751bea65cd5ef861fb3ef0357"
	keyResponsePacket = "0884a44b657973c0a74d657373616765da00294b657972696e6720697320656d7074792028656e6372797074696f6e206e6f7420656e61626c656429aa5072696d6172794b6579a0a6526573756c74c2"
	memberPacket      = "068ba441646472a47f000102ab44656c656761746543757205ab44656c65676174654d617805ab44656c65676174654d696e02a44e616d65a462657461a4506f7274cd1f0aab50726f746f636f6c43757202ab50726f746f636f6c4d617805ab50726f746f636f6c4d696e01a653746174757301a45461677380"
	eventPacket       = "0384a24343c2a54c54696d6507a44e616d65a66465706c6f79a75061796c6f6164a2763a"
	tagsMeta          = "ff82a4726f6c65a3776562a26463a178"
)

func TestTags(t *testing.T) {
	tags := map[string]string{"role": "web", "dc": "x"}
	found, err := decodeTags(unhex(t, tagsMeta))
	if err != nil || !reflect.DeepEqual(found, tags) {
		t.Errorf("%v %v", found, err)
	}
	written, err := encodeTags(tags)
	if err != nil || len(written) != len(tagsMeta)/2 {
		t.Errorf("%x %v", written, err)
	}
	if found, err = decodeTags(written); err != nil || !reflect.DeepEqual(found, tags) {
		t.Errorf("%v %v", found, err)
	}
	if written, err = encodeTags(nil); err != nil || string(written) != "\xff\x80" {
		t.Errorf("%x %v", written, err)
	}
	if found, err = decodeTags([]byte("web")); err != nil || found["role"] != "web" {
		t.Errorf("%v %v", found, err)
	}
	if _, err := encodeTags(map[string]string{"a": strings.Repeat("x", 600)}); err == nil {
		t.Error("too long tags were encoded")
	}
	for _, data := range []string{"\xff", "\xff\xdf\xff\xff\xff\xff", "\xff\x81\xa1x", "\xff\x81\xa1x\x01", "\xff\x80\x00"} {
		if found, err := decodeTags([]byte(data)); err == nil || len(found) > 0 {
			t.Errorf("%q: %v", data, found)
		}
	}
}

// Tags that are too long are refused at each protocol version, also if only the role is sent.
func TestTooLongTagsAreRefused(t *testing.T) {
	for protocol := ProtocolVersionMin; protocol <= ProtocolVersionMax; protocol++ {
		c := loopbackConfig("a")
		c.ProtocolVersion, c.Tags = protocol, map[string]string{"role": strings.Repeat("x", maxTagsLength+1)}
		if _, err := Create(&c); err != errTagsTooLong {
			t.Error(protocol, err)
		}
		a := startNode(t, "a", "", withAgent(&fakeAgent{}), func(o *nodeOptions) { o.ProtocolVersion = protocol })
		if err := a.SetTags(c.Tags); err != errTagsTooLong || len(a.LocalMember().Tags["role"]) > 0 {
			t.Error(protocol, err)
		}
	}
}

func TestSerfsFilters(t *testing.T) {
	packet := unhex(t, queryPacket)
	want := encodeFilters(QueryParam{FilterNodes: []string{"x", "y"}, FilterTags: map[string]string{"role": "web"}})
	want = append(want, serfagent.FilterByTag("a", "b"))
	found, err := serfagent.FiltersOf(packet)
	if err != nil || !reflect.DeepEqual(found, want) {
		t.Errorf("%q %v", found, err)
	}
}

// A filter is refused if its expression has only a few hundred bytes but would compile to a program of millions of
// steps.
func TestTooLargeExpressionsAreRefused(t *testing.T) {
	tags := map[string]string{"role": strings.Repeat("x", 500)}
	for expression, want := range map[string]bool{
		"^x+$": true, "x{500}": true, strings.Repeat("x{0,1000}", 1000): false, strings.Repeat("(x{0,1000})?", 100): false,
		strings.Repeat("[^q]{1000,}", 100): false,
	} {
		began := time.Now()
		filter := serfagent.FilterByTag("role", expression)
		if tagFiltersPass([][]byte{filter}, tags) != want || time.Since(began) > time.Minute {
			t.Errorf("%.30s: %v", expression, time.Since(began))
		}
	}
	// the limit is for all filters of a query together
	small := serfagent.FilterByTag("role", "x{20}")
	if many := func(count int) (all [][]byte) {
		for i := 0; i < count; i++ {
			all = append(all, small)
		}
		return all
	}; !tagFiltersPass(many(10), tags) || tagFiltersPass(many(1000), tags) {
		t.Error("the limit is not for all filters together")
	}
}

func TestTagFiltersPass(t *testing.T) {
	tags := map[string]string{"role": "web", "n": "17"}
	byTag := serfagent.FilterByTag
	for _, test := range []struct {
		filters [][]byte
		passes  bool
	}{
		{nil, true},
		{[][]byte{serfagent.FilterByNames("x")}, true},
		{[][]byte{byTag("role", "we")}, true},
		{[][]byte{byTag("role", "^we$")}, false},
		{[][]byte{byTag("none", ".*"), byTag("none", "")}, true},
		{[][]byte{byTag("role", "web"), byTag("n", "[a-z]")}, false},
		{[][]byte{byTag("role", "(")}, false},
		{[][]byte{[]byte("\x01\x81")}, false},
	} {
		if tagFiltersPass(test.filters, tags) != test.passes {
			t.Errorf("%q", test.filters)
		}
	}
}

func TestRelays(t *testing.T) {
	packet := unhex(t, relayPacket)
	found, err := decodeRelay(packet)
	if err != nil || found.name != "alpha" || !found.addr.Equal(net.IPv4(127, 0, 1, 1)) || found.port != 7946 || found.message[0] != 5 {
		t.Errorf("%+v %v", found, err)
	}
	if written := encodeRelay(found); !bytes.Equal(written, packet) {
		t.Errorf("%x", written)
	}
	for _, packet := range []string{
		"", "\x09", "\x09\x80", "\x09\x80x", "\x09\x81\xa8DestAddr\x81\xa2IP\xa3123x",
		"\x09\x81\xa8DestAddr\x82\xa2IP\xa41234\xa4Port\xce\x00\x01\x00\x00x", "\x09\x81\xa8DestAddr\x81\xa2IP\xa41234",
	} {
		if found, err := decodeRelay([]byte(packet)); err == nil {
			t.Errorf("%q: %+v", packet, found)
		}
	}
}

func TestSerfsKeyMessages(t *testing.T) {
	key, err := decodeKeyRequest(unhex(t, keyRequestPacket))
	if err != nil || len(key) != 32 || !bytes.Equal(encodeKeyRequest(key), unhex(t, keyRequestPacket)) {
		t.Errorf("%x %v", key, err)
	}
	answer, err := decodeKeyResponse(unhex(t, keyResponsePacket))
	if err != nil || answer.Result || answer.Message != "Keyring is empty (encryption not enabled)" {
		t.Errorf("%+v %v", answer, err)
	}
	if written := encodeKeyResponse(answer); !bytes.Equal(written, unhex(t, keyResponsePacket)) {
		t.Errorf("%x", written)
	}
	answer = nodeKeyResponse{true, "", []string{"a", "b"}, "a"}
	if found, err := decodeKeyResponse(encodeKeyResponse(answer)); err != nil || !reflect.DeepEqual(found, answer) {
		t.Errorf("%+v %v", found, err)
	}
	for count, isAccepted := range map[int]bool{maxKeys: true, maxKeys + 1: false} {
		if _, err := decodeKeyResponse(encodeKeyResponse(nodeKeyResponse{Keys: make([]string, count)})); (err == nil) != isAccepted {
			t.Error(count, err)
		}
	}
	for _, payload := range []string{"", "\x07", "\x08", "\x08\x81\xa4Keys\xdd\xff\xff\xff\xff", "\x07\x81\xa3Key\x01"} {
		if _, err := decodeKeyRequest([]byte(payload)); err == nil {
			t.Errorf("%q", payload)
		}
		if _, err := decodeKeyResponse([]byte(payload)); err == nil {
			t.Errorf("%q", payload)
		}
	}
}

func TestMemberResponse(t *testing.T) {
	member := &Member{
		Name: "beta", Addr: net.IPv4(127, 0, 1, 2), Port: 7946, Status: StatusAlive, ProtocolMin: 1, ProtocolMax: 5, ProtocolCur: 2,
		DelegateMin: 2, DelegateMax: 5, DelegateCur: 5,
	}
	if written := encodeMember(member); !bytes.Equal(written, unhex(t, memberPacket)) {
		t.Errorf("%x", written)
	}
	addr, port, err := decodeMemberAddr(unhex(t, memberPacket))
	if err != nil || !addr.Equal(member.Addr) || port != member.Port {
		t.Error(addr, port, err)
	}
	if addr, _, err = decodeMemberAddr(encodeMember(nil)); err != nil || len(addr) > 0 {
		t.Error(addr, err)
	}
}

func TestReadTimes(t *testing.T) {
	for _, test := range []struct {
		packet string
		want   clockTimes
	}{
		{string(unhex(t, joinPacket)), clockTimes{member: 1}},
		{string(unhex(t, leavePacket)), clockTimes{member: 2}},
		{string(unhex(t, eventPacket)), clockTimes{event: 7}},
		{string(unhex(t, queryPacket)), clockTimes{query: 1}},
		{string(unhex(t, statePacket)), clockTimes{3, 1, 1}},
		{string(unhex(t, relayPacket)), clockTimes{}},
		{"\x05\x81\xa5LTime\x09", clockTimes{}},
		{"\x03\x81\xa5LTime\xc0", clockTimes{}},
		{"\x02\x81\xacStatusLTimes\x82\xa1a\x07\xa1b\x05", clockTimes{member: 7}},
		{"\x02\x82\xa6Events\x93\x81\xa5LTime\x08\xc0\x82\xa6Events\x90\xa5LTime\x06\xaaEventLTime\x02", clockTimes{event: 8}},
		{"\x02\x82\xacStatusLTimes\x82\xa1a\x05\xa1b\x07\xa6Events\x92\x81\xa5LTime\x06\x81\xa5LTime\x08", clockTimes{member: 7, event: 8}},
		{"\x02\x81\xaaQueryLTime\xcf\x80\x00\x00\x00\x00\x00\x00\x00", clockTimes{query: 1 << 63}},
	} {
		if found, err := readTimes([]byte(test.packet)); err != nil || found != test.want {
			t.Errorf("%q: %+v %v", test.packet, found, err)
		}
	}
	if latest := (clockTimes{5, 7, 6}).max(); latest != 7 {
		t.Error(latest)
	}
	for _, packet := range []string{
		"", "\x03", "\x03\x81\xa5LTime\xff", "\x03\x81\xa5LTime\xa1x", "\x02\x81\xa6Events\xdd\xff\xff\xff\xff",
		"\x02\x81\xacStatusLTimes\x01",
	} {
		if found, err := readTimes([]byte(packet)); err == nil {
			t.Errorf("%q: %+v", packet, found)
		}
	}
}

// Whatever the bytes are, no decoder reads beyond them or panics.
func TestDamagedMessages(t *testing.T) {
	for _, text := range []string{
		queryPacket, relayPacket, keyRequestPacket, keyResponsePacket, memberPacket, tagsMeta, eventPacket, statePacket, joinPacket,
	} {
		whole := unhex(t, text)
		for i := range whole {
			for _, value := range []byte{
				whole[i], 0x00, 0x7f, 0x80, 0x8f, 0x9f, 0xa0, 0xbf, 0xc0, 0xc1, 0xc6, 0xcf, 0xd3, 0xdb, 0xdd, 0xdf, 0xff,
			} {
				damaged := append([]byte(nil), whole...)
				damaged[i] = value
				for _, packet := range [][]byte{damaged, damaged[:i]} {
					_, _ = decodeRelay(packet)
					_, _ = decodeKeyRequest(packet)
					_, _ = decodeKeyResponse(packet)
					_, _, _ = decodeMemberAddr(packet)
					_, _ = decodeTags(packet)
					_, _ = readTimes(packet)
				}
			}
		}
	}
}
