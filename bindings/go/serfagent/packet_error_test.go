package serfagent

import (
	"fmt"
	"strings"
	"testing"
)

var badPackets = []struct {
	packet string
	err    PacketError
	words  string
}{
	{"", PacketError{ErrorEmpty, 0, 0}, "the packet is empty"},
	{"\x63\x80", PacketError{ErrorUnknownType, 0, 99}, "no message has the type 99"},
	{"\x03", PacketError{ErrorTruncated, 1, 0}, "the packet ends inside the value at 1"},
	{"\x03\xc1", PacketError{ErrorUnsupported, 1, 0xc1}, "the byte 0xc1 at 1 doesn't begin a supported value"},
	{
		"\x03" + strings.Repeat("\x91", 9) + "\xc0",
		PacketError{ErrorTooDeep, 9, 0},
		"the array or map at 9 is inside eight others",
	},
	{"\x03\x80\x00", PacketError{ErrorTrailing, 2, 0}, "the value ends before 2, and more bytes follow"},
	{"\x03\x07", PacketError{ErrorNotAMap, 0, 0}, "the value is not a map"},
	{"\x03\x81\x01\x01", PacketError{ErrorBadKey, 2, 0}, "the key at 2 is not raw"},
	{
		"\x03\x82\xa5LTime\x01\xa5LTime\x01",
		PacketError{ErrorTwice, 9, 0},
		"the key at 9 appears for the second time",
	},
	{"\x03\x81\xa5LTime\xa1x", PacketError{ErrorWrongKind, 8, 0}, "the value at 8 has the wrong type"},
	{
		"\x05\x81\xa2ID\xcf\x00\x00\x00\x01\x00\x00\x00\x00",
		PacketError{ErrorOutOfRange, 5, 0},
		"the integer at 5 is out of range",
	},
	{
		"\x03\x81\xa5LTime\xcf" + strings.Repeat("\xff", 8),
		PacketError{ErrorMaxTime, 8, 0},
		"the number at 8 is not a valid time",
	},
}

func TestFaultyPackets(t *testing.T) {
	for _, test := range badPackets {
		found, ok := PacketErrorOf([]byte(test.packet))
		if !ok || found != test.err || found.Error() != test.words {
			t.Errorf("%x: %v %v", test.packet, ok, found)
		}
	}
}

func TestPacketsWithoutError(t *testing.T) {
	sound := []string{"\x03\x80", "\x02\x81\xa5LTime\x07", "\x03\xde\x00\x01\xd9\x05LTime\xd0\x07", "\x00", "\x09\xc1"}
	for _, packet := range sound {
		if found, ok := PacketErrorOf([]byte(packet)); ok {
			t.Errorf("%x: %v", packet, found)
		}
	}
}

// Each kind, reason and error has its word. Other numbers are printed as numbers.
func TestWords(t *testing.T) {
	for want, value := range map[string]fmt.Stringer{
		"NewEvent": NewEvent, "NewQuery": NewQuery, "Ack": Ack, "Response": Response, "Ignored": Ignored, "Foreign": Foreign,
		"PushPull": PushPull, "Kind 8": Kind(8),
		"None": Reason(0), "Oversize": Oversize, "BelowMinimum": BelowMinimum, "TooOld": TooOld, "Seen": Seen, "TimeFull": TimeFull,
		"NotOpen": NotOpen, "OtherId": OtherID,
		"Closed": AfterDeadline, "AckNotAsked": AckNotRequested, "AckTwice": AckTwice, "ResponseTwice": ResponseTwice,
		"Reason 12": Reason(12),
		"Empty":     ErrorEmpty, "UnknownType": ErrorUnknownType, "Truncated": ErrorTruncated, "Unsupported": ErrorUnsupported,
		"TooDeep": ErrorTooDeep, "Trailing": ErrorTrailing,
		"NotAMap": ErrorNotAMap, "BadKey": ErrorBadKey, "Twice": ErrorTwice, "WrongKind": ErrorWrongKind, "OutOfRange": ErrorOutOfRange,
		"GreatestTime": ErrorMaxTime, "PacketErrorKind 13": PacketErrorKind(13),
	} {
		if value.String() != want {
			t.Errorf("%q: %q", want, value)
		}
	}
	if text := fmt.Sprint(Received{Kind: Ignored, Reason: TimeFull}); !strings.HasPrefix(text, "{Ignored TimeFull ") {
		t.Error(text)
	}
}
