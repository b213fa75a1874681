package serfagent

import (
	"errors"
	"math"
	"path/filepath"
	"reflect"
	"strings"
	"testing"
	"time"
)

// openLimited opens an agent with these limits for the packets of queries and of responses.
func openLimited(t *testing.T, query, response uint64) (*Agent, error) {
	t.Helper()
	settings := Settings{EventBuffer: 512, QueryBuffer: 512, EventLimit: 512, Responders: 1024, PerTime: 1024}
	settings.QueryLimit, settings.ResponseLimit = query, response
	agent, err := Open("limited", filepath.Join(t.TempDir(), "snapshot"), settings)
	if err == nil {
		t.Cleanup(func() { agent.Close() })
	}
	return agent, err
}

// longestPacket returns the length of the longest packet that call accepts. Every longer payload has to be refused as
// TooLarge.
func longestPacket(t *testing.T, from uint64, call func(payload []byte) ([]byte, error)) uint64 {
	t.Helper()
	for length := from; length > 0; length-- {
		packet, err := call(make([]byte, length))
		if err == nil {
			return uint64(len(packet))
		}
		if err != TooLarge {
			t.Fatal(length, err)
		}
	}
	return 0
}

// The longest packets of queries and of responses are exactly as long as their limits. The default, and 0, is 1,024.
func TestLimitsOfQueriesAndResponses(t *testing.T) {
	for _, test := range []struct{ query, response, wantQuery, wantResponse uint64 }{
		{0, 0, 1024, 1024}, {1024, 1024, 1024, 1024}, {300, 0, 300, 1024}, {0, 300, 1024, 300}, {200, 9216, 200, 9216},
		{9216, 200, 9216, 200},
	} {
		agent, err := openLimited(t, test.query, test.response)
		if err != nil {
			t.Fatal(test, err)
		}
		var fired *FiredQuery
		query := longestPacket(t, test.wantQuery+1, func(payload []byte) (packet []byte, err error) {
			if fired, err = agent.Query(1, 7, "q", payload, QueryParams{Timeout: time.Hour}); err == nil {
				packet = fired.Packet
			}
			return packet, err
		})
		response := longestPacket(t, test.wantResponse+1, func(payload []byte) ([]byte, error) {
			return agent.Respond(2, fired.Query.Number, payload)
		})
		if query != test.wantQuery || response != test.wantResponse {
			t.Errorf("%v: a query of %d bytes, and a response of %d", test, query, response)
		}
	}
	if found := DefaultSettings(); found.QueryLimit != 1024 || found.ResponseLimit != 1024 {
		t.Error(found)
	}
}

// The error names the first setting that is out of its bounds. Each bound itself is accepted.
func TestSettingsOutOfBounds(t *testing.T) {
	settingsWith := func(field string, to uint64) (name string, settings Settings) {
		settings = DefaultSettings()
		if field == "name" {
			return strings.Repeat("n", int(to)), settings
		}
		reflect.ValueOf(&settings).Elem().FieldByName(field).SetUint(to)
		return "one", settings
	}
	for _, bound := range []SettingError{
		{"name", 0, 1, 128}, {"EventBuffer", 0, 1, 65536}, {"QueryBuffer", 0, 1, 65536}, {"EventLimit", 9217, 0, 9216},
		{"QueryLimit", 9217, 0, 9216},
		{"ResponseLimit", math.MaxUint64, 0, 9216}, {"Responders", 0, 1, 65536}, {"PerTime", 0, 1, 65536},
	} {
		for _, value := range []uint64{bound.Value, bound.Max + 1} {
			want, found := SettingError{bound.Field, value, bound.Min, bound.Max}, &SettingError{}
			name, settings := settingsWith(bound.Field, value)
			if _, err := OpenInMemory(name, settings); !errors.Is(err, BadConfig) || !errors.As(err, &found) || *found != want {
				t.Error(want, err)
			}
		}
		for _, value := range []uint64{bound.Min, bound.Max} {
			name, settings := settingsWith(bound.Field, value)
			agent, err := OpenInMemory(name, settings)
			if err != nil {
				t.Fatal(bound.Field, value, err)
			}
			agent.Close()
		}
	}
	if _, err := OpenInMemory("one", Settings{KeepEvents: true}); err == nil ||
		err.Error() != "EventBuffer is 0, and must be between 1 and 65536" {
		t.Error(err)
	}
	if _, err := OpenInMemory("", Settings{}); err == nil || err.Error() != "the name has 0 bytes, and must have 1 to 128" {
		t.Error(err)
	}
}

// A query without a timeout is open for DefaultQueryTimeout.
func TestDefaultQueryTimeout(t *testing.T) {
	agent, err := OpenInMemory("alpha", DefaultSettings())
	if err != nil {
		t.Fatal(err)
	}
	defer agent.Close()
	if _, err := agent.Query(1, 7, "q", nil, QueryParams{}); err != nil {
		t.Fatal(err)
	}
	if deadline, isOpen, err := agent.NextDeadline(); err != nil || !isOpen || deadline != 1+uint64(DefaultQueryTimeout) {
		t.Error(deadline, isOpen, err)
	}
	if _, err := agent.Query(2, 8, "q", nil, QueryParams{Timeout: -1}); err == nil {
		t.Error("a negative timeout is accepted")
	}
}
