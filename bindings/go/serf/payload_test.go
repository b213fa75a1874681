package serf

import (
	"fmt"
	"strings"
	"sync"
	"testing"
	"time"
)

// An event is refused with Serf's error if its name and payload, or its packet, are too large.
func TestTooLargeEvent(t *testing.T) {
	a := startNode(t, "a", "")
	before := "user event exceeds configured limit of 512 bytes before encoding"
	after := "encoded user event exceeds configured limit of 512 bytes after encoding"
	for _, test := range []struct {
		length int
		err    string
	}{{400, "<nil>"}, {511, after}, {512, before}, {600, before}} {
		if err := a.UserEvent("x", make([]byte, test.length), false); fmt.Sprint(err) != test.err {
			t.Error(test.length, err)
		}
	}
	// (the packet of the longest accepted event has 512 bytes, and the bytes of a name count like those of a payload)
	longest := 0
	for length := 450; length <= 511; length++ {
		errOfPayload, errOfName := a.UserEvent("x", make([]byte, length), false), a.UserEvent(strings.Repeat("x", length), []byte{0}, false)
		if fmt.Sprint(errOfPayload) != fmt.Sprint(errOfName) || errOfPayload != nil && errOfPayload.Error() != after {
			t.Error(length, errOfPayload, errOfName)
		}
		if errOfPayload == nil {
			longest = length
		}
	}
	if longest < 480 || longest > 490 {
		t.Error(longest)
	}
}

// As in Serf, a payload without bytes is delivered as nil. At the node that fired the event, it is nil only if the
// caller passed nil.
func TestPayloadsWithoutBytes(t *testing.T) {
	var mu sync.Mutex
	seen := map[string]string{}
	recordPayloads := func(node string) option {
		return withOnEvent(func(e Event) {
			mu.Lock()
			defer mu.Unlock()
			describePayload := func(payload []byte) string { return fmt.Sprint(payload == nil, len(payload)) }
			switch e := e.(type) {
			case UserEvent:
				seen[node+" event "+e.Name] = describePayload(e.Payload)
			case *Query:
				seen[node+" query "+e.Name] = describePayload(e.Payload)
				if node == "b" {
					_ = e.Respond(nil)
				}
			}
		})
	}
	a, b := startNode(t, "a", "", recordPayloads("a")), startNode(t, "b", "", recordPayloads("b"))
	b.join(a)
	eventually(t, "a knows b", func() bool { return a.NumNodes() == 2 })
	for name, payload := range map[string][]byte{"nil": nil, "empty": {}, "one": {1}} {
		must(t, a.UserEvent(name, payload, false))
		response, err := a.Query(name, payload, &QueryParam{Timeout: time.Minute})
		must(t, err)
		if answer := <-response.ResponseCh(); answer.From != "b" || answer.Payload != nil {
			t.Error(name, answer)
		}
	}
	for _, kind := range []string{"event", "query"} {
		for key, want := range map[string]string{
			"a %s nil": "true 0", "a %s empty": "false 0", "a %s one": "false 1", "b %s nil": "true 0", "b %s empty": "true 0",
			"b %s one": "false 1",
		} {
			key = fmt.Sprintf(key, kind)
			eventually(t, key, func() bool {
				mu.Lock()
				defer mu.Unlock()
				return seen[key] != ""
			})
			mu.Lock()
			if seen[key] != want {
				t.Error(key, seen[key])
			}
			mu.Unlock()
		}
	}
	// (a node that joins later receives these events in a state)
	c := startNode(t, "c", "", recordPayloads("c"))
	_, err := c.Join([]string{a.address()}, false)
	must(t, err)
	eventually(t, "c has the events", func() bool {
		mu.Lock()
		defer mu.Unlock()
		return seen["c event nil"] == "true 0" && seen["c event empty"] == "true 0" && seen["c event one"] == "false 1"
	})
}
