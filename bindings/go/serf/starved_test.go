package serf

import (
	"fmt"
	"os"
	"reflect"
	"sort"
	"strings"
	"testing"
	"time"

	"kitchenrue.example/serfagent"
)

// A burst, and then a merge, need more memory than there is. The events that the agent accepted are handed out, the
// others are logged, and all of them arrive when they are sent again. The test needs a library whose first calls run
// out of memory (tests/library/embed/starved.py), after a number of memory requests that an environment variable sets.
func TestABurstOfMoreThanMemoryHas(t *testing.T) {
	if os.Getenv("SERF_AGENT_GRANTED") == "" {
		t.Skip("needs a library that runs out of memory")
	}
	other, err := serfagent.OpenInMemory("other", serfagent.DefaultSettings())
	must(t, err)
	packets, want := [][]byte{[]byte("\x03\x80\x00")}, []string(nil)
	for i := 0; i < 8; i++ {
		want = append(want, fmt.Sprint("e", i))
		_, packet, err := other.Fire(want[i], nil, false)
		must(t, err)
		packets = append(packets, packet)
	}
	fired, err := other.Query(1, 7, "q", nil, serfagent.QueryParams{Timeout: time.Hour})
	must(t, err)
	packets[2], want = fired.Packet, append(want, "q")
	state, err := other.LocalState(nil, nil)
	must(t, err)
	logs := &logBuffer{}
	a := startNode(t, "a", t.TempDir(), withLog(logs))
	for i := 0; i < 2; i++ {
		if err := a.processBurst(packets[:6]); err != nil && err != serfagent.OutOfMemory {
			t.Fatal(err)
		}
	}
	for i := 0; i < 2; i++ {
		err := a.useAgent(func() error { return a.mergeState(queuedMessage{data: state}) })
		if err != nil && err != serfagent.OutOfMemory {
			t.Fatal(err)
		}
	}
	names := func() (names []string) {
		for _, text := range a.handedOut() {
			names = append(names, strings.Fields(text)[2])
		}
		sort.Strings(names)
		return names
	}
	eventually(t, "all is delivered", func() bool { return len(names()) >= len(want) })
	_ = a.Shutdown()
	if found := names(); !reflect.DeepEqual(found, want) || a.Fault() != nil {
		t.Errorf("%v was delivered: %v", found, a.Fault())
	}
	// (if memory ran out only while the node read outcomes, nothing is lost and nothing is logged)
	warnings := strings.Count(logs.String(), " processed: "+serfagent.OutOfMemory.Error())
	if warnings > 2 {
		t.Error(logs.String())
	}
	if warnings == 0 {
		fmt.Println("nothing ran out of memory")
	}
}
