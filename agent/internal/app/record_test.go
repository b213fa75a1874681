package app

import (
	"fmt"
	"os"
	"path/filepath"
	"strings"
	"sync"
	"testing"
	"time"

	"kitchenrue.example/agent/internal/testkit"
	"kitchenrue.example/serf"
)

// records has the record of each snapshot over which a test has started an agent.
var records = struct {
	sync.Mutex
	ofSnapshot map[string]string
	begun      int
}{ofSnapshot: map[string]string{}}

// recordOf returns the record of an agent over a snapshot, or in memory if the path is empty. It is in the folder
// KITCHENRUE_RECORDS, whose records tests/library/agent.py attests. Without this folder, there is no record.
func recordOf(t testing.TB, snapshot string) string {
	folder := os.Getenv("KITCHENRUE_RECORDS")
	if folder == "" {
		return ""
	}
	records.Lock()
	defer records.Unlock()
	path, ok := records.ofSnapshot[snapshot]
	if !ok {
		records.begun++
		path = filepath.Join(folder, fmt.Sprintf("%s-%d.record", strings.ReplaceAll(t.Name(), "/", "_"), records.begun))
	}
	if snapshot != "" {
		records.ofSnapshot[snapshot] = path
	}
	return path
}

// beginRecord makes the next life over a snapshot begin another record.
func beginRecord(snapshot string) {
	records.Lock()
	defer records.Unlock()
	delete(records.ofSnapshot, snapshot)
}

// TestRecords leaves the records of three nodes in the folder KITCHENRUE_RECORDS, for tests/library/agent.py: an event,
// a query, an event while one node is away, its return, and another event.
func TestRecords(t *testing.T) {
	folder := os.Getenv("KITCHENRUE_RECORDS")
	if folder == "" {
		folder = t.TempDir()
	}
	pathOf := func(name string) string { return filepath.Join(folder, name) }
	startNode := func(name, address string) *App {
		a, _ := startApp(
			t, "-node", name, "-bind", address, "-snapshot", pathOf(name+".snapshot"), "-record", pathOf(name+".record"), "-event-handler",
			"query:load=printf 0.12", "-tag", "role="+name,
		)
		return a
	}
	anyPort := "127.0.0.1:0"
	a, b, c := startNode("a", anyPort), startNode("b", anyPort), startNode("c", anyPort)
	for _, node := range []*App{b, c} {
		if _, err := node.Join([]string{a.node.Memberlist().LocalNode().Address()}, false); err != nil {
			t.Fatal(err)
		}
	}
	fire := func(sender *App, payload string, receivers ...*App) {
		t.Helper()
		testkit.Must(t, sender.Fire("deploy", []byte(payload), false))
		clock := sender.Stats()["serf"]["event_time"]
		for _, node := range receivers {
			testkit.Eventually(t, payload+" comes", func() bool { return node.Stats()["serf"]["event_time"] == clock })
		}
	}
	fire(a, "v1", b, c)
	for _, tags := range []map[string]string{nil, {"role": "^[ab]$"}} {
		answers, want := 0, 6-2*len(tags)
		// (on a busy machine, answers may be too late for the first query)
		for timeout := 5 * time.Second; answers < want && timeout < 2*time.Minute; timeout *= 4 {
			response, err := a.Query("load", nil, &serf.QueryParam{RequestAck: true, Timeout: timeout, FilterTags: tags})
			testkit.Must(t, err)
			answers = 0
			for range response.AckCh() {
				answers++
			}
			for range response.ResponseCh() {
				answers++
			}
		}
		if answers != want {
			t.Error(tags, answers)
		}
	}
	address := c.node.Memberlist().LocalNode().Address()
	testkit.Check(t, c.Close())
	fire(b, "v2", a)
	c = startNode("c", address)
	testkit.Eventually(t, "c has what it missed", func() bool { return c.Stats()["serf"]["event_time"] == "3" })
	fire(a, "v3", b, c)
	for _, node := range []*App{a, b, c} {
		testkit.Check(t, node.Close())
	}
	for name, lives := range map[string]int{"a": 1, "b": 1, "c": 2} {
		if text := testkit.Read(t, pathOf(name+".record")); strings.Count(text, "\nopen ") != lives ||
			strings.Count(text, "\nevent ") != 3 {
			t.Error(name, text)
		}
	}
}
