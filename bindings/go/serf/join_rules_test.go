package serf

import (
	"errors"
	"fmt"
	"io"
	"log"
	"strings"
	"sync"
	"testing"

	"github.com/hashicorp/memberlist"

	"kitchenrue.example/serfagent"
)

func (l *logBuffer) count(text string) int { return strings.Count(l.String(), text) }

func (l *logBuffer) contains(text string) bool { return l.count(text) > 0 }

// mergeDelegate refuses members with one name, and records the members about which it was asked.
type mergeDelegate struct {
	refusedName string
	mu          sync.Mutex
	asked       []string
}

var errRefused = errors.New("the name is refused")

func (m *mergeDelegate) NotifyMerge(members []*Member) error {
	m.mu.Lock()
	defer m.mu.Unlock()
	for _, member := range members {
		m.asked = append(m.asked, member.Name+" "+member.Status.String())
		if member.Name == m.refusedName {
			return errRefused
		}
	}
	return nil
}

// Config.Merge decides about nodes from a join and from gossip, and can see which of them left.
func TestMergeDelegateDecides(t *testing.T) {
	merge := &mergeDelegate{refusedName: "b"}
	a := startNode(t, "a", "", withAgent(&fakeAgent{}), func(o *nodeOptions) { o.Merge = merge })
	alive := a.config.MemberlistConfig.Alive
	if alive == nil {
		t.Fatal("nobody decides about nodes of gossip")
	}
	if err := alive.NotifyAlive(nodeB()); err != errRefused {
		t.Error(err)
	}
	c := nodeB()
	c.Name = "c"
	if err := alive.NotifyAlive(c); err != nil {
		t.Error(err)
	}
	dead := nodeB()
	dead.Name, dead.State = "d", memberlist.StateDead
	if err := a.config.MemberlistConfig.Merge.NotifyMerge([]*memberlist.Node{c, dead, nodeB()}); err != errRefused {
		t.Error(err)
	}
	merge.mu.Lock()
	defer merge.mu.Unlock()
	// (memberlist asks about the node itself when it starts)
	if asked := strings.Join(merge.asked, ", "); !strings.HasSuffix(asked, "b alive, c alive, c alive, d left, b alive") {
		t.Error(asked)
	}
}

// withPrevious starts a node as if its file named these members.
func withPrevious(previous ...PreviousNode) option {
	return func(o *nodeOptions) { o.previous = previous }
}

// A node tries all members of its file until it can join one, and never itself.
func TestRejoinTriesAll(t *testing.T) {
	// (nobody listens at these ports)
	var previous []PreviousNode
	for i := 0; i < 5; i++ {
		previous = append(previous, PreviousNode{fmt.Sprint("gone", i), fmt.Sprint("127.0.0.1:", i+1)})
	}
	logs := &logBuffer{}
	startNode(t, "a", "", withAgent(&fakeAgent{}), withLog(logs), withPrevious(append(previous, PreviousNode{"a", "127.0.0.1:6"})...))
	eventually(t, "it has tried", func() bool { return logs.contains("Failed to re-join") || logs.contains("Re-joined") })
	if tried := logs.count("Attempting re-join"); tried != len(previous) || !logs.contains("Failed to re-join") {
		t.Fatalf("%d members were tried: %s", tried, logs)
	}
	b := startNode(t, "b", "")
	a := startNode(t, "a", "", withAgent(&fakeAgent{}), withPrevious(append(previous, PreviousNode{"b", b.address()})...))
	eventually(t, "it has rejoined", func() bool { return a.statusOf("b") == "alive" })
}

// mergeRecorder is a fakeAgent that records whether the first states were merged without their old events.
type mergeRecorder struct {
	fakeAgent
	ignoresOld chan bool
}

func (m *mergeRecorder) Merge(_ []byte, ignoresOld bool) ([]*serfagent.Event, error) {
	select {
	case m.ignoresOld <- ignoresOld:
	default:
	}
	return nil, nil
}

// A node that rejoins the members of its file accepts the events that the others received in the meantime.
func TestRejoinAcceptsOldEvents(t *testing.T) {
	b, agent := startNode(t, "b", ""), &mergeRecorder{ignoresOld: make(chan bool, 1)}
	startNode(t, "a", "", withAgent(agent), withPrevious(PreviousNode{"b", b.address()}))
	promptly(t, "the state of b is merged", func() {
		if <-agent.ignoresOld {
			t.Error("the old events are ignored")
		}
	})
}

// Filters of queries use the tags that SetTags has set.
func TestOwnFiltersUseNewTags(t *testing.T) {
	a := startNode(t, "a", "", withTags("role", "web"))
	must(t, a.SetTags(map[string]string{"role": "db"}))
	if tags := a.ownTags(); fmt.Sprint(tags) != "map[role:db]" {
		t.Fatal(tags)
	}
	for role, want := range map[string]bool{"db": true, "web": false} {
		_, err := a.Query(role, nil, &QueryParam{FilterTags: map[string]string{"role": "^" + role + "$"}})
		must(t, err)
		if want {
			eventually(t, "the query by the new tag is handed out", func() bool { return a.lastQuery("db") != nil })
		}
	}
	// (if a query that this node fires is handed out here, that happens before the call returns)
	must(t, a.UserEvent("mark", nil, false))
	eventually(t, "what was handed out is delivered", func() bool { return len(a.payloads("mark")) == 1 })
	if a.lastQuery("web") != nil {
		t.Error("the query by the old tag is handed out")
	}
}

// The node uses a copy of the configuration, the Logger before LogOutput, and 1,024 bytes for limits of queries that are 0.
func TestCopiedConfiguration(t *testing.T) {
	conf := loopbackConfig("a")
	conf.Tags = map[string]string{"role": "web"}
	conf.QuerySizeLimit, conf.QueryResponseSizeLimit = 0, 0
	logger, output := log.New(io.Discard, "", 0), &logBuffer{}
	conf.Logger, conf.LogOutput = logger, output
	copied, err := conf.withDefaults()
	must(t, err)
	conf.Tags["role"], conf.Tags["more"] = "db", "x"
	if fmt.Sprint(copied.Tags) != "map[role:web]" {
		t.Error(copied.Tags)
	}
	if copied.logger() != logger {
		t.Error("LogOutput overrides Logger")
	}
	copied.Logger = nil
	copied.logger().Print("a line")
	if !output.contains("a line") {
		t.Error("LogOutput is not used")
	}
	a := startNode(t, "a", "", withLimits(0, 0))
	longest := longestAccepted(2000, func(payload []byte) error {
		_, err := a.Query("x", payload, nil)
		return err
	})
	if longest < 900 || longest > 1024 {
		t.Errorf("the longest payload has %d bytes", longest)
	}
	if _, err := a.Query("x", make([]byte, 2000), nil); err == nil || err.Error() != "query exceeds limit of 1024 bytes" {
		t.Error(err)
	}
}
