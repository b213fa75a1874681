package serf

import (
	"strings"
	"sync"

	"github.com/armon/go-metrics"
)

// The node sends its metrics to go-metrics, under Serf's names. A program that sets a global sink receives them, together with
// memberlist's.

// maxCountedNames is how many names of events, and how many of queries, have separate counters. maxCountedLength is how
// many bytes of a name the counters use. These limits are needed because names arrive from the network, and a sink
// keeps every name that it has received.
const (
	maxCountedNames  = 128
	maxCountedLength = 64
)

// nameCounter counts events, or queries, by name. Only reserved names and the first other names that arrive have
// separate counters.
type nameCounter struct {
	kind string

	mu sync.Mutex
	// max is how many names may have separate counters: maxCountedNames plus the number of reserved names.
	max int
	// known has the names that arrived. unreported has the counts since the last report, by sink name, and total is the
	// sum over all names.
	known      map[string]*countedName
	unreported map[string]*int
	total      int
}

// countedName is a name that arrived, with its count since the last report.
type countedName struct {
	text       string
	unreported *int
}

func newNameCounter(kind string) *nameCounter {
	return &nameCounter{kind: kind, max: maxCountedNames, known: map[string]*countedName{}, unreported: map[string]*int{}}
}

// CountNames makes the metrics count these names of events and queries separately, however many other names arrive. You
// can't undo this for a name. Serf has no such method.
func (s *Serf) CountNames(events, queries []string) {
	s.eventNames.reserve(events)
	s.queryNames.reserve(queries)
}

// reserve makes separate counters for names, and reports a 0 for each, so that a monitor sees the first event or query
// of that name as an increase.
func (n *nameCounter) reserve(names []string) {
	n.mu.Lock()
	defer n.mu.Unlock()
	for _, name := range names {
		nameInSink := sinkName(name)
		if n.unreported[nameInSink] == nil {
			n.unreported[nameInSink] = new(int)
			n.max++
		}
		n.known[name] = &countedName{name, n.unreported[nameInSink]}
		metrics.IncrCounter([]string{"serf", n.kind, nameInSink}, 0)
	}
}

// reportNames sends the counts of all names to the sink. The node calls it once per second, and not for each event,
// since a report takes longer than processing an event.
func (s *Serf) reportNames() {
	s.eventNames.report()
	s.queryNames.report()
}

// countName adds one to a name's count. report sends the count later. countName returns a copy of the name, so that a
// program that keeps names doesn't keep the memory of whole events.
func (n *nameCounter) countName(text string) string {
	n.mu.Lock()
	defer n.mu.Unlock()
	n.total++
	name := n.known[text]
	if name == nil {
		if name = n.addName(strings.Clone(text)); len(n.known) < n.max && len(text) <= maxCountedLength {
			n.known[name.text] = name
		}
	}
	*name.unreported++
	return name.text
}

// addName makes the entry of a name that isn't known yet. Names with the same sink name share one count.
func (n *nameCounter) addName(text string) *countedName {
	nameInSink := sinkName(text)
	unreported := n.unreported[nameInSink]
	if unreported == nil {
		if unreported = new(int); len(n.unreported) < n.max {
			n.unreported[nameInSink] = unreported
		}
	}
	return &countedName{text, unreported}
}

// report sends the counts to the sink.
func (n *nameCounter) report() {
	n.mu.Lock()
	defer n.mu.Unlock()
	if n.total == 0 {
		return
	}
	metrics.IncrCounter([]string{"serf", n.kind}, float32(n.total))
	n.total = 0
	for name, count := range n.unreported {
		if *count > 0 {
			metrics.IncrCounter([]string{"serf", n.kind, name}, float32(*count))
			*count = 0
		}
	}
}

// sinkName replaces each character that a sink's protocol might interpret by an underscore.
func sinkName(name string) string {
	if len(name) > maxCountedLength {
		name = name[:maxCountedLength]
	}
	return strings.Map(func(r rune) rune {
		if r >= 'a' && r <= 'z' || r >= 'A' && r <= 'Z' || r >= '0' && r <= '9' || r == '-' || r == '.' {
			return r
		}
		return '_'
	}, name)
}

// incrCounter adds one to a counter.
func incrCounter(name ...string) { metrics.IncrCounter(append([]string{"serf"}, name...), 1) }

// These are the keys of the metrics that the node updates for each packet or burst. They can be shared because
// go-metrics copies a key before it changes it.
var (
	receivedKey = []string{"serf", "msgs", "received"}
	sentKey     = []string{"serf", "msgs", "sent"}
	burstKey    = []string{"serf", "burst"}
	appendKey   = []string{"serf", "snapshot", "appendLine"}
	compactKey  = []string{"serf", "snapshot", "compact"}
)

// addSample adds a size to a metric.
func addSample(size int, key []string) { metrics.AddSample(key, float32(size)) }
