package main

import (
	"bytes"
	"errors"
	"fmt"
	"strconv"
	"sync"
	"time"

	"kitchenrue.example/serf"
	"kitchenrue.example/serfagent"
)

// delivery is an event or a query that a node handed out.
type delivery struct {
	isQuery       bool
	time          serf.LamportTime
	name, payload string
}

func (d delivery) String() string {
	if d.isQuery {
		return fmt.Sprintf("query %s at time %d", d.name, d.time)
	}
	return fmt.Sprintf("event %s at time %d", d.name, d.time)
}

// firing is a call of a node that fires an event or a query.
type firing struct {
	node, life int
	payload    string
	// order is the number of the firing, at is the moment when it began, and time is its Lamport time if the node
	// accepted it.
	order      int
	at         time.Time
	time       serf.LamportTime
	isAccepted bool
	// isRefused is true if the node returned an error other than that of a failed disk. Then no node may hand out the
	// event.
	isRefused bool
}

// history is the record of a node's deliveries and answers in all its lives.
type history struct {
	// deliveries has the life in which the node handed out each delivery, and names has the names of all deliveries.
	deliveries map[delivery]int
	names      map[string]bool
	// largest is the largest time of an event that the node handed out, or that it fired and accepted.
	largest serf.LamportTime
	// answered has the queries that the node answered.
	answered map[string]bool
}

// ledger records what the nodes of a cluster fire and hand out, and which promises were broken.
type ledger struct {
	journal *journal

	mu            sync.Mutex
	violations    []string
	firings       map[string]*firing
	histories     []*history
	forged        map[string]bool
	attempts      int
	accepted      int
	deliveryCount int
	// isForgeable is true if a hostile member changed packets. Then nodes may hand out events that nobody fired.
	isForgeable bool
	// onViolation, if it isn't nil, is called at the first broken promise.
	onViolation func()
}

func newLedger(j *journal, nodes int, isForgeable bool) *ledger {
	l := &ledger{journal: j, firings: map[string]*firing{}, forged: map[string]bool{}, isForgeable: isForgeable}
	for i := 0; i < nodes; i++ {
		l.histories = append(l.histories, &history{deliveries: map[delivery]int{}, names: map[string]bool{}, answered: map[string]bool{}})
	}
	return l
}

// maxViolations is the maximum number of broken promises that are reported.
const maxViolations = 20

// violate records that a promise is broken.
func (l *ledger) violate(promise, format string, values ...interface{}) {
	l.mu.Lock()
	defer l.mu.Unlock()
	l.violateLocked(promise, format, values...)
}

// violateLocked is violate with mu held.
func (l *ledger) violateLocked(promise, format string, values ...interface{}) {
	text := promise + ": " + fmt.Sprintf(format, values...)
	l.journal.add("VIOLATION %s", text)
	if len(l.violations) < maxViolations {
		l.violations = append(l.violations, fmt.Sprintf("%.6f s: %s", l.journal.elapsed().Seconds(), text))
	}
	if l.onViolation != nil {
		l.onViolation()
	}
}

// beginFiring records that a node is about to fire something. It returns a name for it, and the largest Lamport time
// that the node had handed out or fired by then.
func (l *ledger) beginFiring(prefix string, node, life int, payload func(name string) string) (name string, largest serf.LamportTime) {
	l.mu.Lock()
	defer l.mu.Unlock()
	l.attempts++
	name = prefix + strconv.Itoa(l.attempts)
	l.firings[name] = &firing{node: node, life: life, payload: payload(name), order: l.attempts, at: time.Now()}
	return name, l.histories[node].largest
}

// payloadOf returns the payload of the firing with this name.
func (l *ledger) payloadOf(name string) []byte {
	l.mu.Lock()
	defer l.mu.Unlock()
	return []byte(l.firings[name].payload)
}

// recordFiring records the result of firing an event. before is the largest Lamport time of the node when the firing
// began.
func (l *ledger) recordFiring(name string, at, largestBefore serf.LamportTime, err error) {
	l.mu.Lock()
	defer l.mu.Unlock()
	f := l.firings[name]
	l.journal.add("fired n%d.%d %s %d %v", f.node, f.life, name, at, err)
	if err != nil {
		// (a failed disk may keep the event's line nevertheless; then the next life restores the event and sends it)
		f.isRefused = !errors.Is(err, serfagent.ErrFailed)
		for i, h := range l.histories {
			if h.names[name] {
				l.violateLocked("refused", "n%d handed out event %s, which n%d refused: %v", i, name, f.node, err)
			}
		}
		return
	}
	f.isAccepted, f.time = true, at
	l.accepted++
	if at <= largestBefore {
		l.violateLocked("later", "n%d.%d fired event %s at time %d, after it had handed out or fired one of time %d",
			f.node, f.life, name, at, largestBefore)
	}
	if h := l.histories[f.node]; at > h.largest {
		h.largest = at
	}
}

// recordDelivery records that a node handed out an event or a query.
func (l *ledger) recordDelivery(node, life int, d delivery) {
	l.mu.Lock()
	defer l.mu.Unlock()
	l.deliveryCount++
	l.journal.add("handed out n%d.%d %s", node, life, d)
	h := l.histories[node]
	// (if a hostile member changed bytes, this may be another query with the same name and time; its ID isn't visible
	// here)
	if earlier, ok := h.deliveries[d]; ok && !(d.isQuery && l.isForgeable) {
		l.violateLocked("once", "n%d handed out %s in life %d and again in life %d", node, d, earlier, life)
	}
	if d.time >= serf.FarTime && !l.isForgeable {
		l.violateLocked("far", "n%d handed out %s, which is implausibly far", node, d)
	}
	h.deliveries[d] = life
	h.names[d.name] = true
	if !d.isQuery && d.time > h.largest {
		h.largest = d.time
	}
	f := l.firings[d.name]
	switch {
	case l.forged[d.name] || l.isForgeable && (f == nil || f.payload != d.payload || f.time != d.time):
	case f == nil:
		l.violateLocked("invented", "n%d handed out %s, which nobody fired", node, d)
	case f.payload != d.payload:
		l.violateLocked("invented", "n%d handed out %s with another payload than it was fired with", node, d)
	case f.isAccepted && !d.isQuery && f.time != d.time:
		l.violateLocked("invented", "n%d handed out %s, which was fired at time %d", node, d, f.time)
	case f.isRefused:
		l.violateLocked("refused", "n%d handed out %s, which n%d refused", node, d, f.node)
	}
}

// hasHandedOut reports whether a node handed out an event or a query with this name.
func (l *ledger) hasHandedOut(node int, name string) bool {
	l.mu.Lock()
	defer l.mu.Unlock()
	return l.histories[node].names[name]
}

// recordAnswer records that a node answered a query.
func (l *ledger) recordAnswer(node int, query string) {
	l.mu.Lock()
	defer l.mu.Unlock()
	l.histories[node].answered[query] = true
}

// hasAnswered reports whether a node answered a query.
func (l *ledger) hasAnswered(node int, query string) bool {
	l.mu.Lock()
	defer l.mu.Unlock()
	return l.histories[node].answered[query]
}

// addForged records the name of an event that a hostile member forges.
func (l *ledger) addForged(name string) {
	l.mu.Lock()
	defer l.mu.Unlock()
	l.forged[name] = true
}

// acceptedIf returns the names of the accepted events for which holds returns true, in the order in which they were
// fired.
func (l *ledger) acceptedIf(holds func(f *firing) bool) []string {
	l.mu.Lock()
	defer l.mu.Unlock()
	var names []string
	for order := 1; order <= l.attempts; order++ {
		name := "e" + strconv.Itoa(order)
		if f := l.firings[name]; f != nil && f.isAccepted && holds(f) {
			names = append(names, name)
		}
	}
	return names
}

// firingsBegun returns how many firings have begun until now.
func (l *ledger) firingsBegun() int {
	l.mu.Lock()
	defer l.mu.Unlock()
	return l.attempts
}

// isFlushed reports whether a restart from a flushed text would not hand out this delivery again.
func isFlushed(text []byte, d delivery, keepsEvents bool, buffer int) bool {
	prefix, kept := "event-clock: ", "#event "
	if d.isQuery {
		prefix, kept = "query-clock: ", "#query "
	}
	clock := lastNumber(text, prefix)
	if !keepsEvents {
		return clock >= uint64(d.time)
	}
	line := fmt.Sprintf("%s%d ", kept, d.time)
	return clock >= uint64(d.time)+uint64(buffer) || clock >= uint64(d.time) && hasLine(text, line)
}

// hasLine reports whether a line of the text begins with a prefix.
func hasLine(text []byte, prefix string) bool {
	return bytes.HasPrefix(text, []byte(prefix)) || bytes.Contains(text, []byte("\n"+prefix))
}

// lastNumber returns the number in the last whole line that begins with a prefix, or 0 if there is none.
func lastNumber(text []byte, prefix string) uint64 {
	for end := len(text); end > 0; {
		from := bytes.LastIndex(text[:end], []byte(prefix))
		if from < 0 {
			return 0
		}
		length := bytes.IndexByte(text[from:], '\n')
		if length >= 0 && (from == 0 || text[from-1] == '\n') {
			if number, err := strconv.ParseUint(string(text[from+len(prefix):from+length]), 10, 64); err == nil {
				return number
			}
		}
		end = from
	}
	return 0
}
