package serf

import "sync"

// maxQueuedBytes is how many bytes of packets may wait for the proved agent. The same limit applies separately to
// states.
const maxQueuedBytes = 64 << 20

// maxPacketLength is the maximum length of a packet in bytes. No agent sends a packet that does not fit into a
// datagram.
const maxPacketLength = 1 << 16

// queuedMessage is a packet or a state. isJoin is true if the state arrived with a join that ignores old events.
type queuedMessage struct {
	data   []byte
	isJoin bool
}

// queue has the packets, or the states, that were received and wait for the proved agent. No method holds its lock for
// long.
type queue struct {
	mu       sync.Mutex
	messages []queuedMessage
	bytes    int
	// ready has a value when a message is waiting.
	ready chan struct{}
}

func newQueue() *queue { return &queue{ready: make(chan struct{}, 1)} }

// add queues a copy of a message, since memberlist reuses the message's bytes after the call. It returns false if there
// is no room.
func (q *queue) add(data []byte, isJoin bool) bool {
	q.mu.Lock()
	defer q.mu.Unlock()
	if len(q.messages) >= Waiting || q.bytes+len(data) > maxQueuedBytes {
		return false
	}
	q.messages = append(q.messages, queuedMessage{append([]byte(nil), data...), isJoin})
	q.bytes += len(data)
	q.signalIfWaiting()
	return true
}

// next removes the first message and returns it, or false if none is waiting.
func (q *queue) next() (queuedMessage, bool) {
	q.mu.Lock()
	defer q.mu.Unlock()
	if len(q.messages) == 0 {
		return queuedMessage{}, false
	}
	first := q.messages[0]
	q.messages[0] = queuedMessage{}
	q.messages = q.messages[1:]
	q.bytes -= len(first.data)
	q.signalIfWaiting()
	return first, true
}

// signalAgain signals again if messages are waiting. A receiver calls it if it consumed a signal but processed no
// message.
func (q *queue) signalAgain() {
	q.mu.Lock()
	defer q.mu.Unlock()
	q.signalIfWaiting()
}

// signalIfWaiting signals if messages are waiting. The caller holds mu.
func (q *queue) signalIfWaiting() {
	if len(q.messages) > 0 {
		signal(q.ready)
	}
}

// maxQueuedLines is how many lines may wait to be written to the snapshot.
const maxQueuedLines = 1 << 16

// lineQueue has the lines that wait to be written to the snapshot.
type lineQueue struct {
	mu           sync.Mutex
	waiting      []string
	isOverflowed bool
	ready        chan struct{}
}

func newLineQueue() *lineQueue { return &lineQueue{ready: make(chan struct{}, 1)} }

// add queues a line. If too many lines are waiting, it drops the line and requests a rewrite of the lines of all
// members.
func (l *lineQueue) add(line string) {
	if line == "" {
		return
	}
	l.mu.Lock()
	defer l.mu.Unlock()
	if len(l.waiting) < maxQueuedLines {
		l.waiting = append(l.waiting, line)
	} else {
		l.isOverflowed = true
	}
	signal(l.ready)
}

// rewriteAll requests a rewrite of the lines of all members.
func (l *lineQueue) rewriteAll() {
	l.mu.Lock()
	defer l.mu.Unlock()
	l.isOverflowed = true
	signal(l.ready)
}

// take removes all waiting lines and returns them. It also returns whether the lines of all members have to be
// rewritten.
func (l *lineQueue) take() ([]string, bool) {
	l.mu.Lock()
	defer l.mu.Unlock()
	lines, isOverflowed := l.waiting, l.isOverflowed
	l.waiting, l.isOverflowed = nil, false
	return lines, isOverflowed
}
