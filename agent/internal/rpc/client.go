package rpc

import (
	"context"
	"errors"
	"fmt"
	"io"
	"net"
	"sync"
	"time"

	"kitchenrue.example/agent/internal/handlers"
	"kitchenrue.example/serf"
)

// timeouts limits how long a client may take to finish the handshake, to send the rest of a request, to accept what is
// sent to it, and to accept the final frames when the connection ends. lastRead is the time between the last answer and
// the end of the connection. Without it, Serf's own client may mistake the end of the connection for the answer.
type timeouts struct{ handshake, request, send, final, lastRead time.Duration }

var defaultTimeouts = timeouts{10 * time.Second, 10 * time.Second, 10 * time.Second, time.Second, 200 * time.Millisecond}

// maxWrite is the maximum number of bytes of frames that are written with one call. A longer frame is written alone.
const maxWrite = 32 << 10

// Limits for each client: the frames and the bytes that wait to be written; the streams, monitors and queries together;
// and the queries in its streams that it has not answered.
const (
	maxFrames     = 4096
	maxBytes      = 8 << 20
	maxStreams    = 64
	maxUnanswered = 1024
)

var errTooSlow = errors.New("too much is queued for it")

// client is a client's connection. One goroutine reads its requests, and another one writes the frames that wait.
type client struct {
	server      *Server
	conn        net.Conn
	reader      *reader
	ctx         context.Context
	cancel      context.CancelFunc
	timeouts    timeouts
	connectedAt time.Time

	// hasHandshake is true after the handshake, and isAuthenticated after the client has authenticated. readDeadline is
	// the connection's current deadline for reads, and header is the header of the last request. Only the goroutine
	// that reads uses these fields.
	hasHandshake, isAuthenticated bool
	readDeadline                  time.Time
	header                        requestHeader

	mu      sync.Mutex
	changed *sync.Cond
	// isBusy is true while a request of the client runs. lastRequest is the time at which the latest request began.
	isBusy      bool
	lastRequest time.Time
	frames      [][]byte
	bytes       int
	// isWriting is true while a goroutine writes, with writeDeadline as the connection's deadline. If isClosing is
	// true, no frames are added. If isClosed is true, nothing more is written.
	isWriting, isClosing, isClosed bool
	writeDeadline                  time.Time
	streams                        map[uint64]handlers.Filters
	subscriptions                  map[uint64]*subscription
	unanswered                     map[uint64]*serf.Query
}

func newClient(s *Server, conn net.Conn) *client {
	c := &client{
		server: s, conn: conn, isAuthenticated: s.auth == "", timeouts: s.timeouts, connectedAt: time.Now(), lastRequest: time.Now(),
		streams: map[uint64]handlers.Filters{}, subscriptions: map[uint64]*subscription{}, unanswered: map[uint64]*serf.Query{},
	}
	c.reader = newReader(deadlineReader{c})
	c.ctx, c.cancel = context.WithCancel(s.ctx)
	c.changed = sync.NewCond(&c.mu)
	return c
}

// readRequests runs requests until the client disconnects or is disconnected.
func (c *client) readRequests() {
	defer c.closeAfterQueued()
	for {
		err := c.runRequest()
		if err == nil {
			continue
		}
		if errors.Is(err, errCloseAfterAnswer) {
			c.waitForLastRead()
		}
		if !errors.Is(err, io.EOF) && !errors.Is(err, net.ErrClosed) && c.ctx.Err() == nil {
			c.server.log.Printf("[WARN] agent.ipc: disconnected %v: %v", c.conn.RemoteAddr(), err)
		}
		return
	}
}

// waitForLastRead waits so that a client can read why it is disconnected. Meanwhile, the agent reads nothing from the client.
func (c *client) waitForLastRead() {
	timer := time.NewTimer(c.timeouts.lastRead)
	defer timer.Stop()
	select {
	case <-timer.C:
	case <-c.ctx.Done():
	}
}

// errCloseAfterAnswer disconnects the client after the queued answer was sent. It wraps io.EOF, so that it isn't
// logged.
var errCloseAfterAnswer = fmt.Errorf("the client may not continue: %w", io.EOF)

// deadlineReader reads from the client with two deadlines: one for the handshake, and one for the rest of a request
// that has begun. Most requests arrive whole and need no second read.
type deadlineReader struct{ *client }

func (r deadlineReader) Read(buf []byte) (int, error) {
	var deadline time.Time
	switch {
	case r.isBusy:
		deadline = r.lastRequest.Add(r.timeouts.request)
	case !r.hasHandshake || !r.isAuthenticated:
		deadline = r.connectedAt.Add(r.timeouts.handshake)
	}
	if deadline != r.readDeadline {
		if err := r.conn.SetReadDeadline(deadline); err != nil {
			return 0, err
		}
		r.readDeadline = deadline
	}
	return r.conn.Read(buf)
}

// runRequest reads one request and runs it.
func (c *client) runRequest() error {
	if _, err := c.reader.stream.Peek(1); err != nil {
		return err
	}
	c.markRequest(true)
	defer c.markRequest(false)
	c.header = requestHeader{}
	header := &c.header
	if err := c.reader.decode(maxHeader, header); err != nil {
		return err
	}
	c.server.commands.Add(1)
	command, isKnown := commands[header.Command]
	if refusal := c.refusal(header.Command, isKnown); refusal != "" {
		c.server.log.Printf("[WARN] agent.ipc: %v requested %.40q: %s", c.conn.RemoteAddr(), header.Command, refusal)
		if isKnown && command.body != nil && c.hasHandshake {
			if _, err := c.reader.nextValue(maxBody); err != nil {
				return err
			}
		}
		if err := c.answer(header.Seq, errors.New(refusal)); err != nil || isKnown && c.hasHandshake {
			return err
		}
		return errCloseAfterAnswer
	}
	var body interface{}
	if command.body != nil {
		body = command.body()
		if err := c.reader.decode(maxBody, body); err != nil {
			return err
		}
	}
	return command.run(c, header.Seq, body)
}

// markRequest records that a request begins or ends.
func (c *client) markRequest(isBusy bool) {
	c.mu.Lock()
	defer c.mu.Unlock()
	if c.isBusy = isBusy; isBusy {
		c.lastRequest = time.Now()
	}
}

// idleSince returns when the last request began. The second result is false if the client is not idle: a request, a
// stream or a query is running, or frames wait.
func (c *client) idleSince() (time.Time, bool) {
	c.mu.Lock()
	defer c.mu.Unlock()
	return c.lastRequest, !c.isBusy && len(c.streams) == 0 && len(c.subscriptions) == 0 && len(c.frames) == 0
}

// refusal returns why a command is refused in the client's present state, or "" if it isn't refused.
func (c *client) refusal(command string, isKnown bool) string {
	switch {
	case command == "handshake":
		return ""
	case !c.hasHandshake:
		return "Handshake required"
	case command == "auth":
		return ""
	case !c.isAuthenticated:
		return "Authentication required"
	case !isKnown:
		return "Unsupported command"
	}
	return ""
}

// encodeAnswer encodes the result of a request.
func encodeAnswer(seq uint64, err error, bodies []interface{}) ([]byte, error) {
	if err == nil && len(bodies) == 0 {
		return successFrame(seq), nil
	}
	header := answerHeader{Seq: seq}
	if err != nil {
		header.Error = err.Error()
	}
	return encode(append([]interface{}{header}, bodies...)...)
}

// answer sends the result of a request. If no frames wait, it writes the answer itself instead of waking the writer.
func (c *client) answer(seq uint64, err error, bodies ...interface{}) error {
	frame, err := encodeAnswer(seq, err, bodies)
	if err != nil {
		return err
	}
	c.mu.Lock()
	if len(c.frames) > 0 || c.isWriting || c.isClosed || c.isClosing {
		c.mu.Unlock()
		return c.queueFrame(frame)
	}
	c.isWriting = true
	c.mu.Unlock()
	return c.writeFrames(frame, c.timeouts.send)
}

// send queues values as one frame.
func (c *client) send(values ...interface{}) error {
	frame, err := encode(values...)
	if err != nil {
		return err
	}
	return c.queueFrame(frame)
}

// queueFrame adds a frame to those that wait to be written. It doesn't block. If the limits of waiting frames are reached,
// it disconnects the client.
func (c *client) queueFrame(frame []byte) error {
	c.mu.Lock()
	defer c.mu.Unlock()
	if c.isClosed || c.isClosing {
		return net.ErrClosed
	}
	if len(c.frames) >= maxFrames || c.bytes+len(frame) > maxBytes {
		c.isClosed = true
		c.conn.Close()
		c.changed.Broadcast()
		return errTooSlow
	}
	c.frames = append(c.frames, frame)
	c.bytes += len(frame)
	c.changed.Signal()
	return nil
}

// nextFrames waits for frames, and appends those that are written together to buf. It returns no bytes if
// the connection is closed, or if it is closing and no frame waits.
func (c *client) nextFrames(buf []byte) ([]byte, time.Duration) {
	c.mu.Lock()
	defer c.mu.Unlock()
	for (c.isWriting || len(c.frames) == 0 && !c.isClosing) && !c.isClosed {
		c.changed.Wait()
	}
	if c.isClosed {
		return nil, 0
	}
	c.isWriting = true
	for len(c.frames) > 0 && (len(buf) == 0 || len(buf)+len(c.frames[0]) <= maxWrite) {
		buf = append(buf, c.frames[0]...)
		c.bytes -= len(c.frames[0])
		c.frames[0] = nil
		c.frames = c.frames[1:]
	}
	if c.isClosing {
		return buf, c.timeouts.final
	}
	return buf, c.timeouts.send
}

// writeQueued writes the waiting frames until the connection ends.
func (c *client) writeQueued() {
	defer c.close()
	var buf []byte
	for {
		frames, timeout := c.nextFrames(buf[:0])
		if len(frames) == 0 || c.writeFrames(frames, timeout) != nil {
			return
		}
		if buf = frames; cap(buf) > 2*maxWrite {
			buf = nil
		}
	}
}

// writeFrames writes frames within timeout, or within up to a quarter less, because it doesn't set a new deadline for
// each write. If the write fails, it disconnects the client. Only the goroutine that set isWriting calls it.
func (c *client) writeFrames(frames []byte, timeout time.Duration) error {
	if deadline := time.Now().Add(timeout); c.writeDeadline.After(deadline) || c.writeDeadline.Before(deadline.Add(-timeout/4)) {
		_ = c.conn.SetWriteDeadline(deadline)
		c.writeDeadline = deadline
	}
	_, err := c.conn.Write(frames)
	if err != nil {
		c.close()
		return net.ErrClosed
	}
	c.mu.Lock()
	defer c.mu.Unlock()
	if c.isWriting = false; len(c.frames) > 0 || c.isClosing {
		c.changed.Signal()
	}
	return nil
}

// closeAfterQueued disconnects the client after the waiting frames are written.
func (c *client) closeAfterQueued() {
	c.cancel()
	c.mu.Lock()
	defer c.mu.Unlock()
	c.isClosing = true
	c.streams = nil
	_ = c.conn.SetWriteDeadline(time.Now().Add(c.timeouts.final))
	c.changed.Broadcast()
}

// close disconnects the client at once.
func (c *client) close() {
	c.cancel()
	c.mu.Lock()
	defer c.mu.Unlock()
	c.isClosed = true
	c.frames = nil
	c.conn.Close()
	c.changed.Broadcast()
}

// hasMaxStreams reports whether the client has maxStreams streams, monitors and queries.
func (c *client) hasMaxStreams() bool {
	c.mu.Lock()
	defer c.mu.Unlock()
	return len(c.streams)+len(c.subscriptions) >= maxStreams
}

// subscription is a monitor or a query of a client. It sends records to the client.
type subscription struct{ stop context.CancelFunc }

// subscribe runs a function that sends records with this sequence number, until it ends, is stopped, or the client
// disconnects.
func (c *client) subscribe(seq uint64, run func(ctx context.Context)) {
	ctx, cancel := context.WithCancel(c.ctx)
	current := &subscription{cancel}
	c.mu.Lock()
	if old := c.subscriptions[seq]; old != nil {
		old.stop()
	}
	c.subscriptions[seq] = current
	c.mu.Unlock()
	c.server.goroutines.Add(1)
	go func() {
		defer c.server.goroutines.Done()
		run(ctx)
		cancel()
		c.mu.Lock()
		defer c.mu.Unlock()
		if c.subscriptions[seq] == current {
			delete(c.subscriptions, seq)
		}
	}()
}

// publishedEvent is an event for the streams of all clients.
type publishedEvent struct {
	serf.Event
	// number identifies a query in respond requests.
	number uint64
	record []byte
}

// frameAfter returns the event's record after a header. The record is encoded only once for all streams.
func (p *publishedEvent) frameAfter(header answerHeader) ([]byte, error) {
	var err error
	if p.record == nil {
		if p.record, err = encode(recordOf(p.Event, p.number)); err != nil {
			return nil, err
		}
	}
	frame, err := encode(header)
	return append(frame, p.record...), err
}

// publish sends an event to the client's streams whose filters match it.
func (c *client) publish(e *publishedEvent) {
	c.mu.Lock()
	var seqs []uint64
	for seq, filters := range c.streams {
		if filters.Matches(e.Event) {
			seqs = append(seqs, seq)
		}
	}
	if query, ok := e.Event.(*serf.Query); ok && len(seqs) > 0 {
		c.rememberQuery(e.number, query)
	}
	c.mu.Unlock()
	for _, seq := range seqs {
		frame, err := e.frameAfter(answerHeader{Seq: seq})
		if err == nil {
			err = c.queueFrame(frame)
		}
		if err != nil {
			if errors.Is(err, errTooSlow) {
				c.server.log.Printf("[WARN] agent.ipc: disconnected %v: %v", c.conn.RemoteAddr(), err)
			}
			return
		}
	}
}

// rememberQuery keeps a query that the client may answer, and forgets those whose deadline has passed.
func (c *client) rememberQuery(number uint64, query *serf.Query) {
	now := time.Now()
	for number, unanswered := range c.unanswered {
		if now.After(unanswered.Deadline()) {
			delete(c.unanswered, number)
		}
	}
	if len(c.unanswered) < maxUnanswered {
		c.unanswered[number] = query
	}
}
