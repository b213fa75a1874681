package guard

import (
	"crypto/cipher"
	"io"
	"net"
	"net/netip"
	"sync/atomic"
	"time"
)

// stream is a connection with one message. memberlist's first Read inspects the whole message before it returns a byte
// of it.
type stream struct {
	net.Conn
	*core
	// isDialed is true if this node opened the connection, so that the message is an answer. peer is the address of the
	// other end, or an invalid address if the transport has none.
	isDialed bool
	peer     netip.AddrPort
	// joinRefusal is the reason why no node of a join is admitted, or none.
	joinRefusal Reason
	// done is closed when the stream ends.
	done chan struct{}
	// deadline is the deadline that memberlist set, in nanoseconds since 1970.
	deadline atomic.Int64

	// input has the bytes that were received, and readable those that memberlist may still read. endErr is the error that
	// Read returns after these bytes, and readErr is the network's error.
	input           reader
	isInspected     bool
	readable        []byte
	endErr, readErr error

	// streams.mu guards these fields. isComplete: the whole message has arrived. isClosed: the stream was evicted or
	// closed. load: the memory and places that the stream holds. pushPullSince: when memberlist began to answer the
	// stream's push/pull.
	isComplete, isClosed bool
	load                 load
	pushPullSince        time.Time
}

// minStreamBuffer is the first size of a stream's buffer in bytes. maxStreamWait is how long a stream without a
// deadline waits for room.
const (
	minStreamBuffer = 512
	maxStreamWait   = 10 * time.Second
)

// newStream returns a stream that inspects the connection's message when it is first read.
func (c *core) newStream(conn net.Conn, isDialed bool) *stream {
	s := &stream{Conn: conn, core: c, isDialed: isDialed, done: make(chan struct{})}
	s.input.More = s.readMore
	s.storeDeadline(time.Time{})
	return s
}

// storeDeadline stores when the stream stops waiting for room. The zero time means maxStreamWait from now.
func (s *stream) storeDeadline(at time.Time) {
	if at.IsZero() {
		at = time.Now().Add(maxStreamWait)
	}
	s.deadline.Store(at.UnixNano())
}

// SetDeadline implements net.Conn.
func (s *stream) SetDeadline(at time.Time) error {
	s.storeDeadline(at)
	return s.Conn.SetDeadline(at)
}

// SetReadDeadline implements net.Conn.
func (s *stream) SetReadDeadline(at time.Time) error {
	s.storeDeadline(at)
	return s.Conn.SetReadDeadline(at)
}

// Close implements net.Conn.
func (s *stream) Close() error {
	s.streams.release(s)
	return s.Conn.Close()
}

// Read implements net.Conn. It returns an error if the stream is refused. If another node opened the stream, only one
// refused stream per second returns its error and the rest end with io.EOF, so that refusals don't fill memberlist's
// log.
func (s *stream) Read(p []byte) (int, error) {
	if !s.isInspected {
		s.isInspected, s.endErr = true, io.EOF
		out, reason := s.inspect()
		if reason == none {
			s.readable = out
		} else {
			s.refuse(reason)
		}
		s.input.Data = nil
	}
	if len(s.readable) == 0 {
		return 0, s.endErr
	}
	n := copy(p, s.readable)
	s.readable = s.readable[n:]
	return n, nil
}

// refuse counts a refusal, and sets the error that Read returns.
func (s *stream) refuse(reason Reason) {
	select {
	case <-s.done:
		return // It was evicted, and evict counted it.
	default:
	}
	// If no byte was received, nothing was dropped. The entries of a refused join are counted already.
	if (reason != Short || len(s.input.Data) > 0) && s.joinRefusal == none {
		s.drops.add(reason)
	}
	switch {
	case s.joinRefusal != none && !s.isDialed:
		s.sendRefusal(reason)
	case reason == Short && s.readErr != io.EOF:
		s.endErr = s.readErr
	case reason != Short && (s.isDialed || s.loggedRefusals.allows(1)):
		s.endErr = refusalError(reason)
	}
}

// readMore reads at least count bytes from the network. With each step, the buffer at most doubles its size, whatever
// length the message claims.
func (s *stream) readMore(count int) error {
	for count > 0 {
		received := len(s.input.Data)
		if received+count > s.bounds.StreamBytes {
			return refusalError(TooLong)
		}
		if received == cap(s.input.Data) {
			size := min(2*received+minStreamBuffer, s.bounds.StreamBytes)
			if count > minStreamBuffer {
				size = min(size, received+count)
			}
			if reason := s.streams.reserve(s, size-received); reason != none {
				return refusalError(reason)
			}
			s.input.Data = append(make([]byte, 0, size), s.input.Data...)
		}
		n, err := s.Conn.Read(s.input.Data[received:cap(s.input.Data)])
		s.input.Data = s.input.Data[:received+n]
		count -= n
		if err != nil && count > 0 {
			s.readErr = err
			return refusalError(Short)
		}
	}
	return nil
}

// inspect reads the message, and returns the bytes that memberlist may read (net.go, readStream).
func (s *stream) inspect() ([]byte, Reason) {
	msgType, ciphers := byte(s.input.Uint(1)), s.ring.currentCiphers()
	var changed []byte
	var isPushPull bool
	switch {
	case s.input.Err != nil:
	case msgType == msgEncrypt && len(ciphers) == 0:
		return nil, Sealed
	case msgType == msgEncrypt:
		changed, isPushPull = s.inspectEncrypted(ciphers)
	case len(ciphers) > 0 && s.verifyIn:
		return nil, Plain
	default:
		s.input.At = 0
		changed, isPushPull = s.inspectMessage(&s.input, true)
	}
	if s.input.Err != nil {
		return nil, s.input.failure()
	}
	out := s.input.Data[:s.input.At]
	if changed != nil {
		out = changed
	}
	// The bytes that memberlist may read count as held until it closes the stream.
	s.streams.markComplete(s)
	s.streams.reserve(s, cap(out)-s.load.bytes)
	if isPushPull && !s.isDialed {
		count, _ := s.members.known("")
		return out, s.streams.startPushPull(s, count*answerBytesPerNode)
	}
	return out, none
}

// inspectEncrypted inspects an encrypted message (net.go, decryptRemoteState), and encrypts it again if the inspection
// changed it.
func (s *stream) inspectEncrypted(ciphers []cipher.AEAD) (changed []byte, isPushPull bool) {
	length := s.input.Uint(streamHeader - 1)
	if length > uint64(s.bounds.StreamBytes) {
		s.input.failWith(TooLong)
	}
	body := s.input.Take(int(length))
	s.input.failWith(s.streams.reserve(s, len(body)))
	if s.input.Err != nil {
		return nil, false
	}
	data, reason := open(ciphers, body, s.input.Data[:streamHeader], make([]byte, 0, len(body)))
	s.input.failWith(reason)
	plain := newReader(data)
	changed, isPushPull = s.inspectWrapped(&plain, true)
	if changed != nil && s.input.Err == nil {
		s.input.failWith(s.streams.reserve(s, len(changed)))
		changed = sealStream(ciphers[0], changed)
	}
	return changed, isPushPull
}

// inspectWrapped inspects a whole message that was inside a wrapper.
func (s *stream) inspectWrapped(r *reader, mayBeCompressed bool) (changed []byte, isPushPull bool) {
	if s.input.Err == nil {
		changed, isPushPull = s.inspectMessage(r, mayBeCompressed)
		s.input.failWith(r.failure())
		if r.At < len(r.Data) {
			s.input.failWith(Trailing)
		}
	}
	return changed, isPushPull
}

// inspectMessage inspects the message of a stream. It returns nil if memberlist may read the message unchanged. If the
// message is refused, the reader has the reason.
func (s *stream) inspectMessage(r *reader, mayBeCompressed bool) (changed []byte, isPushPull bool) {
	msgType := byte(r.Uint(1))
	isRequest, isAnswer := msgType == msgUser || msgType == msgPing, msgType == msgAck || msgType == msgErr
	isPushPull = msgType == msgPushPull
	var values [maxFields]value
	switch {
	case r.Err != nil:
	case msgType == msgCompress && mayBeCompressed:
		var data []byte
		reason := r.readFields(s.schemas.byType[msgType], &values)
		if reason == none {
			reserve := func(growth int) Reason { return s.streams.reserve(s, growth) }
			data, reason = inflate(values[fieldCompressBuf].bytes, nil, s.bounds.StreamBytes, reserve)
		}
		if r.failWith(reason); r.Err == nil {
			inner := newReader(data)
			return s.inspectWrapped(&inner, false)
		}
	case isWrapper(msgType):
		r.failWith(Nested)
	case !isPushPull && !(isRequest && !s.isDialed) && !(isAnswer && s.isDialed):
		r.failWith(Kind)
	case isPushPull:
		changed = s.inspectPushPull(r)
	default:
		if r.failWith(r.readFields(s.schemas.byType[msgType], &values)); msgType == msgUser {
			r.Take(int(values[fieldUserLen].number))
		}
	}
	return changed, isPushPull
}
