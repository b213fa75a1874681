package serf

import "errors"

// Error is the reason why the node refused a call before it called the proved agent. The refused call had no effect.
type Error string

func (e Error) Error() string { return string(e) }

// Reasons why a call is refused.
const (
	// ErrBusy: the maximum number of events (Waiting) is waiting for EventCh. UserEvent returns it after BroadcastTimeout, and Query at
	// once.
	ErrBusy Error = "too many events are waiting for their reader: try again later"
	// ErrQueries: the maximum number of this node's queries (MaxQueries) is open.
	ErrQueries Error = "too many queries of this node are open: wait until one of them times out"
	// ErrTimeout: the query's timeout is below 0 or above MaxTimeout.
	ErrTimeout Error = "a query's timeout must be between 0 and an hour"
	// ErrInternal: the query's name begins with InternalQueryPrefix, and the query is not a ping.
	ErrInternal Error = "a query's name must not begin with " + InternalQueryPrefix
	// ErrNotOpen: the event is done, or this node never handed it out.
	ErrNotOpen Error = "the event is not open: it is done, or it was never handed out here"
	// ErrNotBegun: Begin was never called for the event.
	ErrNotBegun Error = "the handler of the event has not begun"
	// ErrAlreadyBegun: Begin, or BeginAgain, was called for the event before.
	ErrAlreadyBegun Error = "the handler of the event has begun before"
	// ErrEnded: the node was shut down.
	ErrEnded Error = "the node was shut down"
	// ErrLeft: the node is leaving, has left or was shut down.
	ErrLeft Error = "Serf can't Join after Leave or Shutdown"
)

// FieldError is the error that Create returns if it refuses the value of a field of the configuration.
type FieldError struct {
	Field string
	Err   error
}

func (f *FieldError) Error() string { return f.Field + ": " + f.Err.Error() }
func (f *FieldError) Unwrap() error { return f.Err }

// UncertainError is the error that FireContext returns if its context ends while the event's line is being flushed. The
// event may have been fired, so firing it again may create a second event. Err is the context's error.
type UncertainError struct{ Err error }

func (u *UncertainError) Error() string {
	return "the event may or may not have been fired: " + u.Err.Error()
}
func (u *UncertainError) Unwrap() error { return u.Err }

// FeatureNotSupported is returned by calls that the configured ProtocolVersion does not support.
//
//lint:ignore ST1005,ST1012 Serf's own name and message
var FeatureNotSupported = errors.New("Feature not supported")
