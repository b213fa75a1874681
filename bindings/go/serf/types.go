package serf

// These are the types of messages that the proved library, or this package, reads and writes.
const (
	leaveType            = 0
	joinType             = 1
	stateType            = 2
	eventType            = 3
	queryType            = 4
	conflictResponseType = 6
	keyRequestType       = 7
	keyResponseType      = 8
	relayType            = 9
)
