package serf

import (
	"fmt"
	"net"
)

// MemberStatus is the status of a member.
type MemberStatus int

// The statuses of members.
const (
	StatusNone MemberStatus = iota
	StatusAlive
	StatusLeaving
	StatusLeft
	StatusFailed
)

var memberStatuses = []string{"none", "alive", "leaving", "left", "failed"}

// String panics if there is no such status, as Serf's does.
func (s MemberStatus) String() string {
	if s < 0 || int(s) >= len(memberStatuses) {
		panic(fmt.Sprintf("unknown MemberStatus: %d", int(s)))
	}
	return memberStatuses[s]
}

// Member is a node of the cluster, as this node knows it.
type Member struct {
	Name   string
	Addr   net.IP
	Port   uint16
	Tags   map[string]string
	Status MemberStatus

	// ProtocolMin to ProtocolMax are the versions of memberlist's protocol that the node supports, and ProtocolCur is
	// the one that it speaks. DelegateMin, DelegateMax and DelegateCur are the same for Serf's protocol.
	ProtocolMin uint8
	ProtocolMax uint8
	ProtocolCur uint8
	DelegateMin uint8
	DelegateMax uint8
	DelegateCur uint8
}
