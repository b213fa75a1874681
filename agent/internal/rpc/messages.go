package rpc

import (
	"net"

	"github.com/hashicorp/serf/coordinate"

	"kitchenrue.example/serf"
)

// The messages of the protocol. The names of the fields are part of it.

type requestHeader struct {
	Command string
	Seq     uint64
}

type answerHeader struct {
	Seq   uint64
	Error string
}

type handshakeBody struct{ Version int32 }

type authBody struct{ AuthKey string }

type eventBody struct {
	Name     string
	Payload  []byte
	Coalesce bool
}

type forceLeaveBody struct {
	Node  string
	Prune bool
}

type joinBody struct {
	Existing []string
	Replay   bool
}

type joinAnswer struct{ Num int32 }

type filteredBody struct {
	Tags         map[string]string
	Status, Name string
}

type membersAnswer struct{ Members []member }

type tagsBody struct {
	Tags       map[string]string
	DeleteTags []string
}

type streamBody struct{ Type string }

type monitorBody struct{ LogLevel string }

type stopBody struct{ Stop uint64 }

type queryBody struct {
	FilterNodes []string
	FilterTags  map[string]string
	RequestAck  bool
	RelayFactor uint8
	Timeout     int64
	Name        string
	Payload     []byte
}

type respondBody struct {
	ID      uint64
	Payload []byte
}

type keyBody struct{ Key string }

type coordinateBody struct{ Node string }

type coordinateAnswer struct {
	Coord coordinate.Coordinate
	Ok    bool
}

type keyAnswer struct {
	Messages                  map[string]string
	NumErr, NumNodes, NumResp int
	Keys                      map[string]int
}

type queryResult struct {
	Type, From string
	Payload    []byte
}

type logLine struct{ Log string }

type memberEvent struct {
	Event   string
	Members []member
}

type userEvent struct {
	Event    string
	LTime    uint64
	Name     string
	Payload  []byte
	Coalesce bool
}

type queryEvent struct {
	Event   string
	ID      uint64
	LTime   uint64
	Name    string
	Payload []byte
}

type member struct {
	Name        string
	Addr        net.IP
	Port        uint16
	Tags        map[string]string
	Status      string
	ProtocolMin uint8
	ProtocolMax uint8
	ProtocolCur uint8
	DelegateMin uint8
	DelegateMax uint8
	DelegateCur uint8
}

// membersOf returns the members as the protocol has them.
func membersOf(members []serf.Member) []member {
	list := make([]member, 0, len(members))
	for _, m := range members {
		addr := m.Addr
		if ipv4 := addr.To4(); ipv4 != nil {
			addr = ipv4
		}
		tags := m.Tags
		if tags == nil {
			tags = map[string]string{}
		}
		list = append(list, member{
			m.Name, addr, m.Port, tags, m.Status.String(), m.ProtocolMin, m.ProtocolMax, m.ProtocolCur,
			m.DelegateMin, m.DelegateMax, m.DelegateCur,
		})
	}
	return list
}

// recordOf returns the record of an event in a stream. number identifies a query.
func recordOf(e serf.Event, number uint64) interface{} {
	switch e := e.(type) {
	case serf.UserEvent:
		return userEvent{"user", uint64(e.LTime), e.Name, e.Payload, e.Coalesce}
	case *serf.Query:
		return queryEvent{"query", number, uint64(e.LTime), e.Name, e.Payload}
	}
	members := e.(serf.MemberEvent)
	return memberEvent{members.Type.String(), membersOf(members.Members)}
}
