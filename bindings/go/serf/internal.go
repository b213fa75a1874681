package serf

import (
	"fmt"
	"net"
	"strings"

	"kitchenrue.example/serfagent"
)

// answerInternalQueries answers the queries that agents send each other. It writes changes of the keys to the keyring
// file, and no other goroutine waits for these writes.
func (s *Serf) answerInternalQueries() {
	for {
		select {
		case <-s.ctx.Done():
			return
		case query := <-s.internalQueries:
			s.answerInternalQuery(query)
		}
	}
}

// answerInternalQuery answers one internal query.
func (s *Serf) answerInternalQuery(query *serfagent.PendingQuery) {
	suffix := strings.TrimPrefix(query.Name, InternalQueryPrefix)
	var payload []byte
	switch command := keyCommand(suffix); {
	case suffix == "ping":
		// (a ping needs only its ack, and no response)
		return
	case suffix == "conflict":
		name := string(query.Payload)
		if name == s.config.NodeName {
			return
		}
		if member, ok := s.members.get(name); ok {
			payload = encodeMember(&member)
		} else {
			payload = encodeMember(nil)
		}
	case command == installKey || command == useKey || command == removeKey || command == listKeys:
		s.log.Printf("[INFO] serf: Received %s query", suffix)
		payload = s.answerKeyQuery(command, query.Payload)
	default:
		s.log.Printf("[WARN] serf: Unhandled internal query '%s'", query.Name)
		return
	}
	if err := s.respond(query, payload); err != nil {
		s.log.Printf("[ERR] serf: the query %s was not answered: %v", query.Name, err)
	}
}

// resolveConflicts asks the other nodes which node has this node's name, if another node claims it too. The node that fewer of them know
// ends.
func (s *Serf) resolveConflicts() {
	for {
		select {
		case <-s.ctx.Done():
			return
		case <-s.conflicts:
			if err := s.resolveConflict(); err != nil {
				s.endWith(err)
				return
			}
		}
	}
}

// isMajority reports whether more than half of the answers match. If exactly half of them match, both nodes with the
// name end.
func isMajority(matching, answers int) bool { return matching > answers/2 }

// resolveConflict asks the other nodes once, and returns an error if this node has to end.
func (s *Serf) resolveConflict() error {
	self := s.memberlist().LocalNode()
	query, err := s.fireQuery(InternalQueryPrefix+"conflict", []byte(self.Name), QueryParam{})
	if err != nil {
		s.log.Printf("[ERR] serf: the query for the owner of this node's name failed: %v", err)
		return nil
	}
	answers, matching := 0, 0
	for answer := range query.responses {
		addr, port, err := decodeMemberAddr(answer.Payload)
		if err != nil || len(addr) == 0 {
			continue
		}
		answers++
		if net.IP(addr).Equal(self.Addr) && port == self.Port {
			matching++
		}
	}
	if answers == 0 {
		s.log.Print("[ERR] serf: no member answered which node has this node's name, so both nodes continue")
		return nil
	}
	if isMajority(matching, answers) {
		s.log.Printf("[INFO] serf: majority in name conflict resolution [%d / %d]", matching, answers)
		return nil
	}
	return fmt.Errorf("another node has the name %q, and only %d of the %d members that answered know this node by it: "+
		"change the name of one of the two", self.Name, matching, answers)
}
