package serf

import (
	"errors"
	"fmt"
	"net"

	"github.com/hashicorp/memberlist"

	"kitchenrue.example/serfagent"
)

// respond answers a query that was handed out.
func (s *Serf) respond(query *serfagent.PendingQuery, payload []byte) error {
	packet, err := s.agent.Respond(s.now(), query.Number, payload)
	switch {
	case errors.Is(err, serfagent.NotPending) && s.now() > query.Deadline:
		// (the proved agent forgets a query when its deadline has passed)
		return errTooLate
	case errors.Is(err, serfagent.NotPending):
		return errAnswered
	case errors.Is(err, serfagent.PastDeadline):
		return errTooLate
	case errors.Is(err, serfagent.TooLarge):
		return fmt.Errorf("response exceeds limit of %d bytes", s.config.QueryResponseSizeLimit)
	case err != nil:
		return err
	}
	s.sendReply(query, packet)
	return nil
}

// maxRelays is the maximum number of nodes through which an answer is relayed. A query's relay factor may be up to 255, so without this
// limit one forged query could make each node send hundreds of packets.
const maxRelays = 8

// relays returns the nodes that relay an answer in addition to the direct packet. Their number is the query's relay
// factor, but at most maxRelays. As in Serf, relays returns none if the cluster has fewer other nodes than the relay
// factor. It also returns none if no member has the name and address of the query's source, since the relays would drop
// the answer.
func (s *Serf) relays(query *serfagent.PendingQuery) []Member {
	factor := int(query.RelayFactor)
	if factor == 0 || s.members.size() < factor+1 || !s.isMember(query.Source, query.Addr, query.Port) {
		return nil
	}
	if factor > maxRelays {
		factor = maxRelays
	}
	return s.members.pickOthers(factor, query.Source)
}

// isMember reports whether a member has this name and address.
func (s *Serf) isMember(name string, addr net.IP, port uint16) bool {
	member, ok := s.members.get(name)
	return ok && member.Addr.Equal(addr) && member.Port == port
}

// sendReply sends an ack or a response to the node that fired the query, and through its relays.
func (s *Serf) sendReply(query *serfagent.PendingQuery, packet []byte) {
	self := s.memberlist().LocalNode()
	if query.Source == self.Name && self.Addr.Equal(query.Addr) && self.Port == query.Port {
		delegate{s}.NotifyMsg(packet)
		return
	}
	s.sendToNode(query.Source, query.Addr, query.Port, packet)
	relays := s.relays(query)
	if len(relays) == 0 {
		return
	}
	relayed := encodeRelay(relay{addr: query.Addr, port: query.Port, name: query.Source, message: packet})
	for _, member := range relays {
		s.sendToNode(member.Name, member.Addr, member.Port, relayed)
	}
}

// sendToNode sends a packet to a node's address. If that fails, it only logs a warning, since the network may lose
// packets anyway.
func (s *Serf) sendToNode(name string, addr net.IP, port uint16, packet []byte) {
	if len(addr) != net.IPv4len && len(addr) != net.IPv6len {
		// (memberlist would look it up as a name)
		s.log.Printf("[WARN] serf: the answer to %s was not sent: %x is not an IP address", name, []byte(addr))
		return
	}
	udpAddr := net.UDPAddr{IP: addr, Port: int(port)}
	if err := s.memberlist().SendToAddress(memberlist.Address{Addr: udpAddr.String(), Name: name}, packet); err != nil {
		s.log.Printf("[WARN] serf: the answer to %s was not sent: %v", name, err)
	}
}

// relayPacket forwards a relayed message to its destination. If no member has the destination's name and address, it
// drops the message.
func (s *Serf) relayPacket(packet []byte) {
	relayed, err := decodeRelay(packet)
	if err != nil {
		s.log.Printf("[DEBUG] serf: a packet was ignored: %v", err)
		return
	}
	if !s.isMember(relayed.name, relayed.addr, relayed.port) {
		s.log.Printf("[DEBUG] serf: a message for %q was not relayed: no member has this name and the address in the relay", relayed.name)
		return
	}
	s.sendToNode(relayed.name, relayed.addr, relayed.port, relayed.message)
}
