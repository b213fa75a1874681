package serf

import (
	"fmt"
	"net"

	"kitchenrue.example/guard/msgpack"
)

// relay is a message to forward to another node.
type relay struct {
	addr    net.IP
	port    uint16
	name    string
	message []byte
}

// relayHeader is the header that precedes the message in the packet of a relay.
type relayHeader struct {
	DestAddr destination
	DestName string
}

// destination is the address of the node that the message is for.
type destination struct {
	IP   []byte
	Port uint16
	Zone string
}

// decodeRelay decodes a packet of type 9.
func decodeRelay(packet []byte) (relay, error) {
	var head relayHeader
	rest, err := decodeFirst(packet, relayType, &head)
	dest := head.DestAddr
	if err == nil && (len(rest) == 0 || len(dest.IP) != net.IPv4len && len(dest.IP) != net.IPv6len) {
		err = msgpack.ErrKind
	}
	if err != nil {
		return relay{}, fmt.Errorf("relay: %w", err)
	}
	return relay{dest.IP, dest.Port, head.DestName, rest}, nil
}

// shortIP returns an address in its shortest form: 4 bytes for IPv4.
func shortIP(addr net.IP) []byte {
	if four := addr.To4(); four != nil {
		return four
	}
	return addr
}

// encodeRelay encodes a packet of type 9.
func encodeRelay(relayed relay) []byte {
	return append(encode(relayHeader{destination{shortIP(relayed.addr), relayed.port, ""}, relayed.name}, relayType), relayed.message...)
}
