package serf

import (
	"fmt"
	"net"

	"kitchenrue.example/guard/msgpack"
)

// maxKeys is the maximum number of keys that a node has, and that it reads from a response.
const maxKeys = 1024

// keyRequest is the payload of a query about keys.
type keyRequest struct{ Key []byte }

func encodeKeyRequest(key []byte) []byte { return encode(keyRequest{key}, keyRequestType) }

func decodeKeyRequest(payload []byte) ([]byte, error) {
	var found keyRequest
	if err := decodeWhole(payload, keyRequestType, &found); err != nil {
		return nil, fmt.Errorf("query about keys: %w", err)
	}
	return found.Key, nil
}

// nodeKeyResponse is a node's response to a query about keys.
type nodeKeyResponse struct {
	Result     bool
	Message    string
	Keys       []string
	PrimaryKey string
}

func encodeKeyResponse(answer nodeKeyResponse) []byte { return encode(answer, keyResponseType) }

func decodeKeyResponse(payload []byte) (nodeKeyResponse, error) {
	var found nodeKeyResponse
	err := decodeWhole(payload, keyResponseType, &found)
	if err == nil && len(found.Keys) > maxKeys {
		err = msgpack.ErrLong
	}
	if err != nil {
		return nodeKeyResponse{}, fmt.Errorf("response about keys: %w", err)
	}
	return found, nil
}

// wireMember is the response to a query that asks which node has a name. Its tags are left empty, since they might be too long for a
// response.
type wireMember struct {
	Addr                                  []byte
	DelegateCur, DelegateMax, DelegateMin uint8
	Name                                  string
	Port                                  uint16
	ProtocolCur, ProtocolMax, ProtocolMin uint8
	Status                                MemberStatus
	Tags                                  map[string]string
}

// encodeMember encodes the response to a query that asks which node has a name. If m is nil, no member has the name.
func encodeMember(m *Member) []byte {
	if m == nil {
		return encode(nil, conflictResponseType)
	}
	return encode(wireMember{
		shortIP(m.Addr), m.DelegateCur, m.DelegateMax, m.DelegateMin, m.Name, m.Port,
		m.ProtocolCur, m.ProtocolMax, m.ProtocolMin, m.Status, map[string]string{},
	}, conflictResponseType)
}

// decodeMemberAddr decodes the address and the port from a response of that kind.
func decodeMemberAddr(payload []byte) (addr net.IP, port uint16, err error) {
	var found wireMember
	if err := decodeWhole(payload, conflictResponseType, &found); err != nil {
		return nil, 0, fmt.Errorf("response about a member: %w", err)
	}
	return found.Addr, found.Port, nil
}
