package serf

import (
	"fmt"
	"sync"
	"time"

	"github.com/armon/go-metrics"
	"github.com/hashicorp/memberlist"
	"github.com/hashicorp/serf/coordinate"

	"kitchenrue.example/guard/msgpack"
)

// PingVersion is the first byte of the payload that a node sends with its ack of a memberlist ping. The node's
// coordinate follows this byte.
const PingVersion = 1

// maxPingPayload is the maximum length of that payload in bytes. An encoded coordinate has fewer than 200 bytes.
const maxPingPayload = 1024

// coordinates has this node's network coordinate and the last known coordinates of the other nodes. The nodes estimate
// them from the round-trip times of pings. A nil pointer means that coordinates are disabled.
type coordinates struct {
	client *coordinate.Client

	mu     sync.Mutex
	cached map[string]*coordinate.Coordinate
}

// newCoordinates returns this node's coordinate, or nil if coordinates are disabled.
func newCoordinates(c *Config) (*coordinates, error) {
	if c.DisableCoordinates {
		return nil, nil
	}
	client, err := coordinate.NewClient(coordinate.DefaultConfig())
	if err != nil {
		return nil, fmt.Errorf("coordinates: %w", err)
	}
	return &coordinates{client: client, cached: map[string]*coordinate.Coordinate{c.NodeName: client.GetCoordinate()}}, nil
}

// retain forgets the coordinates of all nodes but these members.
func (p *coordinates) retain(members []Member) {
	if p == nil {
		return
	}
	p.mu.Lock()
	defer p.mu.Unlock()
	kept := make(map[string]*coordinate.Coordinate, len(members))
	for _, member := range members {
		if coord := p.cached[member.Name]; coord != nil {
			kept[member.Name] = coord
		}
	}
	p.cached = kept
}

// AckPayload returns this node's coordinate, which memberlist sends to a node that pings this one.
func (d delegate) AckPayload() []byte {
	if d.coordinates == nil {
		return nil
	}
	return encode(d.coordinates.client.GetCoordinate(), PingVersion)
}

// NotifyPingComplete receives the coordinate of a node that was pinged, and the round-trip time.
func (d delegate) NotifyPingComplete(other *memberlist.Node, rtt time.Duration, payload []byte) {
	if d.coordinates == nil || len(payload) == 0 {
		return
	}
	coord, err := decodeCoordinate(payload)
	if err == nil {
		err = d.coordinates.update(d.config.NodeName, other.Name, coord, rtt)
	}
	if err != nil {
		incrCounter("coordinate", "rejected")
		d.log.Printf("[DEBUG] serf: the coordinate of %q was rejected: %v", other.Name, err)
	}
}

// decodeCoordinate decodes a coordinate. It is strict, since any node that acks a ping may have written it.
func decodeCoordinate(payload []byte) (*coordinate.Coordinate, error) {
	if len(payload) > maxPingPayload {
		return nil, msgpack.ErrLong
	}
	var coord coordinate.Coordinate
	return &coord, decodeWhole(payload, PingVersion, &coord)
}

// update adjusts this node's coordinate to the coordinate of another node, and keeps the other node's coordinate.
func (p *coordinates) update(self, other string, coord *coordinate.Coordinate, rtt time.Duration) error {
	before := p.client.GetCoordinate()
	own, err := p.client.Update(other, coord, rtt)
	if err != nil {
		return err
	}
	metrics.AddSample([]string{"serf", "coordinate", "adjustment-ms"}, float32(before.DistanceTo(own).Seconds()*1000))
	p.mu.Lock()
	defer p.mu.Unlock()
	p.cached[other], p.cached[self] = coord, own
	return nil
}

// GetCoordinate returns this node's coordinate, or an error if coordinates are disabled.
func (s *Serf) GetCoordinate() (*coordinate.Coordinate, error) {
	if s.coordinates == nil {
		//lint:ignore ST1005 Serf's own message
		return nil, fmt.Errorf("Coordinates are disabled")
	}
	return s.coordinates.client.GetCoordinate(), nil
}

// GetCachedCoordinate returns the last known coordinate of a node, and false if there is none.
func (s *Serf) GetCachedCoordinate(name string) (coord *coordinate.Coordinate, ok bool) {
	if s.coordinates == nil {
		return nil, false
	}
	s.coordinates.mu.Lock()
	defer s.coordinates.mu.Unlock()
	cached := s.coordinates.cached[name]
	return cached, cached != nil
}
