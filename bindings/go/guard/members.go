package guard

import (
	"net/netip"
	"sync"
	"time"

	"github.com/hashicorp/memberlist"
)

// admitTime is how long members keeps the place of an admitted node until memberlist reports that the node joined.
const admitTime = 10 * time.Second

// members limits the number of nodes. As memberlist's EventDelegate it learns which nodes join and leave, and passes
// each event on to the program's own delegate.
type members struct {
	ownName    string
	maxMembers int
	// perAddress is the maximum number of names at one IP address.
	perAddress   int
	known        func(name string) (int, bool)
	makeRoom     func() bool
	nextDelegate memberlist.EventDelegate
	// probeInterval is how often memberlist probes a node, and deadTime how long it gossips to a dead one. memberlist
	// forgets a dead node after it has probed every other one (state.go, resetNodes).
	probeInterval, deadTime time.Duration

	// admitMu is held while admit checks whether there is room.
	admitMu sync.Mutex

	mu             sync.Mutex
	alive          map[string]netip.AddrPort
	left, admitted map[string]place
	// atIP counts, for each IP address, the names in alive, left and admitted. atAddr counts, for each address and
	// port, the names in alive.
	atIP    map[netip.Addr]int
	atAddr  map[netip.AddrPort]int
	sweptAt time.Time
}

// place is the address of a node, with the time at which the node left or was admitted.
type place struct {
	addr netip.AddrPort
	at   time.Time
}

func newMembers(s *Settings, c *memberlist.Config) *members {
	m := &members{
		ownName:       c.Name,
		maxMembers:    s.Members,
		perAddress:    s.NamesPerAddress,
		known:         s.Known,
		makeRoom:      s.MakeRoom,
		probeInterval: c.ProbeInterval,
		deadTime:      c.GossipToTheDeadTime,
		alive:         map[string]netip.AddrPort{},
		left:          map[string]place{},
		admitted:      map[string]place{},
		atIP:          map[netip.Addr]int{},
		atAddr:        map[netip.AddrPort]int{},
	}
	m.nextDelegate, c.Events = c.Events, m
	if m.known == nil {
		m.known = m.knownFromEvents
	}
	return m
}

// isProven reports whether a node is already known at this address, so that memberlist may receive reports of it
// without a ping. This node itself counts as known at any address until memberlist has reported it.
func (m *members) isProven(n nameAt) bool {
	m.mu.Lock()
	defer m.mu.Unlock()
	addr, isAlive := m.alive[n.name]
	return addr == n.addr || m.left[n.name].addr == n.addr || m.admitted[n.name].addr == n.addr || n.name == m.ownName && !isAlive
}

// hasAddress reports whether a member has this address.
func (m *members) hasAddress(addr netip.AddrPort) bool {
	m.mu.Lock()
	defer m.mu.Unlock()
	return m.atAddr[addr] > 0
}

// refusalAfterProof returns the reason why a node couldn't have a place even after it proved its address. It returns none if it
// could.
func (m *members) refusalAfterProof(n nameAt) Reason {
	if reason := m.placeRefusal(n); reason != Full || m.makeRoom == nil {
		return reason
	}
	return none
}

// placeRefusal returns the reason why there is no place for a node, or none if there is a place.
func (m *members) placeRefusal(n nameAt) Reason {
	now := time.Now()
	m.sweep(now)
	// A node that joins at this moment is counted twice rather than not at all.
	m.mu.Lock()
	admittedCount := len(m.admitted)
	_, isAdmitted := m.admitted[n.name]
	m.mu.Unlock()
	count, isKnown := m.known(n.name)
	m.mu.Lock()
	defer m.mu.Unlock()
	others := m.atIP[n.addr.Addr()]
	for _, addr := range []netip.AddrPort{m.alive[n.name], m.left[n.name].addr, m.admitted[n.name].addr} {
		if addr.Addr() == n.addr.Addr() {
			others--
		}
	}
	switch {
	case others >= m.perAddress:
		return Names
	case !isKnown && !isAdmitted && count+admittedCount >= m.maxMembers:
		return Full
	}
	return none
}

// admit reserves a place for a node with a proven address, until memberlist reports that the node joined. It returns
// the reason if there is no place, and none otherwise.
func (m *members) admit(n nameAt) Reason {
	m.admitMu.Lock()
	defer m.admitMu.Unlock()
	reason := m.placeRefusal(n)
	if reason == Full && m.makeRoom != nil && m.makeRoom() {
		reason = m.placeRefusal(n)
	}
	if reason == none {
		m.mu.Lock()
		defer m.mu.Unlock()
		m.removePlace(m.admitted, n.name)
		m.admitted[n.name] = place{n.addr, time.Now()}
		m.atIP[n.addr.Addr()]++
	}
	return reason
}

// removePlace removes a node from the map left or the map admitted. The caller holds mu.
func (m *members) removePlace(from map[string]place, name string) {
	if old, isIn := from[name]; isIn {
		delete(from, name)
		m.releaseIP(old.addr.Addr())
	}
}

// releaseIP subtracts one from the number of names at an IP address. The caller holds mu.
func (m *members) releaseIP(ip netip.Addr) {
	if m.atIP[ip]--; m.atIP[ip] == 0 {
		delete(m.atIP, ip)
	}
}

// removeAlive removes a node from the map alive. The caller holds mu.
func (m *members) removeAlive(name string) {
	if old, isIn := m.alive[name]; isIn {
		delete(m.alive, name)
		m.releaseIP(old.Addr())
		if m.atAddr[old]--; m.atAddr[old] == 0 {
			delete(m.atAddr, old)
		}
	}
}

// sweep frees the places of nodes that never joined, and of those that memberlist has forgotten. It runs at most once a
// second.
func (m *members) sweep(now time.Time) {
	m.mu.Lock()
	defer m.mu.Unlock()
	if now.Sub(m.sweptAt) < time.Second {
		return
	}
	m.sweptAt = now
	m.removeBefore(m.admitted, now.Add(-admitTime))
	m.removeBefore(m.left, now.Add(-m.deadTime-time.Duration(len(m.alive)+2)*m.probeInterval))
}

// removeBefore removes the places that are older than a time. The caller holds mu.
func (m *members) removeBefore(places map[string]place, before time.Time) {
	for name, old := range places {
		if old.at.Before(before) {
			m.removePlace(places, name)
		}
	}
}

// knownFromEvents is the default for Settings.Known: it counts the nodes that memberlist's events reported.
func (m *members) knownFromEvents(name string) (int, bool) {
	m.mu.Lock()
	defer m.mu.Unlock()
	_, isAlive := m.alive[name]
	_, hasLeft := m.left[name]
	return len(m.alive) + len(m.left), isAlive || hasLeft
}

// addrOfNode returns the address of a node.
func addrOfNode(n *memberlist.Node) netip.AddrPort {
	ip, _ := netip.AddrFromSlice(n.Addr)
	return netip.AddrPortFrom(ip.Unmap(), n.Port)
}

// NotifyJoin implements memberlist.EventDelegate.
func (m *members) NotifyJoin(n *memberlist.Node) {
	if m.nextDelegate != nil {
		m.nextDelegate.NotifyJoin(n)
	}
	addr := addrOfNode(n)
	m.mu.Lock()
	m.removePlace(m.left, n.Name)
	m.removePlace(m.admitted, n.Name)
	m.removeAlive(n.Name)
	m.alive[n.Name] = addr
	m.atIP[addr.Addr()]++
	m.atAddr[addr]++
	m.mu.Unlock()
}

// NotifyLeave implements memberlist.EventDelegate.
func (m *members) NotifyLeave(n *memberlist.Node) {
	addr := addrOfNode(n)
	m.mu.Lock()
	m.removeAlive(n.Name)
	m.removePlace(m.left, n.Name)
	m.left[n.Name] = place{addr, time.Now()}
	m.atIP[addr.Addr()]++
	m.mu.Unlock()
	if m.nextDelegate != nil {
		m.nextDelegate.NotifyLeave(n)
	}
}

// NotifyUpdate implements memberlist.EventDelegate.
func (m *members) NotifyUpdate(n *memberlist.Node) {
	if m.nextDelegate != nil {
		m.nextDelegate.NotifyUpdate(n)
	}
}
