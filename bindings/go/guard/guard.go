// Package guard is a transport for HashiCorp's memberlist 0.2.2 that inspects each packet and each stream before
// memberlist reads it. memberlist trusts the lengths, versions and nesting that the network sends, so a single packet
// can crash any program that uses it. A program sets
//
//	config.Transport, err = guard.New(config, guard.Defaults())
//
// before it calls memberlist.Create, and changes nothing else. memberlist's Shutdown also stops the transport. A program
// that has its own transport puts a guard around it:
//
//	config.Transport, err = guard.Around(transport, config, guard.Defaults())
//
// The package is tested, not proved.
//
// The guard drops packets and streams that are malformed or out of bounds, and counts them for each of a fixed set of
// reasons. If only a part of a compound message or an entry of a push/pull is bad, the guard cuts out that part and
// passes on the rest, because honest nodes may have relayed the bad part. Everything else reaches memberlist byte for
// byte. If gossip is encrypted, the guard decrypts it for the inspection, and encrypts again only the messages that it
// changed.
//
// A new node has to prove that it exists: the guard sends a ping to the node's address, and holds back all reports of
// the node until the address answers. If no node in a join proves that, or if there is no room, the join returns an
// error.
//
// No transport can decide who may send: forged news about known nodes, replays and floods pass the guard. The program itself
// has to check the contents of user messages, user states and ack payloads. A program that has to stay within a memory
// limit sets GOMEMLIMIT as well.
package guard

import (
	"fmt"
	"io"
	"log"
	"net/netip"
	"os"
	"strings"
	"time"

	"github.com/hashicorp/memberlist"
)

// Settings has the guard's bounds. A bound of 0 means the value of Defaults.
type Settings struct {
	// PacketBytes is the maximum size of a packet in bytes, both as received and after decompression.
	PacketBytes int
	// StreamBytes is the maximum size in bytes of a stream's message as received, after decryption, and after
	// decompression. AllBytes is the maximum number of bytes that all streams hold together.
	StreamBytes, AllBytes int
	// Streams is the maximum number of accepted streams that are open at once. When one more arrives, the guard closes
	// the oldest stream whose message is incomplete. PushPulls is the maximum number of push/pulls that memberlist
	// answers with its own state at once. If memberlist knows many nodes, these answers also have to fit into AllBytes,
	// at 1 KiB for each node. Other push/pulls wait, but no longer than memberlist's deadline for a stream.
	Streams, PushPulls int
	// Nodes is the maximum number of entries in a push/pull.
	Nodes int
	// UserBytes is the maximum size in bytes of a user message sent by stream, and AckBytes that of an ack's payload,
	// such as a coordinate.
	UserBytes, AckBytes int
	// IndirectPings is the maximum number of indirect pings that reach memberlist in a second.
	IndirectPings int
	// Members is the maximum number of known nodes. When it is reached, the guard admits no new nodes. NamesPerAddress
	// is the maximum number of known nodes at one IP address, on all ports together.
	Members, NamesPerAddress int
	// AdmitUnproven makes the guard admit new nodes without a ping, as memberlist does. A flood of forged nodes can
	// then fill the table of members, so set it only for a transport over which nodes can't answer pings.
	AdmitUnproven bool
	// Known returns how many nodes are known, and whether a node with this name is among them. Several goroutines call
	// it, once for each node that a message reports as alive. If Known is nil, the guard counts the nodes that
	// memberlist's events reported, including dead nodes until memberlist forgets them.
	Known func(name string) (members int, isKnown bool)
	// MakeRoom, if it isn't nil, is called when Members is reached and a new node has proven its address. It should
	// make the program forget a node that failed or left, and return whether it did.
	MakeRoom func() bool
	// Protocols and Delegates are the ranges of memberlist's protocol version and of the delegate's protocol version.
	// The guard admits only nodes that understand the whole range and speak a version within it, so no two admitted
	// nodes refuse each other. If the maximum of Protocols is 0, its range is 1 to 5; if that of Delegates is 0, its
	// range is DelegateProtocolMin to DelegateProtocolMax of memberlist's configuration. To move a cluster to other
	// versions, set the ranges that its oldest node understands.
	Protocols, Delegates VersionRange
}

// Defaults returns the default bounds.
func Defaults() Settings {
	return Settings{
		PacketBytes: 10 << 10, StreamBytes: 4 << 20, AllBytes: 8 << 20, Streams: 128, PushPulls: 16, Nodes: 16384, UserBytes: 64 << 10,
		AckBytes: 1024, IndirectPings: 256, Members: 2048, NamesPerAddress: 32,
		Protocols: VersionRange{memberlist.ProtocolVersionMin, memberlist.ProtocolVersionMax},
	}
}

// withDefaults fills in the bounds that are 0. The error names the first setting that is out of its bounds.
func (s Settings) withDefaults(c *memberlist.Config) (Settings, error) {
	defaults := Defaults()
	for _, bound := range []struct {
		name            string
		value, fallback *int
	}{
		{"PacketBytes", &s.PacketBytes, &defaults.PacketBytes},
		{"StreamBytes", &s.StreamBytes, &defaults.StreamBytes},
		{"AllBytes", &s.AllBytes, &defaults.AllBytes},
		{"Streams", &s.Streams, &defaults.Streams},
		{"PushPulls", &s.PushPulls, &defaults.PushPulls},
		{"Nodes", &s.Nodes, &defaults.Nodes},
		{"UserBytes", &s.UserBytes, &defaults.UserBytes},
		{"AckBytes", &s.AckBytes, &defaults.AckBytes},
		{"IndirectPings", &s.IndirectPings, &defaults.IndirectPings},
		{"Members", &s.Members, &defaults.Members},
		{"NamesPerAddress", &s.NamesPerAddress, &defaults.NamesPerAddress},
	} {
		if *bound.value == 0 {
			*bound.value = *bound.fallback
		}
		if *bound.value < 0 {
			return s, fmt.Errorf("guard: %s is %d, below 0", bound.name, *bound.value)
		}
	}
	if s.Protocols.Max == 0 {
		s.Protocols = defaults.Protocols
	}
	if s.Delegates.Max == 0 {
		s.Delegates = VersionRange{c.DelegateProtocolMin, c.DelegateProtocolMax}
	}
	return s, s.check(c)
}

// check returns an error if the settings contradict each other or memberlist's configuration.
func (s Settings) check(c *memberlist.Config) error {
	switch {
	case s.StreamBytes < minStreamBuffer:
		return fmt.Errorf("guard: StreamBytes is %d, below the minimum of %d", s.StreamBytes, minStreamBuffer)
	case s.AllBytes < s.StreamBytes:
		return fmt.Errorf("guard: AllBytes is %d, below StreamBytes, which is %d", s.AllBytes, s.StreamBytes)
	case c.UDPBufferSize > s.PacketBytes:
		return fmt.Errorf("guard: UDPBufferSize is %d, above PacketBytes, which is %d", c.UDPBufferSize, s.PacketBytes)
	case c.Name == "" || len(c.Name) > maxName:
		return fmt.Errorf("guard: Name has %d bytes, and must have 1 to %d", len(c.Name), maxName)
	case c.ProtocolVersion < 2 && (c.Keyring != nil || len(c.SecretKey) > 0):
		return fmt.Errorf("guard: ProtocolVersion is %d, and encryption needs 2 or above", c.ProtocolVersion)
	}
	return nil
}

// core is the state that all inspectors share.
type core struct {
	bounds              Settings
	schemas             *schemas
	ring                ring
	verifyIn, verifyOut bool
	drops               drops
	members             *members
	candidates          *candidates
	pings               pings
	streams             streams
	// indirectPings limits indirect pings. loggedRefusals limits how often a refused stream returns an error, since
	// memberlist logs each of these errors.
	indirectPings, loggedRefusals rate
	// protocol, bindPort, hasMerge, probeTimeout and isIPAllowed are taken from memberlist's configuration.
	protocol     uint8
	bindPort     func() int
	hasMerge     bool
	probeTimeout time.Duration
	isIPAllowed  func(netip.Addr) bool
}

// setUpMembers makes the lists of members and candidates, and wraps Events of the configuration.
func (c *core) setUpMembers(config *memberlist.Config) {
	c.members = newMembers(&c.bounds, config)
	c.probeTimeout = config.ProbeTimeout
	if c.probeTimeout <= 0 {
		c.probeTimeout = minPingInterval
	}
	interval := c.probeTimeout
	if interval < minPingInterval {
		interval = minPingInterval
	}
	// (a join may wait for its candidates, and memberlist ends it after TCPTimeout)
	if config.TCPTimeout > 0 {
		c.probeTimeout = min(c.probeTimeout, config.TCPTimeout/(2*answerIntervals))
	}
	c.candidates = newCandidates(c.members, &c.drops, c.bounds.NamesPerAddress, interval)
	c.protocol, c.bindPort, c.hasMerge = config.ProtocolVersion, func() int { return config.BindPort }, config.Merge != nil
	c.isIPAllowed = func(ip netip.Addr) bool { return config.IPAllowed(ip.AsSlice()) == nil }
}

// minPingInterval is the minimum time between two pings of a candidate: a host may be busy, even if the network is fast.
const minPingInterval = 500 * time.Millisecond

// New makes a transport that listens at BindAddr and BindPort of config. Like memberlist with its own transport, it
// sets BindPort and AdvertisePort if BindPort is 0, and Keyring if only SecretKey is set. It also wraps config.Events.
// So set these fields before the call: Name, the addresses, the versions, SecretKey or Keyring, Events, and Logger or
// LogOutput.
func New(config *memberlist.Config, settings Settings) (*Transport, error) {
	c, err := newCore(config, settings)
	if err != nil {
		return nil, err
	}
	s := &sockets{host: config.BindAddr}
	tries := 1
	if config.BindPort == 0 {
		tries = 10
	}
	for ; tries > 0; tries-- {
		if err = s.listen(config.BindPort); err == nil || !strings.Contains(err.Error(), "address already in use") {
			break
		}
	}
	if err != nil {
		return nil, fmt.Errorf("guard: %w", err)
	}
	if config.BindPort == 0 {
		config.BindPort, config.AdvertisePort = s.port(), s.port()
	}
	c.setUpMembers(config)
	t := newTransport(c, s, logger(config))
	s.receive(t)
	return t, nil
}

// newCore checks the settings, and makes the state that the inspectors share, except members.
func newCore(config *memberlist.Config, settings Settings) (*core, error) {
	bounds, err := settings.withDefaults(config)
	if err != nil {
		return nil, err
	}
	if config.Keyring == nil && len(config.SecretKey) > 0 {
		if config.Keyring, err = memberlist.NewKeyring(nil, config.SecretKey); err != nil {
			return nil, err
		}
	}
	c := &core{
		bounds: bounds, schemas: newSchemas(&bounds), ring: ring{source: config.Keyring}, verifyIn: config.GossipVerifyIncoming,
		verifyOut: config.GossipVerifyOutgoing,
	}
	c.streams = streams{bounds: &c.bounds, drops: &c.drops, changed: make(chan struct{})}
	return c, nil
}

// logger returns the logger of memberlist's configuration, as memberlist chooses it.
func logger(c *memberlist.Config) *log.Logger {
	if c.Logger != nil {
		return c.Logger
	}
	var to io.Writer = os.Stderr
	if c.LogOutput != nil {
		to = c.LogOutput
	}
	return log.New(to, "", log.LstdFlags)
}

// Drops returns for each reason how many packets, streams and parts were dropped since New. It leaves out the reasons
// for which nothing was dropped.
func (t *Transport) Drops() map[Reason]uint64 { return t.drops.counts() }
