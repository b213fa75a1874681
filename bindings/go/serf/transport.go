package serf

import (
	"fmt"
	"sort"
	"strings"

	"github.com/hashicorp/memberlist"

	"kitchenrue.example/guard"
)

// DefaultMaxMembers is the maximum number of known members if Config.Guard doesn't set it. (guard.Defaults has a lower
// number, for programs that use the guard without this package.)
const DefaultMaxMembers = 4096

// installGuard sets a transport for memberlist that checks each packet and stream before memberlist reads it. If the
// configuration has a transport, the guard wraps that one. If that transport is a guard already, the node uses it
// unchanged.
func (s *Serf) installGuard(conf *memberlist.Config) error {
	configured := conf.Transport
	if guarded, ok := configured.(*guard.Transport); ok {
		s.guard = guarded
		return nil
	}
	settings := s.config.Guard
	if settings.Members == 0 {
		settings.Members = DefaultMaxMembers
	}
	settings.Known = func(name string) (int, bool) {
		_, ok := s.members.get(name)
		return s.members.size(), ok
	}
	settings.MakeRoom = s.members.makeRoom
	settings.Delegates = guard.VersionRange{Min: ProtocolVersionMin, Max: ProtocolVersionMax}
	var err error
	if configured != nil {
		// (a transport that doesn't use UDP may have longer packets)
		if settings.PacketBytes == 0 && conf.UDPBufferSize > guard.Defaults().PacketBytes {
			settings.PacketBytes = conf.UDPBufferSize
		}
		s.guard, err = guard.Around(configured, conf, settings)
	} else {
		s.guard, err = guard.New(conf, settings)
	}
	if err != nil {
		return err
	}
	conf.Transport, err = withFaults(s.guard)
	return err
}

// guardRefusals returns how many packets, streams and parts of them the guard refused. It also returns the counts for
// each reason, as a text.
func (s *Serf) guardRefusals() (count uint64, reasons string) {
	if s.guard == nil {
		return 0, ""
	}
	var texts []string
	for reason, dropped := range s.guard.Drops() {
		count += dropped
		texts = append(texts, fmt.Sprintf("%s %d", reason, dropped))
	}
	sort.Strings(texts)
	return count, strings.Join(texts, ", ")
}
