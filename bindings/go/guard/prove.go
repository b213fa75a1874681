package guard

import (
	"net"
	"net/netip"
	"time"

	"github.com/hashicorp/memberlist"
)

// startProving starts the goroutine that runs prove.
func (t *Transport) startProving() {
	t.proving.Add(1)
	go t.prove()
}

// prove pings candidates, and passes those that answered to memberlist, until the transport is shut down. It is a separate
// goroutine, since sending and delivering may block.
func (t *Transport) prove() {
	defer t.proving.Done()
	for {
		pings, answered, wait := t.candidates.takeDue(time.Now())
		for _, c := range pings {
			// A packet that can't be sent is like one that is lost.
			t.send(t.pingOf(c), memberlist.Address{Addr: c.addr.String(), Name: c.name})
		}
		for _, c := range answered {
			t.passToMemberlist(&memberlist.Packet{Buf: t.reportOf(c), From: c.reporter, Timestamp: time.Now()})
		}
		if wait == 0 {
			wait = time.Hour
		}
		timer := time.NewTimer(wait)
		select {
		case <-t.closed:
			timer.Stop()
			return
		case <-t.candidates.workReady:
		case <-timer.C:
		}
		timer.Stop()
	}
}

// pingOf returns a ping for a candidate. The ping names no address for the ack, so the candidate sends the ack to the
// address from which the ping arrives.
func (c *core) pingOf(candidate *candidate) []byte {
	out := append([]byte{msgPing, 0x83}, "\xa5SeqNo"...)
	out = appendNumber(out, uint64(candidate.number))
	out = appendBytes(append(out, "\xa4Node"...), []byte(candidate.name))
	out = appendBytes(append(out, "\xaaSourceNode"...), []byte(c.members.ownName))
	if ciphers := c.ring.currentCiphers(); len(ciphers) > 0 && c.verifyOut {
		out = seal(ciphers[0], make([]byte, 0, sealOverhead+len(out)), out, nil)
	}
	return out
}

// reportOf returns the packet that reports a candidate to memberlist after the candidate has answered.
func (c *core) reportOf(candidate *candidate) []byte {
	out := candidate.alive
	if candidate.later != nil {
		out = encodeCompound([][]byte{candidate.alive, candidate.later})
	}
	if ciphers := c.ring.currentCiphers(); len(ciphers) > 0 {
		out = seal(ciphers[0], make([]byte, 0, sealOverhead+len(out)), out, nil)
	}
	return out
}

// report has the data of a node that a message reports as alive.
type report struct {
	name, addr, meta, vsn []byte
	port, incarnation     uint64
}

// aliveReport and nodeReport return the report of an alive message, and that of an entry of a push/pull.
func aliveReport(v *[maxFields]value) report {
	return report{
		name: v[fieldAliveNode].bytes, addr: v[fieldAliveAddr].bytes, meta: v[fieldAliveMeta].bytes, vsn: v[fieldAliveVsn].bytes,
		port: v[fieldAlivePort].number, incarnation: v[fieldAliveIncarnation].number,
	}
}

func nodeReport(v *[maxFields]value) report {
	return report{
		name: v[fieldNodeName].bytes, addr: v[fieldNodeAddr].bytes, meta: v[fieldNodeMeta].bytes, vsn: v[fieldNodeVsn].bytes,
		port: v[fieldNodePort].number, incarnation: v[fieldNodeIncarnation].number,
	}
}

// encodeAlive encodes the report as an alive message.
func (r *report) encodeAlive() []byte {
	out := append([]byte{msgAlive, 0x86}, "\xabIncarnation"...)
	out = appendNumber(out, r.incarnation)
	out = appendBytes(append(out, "\xa4Node"...), r.name)
	out = appendBytes(append(out, "\xa4Addr"...), r.addr)
	out = appendNumber(append(out, "\xa4Port"...), r.port)
	out = appendBytes(append(out, "\xa4Meta"...), r.meta)
	return appendBytes(append(out, "\xa3Vsn"...), r.vsn)
}

// nodeOf returns the node's name and address, as memberlist reads them (net.go, handleAlive).
func (c *core) nodeOf(r *report) nameAt {
	ip, _ := netip.AddrFromSlice(r.addr)
	port := uint16(r.port)
	if port == 0 || c.protocol < 2 {
		port = uint16(c.bindPort())
	}
	return nameAt{string(r.name), netip.AddrPortFrom(ip.Unmap(), port)}
}

// addrOf returns the IP address and the port of a network address. If the network address has none, the result is not
// valid.
func addrOf(a net.Addr) netip.AddrPort {
	switch a := a.(type) {
	case nil:
		return netip.AddrPort{}
	case *net.UDPAddr:
		return unmap(a.AddrPort())
	case *net.TCPAddr:
		return unmap(a.AddrPort())
	}
	parsed, _ := netip.ParseAddrPort(a.String())
	return unmap(parsed)
}

func unmap(a netip.AddrPort) netip.AddrPort { return netip.AddrPortFrom(a.Addr().Unmap(), a.Port()) }

// checkAlive checks whether memberlist may learn that a node is alive. The node has to have the right versions, and a
// proven address. If its address isn't proven, the node becomes a candidate, and checkAlive returns held.
func (ins *inspector) checkAlive(r report) Reason {
	node, reason := ins.checkReport(&r)
	if reason != held {
		return reason
	}
	kind := fromStranger
	if ins.members.hasAddress(addrOf(ins.from)) {
		kind = fromMember
	}
	_, reason = ins.candidates.add(node, kind, netip.Addr{}, ins.from, r.encodeAlive(), nil)
	return reason
}

// checkReport returns none if memberlist may receive a report, held if the node has to answer a ping first, and
// otherwise the reason why the guard refuses the report.
func (c *core) checkReport(r *report) (nameAt, Reason) {
	if !c.bounds.acceptsVersions(r.vsn) {
		return nameAt{}, Versions
	}
	node := c.nodeOf(r)
	if c.members.isProven(node) {
		return node, none
	}
	if !c.isIPAllowed(node.addr.Addr()) {
		return node, Address
	}
	if reason := c.members.refusalAfterProof(node); reason != none {
		return node, reason
	}
	if c.bounds.AdmitUnproven {
		return node, c.members.admit(node)
	}
	return node, held
}
