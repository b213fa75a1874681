package guard

import (
	"net/netip"
	"time"
)

// span is a part of a push/pull that memberlist doesn't receive: an entry from begin to end. If candidate isn't nil,
// the entry is a report of it, and memberlist receives the entry if the candidate answers in time.
type span struct {
	begin, end int
	candidate  *candidate
	report     *report
}

// entryResults has the results of inspecting a push/pull: the spans to cut out, how many entries report a node as alive, how
// many of these memberlist receives, and the reason why it doesn't receive the others. If these have different reasons,
// only the most recent one is kept.
type entryResults struct {
	cutSpans                 []span
	aliveCount, allowedCount int
	refusal                  Reason
	group                    *group
}

// inspectPushPull inspects a push/pull (net.go, readRemoteState), and cuts bad entries out of it, since a stock node
// relays what it received. It returns nil if no entry is bad.
func (s *stream) inspectPushPull(r *reader) []byte {
	var values [maxFields]value
	start := r.At - 1
	if r.failWith(r.readFields(s.schemas.byType[msgPushPull], &values)); r.Err != nil {
		return nil
	}
	count, length := int(values[fieldPushPullNodes].number), int(values[fieldPushPullStateLen].number)
	join := values[fieldPushPullJoin].number
	keptFrom := r.At
	found := entryResults{group: newGroup()}
	for i := 0; i < count && r.Err == nil; i++ {
		s.inspectEntry(r, &found)
	}
	r.Take(length)
	s.settleCandidates(&found, join != 0, r.Err == nil)
	if r.Err == nil && join != 0 && found.aliveCount > 0 && found.allowedCount == 0 {
		s.joinRefusal = found.refusal
		r.failWith(found.refusal)
	}
	if len(found.cutSpans) > 0 {
		r.failWith(s.streams.reserve(s, r.At-start))
	}
	if r.Err != nil || len(found.cutSpans) == 0 {
		return nil
	}
	out := append(make([]byte, 0, r.At-start+16), msgPushPull, 0x83)
	out = appendNumber(appendText(out, "Nodes"), uint64(count-len(found.cutSpans)))
	out = appendNumber(appendText(out, "UserStateLen"), uint64(length))
	out = append(appendText(out, "Join"), 0xc2|byte(join))
	for _, cut := range found.cutSpans {
		out = append(out, r.Data[keptFrom:cut.begin]...)
		keptFrom = cut.end
	}
	return append(out, r.Data[keptFrom:r.At]...)
}

// inspectEntry inspects the next entry of a push/pull.
func (s *stream) inspectEntry(r *reader, found *entryResults) {
	var values [maxFields]value
	begin := r.At
	reason := r.readFields(s.schemas.node, &values)
	// (an entry about this node itself doesn't count, since it admits no other node)
	isAlive := values[fieldNodeState].number == 0 && string(values[fieldNodeName].bytes) != s.members.ownName
	var candidate *candidate
	if reason == none {
		candidate, reason = s.checkEntry(&values, found.group)
	}
	if r.Err != nil {
		return
	}
	if isAlive {
		found.aliveCount++
	}
	if reason == none {
		if isAlive {
			found.allowedCount++
		}
		return
	}
	s.drops.add(reason)
	if reason != held {
		found.refusal = reason
	}
	cut := span{begin: begin, end: r.At}
	if candidate != nil {
		report := nodeReport(&values)
		cut.candidate, cut.report = candidate, &report
	}
	found.cutSpans = append(found.cutSpans, cut)
}

// checkEntry checks a node in a push/pull. memberlist checks the versions of dead nodes too. It ignores reports of a
// node that it doesn't know, unless they say that the node is alive.
func (s *stream) checkEntry(values *[maxFields]value, waiting *group) (*candidate, Reason) {
	r := nodeReport(values)
	if values[fieldNodeState].number != 0 {
		if !s.bounds.acceptsVersions(r.vsn) {
			return nil, Versions
		}
		return nil, none
	}
	node, reason := s.checkReport(&r)
	if reason != held {
		return nil, reason
	}
	if s.isSameHost(node.addr) {
		return nil, s.members.admit(node)
	}
	from, peer := fromAccepted, s.peer.Addr()
	if s.isDialed {
		from, peer = fromDialed, netip.Addr{}
	}
	return s.candidates.add(node, from, peer, s.Conn.RemoteAddr(), nil, waiting)
}

// settleCandidates waits for the candidates of a push/pull, and doesn't cut out those that answered. A join waits at most as long
// as a probe of memberlist takes, so that all members are known when the join returns. If the join would otherwise
// admit nobody, it waits until the candidates have been silent for too long. Other push/pulls don't wait. A join that
// another node sends doesn't wait either, unless the program has a MergeDelegate, which has to see all nodes. If the
// push/pull isn't whole, none of its entries count.
func (s *stream) settleCandidates(found *entryResults, isJoin, isWhole bool) {
	s.candidates.closeGroup(found.group)
	if isJoin && isWhole && (s.isDialed || s.hasMerge || found.allowedCount == 0) {
		s.waitForCandidates(found.group, s.probeTimeout)
		if found.allowedCount+s.candidates.countAdmitted(found.cutSpans) == 0 {
			s.waitForCandidates(found.group, answerIntervals*s.probeTimeout)
		}
	}
	stillCut := found.cutSpans[:0]
	for _, cut := range found.cutSpans {
		if cut.candidate != nil {
			var alive []byte
			if isWhole {
				alive = cut.report.encodeAlive()
			}
			switch reason := s.candidates.endWait(found.group, cut.candidate, alive); reason {
			case none:
				found.allowedCount++
				continue
			case held:
				found.refusal = Unproven
			default:
				s.drops.add(reason)
				found.refusal = reason
			}
		}
		stillCut = append(stillCut, cut)
	}
	found.cutSpans = stillCut
}

// waitForCandidates waits until each candidate of a group has answered or was silent for too long, or until isQuiet
// reports that the rest won't answer. It waits at most for limit.
func (s *stream) waitForCandidates(waiting *group, limit time.Duration) {
	deadline, ticker := time.Now().Add(limit), time.NewTicker(s.probeTimeout/quietSteps)
	defer ticker.Stop()
	for time.Now().Before(deadline) && !s.candidates.isQuiet(waiting) {
		select {
		case <-waiting.done:
			return
		case <-s.done:
			return
		case <-ticker.C:
		}
	}
}

// quietSteps is how often within a ProbeTimeout waitForCandidates checks whether the rest of the candidates is quiet.
const quietSteps = 20

// isSameHost reports whether an entry of a push/pull is about the host at the other end of its stream, which has proven its
// address by the handshake of TCP. If this node opened the stream, the port is proven too.
func (s *stream) isSameHost(at netip.AddrPort) bool {
	if s.isDialed {
		return at == s.peer
	}
	return s.peer.IsValid() && at.Addr() == s.peer.Addr()
}

// sendRefusal sends the reason why a join is refused to the other end. The guard sends it itself, since memberlist
// would log each of these errors.
func (s *stream) sendRefusal(reason Reason) {
	out := appendBytes(append([]byte{msgErr, 0x81}, "\xa5Error"...), []byte(refusalError(reason).Error()))
	if ciphers := s.ring.currentCiphers(); len(ciphers) > 0 && s.verifyOut {
		out = sealStream(ciphers[0], out)
	}
	s.Conn.Write(out)
}
