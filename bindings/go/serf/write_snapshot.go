package serf

import (
	"time"

	"github.com/armon/go-metrics"
)

// snapshotWriteInterval is the minimum time between two writes of member lines. snapshotCheckInterval is how often the
// node checks the length of the file, and whether another program has changed it.
const (
	snapshotWriteInterval = 500 * time.Millisecond
	snapshotCheckInterval = 10 * time.Second
)

// writeSnapshot writes the lines of members, and the member clock, to the snapshot.
func (s *Serf) writeSnapshot() {
	ticker := time.NewTicker(s.config.snapshotCheckInterval)
	defer ticker.Stop()
	for {
		select {
		case <-s.ctx.Done():
			return
		case <-s.memberLines.ready:
		case <-ticker.C:
		}
		if err := s.useAgent(s.writeMemberLines); isFinal(err) {
			return
		} else if err != nil {
			s.log.Printf("[WARN] serf: writing the members to the snapshot failed and is tried again: %v", err)
			signal(s.memberLines.ready)
		}
		select {
		case <-s.ctx.Done():
			return
		case <-time.After(snapshotWriteInterval):
		}
	}
}

// writeMemberLines saves the member clock, writes the waiting lines, and compacts the file if that is worthwhile. The
// caller holds agentMu.
func (s *Serf) writeMemberLines() error {
	s.grownBytes = 0
	if s.snapshot != nil {
		if err := s.snapshot.checkUnchanged(); err != nil {
			return err
		}
	}
	// (if memory runs out, the lines keep waiting)
	if err := s.agent.SaveMemberClock(); err != nil {
		return err
	}
	lines, isOverflowed := s.memberLines.take()
	if s.snapshot == nil {
		return nil
	}
	if err := s.snapshot.appendMemberLines(lines...); err != nil {
		// (after a line that was only partly written, nothing may be appended, since the library's next line would
		// continue it)
		return err
	}
	if err := s.appendHandlerLines(s.openEvents.waitingLines()); err != nil {
		return err
	}
	alive := s.members.aliveLines()
	if !isOverflowed && !s.snapshot.shouldCompact(alive) {
		return nil
	}
	defer metrics.MeasureSince(compactKey, time.Now())
	err := s.snapshot.compact(alive, s.compactLibrary)
	if err != nil && isOverflowed {
		s.memberLines.rewriteAll()
	}
	return err
}

// finishSnapshot writes the lines that still wait when the node ends.
func (s *Serf) finishSnapshot() error {
	s.agentMu.Lock()
	defer s.agentMu.Unlock()
	if err := s.writeMemberLines(); err != nil {
		return err
	}
	if s.snapshot == nil {
		return nil
	}
	return s.snapshot.sync()
}
