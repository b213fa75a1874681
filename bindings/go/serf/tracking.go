package serf

import (
	"fmt"

	"kitchenrue.example/serfagent"
)

// maxTrackedFile is the maximum size in bytes of a file that is read for open events.
const maxTrackedFile = 4 << 30

// trackHandlers is called before anything is handed out. If TrackHandlers is set, it restores the open events of the
// file, and starts tracking if the file does not track handlers yet. If TrackHandlers is not set, it removes the open
// events from the file.
func (s *Serf) trackHandlers() error {
	if s.snapshot == nil {
		return nil
	}
	text, err := serfagent.ReadFile(s.snapshot.path, maxTrackedFile)
	if err != nil {
		return err
	}
	events, isTracked, err := serfagent.OpenEventsOf(text)
	if err != nil {
		return err
	}
	switch {
	case s.config.TrackHandlers:
		time, err := s.lastEventTime()
		if err != nil {
			return err
		}
		handlers := readHandlerText(text)
		s.openEvents = newOpenEvents(s.config.MaxOpenEvents, s.pipe.holdBack)
		s.openEvents.restore(handlers, events, time)
		switch {
		case !isTracked:
			return s.startTracking(time)
		case !handlers.hasCompleteAfter:
			// (the program of the last life did not record how handlers ended. If this line is lost, the next life
			// writes it again)
			return s.snapshot.appendLines([]byte(completeAfterLine(LamportTime(time))))
		}
		return nil
	case isTracked:
		return s.forgetOpenEvents(len(events))
	}
	return nil
}

// startTracking appends the line that starts tracking: from that line on, the file records which handlers have begun
// and ended.
func (s *Serf) startTracking(time uint64) error {
	line, err := serfagent.DoneUpToLine(time)
	if err != nil {
		return err
	}
	if err := s.snapshot.appendLines(append(line, completeAfterLine(LamportTime(time))...)); err != nil {
		return err
	}
	if err := s.snapshot.sync(); err != nil {
		return err
	}
	return s.snapshot.recordEnd()
}

// forgetOpenEvents compacts the file to one without lines about handlers. Otherwise, the events that this life handles
// would look open to a later life.
func (s *Serf) forgetOpenEvents(count int) error {
	if count > 0 {
		s.log.Printf(
			"[WARN] serf: %d events that an earlier life was handed and that are not done are forgotten, since TrackHandlers is off", count,
		)
	}
	lines := make([]string, 0, len(s.previousNodes))
	for i := len(s.previousNodes) - 1; i >= 0; i-- {
		lines = append(lines, fmt.Sprintf("alive: %s %s\n", s.previousNodes[i].Name, s.previousNodes[i].Addr))
	}
	return s.snapshot.compact(lines, func() error { return s.agent.CompactWith(nil) })
}

// lastEventTime returns an upper bound of the times of all events that were handed out.
func (s *Serf) lastEventTime() (uint64, error) {
	clocks, err := s.agent.Clocks()
	if err != nil || clocks.Event == 0 {
		return 0, err
	}
	return clocks.Event - 1, nil
}

// compactLibrary makes the library replace the file by one with the library's own lines and those of the open events.
// The caller holds agentMu, so nothing is handed out in the meantime.
func (s *Serf) compactLibrary() error {
	time, err := s.lastEventTime()
	if err != nil {
		return err
	}
	lines, err := s.openEvents.compactedLines(time)
	if err != nil {
		return err
	}
	return s.agent.CompactWith(lines)
}
