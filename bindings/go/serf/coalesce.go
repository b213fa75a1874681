package serf

import (
	"sync"
	"time"
)

// coalescer is the step between publish and the pipe. It holds some events for a while, and then releases only the
// latest ones. Of the user events of one name that may be coalesced, it releases those with the largest Lamport time;
// for each member, it releases the last member event. All other events pass at once.
//
// If the process is killed, the held events are lost: the proved agent has handed them out and never does so again.
type coalescer struct {
	publish func(...Event)
	// The coalescer calls markSuperseded with each user event that it won't release, because it holds a later event of the
	// same name. markSuperseded must not call the coalescer.
	markSuperseded func(UserEvent)

	mu                       sync.Mutex
	userEvents, memberEvents heldEvents
}

// heldEvents are the events that are held, in order of arrival, and the settings and the state of their timer.
type heldEvents struct {
	period, quietPeriod time.Duration
	events              []Event
	timer               *time.Timer
	deadline            time.Time
}

// newCoalescer returns a coalescer that passes events to publish. publish must not call the coalescer.
func newCoalescer(c *Config, publish func(...Event)) *coalescer {
	return &coalescer{
		publish:        publish,
		markSuperseded: func(UserEvent) {},
		userEvents:     heldEvents{period: c.UserCoalescePeriod, quietPeriod: c.UserQuiescentPeriod},
		memberEvents:   heldEvents{period: c.CoalescePeriod, quietPeriod: c.QuiescentPeriod},
	}
}

// add accepts events. It passes events that are not coalesced to publish at once.
func (c *coalescer) add(events ...Event) {
	c.mu.Lock()
	defer c.mu.Unlock()
	if c.userEvents.period <= 0 && c.memberEvents.period <= 0 {
		c.publish(events...)
		return
	}
	for _, e := range events {
		if !c.holdIfCoalesced(e) {
			c.publish(e)
		}
	}
}

// holdIfCoalesced holds an event and returns true if events of its kind are coalesced. Otherwise it returns false.
func (c *coalescer) holdIfCoalesced(e Event) bool {
	switch e := e.(type) {
	case UserEvent:
		if e.Coalesce && c.userEvents.period > 0 {
			c.hold(&c.userEvents, c.withUserEvent(c.userEvents.events, e))
			return true
		}
	case MemberEvent:
		if c.memberEvents.period > 0 {
			for _, member := range e.Members {
				c.hold(&c.memberEvents, withMemberEvent(c.memberEvents.events, MemberEvent{e.Type, []Member{member}}))
			}
			return true
		}
	}
	return false
}

// hold replaces the held events with the given ones, and restarts the timer. The last of the given events has just
// arrived.
func (c *coalescer) hold(h *heldEvents, events []Event) {
	now := time.Now()
	if len(h.events) == 0 {
		h.deadline = now.Add(h.period)
	}
	h.events = events
	wait := h.quietPeriod
	if untilDeadline := h.deadline.Sub(now); untilDeadline < wait {
		wait = untilDeadline
	}
	if len(h.events) >= Waiting || wait <= 0 {
		c.release(h)
		return
	}
	if h.timer != nil {
		h.timer.Stop()
	}
	var timer *time.Timer
	timer = time.AfterFunc(wait, func() {
		c.mu.Lock()
		defer c.mu.Unlock()
		// (a timer that was stopped too late is no longer the current one)
		if h.timer == timer {
			c.release(h)
		}
	})
	h.timer = timer
}

// withUserEvent adds a user event to the held ones. For each name, it keeps only the events with the largest time.
func (c *coalescer) withUserEvent(events []Event, e UserEvent) []Event {
	kept := events[:0]
	for _, event := range events {
		if held := event.(UserEvent); held.Name != e.Name || held.LTime == e.LTime {
			kept = append(kept, held)
		} else if held.LTime > e.LTime {
			c.markSuperseded(e)
			return events
		} else {
			c.markSuperseded(held)
		}
	}
	return append(kept, e)
}

// withMemberEvent adds the event of one member, and removes the held event of the same member.
func withMemberEvent(events []Event, e MemberEvent) []Event {
	for i, event := range events {
		if held := event.(MemberEvent); held.Members[0].Name == e.Members[0].Name {
			e.Type = mergedType(held.Type, e.Type)
			return append(append(events[:i], events[i+1:]...), e)
		}
	}
	return append(events, e)
}

// release publishes the held events: user events as they are, and one member event for each type.
func (c *coalescer) release(h *heldEvents) {
	if h.timer != nil {
		h.timer.Stop()
		h.timer = nil
	}
	events := h.events
	h.events = nil
	positions := map[EventType]int{}
	var merged []Event
	for _, e := range events {
		memberEvent, isMember := e.(MemberEvent)
		if position, hasType := positions[e.EventType()]; isMember && hasType {
			first := merged[position].(MemberEvent)
			merged[position] = MemberEvent{first.Type, append(first.Members, memberEvent.Members...)}
			continue
		}
		positions[e.EventType()] = len(merged)
		merged = append(merged, e)
	}
	c.publish(merged...)
}

// flush publishes all held events when the node ends.
func (c *coalescer) flush() {
	c.mu.Lock()
	defer c.mu.Unlock()
	c.release(&c.userEvents)
	c.release(&c.memberEvents)
}
