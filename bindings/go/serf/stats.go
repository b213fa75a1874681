package serf

import (
	"fmt"
	"strings"

	"kitchenrue.example/guard"
	"kitchenrue.example/serfagent"
)

// refusalName returns the name under which Stats has the number of the guard's refusals for a reason.
func refusalName(reason guard.Reason) string {
	return "refused_" + strings.ReplaceAll(reason.String(), " ", "_")
}

// RefusalNames returns all names under which Stats may have the guard's refusals. Stats leaves out the reasons for
// which the guard refused nothing.
func RefusalNames() (names []string) {
	for _, reason := range guard.Reasons() {
		names = append(names, refusalName(reason))
	}
	return names
}

// ignoreReasons are the reasons for which the proved agent ignores an event or a query that it may never have handed out.
var ignoreReasons = [...]struct {
	reason serfagent.Reason
	name   string
}{{serfagent.TooOld, "too_old"}, {serfagent.BelowMinimum, "below_minimum"}, {serfagent.TimeFull, "time_full"}}

// countIgnored counts an event or a query that was ignored for one of these reasons.
func (s *Serf) countIgnored(received *serfagent.Received) {
	if received.Kind != serfagent.Ignored {
		return
	}
	for i, reason := range ignoreReasons {
		if received.Reason == reason.reason {
			s.ignoredCounts[i].Add(1)
		}
	}
}

// Stats returns what an operator needs to know about the node, under Serf's names. In addition to Serf's, it has these
// numbers. dropped counts the packets, states and broadcasts that the node dropped because there was no room or because
// they had a far time; dropped_far counts those with a far time, and dropped_kept those for whose events KeepEventsSize
// left no room. events_waiting is how many events wait for EventCh. events_missing is for how many times of the window
// the node has seen no event although it has seen a later one. events_open is how many events were handed out and are
// not done; it is present if TrackHandlers is set. For each reason, refused_REASON counts the guard's refusals, and
// ignored_REASON counts the events and queries that the node ignored although it may never have handed them out.
func (s *Serf) Stats() map[string]string {
	decimal := func(value interface{}) string { return fmt.Sprint(value) }
	stats := map[string]string{
		"members":        decimal(s.members.size()),
		"failed":         decimal(s.members.count(StatusFailed)),
		"left":           decimal(s.members.count(StatusLeft)),
		"health_score":   decimal(s.memberlist().GetHealthScore()),
		"encrypted":      decimal(s.EncryptionEnabled()),
		"intent_queue":   decimal(s.intents.NumQueued()),
		"event_queue":    decimal(s.events.NumQueued()),
		"query_queue":    decimal(s.queries.NumQueued()),
		"dropped":        decimal(s.dropped.Load() + s.droppedFar.Load() + s.droppedKept.Load()),
		"dropped_kept":   decimal(s.droppedKept.Load()),
		"dropped_far":    decimal(s.droppedFar.Load()),
		"events_waiting": decimal(s.pipe.length()),
		"events_missing": decimal(s.eventsMissing()),
		"events_open":    decimal(s.openEvents.count()),
	}
	if s.guard != nil {
		for reason, count := range s.guard.Drops() {
			stats[refusalName(reason)] = decimal(count)
		}
	}
	for i, reason := range ignoreReasons {
		stats["ignored_"+reason.name] = decimal(s.ignoredCounts[i].Load())
	}
	if clocks, err := s.agent.Clocks(); err == nil {
		stats["member_time"] = decimal(clocks.Member)
		stats["event_time"] = decimal(clocks.Event)
		stats["query_time"] = decimal(clocks.Query)
	}
	if s.coordinates != nil {
		stats["coordinate_resets"] = decimal(s.coordinates.client.Stats().Resets)
	}
	return stats
}
