package measure

import (
	"fmt"
	"sort"
	"strconv"
	"strings"
	"unicode"

	"github.com/armon/go-metrics"
)

// family is a metric of the page: its name, its type, and a help text.
type family struct {
	name, kind, help string
	// unit is the number by which a value of go-metrics is divided, and 0 stands for 1. For example, go-metrics
	// measures times in milliseconds, and the page shows seconds.
	unit float64
}

// The number of milliseconds and of nanoseconds in a second, for the times of go-metrics.
const (
	milli = 1e3
	nano  = 1e9
)

// inUnit returns a value of go-metrics in the unit of the page.
func (f *family) inUnit(value float64) float64 {
	if f.unit == 0 {
		return value
	}
	return value / f.unit
}

// metricFamilies maps names of go-metrics to metrics of the page, for those that have a different name there or a help
// text.
var metricFamilies = map[string]family{
	"agent.handler.results": {
		"agent_handler_results_total", "counter", "Runs of a handler by their result, and events for which it never ran.", 0,
	},
	"agent.handler.duration": {"agent_handler_duration_seconds", "summary", "How long a handler ran.", milli},
	"agent.ipc.command":      {"agent_ipc_commands_total", "counter", "Requests of RPC clients.", 0},
	"serf.events":            {"serf_events_total", "counter", "User events that were handed out.", 0},
	"serf.queries":           {"serf_queries_total", "counter", "Queries that were handed out.", 0},
	"serf.events.NAME":       {"serf_events_by_name_total", "counter", "User events that were handed out, by their name.", 0},
	"serf.queries.NAME":      {"serf_queries_by_name_total", "counter", "Queries that were handed out, by their name.", 0},
	"serf.query_acks":        {"serf_query_acks_total", "counter", "Acks of this node's queries.", 0},
	"serf.query_responses":   {"serf_query_responses_total", "counter", "Responses to this node's queries.", 0},
	"serf.msgs.received":     {"serf_messages_received_bytes", "summary", "Sizes of the messages that were received.", 0},
	"serf.msgs.sent":         {"serf_messages_sent_bytes", "summary", "Sizes of the messages that were sent.", 0},
	"serf.member.join":       {"serf_member_joins_total", "counter", "Members that joined.", 0},
	"serf.member.left":       {"serf_member_leaves_total", "counter", "Members that left.", 0},
	"serf.member.failed":     {"serf_member_failures_total", "counter", "Members that failed.", 0},
	"serf.member.update":     {"serf_member_updates_total", "counter", "Members whose tags changed.", 0},
	"serf.member.flap":       {"serf_member_flaps_total", "counter", "Members that were alive again soon after they failed.", 0},
	"serf.snapshot.appendLine": {
		"serf_snapshot_append_seconds", "summary", "How long it took to write lines to the snapshot and to flush them.", milli,
	},
	"serf.snapshot.compact": {"serf_snapshot_compaction_seconds", "summary", "How long a compaction of the snapshot took.", milli},
	"serf.burst":            {"serf_burst_size", "summary", "How many packets and firings shared a flush.", 0},
	"serf.coordinate.adjustment-ms": {"serf_coordinate_adjustment_seconds", "summary",
		"By how much this node's network coordinate moved.", milli},
	"runtime.gc_pause_ns":       {"runtime_gc_pause_seconds", "summary", "How long a pause for garbage collection took.", nano},
	"runtime.total_gc_pause_ns": {"runtime_gc_paused_seconds", "gauge", "Time of all pauses for garbage collection.", nano},
	"runtime.malloc_count":      {"runtime_mallocs", "gauge", "Objects that were allocated so far.", 0},
	"runtime.free_count":        {"runtime_frees", "gauge", "Objects that were freed so far.", 0},
	"memberlist.gossip":         {"memberlist_gossip_seconds", "summary", "How long a round of gossip took.", milli},
	"memberlist.probeNode":      {"memberlist_probe_node_seconds", "summary", "How long a probe of a node took.", milli},
	"memberlist.pushPullNode":   {"memberlist_push_pull_node_seconds", "summary", "How long an exchange of states took.", milli},
}

// familyOf returns the metric of the page that shows a metric of go-metrics.
func familyOf(words []string, kind string) *family {
	key := strings.Join(words, ".")
	if isByName(words) {
		key = strings.Join(words[:2], ".") + ".NAME"
	}
	if entry, ok := metricFamilies[key]; ok && entry.kind == kind {
		return &entry
	}
	name := pageName(words)
	if kind == "counter" {
		name += "_total"
	}
	return &family{name, kind, "The metric " + helpText(key) + " of go-metrics.", 0}
}

// isByName reports whether the last word is the name of an event or a query. That name comes from the network.
func isByName(words []string) bool {
	return len(words) == 3 && words[0] == "serf" && (words[1] == "events" || words[1] == "queries")
}

// isInvoke reports whether words are the name of Serf's metric of a handler's runs. This name contains the whole command.
func isInvoke(words []string) bool {
	return len(words) == 3 && words[0] == "agent" && words[1] == "invoke"
}

// nameLabel adds a label with the event's or the query's name to its metric. A name from the network is never part of a metric's
// name, so it can't collide with that of another metric.
func nameLabel(words []string, labels []metrics.Label) []metrics.Label {
	if isByName(words) {
		return append([]metrics.Label{{Name: "name", Value: words[2]}}, labels...)
	}
	return labels
}

// labelText returns labels in the syntax of the page.
func labelText(labels []metrics.Label) string {
	if len(labels) == 0 {
		return ""
	}
	texts := make([]string, len(labels))
	for i, label := range labels {
		texts[i] = pageName([]string{label.Name}) + `="` + labelEscaper.Replace(label.Value) + `"`
	}
	return "{" + strings.Join(texts, ",") + "}"
}

var labelEscaper = strings.NewReplacer(`\`, `\\`, "\n", `\n`, `"`, `\"`)

// helpText returns a text without line breaks.
func helpText(text string) string { return strings.NewReplacer(`\`, `\\`, "\n", `\n`).Replace(text) }

// pageName returns a valid Prometheus name in small letters.
func pageName(words []string) string {
	var name strings.Builder
	previous := '_'
	for _, r := range strings.Join(words, "_") {
		switch {
		case r >= 'A' && r <= 'Z':
			if unicode.IsLower(previous) {
				name.WriteByte('_')
			}
			name.WriteRune(unicode.ToLower(r))
		case r >= 'a' && r <= 'z' || r >= '0' && r <= '9':
			name.WriteRune(r)
		default:
			name.WriteByte('_')
		}
		previous = r
	}
	return name.String()
}

// figure is a number of `serf info`: its metric and label on the page, and the words of its name for the other sinks.
type figure struct {
	family *family
	labels string
	words  []string
	value  float64
}

// figureFamilies has the figures that are on the page, by their section and name. The results of handlers are not among
// them, because the page shows these for each handler.
var figureFamilies = map[string]family{
	"agent.handlers_waiting": {"agent_handlers_waiting", "gauge", "Events that wait for their handlers.", 0},
	"agent.handlers_unfinished": {"agent_handlers_unfinished", "gauge",
		"Events whose handlers had begun when an earlier life of the agent ended, as found at the start.", 0},
	"agent.handlers_still_running": {"agent_handlers_still_running", "gauge",
		"Those of these events whose handlers were still running at the start.", 0},
	"agent.queries_waiting": {"agent_queries_waiting", "gauge", "Queries that wait for their handlers.", 0},
	"serf.members":          {"serf_members", "gauge", "Members, with those that failed or left.", 0},
	"serf.failed":           {"serf_members_failed", "gauge", "Members that have failed.", 0},
	"serf.left":             {"serf_members_left", "gauge", "Members that have left.", 0},
	"serf.health_score":     {"serf_health_score", "gauge", "Memberlist's health score of this node. 0 is healthy.", 0},
	"serf.intent_queue":     {"serf_intent_queue", "gauge", "Intents that wait to be sent.", 0},
	"serf.event_queue":      {"serf_event_queue", "gauge", "Events that wait to be sent.", 0},
	"serf.query_queue":      {"serf_query_queue", "gauge", "Queries that wait to be sent.", 0},
	"serf.events_waiting":   {"serf_events_waiting", "gauge", "Events that wait for a place in the queue of the handlers.", 0},
	"serf.events_missing": {
		"serf_events_missing", "gauge", "Times of the window of which this node has seen no event, although it has seen a later one.", 0,
	},
	"serf.events_open": {"serf_events_open", "gauge", "Events that were handed out and whose handlers have not ended.", 0},
	"serf.member_time": {"serf_member_time", "gauge", "The Lamport clock of members.", 0},
	"serf.event_time":  {"serf_event_time", "gauge", "The Lamport clock of events.", 0},
	"serf.query_time":  {"serf_query_time", "gauge", "The Lamport clock of queries.", 0},
	"serf.dropped":     {"serf_dropped_total", "counter", "Packets and states that were dropped, for any of the reasons.", 0},
	"serf.dropped_far": {
		"serf_dropped_far_total", "counter", "Packets and states that were dropped because of a time that is implausibly far ahead.", 0,
	},
	"serf.dropped_kept": {
		"serf_dropped_kept_total", "counter", "Packets and states that were dropped because kept events had no room.", 0,
	},
	"serf.coordinate_resets": {"serf_coordinate_resets_total", "counter", "Resets of this node's network coordinate.", 0},
	"serf.REASON": {
		"serf_refused_total", "counter", "Packets, streams and parts of them that the guard refused, by the reason.", 0,
	},
	"serf.IGNORED": {
		"serf_ignored_total", "counter",
		"Events and queries that were ignored although they may never have been handed out, by the reason.", 0,
	},
}

// The prefixes of figures whose names end with a reason.
const (
	refusedPrefix = "refused_"
	ignoredPrefix = "ignored_"
)

// familyOfFigure returns the metric of a figure and its label, or nil if it is not on the page.
func familyOfFigure(section, name string) (*family, string) {
	key, label := section+"."+name, ""
	for prefix, familyKey := range map[string]string{refusedPrefix: "serf.REASON", ignoredPrefix: "serf.IGNORED"} {
		if section == "serf" && strings.HasPrefix(name, prefix) {
			key, label = familyKey, fmt.Sprintf("{reason=%q}", strings.TrimPrefix(name, prefix))
		}
	}
	if entry, ok := figureFamilies[key]; ok {
		return &entry, label
	}
	return nil, ""
}

// isFigure reports whether a metric is a figure that was sent to all sinks.
func isFigure(words []string) bool {
	if len(words) != 2 {
		return false
	}
	family, _ := familyOfFigure(words[0], words[1])
	return family != nil
}

// figures returns the numbers of the agent and of its node.
func figures(stats Stats) (list []figure) {
	sections := stats()
	for _, section := range []string{"agent", "serf"} {
		for name, value := range sections[section] {
			number, err := strconv.ParseFloat(value, 64)
			if err != nil {
				continue
			}
			if family, labels := familyOfFigure(section, name); family != nil {
				list = append(list, figure{family, labels, []string{section, name}, number})
			}
		}
	}
	sort.Slice(list, func(i, j int) bool { return list[i].words[1] < list[j].words[1] })
	return list
}
