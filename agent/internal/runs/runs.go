// Package runs reads the snapshots of nodes, and prints what became of the handlers of their events.
package runs

import (
	"errors"
	"fmt"
	"strings"

	"kitchenrue.example/serf"
	"kitchenrue.example/serfagent"
)

// maxSnapshot is the maximum size in bytes of a snapshot that is read.
const maxSnapshot = 4 << 30

// Filter selects events. An empty filter selects all.
type Filter struct {
	// If Name or Payload isn't nil, an event must have this name, or this payload.
	Name, Payload *string
	// Unfinished selects the events that have not ended at one node or more.
	Unfinished bool
}

// matches reports whether the filter selects an event by its name and payload. It ignores what became of the event.
func (f Filter) matches(e serf.EventRun) bool {
	return (f.Name == nil || *f.Name == e.Name) && (f.Payload == nil || *f.Payload == string(e.Payload))
}

// Node has a node's name, and what the node's snapshot reports about handlers.
type Node struct {
	// Name is the node's name. It is empty for a snapshot without one.
	Name string
	*serf.EventRuns
	byKey map[key]serf.EventRun
}

// key identifies an event.
type key struct {
	time          serf.LamportTime
	name, payload string
}

// keyOf returns the key that identifies an event.
func keyOf(e serf.EventRun) key { return key{e.LTime, e.Name, string(e.Payload)} }

// ReadNode reads a snapshot. It doesn't lock or write the file, so a running agent may have it open. If an event
// appears twice in the snapshot, the first one counts.
func ReadNode(name, path string) (*Node, error) {
	text, err := serfagent.ReadFile(path, maxSnapshot)
	if err != nil {
		return nil, err
	}
	found, err := serf.EventRunsOf(text)
	if err != nil {
		return nil, fmt.Errorf("%s: %w", path, err)
	}
	n := &Node{name, found, make(map[key]serf.EventRun, len(found.Events))}
	for _, e := range found.Events {
		n.byKey[keyOf(e)] = e
	}
	return n, nil
}

// SplitNode splits an argument NODE=FILE. If the argument is only FILE, the name is empty.
func SplitNode(argument string) (name, path string, err error) {
	name, path, ok := strings.Cut(argument, "=")
	switch {
	case !ok:
		return "", argument, nil
	case name == "" || path == "":
		return "", "", fmt.Errorf("%q is not of the form NODE=FILE", argument)
	}
	return name, path, nil
}

// ErrMixed is the error if several snapshots have no names, or two have the same name.
var ErrMixed = errors.New("several snapshots have to be named NODE=FILE, each with another NODE")

// CheckNames checks that each of several nodes has a different name.
func CheckNames(names []string) error {
	seen := map[string]bool{}
	for _, name := range names {
		if seen[name] || name == "" && len(names) > 1 {
			return ErrMixed
		}
		seen[name] = true
	}
	return nil
}

// state is what became of an event at a node.
type state string

// The states. For an event that is done, runs say how its handlers ended.
const (
	waiting state = "waiting"
	// running means that the handler's process is running on this machine. cutOff means that the process was running on
	// this machine and has ended. began means one of the two, and the snapshot doesn't say which.
	running state = "running"
	cutOff  state = "cut off"
	began   state = "began"
	done    state = "done"
	// neverBegan means that the event is done without a handler. unknown means that the snapshot doesn't say what
	// became of it.
	neverBegan state = "never began"
	unknown    state = "unknown"
	// neverArrived means that the event was not handed out at the node. notKept means that the snapshot doesn't say
	// whether it was.
	neverArrived state = "never arrived"
	notKept      state = "not kept"
)

var states = map[serf.EventState]state{
	serf.EventWaiting: waiting, serf.EventBegun: began, serf.EventDone: done, serf.EventNeverBegan: neverBegan, serf.EventUnknown: unknown,
}

// outcome is what became of an event at a node.
type outcome struct {
	state   state
	runs    []serf.HandlerRun
	process *serf.HandlerProcess
	// isAgain is true if the handler had been cut off before.
	isAgain bool
}

// outcomeOf returns what became of an event at the node.
func (n *Node) outcomeOf(e serf.EventRun) outcome {
	eventHere, ok := n.byKey[keyOf(e)]
	switch {
	case !ok && e.LTime < n.Minimum:
		return outcome{state: notKept}
	case !ok:
		return outcome{state: neverArrived}
	}
	found := outcome{states[eventHere.State], eventHere.Runs, eventHere.Process, eventHere.HasBegunAgain}
	if eventHere.Process != nil {
		if isRunning, isKnown := eventHere.Process.IsRunning(), eventHere.Process.IsOfThisBoot(); isRunning {
			found.state = running
		} else if isKnown {
			found.state = cutOff
		}
	}
	return found
}

// isUnfinished reports whether the event is waiting for its handlers or being handled, was cut off and not handled
// again, or never arrived.
func (o outcome) isUnfinished() bool {
	switch o.state {
	case waiting, running, cutOff, began, neverArrived:
		return true
	}
	if len(o.runs) == 0 {
		return false
	}
	last := o.runs[len(o.runs)-1].Status
	return last == serf.RanCutOff || last == serf.RanStillRunning
}

// row is an event, and what became of it at each node.
type row struct {
	event    serf.EventRun
	outcomes []outcome
}

// rowsOf returns the events of the nodes that the filter selects, by time. Events with the same time are in the order
// of the first node that has them.
func rowsOf(nodes []*Node, filter Filter) (rows []row) {
	nextIndex, seen := make([]int, len(nodes)), map[key]bool{}
	for {
		first := -1
		for i, n := range nodes {
			if nextIndex[i] < len(n.Events) && (first < 0 || n.Events[nextIndex[i]].LTime < nodes[first].Events[nextIndex[first]].LTime) {
				first = i
			}
		}
		if first < 0 {
			return rows
		}
		event := nodes[first].Events[nextIndex[first]]
		nextIndex[first]++
		if seen[keyOf(event)] || !filter.matches(event) {
			continue
		}
		seen[keyOf(event)] = true
		found, isUnfinished := row{event: event}, false
		for _, n := range nodes {
			outcome := n.outcomeOf(event)
			isUnfinished = isUnfinished || outcome.isUnfinished()
			found.outcomes = append(found.outcomes, outcome)
		}
		if !filter.Unfinished || isUnfinished {
			rows = append(rows, found)
		}
	}
}
