// Package planted selects the wrong body that runs. The copies of the packages under test contain all wrong bodies
// (planted.py).
package planted

import (
	"sync"
	"sync/atomic"
	"time"
)

// Name is the name of the wrong body that runs. Set it before the first node begins.
var Name string

// TimeOfDayShift is the error of the time of day that all nodes see, in nanoseconds.
var TimeOfDayShift atomic.Int64

// sentIntents has the Lamport times of the intents that the nodes sent.
var sentIntents struct {
	sync.Mutex
	joins  map[string]uint64
	leaves map[string]map[uint64]bool
}

// RecordIntent records that a node sent an intent. The copies of the packages call it.
func RecordIntent(sender, node string, time uint64, isLeave bool) {
	sentIntents.Lock()
	defer sentIntents.Unlock()
	if sentIntents.joins == nil {
		sentIntents.joins, sentIntents.leaves = map[string]uint64{}, map[string]map[uint64]bool{}
	}
	if !isLeave {
		sentIntents.joins[node] = time
	} else if sender != node {
		if sentIntents.leaves[node] == nil {
			sentIntents.leaves[node] = map[uint64]bool{}
		}
		sentIntents.leaves[node][time] = true
	}
}

// IsTied reports whether another node sent a leave intent for this node with the same time as this node's last join
// intent.
func IsTied(node string) bool {
	sentIntents.Lock()
	defer sentIntents.Unlock()
	return sentIntents.leaves[node][sentIntents.joins[node]]
}

// IsOn reports whether the wrong body with this name runs.
func IsOn(name string) bool { return Name == name }

// TimeOfDay returns the time of day as the nodes see it.
func TimeOfDay() time.Time { return time.Now().Add(time.Duration(TimeOfDayShift.Load())) }
