package serf

import (
	"testing"
	"time"
)

// withoutGossip turns off a node's gossip, pings and periodic state exchanges. The node still joins others, and makes
// the state exchanges that it starts itself.
func withoutGossip(o *nodeOptions) {
	// (pings carry gossip too)
	o.MemberlistConfig.GossipInterval, o.MemberlistConfig.PushPullInterval, o.MemberlistConfig.ProbeInterval = 0, 0, 0
}

// If a node that keeps events receives an event whose time isn't the next one, it fetches the missed events from all
// other nodes. A node that keeps no events does not.
func TestMissedEventsAreFetched(t *testing.T) {
	for what, isKeeping := range map[string]bool{"keeps": true, "keeps none": false} {
		isKeeping := isKeeping
		t.Run(what, func(t *testing.T) {
			t.Parallel()
			folder := t.TempDir()
			a, b := startNode(t, "a", folder, withoutGossip), startNode(t, "b", folder, withoutGossip)
			k := startNode(t, "k", folder, withoutGossip, func(o *nodeOptions) { o.KeepEvents = isKeeping })
			b.join(a)
			// (Join returns before the other side has merged this node's state, and without gossip a learns of b in no
			// other way)
			eventually(t, "a knows b", func() bool { return a.statusOf("b") == "alive" })
			k.join(a)
			eventually(t, "k knows both", func() bool { return k.statusOf("a") == "alive" && k.statusOf("b") == "alive" })
			// (by then the state exchanges that follow the join are over)
			time.Sleep(4 * minExchangeInterval)
			event := func(time uint64, name string) []byte { return withTime("\x03\x82\xa5LTime", time, "\xa4Name\xa3"+name) }
			a.delegate().NotifyMsg(event(70, "one"))
			b.delegate().NotifyMsg(event(71, "two"))
			eventually(t, "a and b have the events", func() bool { return len(a.payloads("one")) == 1 && len(b.payloads("two")) == 1 })
			k.delegate().NotifyMsg(event(72, "new"))
			eventually(t, "k has the new event", func() bool { return len(k.payloads("new")) == 1 })
			if isKeeping {
				eventually(
					t, "k fetches the events that it missed",
					func() bool { return len(k.payloads("one")) == 1 && len(k.payloads("two")) == 1 },
				)
				return
			}
			time.Sleep(3 * minExchangeInterval)
			if len(k.payloads("one"))+len(k.payloads("two")) > 0 {
				t.Error("k has events that nobody sent to it")
			}
		})
	}
}

// Events whose times are consecutive are no sign that anything was missed.
func TestCheckForGap(t *testing.T) {
	s := &Serf{missedEvents: make(chan struct{}, 1)}
	for _, test := range []struct {
		time  uint64
		isGap bool
	}{{0, false}, {1, false}, {2, false}, {2, true}, {3, false}, {9, true}, {10, false}, {4, true}, {11, false}} {
		s.checkForGap(test.time)
		if found := len(s.missedEvents) > 0; found != test.isGap {
			t.Errorf("%d: %v", test.time, found)
		}
		select {
		case <-s.missedEvents:
		default:
		}
	}
}
