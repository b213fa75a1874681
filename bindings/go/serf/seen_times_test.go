package serf

import (
	"testing"
	"time"
)

// A time counts as missing if a later one was seen, until it is seen, has left the window or is below the minimum.
func TestSeenTimes(t *testing.T) {
	seen := newSeenTimes(8, 0)
	for _, step := range []struct {
		time    uint64
		missing int
	}{{100, 0}, {101, 0}, {104, 2}, {102, 1}, {102, 1}, {90, 1}, {103, 0}, {120, 7}, {119, 6}, {121, 5}, {122, 4}, {5000, 7}} {
		if seen.add(step.time); seen.countMissing(0) != step.missing {
			t.Error(step, seen.countMissing(0))
		}
	}
	if seen.countMissing(4998) != 2 || seen.countMissing(6000) != 0 {
		t.Error(seen.countMissing(4998), seen.countMissing(6000))
	}
	// The times since the clock of a file can be missing too.
	for clock, missing := range map[uint64]int{0: 0, 1: 0, 40: 2} {
		resumed := newSeenTimes(8, clock)
		if resumed.countMissing(0) != 0 {
			t.Error(clock, resumed.countMissing(0))
		}
		if resumed.add(42); resumed.countMissing(0) != missing {
			t.Error(clock, resumed.countMissing(0))
		}
	}
}

// Stats counts the times at which a node may have missed events, and the events that it ignored as too old.
func TestMissesAreCounted(t *testing.T) {
	a := startNode(t, "a", "", withoutGossip)
	event := func(time uint64, name string) {
		a.delegate().NotifyMsg(withTime("\x03\x82\xa5LTime", time, "\xa4Name\xa3"+name))
		eventually(t, "the clock is at the event", func() bool {
			clocks, err := a.agent.Clocks()
			return err == nil && clocks.Event > time
		})
	}
	event(2000, "one")
	event(2003, "two")
	eventually(t, "two times are missing", func() bool { return a.Stats()["events_missing"] == "2" })
	event(10, "old")
	eventually(t, "the old one is counted", func() bool { return a.Stats()["ignored_too_old"] == "1" })
	if stats := a.Stats(); stats["ignored_below_minimum"] != "0" || stats["ignored_time_full"] != "0" {
		t.Error(stats)
	}
	for i := 0; i < 3; i++ {
		if len(RefusalNames()) == 0 || RefusalNames()[0] != "refused_too_long" {
			t.Error(RefusalNames())
		}
	}
}

// The budget allows a number of exchanges at once, and after that one in each interval.
func TestExchangeBudget(t *testing.T) {
	b, now := exchangeBudget{available: maxExchanges}, time.Now()
	for i := 0; i < maxExchanges; i++ {
		if wait := b.take(now); wait != 0 {
			t.Fatal(i, wait)
		}
	}
	for i := 1; i < 4; i++ {
		if wait := b.take(now); wait != time.Duration(i)*exchangeInterval {
			t.Error(i, wait)
		}
	}
	now = now.Add(6 * exchangeInterval)
	for i := 0; i < 3; i++ {
		if wait := b.take(now); wait != 0 {
			t.Error(i, wait)
		}
	}
	if wait := b.take(now); wait != exchangeInterval {
		t.Error(wait)
	}
	if b.take(now.Add(time.Hour)); b.available != maxExchanges-1 {
		t.Error("more is left than the maximum:", b.available)
	}
}

// A node stops requesting states when several in a row contained nothing new, and sooner if it knows of no missing time.
func TestShouldStopExchanges(t *testing.T) {
	for _, test := range []struct {
		fruitless, missing int
		enough             bool
	}{
		{0, 0, false}, {maxFruitlessIfComplete - 1, 0, false}, {maxFruitlessIfComplete, 0, true}, {maxFruitlessIfComplete, 1, false},
		{maxFruitless - 1, 9, false}, {maxFruitless, 9, true},
	} {
		if shouldStopExchanges(test.fruitless, func() int { return test.missing }) != test.enough {
			t.Error(test)
		}
	}
}
