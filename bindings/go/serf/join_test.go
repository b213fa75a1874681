package serf

import (
	"sync"
	"testing"
	"time"
)

// Join does not wait until its intent is on the disk. The other nodes receive the intent soon after, even if memory runs out at first.
func TestJoinDoesNotWaitForDisk(t *testing.T) {
	f := &fakeAgent{memberTimeGate: make(chan struct{})}
	f.memoryFailures.Store(2)
	a, b := startNode(t, "a", t.TempDir()), startNode(t, "b", "", withAgent(f))
	var flushed sync.Once
	flush := func() { flushed.Do(func() { close(f.memberTimeGate) }) }
	t.Cleanup(flush)
	promptly(t, "a join", func() {
		if _, err := b.Join([]string{a.address()}, true); err != nil {
			t.Error(err)
		}
	})
	if intents := b.intents.NumQueued(); intents > 0 || b.statusOf("a") != "alive" {
		t.Error(intents, b.statusOf("a"))
	}
	flush()
	eventually(t, "a receives b's join intent", func() bool { return a.statusTime("b") == f.ownMemberTime() })
}

// No join intent follows the leave intent.
func TestNoJoinIntentAfterLeave(t *testing.T) {
	_, b := startPair(t)
	must(t, b.Leave())
	before, err := b.agent.Clocks()
	must(t, err)
	for _, request := range []func() error{
		b.announce, func() error { b.refuteLeave(); return nil }, func() error { signal(b.announceNeeded); return nil },
	} {
		check(t, request())
	}
	eventually(t, "the request for a join intent was read", func() bool { return len(b.announceNeeded) == 0 })
	b.announceMu.Lock()
	defer b.announceMu.Unlock()
	if after, err := b.agent.Clocks(); err != nil || after.Member != before.Member {
		t.Error(before, after, err)
	}
}

// A node sends no join intent to refute a leave if it has sent a later join intent in the meantime.
func TestLeavesAreRefutedOnce(t *testing.T) {
	a, b := startPair(t)
	eventually(t, "a receives b's first join intent", func() bool { return a.statusTime("b") > 0 })
	b.delegate().NotifyMsg(intentPacket(t, 100, "b", true))
	eventually(t, "a receives b's join intent", func() bool { return a.statusTime("b") > 100 })
	before, err := b.agent.Clocks()
	must(t, err)
	for i := 0; i < 3; i++ {
		b.refuteLeave()
		eventually(t, "the request for a join intent was read", func() bool { return len(b.refuteNeeded) == 0 })
	}
	// (the node may still be processing the last request)
	time.Sleep(200 * time.Millisecond)
	if after, err := b.agent.Clocks(); err != nil || after.Member != before.Member {
		t.Error(before, after, err)
	}
}

// If the node is shut down while Leave waits until its intent is sent, Leave returns.
func TestLeaveDuringShutdown(t *testing.T) {
	a := startNode(t, "a", "", withAgent(&fakeAgent{}), func(o *nodeOptions) {
		// (without gossip, the node never sends the intent)
		o.MemberlistConfig.GossipInterval, o.BroadcastTimeout = 0, time.Hour
	})
	a.delegate().NotifyJoin(nodeB())
	left := make(chan error, 1)
	go func() { left <- a.Leave() }()
	eventually(t, "the leave intent is queued", func() bool { return a.intents.NumQueued() == 1 })
	promptly(t, "both end", func() {
		check(t, a.Shutdown())
		if err := <-left; err != ErrEnded {
			t.Error(err)
		}
	})
}
