package serf

import (
	"fmt"
	"io"
	"log"
	"math/rand"
	"net"
	"reflect"
	"strings"
	"testing"
	"time"

	"kitchenrue.example/serfagent"
)

// testMembers is a member list, with the events and the lines that it reported.
type testMembers struct {
	*memberList
	events, lines []string
}

func newTestMembers() *testMembers {
	c := &testMembers{}
	conf := loopbackConfig("self")
	c.memberList = newMembers(&conf, log.New(io.Discard, "", 0), func(e MemberEvent) {
		c.events = append(c.events, e.String()+" "+e.Members[0].Name)
	}, func(line string) { c.lines = append(c.lines, line) })
	c.memberJoined(aliveMember("self"))
	c.events, c.lines = nil, nil
	return c
}

func aliveMember(name string) Member {
	return Member{Name: name, Addr: net.IPv4(127, 0, 0, 1), Port: 7946}
}

// statusOf returns the status of a member, or "" if the list doesn't have it.
func (c *testMembers) statusOf(name string) string {
	if m, ok := c.get(name); ok {
		return m.Status.String()
	}
	return ""
}

// pass lets a time pass, and then reaps with Serf's timeouts.
func (c *testMembers) pass(time time.Duration) {
	for _, m := range c.members {
		m.changedAt = m.changedAt.Add(-time)
	}
	for name, held := range c.intents {
		held.heldAt = held.heldAt.Add(-time)
		c.intents[name] = held
	}
	defaults := DefaultConfig()
	c.reap(defaults.ReconnectTimeout, defaults.TombstoneTimeout, false)
}

// run applies steps such as "join a; leaves a 3; gone a", and returns the outcomes of the intents. The steps join,
// update and gone are reports of memberlist; the steps came, leaves and pruned are intents with a time. The steps
// minute, hour and week let so much time pass.
func (c *testMembers) run(words string) string {
	var outcomes []string
	for _, step := range strings.Split(words, "; ") {
		var what, name string
		var at uint64
		fmt.Sscan(step, &what, &name, &at)
		switch what {
		case "join":
			c.memberJoined(aliveMember(name))
		case "gone":
			c.memberLeft(name)
		case "update":
			c.memberUpdated(aliveMember(name))
		case "minute":
			c.pass(time.Minute)
		case "hour":
			c.pass(time.Hour)
		case "week":
			c.pass(7 * 24 * time.Hour)
		case "came", "leaves", "pruned":
			outcome := c.receiveIntent(serfagent.Intent{Time: at, Node: name, Leave: what != "came", Prune: what == "pruned"})
			if outcome.isNew {
				outcomes = append(outcomes, "new")
			}
			if outcome.mustRefute {
				outcomes = append(outcomes, "wrong")
			}
		}
	}
	return strings.Join(outcomes, " ")
}

func TestMemberHistories(t *testing.T) {
	for _, test := range []struct{ words, outcomes, status, events string }{
		{"join a", "", "alive", "member-join a"},
		{"join a; gone a", "", "failed", "member-join a, member-failed a"},
		{"join a; gone a; gone a", "", "failed", "member-join a, member-failed a"},
		{"join a; leaves a 3; gone a", "new", "left", "member-join a, member-leave a"},
		{"join a; leaves a 3; leaves a 3; gone a", "new", "left", "member-join a, member-leave a"},
		{"join a; came a 3; leaves a 3; gone a", "new", "failed", "member-join a, member-failed a"},
		{"join a; leaves a 3", "new", "leaving", "member-join a"},
		{"join a; leaves a 3; came a 4", "new new", "alive", "member-join a"},
		{"join a; leaves a 3; came a 2; gone a", "new", "left", "member-join a, member-leave a"},
		{"join a; gone a; leaves a 3", "new", "left", "member-join a, member-failed a, member-leave a"},
		{
			"join a; leaves a 3; gone a; join a; leaves a 3; gone a", "new", "failed",
			"member-join a, member-leave a, member-join a, member-failed a",
		},
		{"leaves a 3; join a; gone a", "new", "left", "member-join a, member-leave a"},
		{"leaves a 3; came a 4; join a; gone a", "new new", "failed", "member-join a, member-failed a"},
		{"came a 4; leaves a 3; join a; gone a", "new", "failed", "member-join a, member-failed a"},
		{"join a; leaves a 3; gone a; pruned a 4", "new new", "", "member-join a, member-leave a, member-reap a"},
		{"join a; gone a; pruned a 4", "new", "", "member-join a, member-failed a, member-leave a, member-reap a"},
		{"join a; pruned a 4; gone a", "new", "", "member-join a, member-leave a, member-reap a"},
		{"join a; pruned a 4; gone a; join a", "new", "alive", "member-join a, member-leave a, member-reap a, member-join a"},
		{"join a; pruned a 4; leaves a 5; gone a", "new new", "", "member-join a, member-leave a, member-reap a"},
		{"join a; pruned a 4; came a 5; leaves a 6; gone a", "new new new", "left", "member-join a, member-leave a"},
		{"join a; pruned a 4; join a; leaves a 6; gone a", "new new", "left", "member-join a, member-join a, member-leave a"},
		{
			"join a; gone a; pruned a 4; pruned a 4; join a; came a 5", "new new new", "alive",
			"member-join a, member-failed a, member-leave a, member-reap a, member-join a",
		},
		{"pruned a 4; join a; gone a", "new", "", "member-join a, member-leave a, member-reap a"},
		{"update a", "", "", ""},
		{"join a; update a", "", "alive", "member-join a, member-update a"},
		{"leaves self 3", "wrong", "", ""},
		{"came self 3; leaves self 2", "new", "", ""},
		{"came self 3; leaves self 3", "new wrong", "", ""},
		{"gone b", "", "", ""},
	} {
		c := newTestMembers()
		outcomes := c.run(test.words)
		status := c.statusOf("a")
		if events := strings.Join(c.events, ", "); outcomes != test.outcomes || status != test.status || events != test.events {
			t.Errorf("%s: %q %q %q", test.words, outcomes, status, events)
		}
	}
}

func TestSnapshotLines(t *testing.T) {
	c := newTestMembers()
	c.run("join a; join b; gone a; leaves b 3; gone b; join c")
	want := []string{
		"alive: a 127.0.0.1:7946\n", "alive: b 127.0.0.1:7946\n", "not-alive: a\n", "not-alive: b\n", "alive: c 127.0.0.1:7946\n",
	}
	if !reflect.DeepEqual(c.lines, want) {
		t.Error(c.lines)
	}
	if lines := c.aliveLines(); !reflect.DeepEqual(lines, []string{want[4], "alive: self 127.0.0.1:7946\n"}) {
		t.Error(lines)
	}
}

func TestMergeState(t *testing.T) {
	first, second := newTestMembers(), newTestMembers()
	first.run("join a; came a 2; join b; leaves b 3; gone b; join c; gone c")
	statuses, left := first.statuses()
	times := map[string]uint64{}
	for _, status := range statuses {
		times[status.Name] = status.Time
	}
	if !reflect.DeepEqual(left, []string{"b"}) || !reflect.DeepEqual(times, map[string]uint64{"self": 0, "a": 2, "b": 3, "c": 0}) {
		t.Error(statuses, left)
	}
	second.run("join a; leaves a 1; join b")
	if isWrong, _ := second.mergeState(&serfagent.Members{Statuses: statuses, Left: left}); isWrong {
		t.Error("a state is wrong, although it says nothing of this node")
	}
	second.run("gone a; gone b")
	if a, _ := second.get("a"); a.Status != StatusFailed {
		t.Error(a.Status)
	}
	if b, _ := second.get("b"); b.Status != StatusLeft {
		t.Error(b.Status)
	}
	state := &serfagent.Members{Statuses: []serfagent.Status{{Name: "self", Time: 9}}, Left: []string{"self"}}
	if isWrong, time := second.mergeState(state); !isWrong || time != 9 {
		t.Error("a state that says that this node left is not wrong", time)
	}
}

// A state contains a later time for this node than that of its last intent only if another node sent a leave for it. This node refutes it.
func TestLaterStatusOfItselfIsRefuted(t *testing.T) {
	c := newTestMembers()
	for _, step := range []struct {
		own, status                  uint64
		wantRefuted, mustRefuteLeave bool
	}{
		{3, 2, false, false}, {3, 3, false, false}, {3, 5, true, true}, {5, 5, false, true}, {6, 5, false, false}, {6, 6, false, false},
		{6, 7, true, true},
	} {
		c.setOwnStatus(StatusAlive, step.own)
		mustRefute, _ := c.mergeState(&serfagent.Members{Statuses: []serfagent.Status{{Name: "self", Time: step.status}}})
		if mustRefute != step.wantRefuted || c.mustRefuteLeave() != step.mustRefuteLeave {
			t.Error(step, mustRefute, c.mustRefuteLeave())
		}
	}
	c.setOwnStatus(StatusLeaving, 8)
	if isWrong, _ := c.mergeState(&serfagent.Members{Statuses: []serfagent.Status{{Name: "self", Time: 9}}}); isWrong {
		t.Error("a node that leaves refutes that")
	}
}

// If a member that left has sent a later join intent, a state still has the time at which it left: it didn't leave at that later time.
func TestStatesHaveTimesOfLeaves(t *testing.T) {
	c := newTestMembers()
	c.run("join a; came a 2; leaves a 3; gone a; came a 5; join b; leaves b 4; leaves b 6; gone b; leaves d 7; join d; gone d")
	c.setOwnStatus(StatusLeaving, 8)
	c.memberLeft("self")
	statuses, left := c.statuses()
	times := map[string]uint64{}
	for _, status := range statuses {
		times[status.Name] = status.Time
	}
	if want := map[string]uint64{"self": 8, "a": 3, "b": 6, "d": 7}; !reflect.DeepEqual(times, want) || len(left) != 4 {
		t.Error(times, left)
	}
	c.run("join a")
	for statuses, _ := c.statuses(); len(statuses) > 0; statuses = statuses[1:] {
		if statuses[0].Name == "a" && statuses[0].Time != 5 {
			t.Error(statuses[0])
		}
	}
}

// A member that has been alive for long after the last leave intent does not leave. This node itself is leaving until it has left.
func TestMemberThatDoesNotLeave(t *testing.T) {
	for _, test := range []struct {
		words  string
		age    time.Duration
		status MemberStatus
	}{
		{"join a; leaves a 3", time.Hour, StatusAlive},
		{"leaves a 3; join a", time.Hour, StatusAlive},
		{"leaves a 3; join a", time.Minute, StatusLeaving},
		{"join a; leaves a 3; gone a", time.Hour, StatusLeft},
		{"join a; gone a", time.Hour, StatusFailed},
	} {
		c := newTestMembers()
		c.setOwnStatus(StatusLeaving, 1)
		c.run(test.words)
		c.members["a"].changedAt = time.Now().Add(-test.age)
		c.reap(24*time.Hour, 24*time.Hour, false)
		if a, _ := c.get("a"); a.Status != test.status {
			t.Error(test, a.Status)
		}
		if self, _ := c.get("self"); self.Status != StatusLeaving {
			t.Error(self.Status)
		}
	}
}

// If a leaving member sends a later leave intent, the time in which it has to leave starts again when that intent
// arrives.
func TestLaterLeaveOfLeavingMember(t *testing.T) {
	c := newTestMembers()
	c.run("join a; leaves a 3")
	c.members["a"].changedAt = time.Now().Add(-time.Hour)
	c.run("leaves a 4")
	c.reap(24*time.Hour, 24*time.Hour, false)
	if a, _ := c.get("a"); a.Status != StatusLeaving {
		t.Error(a.Status)
	}
}

func TestReap(t *testing.T) {
	c := newTestMembers()
	c.run("join a; gone a; join b; leaves b 3; gone b; join c")
	c.reap(time.Hour, time.Hour, false)
	if c.size() != 4 {
		t.Error(c.size())
	}
	c.reap(-1, time.Hour, false)
	if _, ok := c.get("a"); ok || c.size() != 3 {
		t.Error("a was not forgotten")
	}
	c.reap(time.Hour, -1, false)
	if _, ok := c.get("b"); ok || c.size() != 2 || c.count(StatusAlive) != 2 {
		t.Error("b was not forgotten")
	}
}

func TestHeldIntentsAreLimited(t *testing.T) {
	c := newTestMembers()
	for i := 0; i < 2*maxIntents; i++ {
		if new := c.run(fmt.Sprintf("leaves n%d 3", i)) == "new"; new != (i < maxIntents) {
			t.Fatal(i)
		}
	}
	if c.run("leaves n0 4") != "new" || len(c.intents) != maxIntents {
		t.Error("a newer intent for a held name was refused")
	}
}

func TestIntentsOfImpossibleNames(t *testing.T) {
	c := newTestMembers()
	for _, name := range []string{"", strings.Repeat("x", 129)} {
		if c.receiveIntent(serfagent.Intent{Time: 3, Node: name, Leave: true}).isNew || len(c.intents) > 0 {
			t.Errorf("an intent for %q is held", name)
		}
	}
	if c.run("leaves "+strings.Repeat("x", 128)+" 3") != "new" {
		t.Error("an intent for a name of 128 bytes was refused")
	}
}

func TestPickFailedAndOthers(t *testing.T) {
	c := newTestMembers()
	if _, ok := c.pickFailed(); ok {
		t.Error("a member was picked, although none failed")
	}
	c.run("join a; gone a")
	if m, ok := c.pickFailed(); !ok || m.Name != "a" {
		t.Error(m, ok)
	}
	c.run("join b; join c; join d")
	if others := c.pickOthers(2, "b"); len(others) != 2 || others[0].Name == "b" || others[1].Name == "b" {
		t.Error(others)
	}
}

func TestLeavingMembersHaveLines(t *testing.T) {
	c := newTestMembers()
	c.run("join a; leaves a 3; join b; gone b")
	if lines := strings.Join(c.aliveLines(), ""); lines != "alive: a 127.0.0.1:7946\nalive: self 127.0.0.1:7946\n" {
		t.Error(lines)
	}
}

func TestHeldIntentsExpire(t *testing.T) {
	for age, status := range map[time.Duration]MemberStatus{0: StatusLeaving, time.Hour: StatusAlive} {
		c := newTestMembers()
		c.run("leaves a 3")
		held := c.intents["a"]
		held.heldAt = time.Now().Add(-age)
		c.intents["a"] = held
		c.run("join a")
		if a, _ := c.get("a"); a.Status != status {
			t.Error(age, a.Status)
		}
	}
}

// A member that is to be pruned is leaving as long as memberlist holds it as alive, and is forgotten when memberlist has
// lost it. If it refutes the leave, or doesn't leave for long, it is an ordinary member again. After a restart, the node
// joins the member unless it has forgotten it.
func TestPrunedMemberThatIsAlive(t *testing.T) {
	for _, test := range []struct{ words, status, later, laterStatus string }{
		{"join a; pruned a 4", "leaving", "gone a", ""},
		{"join a; pruned a 4; minute", "leaving", "gone a", ""},
		{"join a; leaves a 4; pruned a 5; minute", "leaving", "gone a", ""},
		{"pruned a 4; join a; minute", "leaving", "gone a", ""},
		{"join a; pruned a 4; minute", "leaving", "came a 5", "alive"},
		{"join a; pruned a 4; hour", "alive", "gone a", "failed"},
		{"join a; pruned a 4; hour", "alive", "leaves a 5; gone a", "left"},
		{"join a; pruned a 4; came a 5; hour", "alive", "gone a", "failed"},
		{"join a; pruned a 4; came a 5; leaves a 6; minute", "leaving", "gone a", "left"},
		{"join a; leaves a 4; minute", "leaving", "gone a", "left"},
	} {
		c := newTestMembers()
		c.run(test.words)
		status := c.statusOf("a")
		isAliveAfterRestart := strings.Contains(strings.Join(c.aliveLines(), ""), "alive: a ")
		c.run(test.later)
		if laterStatus := c.statusOf("a"); status != test.status || laterStatus != test.laterStatus || !isAliveAfterRestart {
			t.Errorf("%s; %s: %q %q %v", test.words, test.later, status, laterStatus, isAliveAfterRestart)
		}
		isForgotten := test.laterStatus == ""
		if ends := strings.HasSuffix(strings.Join(c.events, ", "), "member-leave a, member-reap a"); ends != isForgotten {
			t.Errorf("%s; %s: %v", test.words, test.later, c.events)
		}
		if last := c.lines[len(c.lines)-1]; isForgotten && last != "not-alive: a\n" {
			t.Errorf("%s; %s: %q", test.words, test.later, last)
		}
	}
}

// Whatever arrives in whatever order, and whatever is reaped: the list has each member that memberlist holds as alive, as alive or as
// leaving. It has the others as failed or left, or has forgotten them. A later join intent makes every living member alive.
func TestLivingMembersAreNeverForgotten(t *testing.T) {
	rng := rand.New(rand.NewSource(1))
	names := []string{"a", "b", "c"}
	for history := 0; history < 500; history++ {
		c, isAlive := newTestMembers(), map[string]bool{}
		var steps []string
		step := func(words string) {
			steps = append(steps, words)
			c.run(words)
		}
		for len(steps) < 40 {
			name := names[rng.Intn(len(names))]
			switch rng.Intn(7) {
			case 0:
				// (memberlist reports each change once)
				step(map[bool]string{false: "join ", true: "gone "}[isAlive[name]] + name)
				isAlive[name] = !isAlive[name]
			case 1, 2, 3:
				step(fmt.Sprint([]string{"came ", "leaves ", "pruned "}[rng.Intn(3)], name, " ", rng.Intn(20)))
			case 4:
				step([]string{"minute", "hour", "week"}[rng.Intn(3)])
			case 5:
				state := &serfagent.Members{Statuses: []serfagent.Status{{Name: name, Time: uint64(rng.Intn(20))}}}
				if rng.Intn(2) == 0 {
					state.Left = []string{name}
				}
				steps = append(steps, fmt.Sprintf("merge %v", *state))
				c.mergeState(state)
			default:
				steps = append(steps, "make room")
				c.makeRoom()
			}
			for _, name := range names {
				if status := c.statusOf(name); isAlive[name] != (status == "alive" || status == "leaving") {
					t.Fatalf("%s is %q after %s", name, status, strings.Join(steps, "; "))
				}
			}
		}
		for _, name := range names {
			if step("came " + name + " 20"); isAlive[name] && c.statusOf(name) != "alive" {
				t.Fatalf("%s is %q after %s", name, c.statusOf(name), strings.Join(steps, "; "))
			}
		}
	}
}

func TestNodeForgetsItselfOnlyAfterLeave(t *testing.T) {
	c := newTestMembers()
	c.setOwnStatus(StatusLeft, 5)
	c.reap(-1, -1, false)
	if self, ok := c.get("self"); !ok || self.Status != StatusLeft {
		t.Error(self, ok)
	}
	// after a leave, reap forgets this node too, as Serf does, and ownMember still returns it
	c.reap(-1, -1, true)
	if _, ok := c.get("self"); ok || c.ownMember().Name != "self" {
		t.Error(c.ownMember())
	}
}

// If another node prunes this node while it leaves, this node forgets itself too, and ownMember still returns it.
func TestPrunedNodeThatLeaves(t *testing.T) {
	for _, words := range []string{"pruned self 6; gone self", "gone self; pruned self 6"} {
		c := newTestMembers()
		c.setOwnStatus(StatusLeaving, 5)
		c.run(words)
		if own := c.ownMember(); c.statusOf("self") != "" || own.Name != "self" || own.Status != StatusLeft {
			t.Error(words, c.statusOf("self"), own)
		}
	}
}

// If the list is full, a member that failed or left makes room: the oldest one at the address that has the largest number of
// them. Living members never do.
func TestFailedMemberMakesRoom(t *testing.T) {
	c := newTestMembers()
	if c.makeRoom() {
		t.Error("a living member makes room")
	}
	honest := aliveMember("honest")
	honest.Addr = net.IPv4(127, 0, 0, 2)
	c.memberJoined(honest)
	c.run("gone honest; join b; join a; join d; gone b; gone a; leaves d 1; gone d; join living")
	for _, want := range []string{"b", "a", "honest", "d"} {
		c.events = nil
		if !c.makeRoom() || len(c.events) != 1 || c.events[0] != "member-reap "+want {
			t.Errorf("%v in place of %s", c.events, want)
		}
	}
	if c.makeRoom() {
		t.Error("a living member makes room")
	}
}
