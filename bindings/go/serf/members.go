package serf

import (
	"log"
	"math/rand"
	"net"
	"sort"
	"strconv"
	"sync"
	"sync/atomic"
	"time"

	"kitchenrue.example/serfagent"
)

// maxIntents is the maximum number of intents that the list holds for nodes that aren't members yet.
const maxIntents = 4096

// memberList has the members. No method holds its lock for long, since memberlist may call at any time. The list
// reports changes one at a time and in order, without holding the lock.
type memberList struct {
	self string
	log  *log.Logger
	// intentTimeout is how long the list holds an intent of a node that isn't a member yet.
	intentTimeout time.Duration
	// flapTimeout is how soon a failed member has to be alive again to count as flapping.
	flapTimeout time.Duration
	// report receives each event, and addLine each line for the snapshot. Neither may block.
	report  func(MemberEvent)
	addLine func(line string)

	mu      sync.Mutex
	members map[string]*member
	// forgottenSelf is this node's last data as a member, saved when the list forgot this node after a leave.
	forgottenSelf Member
	// wrongLeaveTime is the latest time of a leave intent that makes other nodes believe, wrongly, that this node left.
	wrongLeaveTime uint64
	intents        map[string]pendingIntent
	unreported     []memberChange
	isReporting    bool
	// memberCount is the number of members.
	memberCount atomic.Int64
}

// member is a member, with the time of its last intent, and that of its last leave intent.
type member struct {
	Member
	intentTime, leaveTime uint64
	// changedAt is when the member failed or left, or when its last leave intent arrived.
	changedAt time.Time
	// isPruned is true if the member is leaving, and an intent said to forget it after it has left.
	isPruned bool
}

type pendingIntent struct {
	serfagent.Intent
	heldAt time.Time
}

// memberChange is a change to report: an event, and a line for the snapshot. The line is empty if the change needs
// none.
type memberChange struct {
	event MemberEvent
	line  string
}

// newMembers returns an empty list.
func newMembers(c *Config, logger *log.Logger, report func(MemberEvent), addLine func(string)) *memberList {
	return &memberList{
		self: c.NodeName, log: logger, intentTimeout: c.RecentIntentTimeout, flapTimeout: c.FlapTimeout,
		report: report, addLine: addLine, members: map[string]*member{}, intents: map[string]pendingIntent{},
	}
}

// change applies a change under the lock, and then reports what the change recorded.
func (l *memberList) change(apply func()) {
	l.mu.Lock()
	defer l.mu.Unlock()
	apply()
	for len(l.unreported) > 0 && !l.isReporting {
		first := l.unreported[0]
		l.unreported = l.unreported[1:]
		l.isReporting = true
		l.mu.Unlock()
		if first.line != "" {
			l.addLine(first.line)
		}
		l.report(first.event)
		l.mu.Lock()
		l.isReporting = false
	}
}

// recordChange records a change, which is reported once the lock is released. The caller holds mu.
func (l *memberList) recordChange(kind EventType, m *member, line string) {
	if metric, ok := changeMetrics[kind]; ok {
		incrCounter("member", metric)
	}
	l.memberCount.Store(int64(len(l.members)))
	l.unreported = append(l.unreported, memberChange{MemberEvent{kind, []Member{m.Member}}, line})
}

// changeMetrics has the last part of the names of Serf's metrics for these changes.
var changeMetrics = map[EventType]string{
	EventMemberJoin: "join", EventMemberLeave: "left", EventMemberFailed: "failed", EventMemberUpdate: "update",
}

// aliveLine and notAliveLine return the snapshot's line that a member is alive, or is no longer alive.
func aliveLine(m *member) string {
	return "alive: " + m.Name + " " + net.JoinHostPort(m.Addr.String(), strconv.Itoa(int(m.Port))) + "\n"
}

func notAliveLine(m *member) string { return "not-alive: " + m.Name + "\n" }

// memberJoined adds a member that memberlist reports as alive, or marks it as alive again.
func (l *memberList) memberJoined(joined Member) {
	l.change(func() {
		m := l.members[joined.Name]
		if m == nil {
			m = &member{}
			l.members[joined.Name] = m
		}
		if m.Status == StatusFailed && time.Since(m.changedAt) < l.flapTimeout {
			incrCounter("member", "flap")
		}
		m.Member, m.changedAt, m.isPruned = joined, time.Time{}, false
		m.Status = StatusAlive
		if pending, hasIntent := l.intents[joined.Name]; hasIntent {
			delete(l.intents, joined.Name)
			if pending.Time > m.intentTime && time.Since(pending.heldAt) < l.intentTimeout {
				m.intentTime = pending.Time
				if pending.Leave {
					m.Status, m.changedAt, m.leaveTime = StatusLeaving, time.Now(), pending.Time
					m.isPruned = pending.Prune
				}
			}
		}
		l.log.Printf("[INFO] serf: EventMemberJoin: %s %s", m.Name, m.Addr)
		l.recordChange(EventMemberJoin, m, aliveLine(m))
	})
}

// memberLeft handles a member that memberlist no longer has. If the member had announced its leave, it left; otherwise
// it failed.
func (l *memberList) memberLeft(name string) {
	l.change(func() {
		m := l.members[name]
		if m == nil || m.Status == StatusLeft || m.Status == StatusFailed {
			return
		}
		m.changedAt = time.Now()
		if m.Status == StatusLeaving {
			l.markLeft(m)
			return
		}
		m.Status = StatusFailed
		l.log.Printf("[INFO] serf: EventMemberFailed: %s %s", m.Name, m.Addr)
		l.recordChange(EventMemberFailed, m, notAliveLine(m))
	})
}

// markLeft records that a member left, and forgets the member if an intent said so.
func (l *memberList) markLeft(m *member) {
	m.Status = StatusLeft
	l.log.Printf("[INFO] serf: EventMemberLeave: %s %s", m.Name, m.Addr)
	l.recordChange(EventMemberLeave, m, notAliveLine(m))
	if m.isPruned {
		l.forget(m, "forced")
	}
}

// forget removes a member that failed or left. While memberlist holds a member as alive, the member must stay in the
// list, because memberlist reports the member again only after it has lost it. The caller holds mu.
func (l *memberList) forget(m *member, reason string) {
	delete(l.members, m.Name)
	if m.Name == l.self {
		l.forgottenSelf = m.Member
	}
	l.log.Printf("[INFO] serf: EventMemberReap (%s): %s %s", reason, m.Name, m.Addr)
	l.recordChange(EventMemberReap, m, "")
}

// makeRoom forgets one member that failed or left, if there is one, so that the list has room for a new member. It
// chooses the IP address with the largest number of failed and left members, since a host that invents members has
// many, and forgets the oldest member at that address.
func (l *memberList) makeRoom() (hasForgotten bool) {
	l.change(func() {
		var oldest *member
		atAddress := map[string][]*member{}
		for _, m := range l.members {
			if m.Name != l.self && (m.Status == StatusFailed || m.Status == StatusLeft) {
				addr := m.Addr.String()
				atAddress[addr] = append(atAddress[addr], m)
			}
		}
		largestCount := 0
		for _, candidates := range atAddress {
			oldestAtAddress := candidates[0]
			for _, m := range candidates {
				if m.changedAt.Before(oldestAtAddress.changedAt) {
					oldestAtAddress = m
				}
			}
			if len(candidates) > largestCount || len(candidates) == largestCount && oldestAtAddress.changedAt.Before(oldest.changedAt) {
				oldest, largestCount = oldestAtAddress, len(candidates)
			}
		}
		if hasForgotten = oldest != nil; hasForgotten {
			l.forget(oldest, "full")
		}
	})
	return hasForgotten
}

// memberUpdated handles a member whose tags changed.
func (l *memberList) memberUpdated(updated Member) {
	l.change(func() {
		m := l.members[updated.Name]
		if m == nil {
			return
		}
		status := m.Status
		m.Member = updated
		m.Status = status
		l.log.Printf("[INFO] serf: EventMemberUpdate: %s", m.Name)
		l.recordChange(EventMemberUpdate, m, "")
	})
}

// intentOutcome is the result of an intent.
type intentOutcome struct {
	// isNew: the intent is new to this node, so the node has to rebroadcast it.
	isNew bool
	// mustRefute: the intent says that this node leaves, although it does not. The node has to refute it by sending
	// a later join intent.
	mustRefute bool
}

// receiveIntent applies an intent. It has an effect only if its time is larger than that of the member's status. A node also
// refutes a leave that has the same time as its join intent: a node that received the leave first ignores that join intent.
func (l *memberList) receiveIntent(intent serfagent.Intent) (found intentOutcome) {
	l.change(func() { found = l.applyIntent(intent) })
	return found
}

// applyIntent is receiveIntent with mu held.
func (l *memberList) applyIntent(intent serfagent.Intent) intentOutcome {
	m := l.members[intent.Node]
	if m == nil {
		return intentOutcome{isNew: l.holdIntent(intent)}
	}
	if intent.Leave && m.Name == l.self && m.Status == StatusAlive && intent.Time >= m.intentTime {
		return l.recordWrongLeave(intent.Time)
	}
	if intent.Time <= m.intentTime {
		return intentOutcome{}
	}
	m.intentTime = intent.Time
	if !intent.Leave {
		if m.Status == StatusLeaving {
			m.Status, m.isPruned = StatusAlive, false
		}
		return intentOutcome{isNew: true}
	}
	m.leaveTime = intent.Time
	m.isPruned = m.isPruned || intent.Prune
	switch m.Status {
	case StatusAlive, StatusLeaving:
		m.Status, m.changedAt = StatusLeaving, time.Now()
	case StatusFailed:
		m.changedAt = time.Now()
		l.markLeft(m)
	case StatusLeft:
		if intent.Prune {
			l.forget(m, "forced")
		}
	}
	return intentOutcome{isNew: true}
}

// recordWrongLeave records that other nodes may believe that this node left at a time. The caller holds mu.
func (l *memberList) recordWrongLeave(time uint64) intentOutcome {
	if time > l.wrongLeaveTime {
		l.wrongLeaveTime = time
	}
	return intentOutcome{mustRefute: true}
}

// mustRefuteLeave reports whether this node has sent no join intent later than the leave that other nodes may believe in.
func (l *memberList) mustRefuteLeave() bool {
	l.mu.Lock()
	defer l.mu.Unlock()
	m := l.members[l.self]
	return m != nil && m.intentTime <= l.wrongLeaveTime
}

// holdIntent holds an intent of a node that isn't a member yet, and reports whether the intent is new. It does not hold
// the intent if no member can have the node's name, or if the list already holds maxIntents intents.
func (l *memberList) holdIntent(intent serfagent.Intent) bool {
	now, name := time.Now(), intent.Node
	if name == "" || len(name) > maxNameLength {
		return false
	}
	if old, isHeld := l.intents[name]; isHeld && old.Time >= intent.Time {
		return false
	} else if !isHeld && len(l.intents) >= maxIntents {
		return false
	}
	l.intents[name] = pendingIntent{intent, now}
	return true
}

// mergeState applies the statuses of another node's state: which members left, and the times of the others. It reports
// whether other nodes may wrongly believe that this node left, and the time of that leave. They may believe so if the
// state contains a later time for this node than that of its last intent. That is the time of a leave intent that
// another node sent for this one. A node that received this leave intent before it knew this node shows this node as
// leaving, but its states contain only the time.
func (l *memberList) mergeState(state *serfagent.Members) (mustRefute bool, wrongLeaveTime uint64) {
	times := make(map[string]uint64, len(state.Statuses))
	for _, status := range state.Statuses {
		times[status.Name] = status.Time
	}
	l.change(func() {
		for _, name := range state.Left {
			if l.applyIntent(serfagent.Intent{Time: times[name], Node: name, Leave: true}).mustRefute {
				mustRefute = true
			}
		}
		for _, name := range state.Left {
			delete(times, name)
		}
		for name, time := range times {
			if m := l.members[name]; name == l.self && m != nil && m.Status == StatusAlive && time > m.intentTime {
				mustRefute = l.recordWrongLeave(time).mustRefute
				continue
			}
			l.applyIntent(serfagent.Intent{Time: time, Node: name})
		}
		wrongLeaveTime = l.wrongLeaveTime
	})
	return mustRefute, wrongLeaveTime
}

// setOwnStatus sets the status of this node and its time.
func (l *memberList) setOwnStatus(status MemberStatus, time uint64) {
	l.change(func() {
		if m := l.members[l.self]; m != nil {
			m.Status = status
			if time > m.intentTime {
				m.intentTime = time
			}
			if status != StatusAlive {
				m.leaveTime = m.intentTime
			}
		}
	})
}

// reap forgets members that failed more than failedFor ago, members that left more than leftFor ago, and held intents
// whose node never joined. It forgets this node itself only after this node left. If a member is still alive long after
// its last leave intent, reap marks it as alive again.
func (l *memberList) reap(failedFor, leftFor time.Duration, hasLeft bool) {
	l.change(func() {
		now := time.Now()
		for _, m := range l.members {
			if m.Name == l.self && !hasLeft {
				continue
			}
			if m.Status == StatusFailed && now.Sub(m.changedAt) > failedFor || m.Status == StatusLeft && now.Sub(m.changedAt) > leftFor {
				l.forget(m, "timeout")
			}
			if m.Status == StatusLeaving && m.Name != l.self && now.Sub(m.changedAt) > l.intentTimeout {
				l.log.Printf("[INFO] serf: %s was to leave and is still alive", m.Name)
				m.Status, m.changedAt, m.isPruned = StatusAlive, time.Time{}, false
			}
		}
		for name, pending := range l.intents {
			if now.Sub(pending.heldAt) > l.intentTimeout {
				delete(l.intents, name)
			}
		}
	})
}

// sorted returns the members, sorted by name.
func (l *memberList) sorted() []Member {
	l.mu.Lock()
	defer l.mu.Unlock()
	sorted := make([]Member, 0, len(l.members))
	for _, m := range l.members {
		sorted = append(sorted, m.Member)
	}
	sort.Slice(sorted, func(i, j int) bool { return sorted[i].Name < sorted[j].Name })
	return sorted
}

// ownMember returns this node as a member. After a leave, when the list may have forgotten this node, it returns the
// saved data.
func (l *memberList) ownMember() Member {
	if found, ok := l.get(l.self); ok {
		return found
	}
	l.mu.Lock()
	defer l.mu.Unlock()
	return l.forgottenSelf
}

// get returns the member with this name. ok is false if there is none.
func (l *memberList) get(name string) (Member, bool) {
	l.mu.Lock()
	defer l.mu.Unlock()
	m := l.members[name]
	if m == nil {
		return Member{}, false
	}
	return m.Member, true
}

// count returns how many members have a status.
func (l *memberList) count(status MemberStatus) int {
	l.mu.Lock()
	defer l.mu.Unlock()
	count := 0
	for _, m := range l.members {
		if m.Status == status {
			count++
		}
	}
	return count
}

// size returns the number of members. It takes no lock.
func (l *memberList) size() int { return int(l.memberCount.Load()) }

// aliveLines returns the lines for the snapshot of all members that are alive or leaving.
func (l *memberList) aliveLines() []string {
	l.mu.Lock()
	defer l.mu.Unlock()
	lines := make([]string, 0, len(l.members))
	for _, m := range l.members {
		if m.Status == StatusAlive || m.Status == StatusLeaving {
			lines = append(lines, aliveLine(m))
		}
	}
	sort.Strings(lines)
	return lines
}

// statuses returns the time of each member's status, and the names of the members that left. For a member that left, it
// returns the time of its leave intent. Such a member may have sent a later join intent before memberlist knows that it
// is alive again, and the time of that join intent must not look like the time at which it left.
func (l *memberList) statuses() (statuses []serfagent.Status, left []string) {
	l.mu.Lock()
	defer l.mu.Unlock()
	statuses = make([]serfagent.Status, 0, len(l.members))
	for _, m := range l.members {
		time := m.intentTime
		if m.Status == StatusLeft {
			left = append(left, m.Name)
			time = m.leaveTime
		}
		statuses = append(statuses, serfagent.Status{Name: m.Name, Time: time})
	}
	return statuses, left
}

// pickFailed returns a random failed member for a reconnect. It does so only with the probability that Serf uses;
// otherwise, or if no member has failed, it returns false.
func (l *memberList) pickFailed() (Member, bool) {
	l.mu.Lock()
	defer l.mu.Unlock()
	var failed []*member
	for _, m := range l.members {
		if m.Status == StatusFailed {
			failed = append(failed, m)
		}
	}
	if len(failed) == 0 {
		return Member{}, false
	}
	others := len(l.members) - len(failed)
	if others < 1 {
		others = 1
	}
	if rand.Intn(others) >= len(failed) {
		return Member{}, false
	}
	return failed[rand.Intn(len(failed))].Member, true
}

// pickOthers returns up to count random members that are alive, except this node and the named ones.
func (l *memberList) pickOthers(count int, exclude ...string) []Member {
	l.mu.Lock()
	defer l.mu.Unlock()
	var found []Member
next:
	for _, m := range l.members {
		if m.Status != StatusAlive || m.Name == l.self {
			continue
		}
		for _, name := range exclude {
			if m.Name == name {
				continue next
			}
		}
		found = append(found, m.Member)
	}
	rand.Shuffle(len(found), func(i, j int) { found[i], found[j] = found[j], found[i] })
	if len(found) > count {
		found = found[:count]
	}
	return found
}
