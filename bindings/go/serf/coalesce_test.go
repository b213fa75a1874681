package serf

import (
	"fmt"
	"reflect"
	"strings"
	"sync"
	"testing"
	"time"
)

// published collects the events that a coalescer publishes, each as a text.
type published struct {
	mu    sync.Mutex
	texts []string
}

func (p *published) add(events ...Event) {
	p.mu.Lock()
	defer p.mu.Unlock()
	for _, event := range events {
		p.texts = append(p.texts, textOf(event))
	}
}

// take returns the texts and forgets them.
func (p *published) take() string {
	p.mu.Lock()
	defer p.mu.Unlock()
	texts := strings.Join(p.texts, ", ")
	p.texts = nil
	return texts
}

// count returns how many texts there are.
func (p *published) count() int {
	p.mu.Lock()
	defer p.mu.Unlock()
	return len(p.texts)
}

// textOf returns a user event as NAME@TIME=PAYLOAD, and a member event as its type and NAME:PORT of each member.
func textOf(event Event) string {
	switch event := event.(type) {
	case UserEvent:
		return fmt.Sprintf("%s@%d=%s", event.Name, event.LTime, event.Payload)
	case MemberEvent:
		text := event.Type.String()
		for _, member := range event.Members {
			text += fmt.Sprintf(" %s:%d", member.Name, member.Port)
		}
		return text
	}
	return event.String()
}

// userEvent makes a user event that may be coalesced.
func userEvent(name string, ltime LamportTime, payload string) UserEvent {
	return UserEvent{LTime: ltime, Name: name, Payload: []byte(payload), Coalesce: true}
}

// memberEvent makes a member event. Each member is given as NAME:PORT.
func memberEvent(kind EventType, members ...string) MemberEvent {
	event := MemberEvent{Type: kind}
	for _, text := range members {
		var member Member
		name, port, _ := strings.Cut(text, ":")
		member.Name = name
		if _, err := fmt.Sscan(port, &member.Port); err != nil {
			panic(err)
		}
		event.Members = append(event.Members, member)
	}
	return event
}

// longPeriods returns a configuration that holds each event for an hour, so that only flush and the limit release held
// events.
func longPeriods() *Config {
	return &Config{CoalescePeriod: time.Hour, QuiescentPeriod: time.Hour, UserCoalescePeriod: time.Hour, UserQuiescentPeriod: time.Hour}
}

func TestCoalescing(t *testing.T) {
	notCoalesced := UserEvent{LTime: 2, Name: "a", Payload: []byte("alone")}
	onlyUserPeriods := func(c *Config) { c.CoalescePeriod, c.QuiescentPeriod = 0, 0 }
	onlyMemberPeriods := func(c *Config) { c.UserCoalescePeriod, c.UserQuiescentPeriod = 0, 0 }
	for _, row := range []struct {
		name    string
		change  func(*Config)
		events  []Event
		atOnce  string
		flushed string
	}{
		// user events, and queries
		{"an event that may not be coalesced", nil, []Event{notCoalesced}, "a@2=alone", ""},
		{"the same while its name is held", nil, []Event{userEvent("a", 1, "x"), notCoalesced}, "a@2=alone", "a@1=x"},
		{
			"the last time of a name", nil,
			[]Event{userEvent("a", 1, "x"), userEvent("b", 2, "y"), userEvent("a", 3, "z")},
			"", "b@2=y, a@3=z",
		},
		{
			"an earlier time that arrives later", nil,
			[]Event{userEvent("a", 3, "x"), userEvent("b", 2, "y"), userEvent("a", 1, "z")},
			"", "a@3=x, b@2=y",
		},
		{"two of one name and time", nil, []Event{userEvent("a", 3, "x"), userEvent("a", 3, "y")}, "", "a@3=x, a@3=y"},
		{
			"a later time replaces both", nil,
			[]Event{userEvent("a", 3, "x"), userEvent("a", 3, "y"), userEvent("b", 1, ""), userEvent("a", 4, "z")},
			"", "b@1=, a@4=z",
		},
		{"one time of two names", nil, []Event{userEvent("a", 3, "x"), userEvent("b", 3, "y")}, "", "a@3=x, b@3=y"},
		{"a query", nil, []Event{&Query{Name: "q"}}, "query: q", ""},
		// member events
		{
			"members of one type", nil,
			[]Event{memberEvent(EventMemberJoin, "x:1"), memberEvent(EventMemberJoin, "y:1", "z:1")},
			"", "member-join x:1 y:1 z:1",
		},
		{
			"members of two types", nil,
			[]Event{
				memberEvent(EventMemberJoin, "x:1"), memberEvent(EventMemberFailed, "y:1"), memberEvent(EventMemberJoin, "z:1"),
				memberEvent(EventMemberFailed, "w:1"),
			},
			"", "member-join x:1 z:1, member-failed y:1 w:1",
		},
		{
			"the last type of a member", nil,
			[]Event{memberEvent(EventMemberJoin, "x:1"), memberEvent(EventMemberFailed, "x:1")},
			"", "member-failed x:1",
		},
		{
			"a member that joined and changed", nil,
			[]Event{memberEvent(EventMemberJoin, "x:1"), memberEvent(EventMemberUpdate, "x:2")},
			"", "member-join x:2",
		},
		{
			"a member that changed twice", nil,
			[]Event{memberEvent(EventMemberUpdate, "x:1"), memberEvent(EventMemberUpdate, "x:2")},
			"", "member-update x:2",
		},
		{
			"a member that failed and changed", nil,
			[]Event{memberEvent(EventMemberFailed, "x:1"), memberEvent(EventMemberUpdate, "x:2")},
			"", "member-update x:2",
		},
		{
			"a member that failed and joined again", nil,
			[]Event{memberEvent(EventMemberJoin, "x:1"), memberEvent(EventMemberFailed, "x:1"), memberEvent(EventMemberJoin, "x:2")},
			"", "member-join x:2",
		},
		{
			"one of two members", nil,
			[]Event{memberEvent(EventMemberJoin, "x:1", "y:1"), memberEvent(EventMemberLeave, "x:1")},
			"", "member-join y:1, member-leave x:1",
		},
		{
			"a member that was reaped", nil,
			[]Event{memberEvent(EventMemberLeave, "x:1"), memberEvent(EventMemberReap, "x:1")},
			"", "member-reap x:1",
		},
		// user events together with member events, while the coalescer holds both kinds or only one of them
		{
			"user events before member events", nil,
			[]Event{memberEvent(EventMemberJoin, "x:1"), userEvent("a", 1, "x")},
			"", "a@1=x, member-join x:1",
		},
		{
			"an event that passes overtakes a held one", nil,
			[]Event{memberEvent(EventMemberJoin, "x:1"), notCoalesced, &Query{Name: "q"}},
			"a@2=alone, query: q", "member-join x:1",
		},
		{
			"user events alone", onlyUserPeriods,
			[]Event{memberEvent(EventMemberJoin, "x:1"), userEvent("a", 1, "x"), memberEvent(EventMemberFailed, "x:1")},
			"member-join x:1, member-failed x:1", "a@1=x",
		},
		{
			"member events alone", onlyMemberPeriods,
			[]Event{memberEvent(EventMemberJoin, "x:1"), userEvent("a", 1, "x"), userEvent("a", 2, "y")},
			"a@1=x, a@2=y", "member-join x:1",
		},
		{
			"no period at all", func(c *Config) { *c = Config{} },
			[]Event{
				memberEvent(EventMemberJoin, "x:1"), userEvent("a", 1, "x"), memberEvent(EventMemberJoin, "y:1"), userEvent("a", 2, "y"),
			},
			"member-join x:1, a@1=x, member-join y:1, a@2=y", "",
		},
		{
			"no quiet period", func(c *Config) { c.QuiescentPeriod, c.UserQuiescentPeriod = 0, 0 },
			[]Event{memberEvent(EventMemberJoin, "x:1"), userEvent("a", 1, "x"), userEvent("a", 2, "y")},
			"member-join x:1, a@1=x, a@2=y", "",
		},
	} {
		config := longPeriods()
		if row.change != nil {
			row.change(config)
		}
		// (add accepts events one by one, or many in one call)
		for _, isOneCall := range []bool{false, true} {
			var p published
			c := newCoalescer(config, p.add)
			if isOneCall {
				c.add(row.events...)
			} else {
				for _, event := range row.events {
					c.add(event)
				}
			}
			if got := p.take(); got != row.atOnce {
				t.Errorf("%s: published at once: %q, want %q", row.name, got, row.atOnce)
			}
			c.flush()
			if got := p.take(); got != row.flushed {
				t.Errorf("%s: published by flush: %q, want %q", row.name, got, row.flushed)
			}
			c.flush()
			if got := p.take(); got != "" {
				t.Errorf("%s: published by a second flush: %q", row.name, got)
			}
		}
	}
}

// Events that were already released have no effect on events that are added later.
func TestCoalescingStartsAnewAfterFlush(t *testing.T) {
	var p published
	c := newCoalescer(longPeriods(), p.add)
	c.add(userEvent("a", 3, "x"), memberEvent(EventMemberJoin, "x:1"))
	c.flush()
	c.add(userEvent("a", 1, "y"), memberEvent(EventMemberUpdate, "x:2"))
	c.flush()
	if got := p.take(); got != "a@3=x, member-join x:1, a@1=y, member-update x:2" {
		t.Error(got)
	}
}

// The coalescer does not change the lists of members that its caller passed to it.
func TestCoalescingLeavesEventsAlone(t *testing.T) {
	given := memberEvent(EventMemberJoin, "x:1", "y:1", "z:1")
	given.Members = given.Members[:2]
	var p published
	c := newCoalescer(longPeriods(), p.add)
	c.add(given, memberEvent(EventMemberJoin, "w:1"), memberEvent(EventMemberFailed, "x:9"))
	c.flush()
	if want := memberEvent(EventMemberJoin, "x:1", "y:1", "z:1").Members; !reflect.DeepEqual(given.Members[:3], want) {
		t.Error(given.Members[:3])
	}
}

// When the limit of one kind is reached, all held events of that kind are released at once, and those of the other kind stay.
func TestCoalescingIsBounded(t *testing.T) {
	userEventOf := func(i int) Event { return userEvent(fmt.Sprint("u", i), 1, "") }
	memberEventOf := func(i int) Event { return memberEvent(EventMemberJoin, fmt.Sprintf("m%d:1", i)) }
	for _, row := range []struct {
		name         string
		event, other func(int) Event
		released     int // how many events are published when Waiting of them are held
	}{
		{"user events", userEventOf, memberEventOf, Waiting},
		{"member events", memberEventOf, userEventOf, 1},
	} {
		var p published
		c := newCoalescer(longPeriods(), p.add)
		c.add(row.other(0))
		for i := 1; i < Waiting; i++ {
			c.add(row.event(i))
		}
		if got := p.count(); got != 0 {
			t.Errorf("%s: %d events were released below the bound", row.name, got)
		}
		c.add(row.event(Waiting))
		if got := p.count(); got != row.released {
			t.Errorf("%s: %d events were released at the bound, want %d", row.name, got, row.released)
		}
		p.take()
		c.add(row.event(0))
		if got := p.count(); got != 0 {
			t.Errorf("%s: %d events were released after the bound was reached", row.name, got)
		}
		c.flush()
		if got := p.count(); got != 2 {
			t.Errorf("%s: flush released %d events, want 2", row.name, got)
		}
	}
}

// Held events are released after a quiet period, long before the whole period ends. Each kind has its own setting.
func TestCoalescingEndsWhenItIsQuiet(t *testing.T) {
	for _, row := range []struct {
		name       string
		change     func(*Config)
		published  string
		stillWaits string
	}{
		{"user events", func(c *Config) { c.UserQuiescentPeriod = 20 * time.Millisecond }, "a@1=x", "member-join x:1"},
		{"member events", func(c *Config) { c.QuiescentPeriod = 20 * time.Millisecond }, "member-join x:1", "a@1=x"},
	} {
		config := longPeriods()
		row.change(config)
		var p published
		c := newCoalescer(config, p.add)
		c.add(userEvent("a", 1, "x"), memberEvent(EventMemberJoin, "x:1"))
		eventually(t, row.name+" are released", func() bool { return p.count() > 0 })
		if got := p.take(); got != row.published {
			t.Errorf("%s: published %q, want %q", row.name, got, row.published)
		}
		c.flush()
		if got := p.take(); got != row.stillWaits {
			t.Errorf("%s: published by flush: %q, want %q", row.name, got, row.stillWaits)
		}
	}
}

// While events keep arriving, the quiet period starts again with each of them, so nothing is released before the whole period ends.
func TestCoalescingWaitsWhileEventsArrive(t *testing.T) {
	const quiet = 300 * time.Millisecond
	config := longPeriods()
	config.UserQuiescentPeriod = quiet
	for attempt := 0; attempt < 10; attempt++ {
		var p published
		c := newCoalescer(config, p.add)
		isTooSlow, last := false, time.Now()
		for began := last; time.Since(began) < 3*quiet && !isTooSlow; time.Sleep(time.Millisecond) {
			before := time.Now()
			c.add(userEvent("a", 1, "x"))
			// (the pause between two calls may have been as long as the quiet period)
			isTooSlow = time.Since(last) >= quiet
			last = before
		}
		held := p.count() == 0
		if isTooSlow || time.Since(last) >= quiet {
			continue
		}
		if c.flush(); !held {
			t.Error("events were released while others arrived:", p.count())
		}
		return
	}
	t.Skip("the machine is too slow: in each attempt, two calls were a quiet period or more apart")
}

// When the period ends, held events are released even if others keep arriving. Each kind has its own setting.
func TestCoalescingEndsWithThePeriod(t *testing.T) {
	for _, row := range []struct {
		name   string
		change func(*Config)
		event  func(i int) Event
	}{
		{
			"user events", func(c *Config) { c.UserCoalescePeriod = time.Second },
			func(i int) Event { return userEvent("a", LamportTime(i), "x") },
		},
		{
			"member events", func(c *Config) { c.CoalescePeriod = time.Second },
			func(i int) Event { return memberEvent(EventMemberUpdate, "x:1") },
		},
	} {
		config := longPeriods()
		row.change(config)
		var p published
		c := newCoalescer(config, p.add)
		i := 0
		for began := time.Now(); p.count() == 0 && time.Since(began) < time.Minute; time.Sleep(time.Millisecond) {
			c.add(row.event(i))
			i++
		}
		if p.count() == 0 {
			t.Errorf("%s: none was released while %d arrived within a minute", row.name, i)
		}
		c.flush()
	}
}

// If a timer fires while an event is being added, a new timer has replaced it before it gets the lock. So it releases
// nothing.
func TestCoalescingIgnoresReplacedTimer(t *testing.T) {
	config := longPeriods()
	config.UserQuiescentPeriod = time.Millisecond
	var p published
	c := newCoalescer(config, p.add)
	c.mu.Lock()
	c.hold(&c.userEvents, []Event{userEvent("a", 1, "x")})
	// by now the first timer waits for the lock; the second one is set to an hour
	time.Sleep(50 * time.Millisecond)
	c.userEvents.quietPeriod = time.Hour
	c.hold(&c.userEvents, append(c.userEvents.events, userEvent("b", 1, "y")))
	c.mu.Unlock()
	time.Sleep(50 * time.Millisecond)
	if got := p.take(); got != "" {
		t.Error("the replaced timer released", got)
	}
	c.flush()
	if got := p.take(); got != "a@1=x, b@1=y" {
		t.Error(got)
	}
}

// If many goroutines add events while periods end, each event is published once.
func TestCoalescingLosesNothing(t *testing.T) {
	var p published
	c := newCoalescer(&Config{
		CoalescePeriod: 2 * time.Millisecond, QuiescentPeriod: time.Millisecond,
		UserCoalescePeriod: 2 * time.Millisecond, UserQuiescentPeriod: time.Millisecond,
	}, p.add)
	var all sync.WaitGroup
	want := map[string]int{}
	for adder := 0; adder < 4; adder++ {
		for i := 0; i < 200; i++ {
			want[fmt.Sprintf("u%d-%d@1=", adder, i)], want[fmt.Sprintf("m%d-%d:1", adder, i)] = 1, 1
		}
		all.Add(1)
		go func(adder int) {
			defer all.Done()
			for i := 0; i < 200; i++ {
				c.add(userEvent(fmt.Sprintf("u%d-%d", adder, i), 1, ""), memberEvent(EventMemberJoin, fmt.Sprintf("m%d-%d:1", adder, i)))
				if i%20 == 0 {
					time.Sleep(time.Millisecond)
				}
			}
		}(adder)
	}
	all.Wait()
	c.flush()
	got := map[string]int{}
	for _, text := range strings.Split(p.take(), ", ") {
		for _, word := range strings.Fields(strings.TrimPrefix(text, "member-join ")) {
			got[word]++
		}
	}
	if !reflect.DeepEqual(got, want) {
		t.Errorf("published %v, want each of %v once", got, want)
	}
}

// A node coalesces by the periods of its configuration, and Shutdown publishes the events that are still held.
func TestShutdownPublishesWhatIsCoalesced(t *testing.T) {
	events := make(chan Event, 16)
	options := nodeOptions{Config: loopbackConfig("a"), agent: &fakeAgent{}}
	options.EventCh, options.CoalescePeriod, options.QuiescentPeriod = events, time.Hour, time.Hour
	s, err := createOver(&options)
	must(t, err)
	delegate{s}.NotifyJoin(nodeB())
	if got := len(events); got != 0 {
		t.Error("events published before Shutdown:", got)
	}
	check(t, s.Shutdown())
	close(events)
	var got []string
	for event := range events {
		event, ok := event.(MemberEvent)
		if !ok || event.Type != EventMemberJoin {
			t.Error(event)
		}
		for _, member := range event.Members {
			got = append(got, member.Name)
		}
	}
	if strings.Join(got, " ") != "a b" {
		t.Error(got)
	}
}
