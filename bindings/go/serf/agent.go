package serf

import (
	"errors"
	"path/filepath"
	"time"

	"kitchenrue.example/serfagent"
)

// Burst is the maximum number of packets that are processed with one flush, and the maximum number of firings. The
// agent doesn't wait to fill a burst, so a node with little to do flushes each event at once. If the process is killed
// between the flush and the delivery, it loses at most the events of one burst and those that wait for EventCh.
const Burst = 256

// outcomeRetryDelay is how long to wait for memory before reading the outcomes of a burst again.
const outcomeRetryDelay = 10 * time.Millisecond

// Packet is a packet for the proved agent. If the packet is a query, TagsPass says whether this node's tags pass all of
// its tag filters.
type Packet struct {
	Data     []byte
	TagsPass bool
}

// Firing is an event to fire.
type Firing struct {
	Name     string
	Payload  []byte
	Coalesce bool
}

// Agent has the methods of the proved agent that a node calls. The node makes the calls that change the agent one at a
// time. Config.Wrap may put another implementation in front of the proved agent.
type Agent interface {
	// TakeAll receives packets and then fires events, with one flush for all of them. It returns one outcome for each
	// packet and each firing, in order. If memory runs out, it returns OutOfMemory and the outcomes of the first
	// packets and firings; it did not process the rest. If the file fails, it returns no outcome.
	TakeAll(now uint64, packets []Packet, firings []Firing) ([]serfagent.Outcome, error)
	Merge(packet []byte, isJoin bool) ([]*serfagent.Event, error)
	LocalState(statuses []serfagent.Status, left []string) ([]byte, error)
	Query(now uint64, id uint32, name string, payload []byte, params serfagent.QueryParams) (*serfagent.FiredQuery, error)
	Respond(now, number uint64, payload []byte) ([]byte, error)
	// Forget forgets a query that was handed out and that this node won't answer. CloseDue forgets the queries whose
	// deadline has passed.
	Forget(number uint64) error
	CloseDue(now uint64) ([]*serfagent.Closed, error)
	Clocks() (serfagent.Clocks, error)
	// ObserveMember raises the member clock above the time of a received intent or status. NextMemberTime returns the time of the next
	// intent of this node.
	ObserveMember(time uint64) error
	NextMemberTime() (uint64, error)
	SaveMemberClock() error
	// CompactWith replaces the file, in one step, with a file that has the agent's own lines followed by the given
	// lines.
	CompactWith(lines []byte) error
	Close() error
}

// proved is the proved agent together with the burst that TakeAll fills. Each call of TakeAll reuses the burst.
type proved struct {
	*serfagent.Agent
	burst serfagent.Burst
}

var _ Agent = &proved{}

// Opening has the settings with which a proved agent was opened, and the text of its snapshot at that moment, without
// filler. The text is empty if the agent has no file.
type Opening struct {
	Settings serfagent.Settings
	Text     []byte
}

// Proved returns an Agent that calls this proved agent. Programs that wrap a proved agent use it.
func Proved(agent *serfagent.Agent) Agent { return &proved{Agent: agent} }

// TakeAll passes all packets and firings to the proved agent as one burst. It reads the outcome of each one that was
// processed, even if it has to wait for memory. The lines of these events are already on the disk, so no later life
// would hand them out.
func (p *proved) TakeAll(now uint64, packets []Packet, firings []Firing) ([]serfagent.Outcome, error) {
	p.burst.Reset()
	for _, packet := range packets {
		p.burst.Receive(now, packet.Data, packet.TagsPass)
	}
	for _, firing := range firings {
		p.burst.Fire(firing.Name, firing.Payload, firing.Coalesce)
	}
	outcomes, err := p.Burst(&p.burst)
	return readOutcomes(p, outcomes, err)
}

// outcomeSource is an agent that still has outcomes to read, because memory ran out while they were being read.
type outcomeSource interface {
	UnreadOutcomes() (int, error)
	Outcomes() ([]serfagent.Outcome, error)
}

// readOutcomes reads the remaining outcomes if memory ran out while the agent was reading them.
func readOutcomes(source outcomeSource, outcomes []serfagent.Outcome, burstErr error) ([]serfagent.Outcome, error) {
	for burstErr == serfagent.OutOfMemory {
		unread, err := source.UnreadOutcomes()
		if err != nil || unread == 0 {
			break
		}
		time.Sleep(outcomeRetryDelay)
		more, err := source.Outcomes()
		outcomes = append(outcomes, more...)
		if isClosed(err) {
			burstErr = err
		}
	}
	return outcomes, burstErr
}

// isClosed reports whether this error means that the proved agent is closed because its file failed.
func isClosed(err error) bool { return err != nil && meansClosed(err) }

// meansClosed is isClosed for an error that isn't nil.
func meansClosed(err error) bool {
	var code serfagent.Code
	var refusal Error
	if errors.As(err, &refusal) || errors.Is(err, serfagent.ErrUnread) {
		return false
	}
	return !errors.As(err, &code) || code == serfagent.Empty
}

// lockTimeout is how long to wait for a file that another process has locked. If a node is killed while it starts
// another program, such as a handler, the new process holds the lock until it executes that program. That usually takes
// a moment, but longer on a busy machine.
const lockTimeout = time.Second

// openWhenUnlocked opens the proved agent on a file, and returns the file's text too. It waits up to lockTimeout if the file is locked.
func openWhenUnlocked(name, path string, settings serfagent.Settings) (*serfagent.Agent, []byte, error) {
	for deadline := time.Now().Add(lockTimeout); ; time.Sleep(lockTimeout / 50) {
		agent, text, err := serfagent.OpenWithText(name, path, settings)
		if !errors.Is(err, serfagent.ErrLocked) || time.Now().After(deadline) {
			return agent, text, err
		}
	}
}

// openAgent opens the proved agent on the configured file, or in memory if no file is configured, and wraps it if
// Config.Wrap is set. It also returns the file to which the lines of members are written, and the members of the last
// life. Both are nil if the agent is in memory.
func openAgent(c *Config) (Agent, *snapshotFile, []PreviousNode, error) {
	opening := Opening{Settings: c.agentSettings()}
	if c.SnapshotPath == "" {
		agent, err := serfagent.OpenInMemory(c.NodeName, opening.Settings)
		if err != nil {
			return nil, nil, nil, err
		}
		wrapped, err := c.wrap(Proved(agent), opening)
		return wrapped, nil, nil, err
	}
	path, err := filepath.Abs(c.SnapshotPath)
	if err != nil {
		return nil, nil, nil, err
	}
	agent, text, err := openWhenUnlocked(c.NodeName, path, opening.Settings)
	if err != nil {
		return nil, nil, nil, &FieldError{"SnapshotPath", err}
	}
	file, previous, err := openSnapshot(path, c.RejoinAfterLeave, agent)
	if err != nil {
		agent.Close()
		return nil, nil, nil, &FieldError{"SnapshotPath", err}
	}
	opening.Text = text
	wrapped, err := c.wrap(Proved(agent), opening)
	if err != nil {
		file.close()
		return nil, nil, nil, err
	}
	return wrapped, file, previous, nil
}

// wrap puts the agent that Config.Wrap returns in front of a proved agent. If Wrap fails, it closes the proved one.
func (c *Config) wrap(agent Agent, opening Opening) (Agent, error) {
	if c.Wrap == nil {
		return agent, nil
	}
	wrapped, err := c.Wrap(agent, opening)
	if err != nil {
		agent.Close()
		return nil, err
	}
	return wrapped, nil
}
