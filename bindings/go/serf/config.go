package serf

import (
	"errors"
	"fmt"
	"io"
	"log"
	"os"
	"time"

	"github.com/hashicorp/memberlist"

	"kitchenrue.example/guard"
	"kitchenrue.example/serfagent"
)

// The versions of Serf's protocol that the node supports.
const (
	//lint:ignore SA9004 the second one has no type in Serf's package either
	ProtocolVersionMin uint8 = 2
	ProtocolVersionMax       = 5
)

// ProtocolVersionMap maps each version of Serf's protocol to the version of memberlist's protocol that it uses.
var ProtocolVersionMap map[uint8]uint8

func init() {
	ProtocolVersionMap = map[uint8]uint8{}
	for version := ProtocolVersionMin; version <= ProtocolVersionMax; version++ {
		ProtocolVersionMap[version] = memberlist.ProtocolVersion2Compatible
	}
}

// UserEventSizeLimit is the largest value, in bytes, of Config.UserEventSizeLimit and of the limits for queries.
const UserEventSizeLimit = 9 * 1024

// maxBufferSize is the maximum of EventBuffer and QueryBuffer, and maxNameLength the maximum length of a node's name in bytes.
// defaultQueryLimit is the default of QuerySizeLimit and of QueryResponseSizeLimit.
const (
	maxBufferSize     = 65536
	defaultQueryLimit = 1024
	maxNameLength     = 128
)

// MergeDelegate may refuse to merge with another cluster. The node calls NotifyMerge with the members that would join;
// if NotifyMerge returns an error, they don't join. If a single node joins by gossip, NotifyMerge receives only that
// node.
type MergeDelegate interface {
	NotifyMerge([]*Member) error
}

// Config configures a node. Create copies it, including Tags and MemberlistConfig, so a change after Create has no effect.
type Config struct {
	// NodeName is the name of this node, unique in the cluster and at most 128 bytes long. If it is empty, the host's name is used.
	NodeName string

	// Tags are this node's tags, which all members see. The encoded tags have at most 512 bytes, including their names.
	// With protocol version 2, the node sends only the tag named role.
	Tags map[string]string

	// EventCh receives member events, user events and queries, in one order. If it is nil, the node delivers no events.
	// The node offers each event that was handed out until the program receives it. If the program is slow, the node
	// accepts nothing more from the network, and drops no event. If 4,096 events are waiting and a member changes
	// repeatedly, the node delivers only that member's last change.
	EventCh chan<- Event

	// ProtocolVersion is the version of Serf's protocol to speak, from 2 to 5.
	ProtocolVersion uint8

	// BroadcastTimeout is how long Leave, RemoveFailedNode, RemoveFailedNodePrune and SetTags wait until their message is sent, and how
	// long UserEvent waits for room. 0 means 5 seconds.
	BroadcastTimeout time.Duration

	// LeavePropagateDelay is how long Leave waits after its message was sent, so that the other nodes receive it.
	LeavePropagateDelay time.Duration

	// The node holds member events for CoalescePeriod, or until none has arrived for QuiescentPeriod, and then delivers
	// one event for each type. If a period is 0, it delivers each member event at once. UserCoalescePeriod and
	// UserQuiescentPeriod do the same for user events that may be coalesced: for each name, the node delivers only the
	// events with the largest time. If the process is killed, the held events are lost.
	CoalescePeriod      time.Duration
	QuiescentPeriod     time.Duration
	UserCoalescePeriod  time.Duration
	UserQuiescentPeriod time.Duration

	// ReapInterval is how often the node forgets members that failed more than ReconnectTimeout ago, or left more than
	// TombstoneTimeout ago. ReconnectInterval is how often the node tries to join a failed member again. If an interval
	// is 0, the node uses that of DefaultConfig.
	ReapInterval      time.Duration
	ReconnectInterval time.Duration
	ReconnectTimeout  time.Duration
	TombstoneTimeout  time.Duration

	// FlapTimeout is how soon a failed member has to be alive again to be counted as flapping in the metrics.
	FlapTimeout time.Duration

	// QueueCheckInterval is how often the node counts the packets that wait to be gossiped. If a queue has at least
	// QueueDepthWarning packets, the node logs a warning. A queue has at most MaxQueueDepth packets; if there are more,
	// the node drops the ones that it has sent most often. If MinQueueDepth isn't 0, the limit is instead MinQueueDepth
	// or twice the number of members, whichever is larger. If QueueCheckInterval is 0, the node uses the interval of
	// DefaultConfig.
	QueueCheckInterval time.Duration
	QueueDepthWarning  int
	MaxQueueDepth      int
	MinQueueDepth      int

	// RecentIntentTimeout is how long the node keeps a join or leave intent of a node that isn't a member yet. It is
	// also how long the node shows a member as leaving, if that member is still alive and doesn't refute its last leave
	// intent.
	RecentIntentTimeout time.Duration

	// EventBuffer is how many Lamport times of events the node remembers, and QueryBuffer how many of queries: 1 to
	// 65,536 each. The node ignores events and queries with older times.
	EventBuffer int
	QueryBuffer int

	// QueryTimeoutMult is a factor of the default timeout of a query. The timeout is the gossip interval, times this
	// factor, times the logarithm of the number of nodes.
	QueryTimeoutMult int

	// QueryResponseSizeLimit is the maximum number of bytes of the packet of a response that this node sends, and
	// QuerySizeLimit that of a query. Each may be at most 9,216, and 0 means 1,024.
	QueryResponseSizeLimit int
	QuerySizeLimit         int

	// MemberlistConfig configures memberlist; nil means memberlist's configuration for a LAN. In its copy of that
	// configuration, this package sets Name, the protocol versions, Delegate, Events and Conflict. It also sets Ping
	// unless coordinates are disabled, and Merge and Alive if the field Merge below is set. It replaces Logger and
	// LogOutput by the logger below.
	MemberlistConfig *memberlist.Config

	// The node logs to Logger. If that is nil, it logs to LogOutput, and if that is nil too, to standard error.
	LogOutput io.Writer
	Logger    *log.Logger

	// SnapshotPath is the path of the snapshot, the file that keeps the clocks and the members. The node flushes the
	// line of each event to the snapshot before it delivers the event, and Create joins one of the members that the
	// snapshot names. Without a path, the node keeps everything in memory, and its next life may hand out an event
	// again. Every ten seconds the node checks the file. If the file was removed, replaced or truncated, the node ends
	// with ErrSnapshotChanged.
	SnapshotPath string

	// RejoinAfterLeave makes Create join the members of the file even after a leave.
	RejoinAfterLeave bool

	// EnableNameConflictResolution makes the node ask the cluster which node has its name, if another node claims the
	// same name. The node that fewer members know ends.
	EnableNameConflictResolution bool

	// DisableCoordinates turns off network coordinates, which estimate the round-trip time between nodes.
	DisableCoordinates bool

	// KeyringFile is the file to which changes of the keys are written. The node does not read it.
	KeyringFile string

	// Merge, if it isn't nil, may refuse nodes that are about to join.
	Merge MergeDelegate

	// UserEventSizeLimit is the maximum number of bytes of the packet of an event that this node fires: the name, the
	// payload, and 24 to 32 bytes around them. The limit is at most 9,216.
	UserEventSizeLimit int

	// KeepEvents makes the node keep events and queries in the snapshot too, so that a restart continues with the
	// window of the previous life. Serf has no such field.
	KeepEvents bool

	// KeepEventsSize is the maximum number of bytes that the kept events may use in the snapshot: 1 MiB to 1 GiB. 0
	// means 32 MiB. Half of these bytes are divided equally among the times of EventBuffer, and any time may use the
	// other half. If there is no room for an event, the node drops it before the proved agent receives it. Serf has no
	// such field.
	KeepEventsSize int

	// TrackHandlers makes the node record in the snapshot which events are open. An event is open from the moment when
	// the node hands it out until the program calls Done. The program calls Begin before it handles a user event and
	// Done afterwards; after a restart, Unfinished returns the events that were open. TrackHandlers requires a
	// SnapshotPath and an EventCh, and implies KeepEvents. Serf has no such field.
	TrackHandlers bool

	// MaxOpenEvents is the maximum number of open events: 1 to 65,536. 0 means 16,384. While so many events are open,
	// the node accepts nothing more from the network and fires nothing, as if the reader of EventCh were slow. One
	// burst or one state may exceed the limit. Serf has no such field.
	MaxOpenEvents int

	// Guard has the limits for the packets and streams that memberlist reads from the network, and the maximum number
	// of known members (4,096 if it is 0). For each other limit that is 0, the guard uses that of guard.Defaults. If
	// MemberlistConfig has a Transport, the guard wraps that transport, and a PacketBytes of 0 means at least
	// UDPBufferSize. If that Transport is a guard already, it keeps its own limits. Serf has no such field.
	Guard guard.Settings

	// Wrap, if it isn't nil, returns the agent that the node calls in place of the proved agent. The node calls Wrap
	// once, before the first call of the agent. A program can record all calls of the agent this way. Serf has no such
	// field.
	Wrap func(agent Agent, opening Opening) (Agent, error)

	// snapshotCheckInterval is how often the file is checked, endGrace is how long events can be received after Shutdown,
	// and timeOfDay returns the time of day. Tests replace all three.
	snapshotCheckInterval, endGrace time.Duration
	timeOfDay                       func() time.Time
}

// Init makes the map of Tags if it is nil.
func (c *Config) Init() {
	if c.Tags == nil {
		c.Tags = map[string]string{}
	}
}

// DefaultConfig returns Serf's default configuration: for a LAN, without a snapshot. It panics if the host's name can't be read.
func DefaultConfig() *Config {
	name, err := os.Hostname()
	if err != nil {
		panic(err)
	}
	return &Config{
		NodeName:                     name,
		Tags:                         map[string]string{},
		ProtocolVersion:              4,
		BroadcastTimeout:             5 * time.Second,
		LeavePropagateDelay:          time.Second,
		ReapInterval:                 15 * time.Second,
		ReconnectInterval:            30 * time.Second,
		ReconnectTimeout:             24 * time.Hour,
		TombstoneTimeout:             24 * time.Hour,
		FlapTimeout:                  time.Minute,
		QueueCheckInterval:           30 * time.Second,
		QueueDepthWarning:            128,
		MaxQueueDepth:                4096,
		RecentIntentTimeout:          5 * time.Minute,
		EventBuffer:                  512,
		QueryBuffer:                  512,
		QueryTimeoutMult:             16,
		QueryResponseSizeLimit:       defaultQueryLimit,
		QuerySizeLimit:               defaultQueryLimit,
		MemberlistConfig:             memberlist.DefaultLANConfig(),
		LogOutput:                    os.Stderr,
		EnableNameConflictResolution: true,
		UserEventSizeLimit:           512,
	}
}

// withDefaults returns a copy of the configuration in which unset fields have their defaults, or an error if a field is invalid.
func (c *Config) withDefaults() (*Config, error) {
	copied := c.clone()
	if copied.NodeName == "" {
		name, err := os.Hostname()
		if err != nil {
			return nil, err
		}
		copied.NodeName = name
	}
	copied.KeepEvents = copied.KeepEvents || copied.TrackHandlers
	if copied.MaxOpenEvents == 0 {
		copied.MaxOpenEvents = DefaultMaxOpenEvents
	}
	if copied.KeepEventsSize == 0 {
		copied.KeepEventsSize = DefaultKeepEventsSize
	}
	if copied.snapshotCheckInterval == 0 {
		copied.snapshotCheckInterval = snapshotCheckInterval
	}
	if copied.endGrace == 0 {
		copied.endGrace = endGrace
	}
	if copied.timeOfDay == nil {
		copied.timeOfDay = time.Now
	}
	defaults := DefaultConfig()
	for _, interval := range []struct{ byDefault, field *time.Duration }{
		{&defaults.BroadcastTimeout, &copied.BroadcastTimeout}, {&defaults.ReapInterval, &copied.ReapInterval},
		{&defaults.ReconnectInterval, &copied.ReconnectInterval}, {&defaults.QueueCheckInterval, &copied.QueueCheckInterval},
	} {
		if *interval.field <= 0 {
			*interval.field = *interval.byDefault
		}
	}
	for _, limit := range []*int{&copied.QuerySizeLimit, &copied.QueryResponseSizeLimit} {
		if *limit == 0 {
			*limit = defaultQueryLimit
		}
	}
	return copied, copied.validate()
}

// clone returns a copy of the configuration with its own Tags and MemberlistConfig, which are never nil in the copy.
func (c *Config) clone() *Config {
	copied := *c
	copied.Tags = make(map[string]string, len(c.Tags))
	for key, value := range c.Tags {
		copied.Tags[key] = value
	}
	if c.MemberlistConfig == nil {
		copied.MemberlistConfig = memberlist.DefaultLANConfig()
	} else {
		memberlistConfig := *c.MemberlistConfig
		copied.MemberlistConfig = &memberlistConfig
	}
	return &copied
}

// validate returns a FieldError for the first field whose value is not allowed.
func (c *Config) validate() error {
	switch {
	case len(c.NodeName) > maxNameLength:
		return &FieldError{"NodeName", fmt.Errorf("at most %d bytes are allowed, and the name has %d", maxNameLength, len(c.NodeName))}
	case c.TrackHandlers && c.SnapshotPath == "":
		return &FieldError{"TrackHandlers", errors.New("SnapshotPath must be set too")}
	case c.TrackHandlers && c.EventCh == nil:
		return &FieldError{"TrackHandlers", errors.New("EventCh must be set too")}
	case c.KeepEvents && c.SnapshotPath == "":
		return &FieldError{"KeepEvents", errors.New("SnapshotPath must be set too")}
	}
	for _, bound := range []struct {
		field           string
		value, min, max int
	}{
		{"ProtocolVersion", int(c.ProtocolVersion), int(ProtocolVersionMin), ProtocolVersionMax},
		{"EventBuffer", c.EventBuffer, 1, maxBufferSize}, {"QueryBuffer", c.QueryBuffer, 1, maxBufferSize},
		{"UserEventSizeLimit", c.UserEventSizeLimit, 0, UserEventSizeLimit}, {"QuerySizeLimit", c.QuerySizeLimit, 0, UserEventSizeLimit},
		{"QueryResponseSizeLimit", c.QueryResponseSizeLimit, 0, UserEventSizeLimit},
		{"KeepEventsSize", c.KeepEventsSize, MinKeepEventsSize, MaxKeepEventsSize}, {"MaxOpenEvents", c.MaxOpenEvents, 1, MaxOpenEvents},
	} {
		if bound.value < bound.min || bound.value > bound.max {
			return &FieldError{bound.field, fmt.Errorf("%d is not between %d and %d", bound.value, bound.min, bound.max)}
		}
	}
	return nil
}

// agentSettings returns the settings of the proved agent.
func (c *Config) agentSettings() serfagent.Settings {
	settings := serfagent.DefaultSettings()
	settings.EventBuffer, settings.QueryBuffer = uint64(c.EventBuffer), uint64(c.QueryBuffer)
	settings.EventLimit = uint64(c.UserEventSizeLimit)
	settings.QueryLimit, settings.ResponseLimit = uint64(c.QuerySizeLimit), uint64(c.QueryResponseSizeLimit)
	settings.IgnoreOld, settings.KeepEvents = true, c.KeepEvents
	return settings
}

// logger returns the logger of the node.
func (c *Config) logger() *log.Logger {
	switch {
	case c.Logger != nil:
		return c.Logger
	case c.LogOutput != nil:
		return log.New(c.LogOutput, "", log.LstdFlags)
	}
	return log.New(os.Stderr, "", log.LstdFlags)
}
