// Package config reads the agent's configuration: flags, and files with Serf's JSON keys.
package config

import (
	"encoding/base64"
	"fmt"
	"math"
	"os"
	"time"

	"kitchenrue.example/agent/internal/logs"
	"kitchenrue.example/guard"
	"kitchenrue.example/serf"
)

// Version is the agent's version.
const Version = "0.2.0"

// The default ports of gossip and RPC, as in Serf, and of the page for Prometheus.
const (
	BindPort       = 7946
	RPCPort        = 7373
	PrometheusPort = 7374
)

// Config is the agent's configuration.
type Config struct {
	// NodeName is the node's name, by default the host's name.
	NodeName string
	// Bind is the address at which gossip listens, and Advertise the address that other nodes use, if it isn't Bind.
	// Resolve resolves names in them and in RPCAddr.
	Bind, Advertise string
	// Interface is the network interface of this machine to which Bind has to belong. If Bind stands for all addresses,
	// it is replaced by the interface's address.
	Interface string
	// Tags are the node's tags. TagsFile keeps them between starts. Only one of the two can be set.
	Tags     map[string]string
	TagsFile string
	// EncryptKey is a key in base64. KeyringFile keeps all keys between starts.
	EncryptKey, KeyringFile string
	// LogLevel is TRACE, DEBUG, INFO, WARN or ERR.
	LogLevel string
	// Syslog sends the log to the machine's syslog too, with the facility SyslogFacility.
	Syslog         bool
	SyslogFacility string
	// The agent sends metrics to StatsiteAddr and StatsdAddr, and serves them for Prometheus at PrometheusAddr. An
	// empty address turns that output off.
	StatsiteAddr, StatsdAddr, PrometheusAddr string
	// Protocol is the version of Serf's protocol that the node speaks.
	Protocol int
	// RPCAddr is the address at which the agent accepts requests of Serf's command line. RPCAuth is the token that
	// clients have to send, if it isn't empty.
	RPCAddr, RPCAuth string
	// EventHandlers are handlers of the form FILTERS=SCRIPT, or SCRIPT.
	EventHandlers []string
	// The agent joins StartJoin once when it starts. It tries RetryJoin until it has joined one of them.
	StartJoin, RetryJoin []string
	RetryInterval        time.Duration
	// RetryMax is the maximum number of times that RetryJoin is retried. 0 means no limit.
	RetryMax int
	// Replay makes joins hand out the events from before the join.
	Replay bool
	// Rejoin joins the snapshot's members again, even after a leave.
	Rejoin bool
	// Snapshot is the file that keeps clocks and members.
	Snapshot string
	// KeepEvents makes the snapshot keep events and queries too, so that a restart resumes with them.
	KeepEvents bool
	// TrackHandlers records in the snapshot which handlers have ended. It works only together with KeepEvents.
	TrackHandlers bool
	// KeepEventsSize is the maximum size in bytes of the kept events in the snapshot.
	KeepEventsSize int
	// MaxMembers is the maximum number of known members. When it is reached, the node admits no new ones.
	MaxMembers int
	// MaxNamesPerAddress is the maximum number of known members at one IP address.
	MaxNamesPerAddress int
	// Record is the file that records the proved agent's calls and replies. RecordSize is the size in bytes at which it
	// is rotated.
	Record     string
	RecordSize int
	// Profile is lan, wan or local, and sets memberlist's intervals and timeouts.
	Profile string
	// LeaveOnTerminate makes the agent leave at SIGTERM. SkipLeaveOnInterrupt makes it not leave at SIGINT.
	LeaveOnTerminate, SkipLeaveOnInterrupt bool
	// ReconnectInterval is the time between attempts to reconnect to a failed member, and ReconnectTimeout the time
	// after which it is reaped. TombstoneTimeout is the time after which a member that left is reaped.
	ReconnectInterval, ReconnectTimeout, TombstoneTimeout time.Duration
	// BroadcastTimeout is the maximum time that a leave waits for its intent to be sent.
	BroadcastTimeout time.Duration
	// DisableCoordinates turns network coordinates off. DisableNameResolution turns off the query that decides which of
	// two nodes with the same name stays.
	DisableCoordinates, DisableNameResolution bool
	// Compression compresses gossip.
	Compression bool
	// UserEventSizeLimit is the maximum size in bytes of an event that this node fires.
	UserEventSizeLimit int
	// QuerySizeLimit is the maximum size in bytes of the packet of a query that this node fires, and
	// QueryResponseSizeLimit that of a response.
	QuerySizeLimit, QueryResponseSizeLimit int
	// HandlerTimeout is the maximum time for which a handler runs. 0 means no limit.
	HandlerTimeout time.Duration
	// ShowVersion prints the version and ends. CheckOnly checks the configuration and ends.
	ShowVersion, CheckOnly bool
}

// defaultQuerySize is Serf's limit for queries and responses, in bytes.
const defaultQuerySize = 1024

// defaultRecordSize is the size in bytes at which a record is rotated.
const defaultRecordSize = 64 << 20

// Default returns the default configuration.
func Default() Config {
	return Config{
		Bind: "0.0.0.0", RPCAddr: "127.0.0.1:7373", LogLevel: "INFO", Profile: "lan", Tags: map[string]string{},
		RetryInterval: 30 * time.Second, ReconnectInterval: 30 * time.Second, ReconnectTimeout: 24 * time.Hour,
		TombstoneTimeout: 24 * time.Hour, BroadcastTimeout: 5 * time.Second, Compression: true, UserEventSizeLimit: 512,
		HandlerTimeout: 10 * time.Minute, RecordSize: defaultRecordSize, QuerySizeLimit: defaultQuerySize,
		QueryResponseSizeLimit: defaultQuerySize, KeepEventsSize: serf.DefaultKeepEventsSize, MaxMembers: serf.DefaultMaxMembers,
		MaxNamesPerAddress: guard.Defaults().NamesPerAddress,
		SyslogFacility:     "LOCAL0", Protocol: int(serf.ProtocolVersionMax), TrackHandlers: true,
	}
}

// TracksHandlers reports whether the snapshot records which handlers have ended.
func (c *Config) TracksHandlers() bool { return c.KeepEvents && c.TrackHandlers }

// maxName is the maximum length in bytes of a node's name, as in package serf.
const maxName = 128

// MinRecord is the minimum for RecordSize in bytes.
const MinRecord = 1 << 12

// validate checks the configuration, and sets NodeName to the host's name if it is empty.
func (c *Config) validate() error {
	if c.NodeName == "" {
		name, err := os.Hostname()
		if err != nil {
			return fmt.Errorf("-node is required, since the host has no name: %w", err)
		}
		c.NodeName = name
	}
	if len(c.NodeName) > maxName {
		return fmt.Errorf("-node: the name has %d bytes, and must have at most %d", len(c.NodeName), maxName)
	}
	checks := []func() error{c.validateAddresses, c.validateKey, c.validateTags, c.validateNumbers, c.validateFiles}
	for _, check := range checks {
		if err := check(); err != nil {
			return err
		}
	}
	if _, ok := logs.LevelOf(c.LogLevel); !ok {
		return fmt.Errorf("-log-level: %q is not one of %v", c.LogLevel, logs.Levels)
	}
	switch c.Profile {
	case "lan", "wan", "local":
		return nil
	}
	return fmt.Errorf("-profile: %q is not one of lan, wan, local", c.Profile)
}

func (c *Config) validateAddresses() error {
	for _, address := range []struct{ flag, text string }{
		{"-bind", c.Bind}, {"-advertise", c.Advertise}, {"-rpc-addr", c.RPCAddr}, {"-prometheus-addr", c.PrometheusAddr},
	} {
		if address.text == "" && (address.flag == "-advertise" || address.flag == "-prometheus-addr") {
			continue
		}
		if _, err := parseWithHost(address.text, BindPort); err != nil {
			return fmt.Errorf("%s: %w", address.flag, err)
		}
	}
	return nil
}

// Key returns the decoded EncryptKey, or nil if it is empty.
func (c *Config) Key() ([]byte, error) {
	if c.EncryptKey == "" {
		return nil, nil
	}
	key, err := base64.StdEncoding.DecodeString(c.EncryptKey)
	if err != nil {
		return nil, fmt.Errorf("-encrypt: the key is not base64: %w", err)
	}
	switch len(key) {
	case 16, 24, 32:
		return key, nil
	}
	return nil, fmt.Errorf("-encrypt: the key has %d bytes, and must have 16, 24 or 32", len(key))
}

func (c *Config) validateKey() error {
	if _, err := c.Key(); err != nil {
		return err
	}
	if c.EncryptKey == "" || c.KeyringFile == "" {
		return nil
	}
	if _, err := os.Stat(c.KeyringFile); err == nil {
		return fmt.Errorf("-encrypt and -keyring-file: %s has the keys already, so leave -encrypt out", c.KeyringFile)
	}
	return nil
}

func (c *Config) validateTags() error {
	if c.TagsFile != "" && len(c.Tags) > 0 {
		return fmt.Errorf("-tag and -tags-file exclude each other: the file has the tags")
	}
	return nil
}

// validateNumbers checks the bounds of numbers and times.
func (c *Config) validateNumbers() error {
	const noMax = math.MaxInt
	for _, number := range []struct {
		name            string
		value, min, max int
	}{
		{"user_event_size_limit", c.UserEventSizeLimit, 1, serf.UserEventSizeLimit},
		{"query_size_limit", c.QuerySizeLimit, 1, serf.UserEventSizeLimit},
		{"query_response_size_limit", c.QueryResponseSizeLimit, 1, serf.UserEventSizeLimit},
		{"-protocol", c.Protocol, int(serf.ProtocolVersionMin), int(serf.ProtocolVersionMax)},
		{"-keep-events-size", c.KeepEventsSize, serf.MinKeepEventsSize, serf.MaxKeepEventsSize}, {"-max-members", c.MaxMembers, 1, noMax},
		{"-max-names-per-address", c.MaxNamesPerAddress, 1, noMax},
		{"-retry-max", c.RetryMax, 0, noMax}, {"-record-size", c.RecordSize, MinRecord, noMax},
	} {
		switch {
		case number.value >= number.min && number.value <= number.max:
		case number.max == noMax:
			return fmt.Errorf("%s: %d is below %d", number.name, number.value, number.min)
		default:
			return fmt.Errorf("%s: %d is not between %d and %d", number.name, number.value, number.min, number.max)
		}
	}
	for name, length := range map[string]time.Duration{
		"-retry-interval": c.RetryInterval, "reconnect_interval": c.ReconnectInterval, "reconnect_timeout": c.ReconnectTimeout,
		"tombstone_timeout": c.TombstoneTimeout, "-broadcast-timeout": c.BroadcastTimeout,
	} {
		if length <= 0 {
			return fmt.Errorf("%s: %v is not above 0", name, length)
		}
	}
	if c.HandlerTimeout < 0 {
		return fmt.Errorf("-handler-timeout: %v is below 0", c.HandlerTimeout)
	}
	return nil
}

// validateFiles checks that required files are set, and that no settings exclude each other.
func (c *Config) validateFiles() error {
	if c.Rejoin && c.Snapshot == "" {
		return fmt.Errorf("-rejoin needs -snapshot")
	}
	if c.KeepEvents && c.Snapshot == "" {
		return fmt.Errorf("-keep-events needs -snapshot")
	}
	return nil
}
