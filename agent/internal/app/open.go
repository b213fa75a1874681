package app

import (
	"fmt"
	"time"

	"github.com/hashicorp/memberlist"

	"kitchenrue.example/agent/internal/config"
	"kitchenrue.example/agent/internal/keyring"
	"kitchenrue.example/serf"
	"kitchenrue.example/serf/record"
)

// Events that may be coalesced wait for at most coalescePeriod, or until none arrived for quietPeriod. These are the
// times of Serf's agent.
const (
	coalescePeriod = 3 * time.Second
	quietPeriod    = time.Second
)

// nodeConfig returns the node's configuration, and a function that closes its files if no node is created.
func (a *App) nodeConfig(events chan<- serf.Event) (*serf.Config, func(), error) {
	c := &a.config
	conf := serf.DefaultConfig()
	conf.NodeName, conf.Tags, conf.EventCh, conf.ProtocolVersion = c.NodeName, a.tags.all(), events, uint8(c.Protocol)
	conf.DisableCoordinates, conf.EnableNameConflictResolution = c.DisableCoordinates, !c.DisableNameResolution
	conf.Logger, conf.LogOutput = a.log.Logger, nil
	conf.CoalescePeriod, conf.QuiescentPeriod = coalescePeriod, quietPeriod
	conf.UserCoalescePeriod, conf.UserQuiescentPeriod = coalescePeriod, quietPeriod
	conf.ReconnectInterval, conf.ReconnectTimeout, conf.TombstoneTimeout = c.ReconnectInterval, c.ReconnectTimeout, c.TombstoneTimeout
	conf.BroadcastTimeout, conf.UserEventSizeLimit = c.BroadcastTimeout, c.UserEventSizeLimit
	conf.QuerySizeLimit, conf.QueryResponseSizeLimit = c.QuerySizeLimit, c.QueryResponseSizeLimit
	conf.SnapshotPath, conf.RejoinAfterLeave, conf.KeepEvents, conf.KeyringFile = c.Snapshot, c.Rejoin, c.KeepEvents, c.KeyringFile
	conf.KeepEventsSize, conf.Guard.Members = c.KeepEventsSize, c.MaxMembers
	conf.Guard.NamesPerAddress = c.MaxNamesPerAddress
	conf.TrackHandlers = c.TracksHandlers()
	list, err := listConfig(c)
	if err != nil {
		return nil, nil, err
	}
	conf.MemberlistConfig = list
	cleanUp, err := a.wrapRecorder(conf)
	return conf, cleanUp, err
}

// listConfig returns memberlist's configuration.
func listConfig(c *config.Config) (*memberlist.Config, error) {
	list := memberlist.DefaultLANConfig()
	switch c.Profile {
	case "wan":
		list = memberlist.DefaultWANConfig()
	case "local":
		list = memberlist.DefaultLocalConfig()
	}
	bind, err := config.ParseIP(c.Bind)
	if err != nil {
		return nil, err
	}
	list.BindAddr, list.BindPort, list.AdvertisePort = bind.Host, bind.Port, bind.Port
	if c.Advertise != "" {
		advertise, err := config.ParseIP(c.Advertise)
		if err != nil {
			return nil, err
		}
		list.AdvertiseAddr, list.AdvertisePort = advertise.Host, advertise.Port
	}
	list.EnableCompression = c.Compression
	key, err := c.Key()
	if err != nil {
		return nil, err
	}
	list.Keyring, err = keyring.Open(c.KeyringFile, key)
	return list, err
}

// wrapRecorder makes the node record the calls to the proved agent, if the configuration says so.
func (a *App) wrapRecorder(conf *serf.Config) (cleanUp func(), err error) {
	if a.config.Record == "" {
		return func() {}, nil
	}
	file, err := record.Open(a.config.Record, int64(a.config.RecordSize))
	if err != nil {
		return nil, fmt.Errorf("-record: %w", err)
	}
	conf.Wrap = func(agent serf.Agent, opening serf.Opening) (serf.Agent, error) {
		recorded, err := record.Start(agent, file, a.config.NodeName, opening, a.log.Logger)
		if err != nil {
			return nil, fmt.Errorf("-record: %w", err)
		}
		return recorded, nil
	}
	return func() { file.Close() }, nil
}
