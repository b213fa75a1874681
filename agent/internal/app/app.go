// Package app combines the parts of the agent: configuration, a node of package serf, handlers, and requests of the
// command line.
package app

import (
	"context"
	"errors"
	"fmt"
	"io"
	"sync/atomic"
	"time"

	"kitchenrue.example/agent/internal/config"
	"kitchenrue.example/agent/internal/handlers"
	"kitchenrue.example/agent/internal/logs"
	"kitchenrue.example/agent/internal/rpc"
	"kitchenrue.example/serf"
)

// handlersGrace is how long waiting handlers may still run when the agent ends.
const handlersGrace = 10 * time.Second

// App is a running agent.
type App struct {
	// configAsRead is the configuration as it was read. config is the same with resolved addresses.
	config, configAsRead config.Config

	log    *logs.Log
	runner *handlers.Runner
	node   *serf.Serf
	server atomic.Pointer[rpc.Server]
	tags   *tags
	// endReason receives the reason why the agent has to end. The reason is nil if a request ended the agent.
	endReason chan error
	// closing is closed when the agent ends, and pumpDone after the last event was passed on.
	closing, pumpDone chan struct{}
	// closeSyslog ends the connection to syslog.
	closeSyslog func()
}

// Start starts an agent. It joins only the members that its snapshot names.
func Start(conf config.Config, out io.Writer) (*App, error) {
	configAsRead := conf
	if err := conf.Resolve(); err != nil {
		return nil, err
	}
	level, _ := logs.LevelOf(conf.LogLevel)
	a := &App{
		config: conf, configAsRead: configAsRead, log: logs.New(out, level), endReason: make(chan error, 1),
		closing: make(chan struct{}), pumpDone: make(chan struct{}), closeSyslog: func() {},
	}
	if conf.Syslog {
		closeSyslog, err := a.log.ToSyslog("", "", conf.SyslogFacility)
		if err != nil {
			return nil, fmt.Errorf("-syslog: %w", err)
		}
		a.closeSyslog = closeSyslog
	}
	scripts, err := handlers.ParseScripts(conf.EventHandlers)
	if err != nil {
		return nil, err
	}
	if a.tags, err = openTags(conf.TagsFile, conf.Tags); err != nil {
		return nil, err
	}
	events := make(chan serf.Event)
	if err := a.startNode(events, scripts); err != nil {
		return nil, err
	}
	go a.pumpEvents(events)
	go a.watchNode()
	go a.limitMemory()
	server, err := rpc.Listen(conf.RPCAddr, conf.RPCAuth, a, a.log)
	if err != nil {
		_ = a.Close()
		return nil, err
	}
	a.server.Store(server)
	return a, nil
}

// startNode creates the node, which sends its events to a channel, and the runner of its handlers.
func (a *App) startNode(events chan<- serf.Event, scripts []handlers.Script) error {
	nodeConfig, cleanUp, err := a.nodeConfig(events)
	if err != nil {
		return err
	}
	a.log.Print("[INFO] agent: Serf agent starting")
	if a.node, err = serf.Create(nodeConfig); err != nil {
		cleanUp()
		var fieldErr *serf.FieldError
		if errors.As(err, &fieldErr) && fieldErr.Field == "SnapshotPath" {
			err = fmt.Errorf("-snapshot: %w", fieldErr.Err)
		}
		return err
	}
	a.runner = handlers.New(a.log.Logger, a.config.HandlerTimeout, scripts, func() handlers.Self {
		return handlers.Self{Name: a.config.NodeName, Tags: a.tags.all()}
	})
	a.countNames(scripts)
	if nodeConfig.TrackHandlers {
		a.runner.Track(a.node)
		a.runner.Resume(a.node.Unfinished())
	}
	return nil
}

// pumpEvents passes the node's events on to the handlers and to streams of the command line, in order, while the
// handlers have room.
func (a *App) pumpEvents(events <-chan serf.Event) {
	defer close(a.pumpDone)
	for {
		select {
		case e := <-events:
			a.waitForRoom()
			a.logEvent(e)
			a.runner.Add(e)
			if server := a.server.Load(); server != nil {
				server.Publish(e)
			}
		case <-a.node.ShutdownCh():
			return
		}
	}
}

// logEvent logs an event that was handed out. Any node can send events and queries for which there is no handler here,
// so the log limits the lines of these.
func (a *App) logEvent(e serf.Event) {
	const format = "[INFO] agent: Received event: %s"
	switch e.EventType() {
	case serf.EventUser, serf.EventQuery:
		if !a.runner.HasScriptFor(e) {
			a.log.LimitedLazyf("agent: Received event without a handler", format, e)
			return
		}
	}
	a.log.Lazyf(format, e)
}

// countNames makes the metrics count the event names and query names in the handlers' filters, even if a flood of other
// names arrived first.
func (a *App) countNames(scripts []handlers.Script) {
	a.node.CountNames(handlers.Names(scripts, "user"), handlers.Names(scripts, "query"))
}

// waitForRoom waits until the handlers have room, or the agent ends. When the agent ends, the events that were handed
// out go to the handlers without waiting for room.
func (a *App) waitForRoom() {
	for !a.runner.HasRoom() {
		select {
		case <-a.runner.RoomFreed():
		case <-a.closing:
			return
		}
	}
}

// watchNode ends the agent if its node ends by itself.
func (a *App) watchNode() {
	<-a.node.ShutdownCh()
	if reason := a.node.Fault(); reason != nil {
		a.requestEnd(reason)
	}
}

// requestEnd ends the agent for a reason. If it is called again, the first reason is kept.
func (a *App) requestEnd(reason error) {
	select {
	case a.endReason <- reason:
	default:
	}
}

// Close ends the agent. The node ends at once, and the handlers within handlersGrace. If handlers are tracked, the node
// ends after the handler that is running, and the events that still wait for their handlers stay open. If the node
// ended by itself, Close returns the reason.
func (a *App) Close() error {
	a.log.Print("[INFO] agent: requesting serf shutdown")
	close(a.closing)
	if a.config.TracksHandlers() {
		// The node still has to record the end of the handler that is running.
		a.runner.Close(handlersGrace)
	}
	err := a.node.Shutdown()
	if err == nil {
		err = a.node.Fault()
	}
	<-a.pumpDone
	a.runner.Close(handlersGrace)
	if server := a.server.Load(); server != nil {
		server.Close()
	}
	a.log.Print("[INFO] agent: shutdown complete")
	a.closeSyslog()
	return err
}

// ignoresOld reports whether the joins at the start ignore the events from before the join. A node that resumes from
// its snapshot needs the events that it missed.
func (a *App) ignoresOld() bool { return !a.config.Replay && !a.node.IsGoingOn() }

// JoinAtStart joins the agents in the configuration, and starts to retry those of RetryJoin. It returns an error if a
// join of StartJoin fails.
func (a *App) JoinAtStart(ctx context.Context) error {
	if len(a.config.StartJoin) > 0 {
		count, err := a.node.Join(a.config.StartJoin, a.ignoresOld())
		if err != nil {
			return fmt.Errorf("-join: %w", err)
		}
		a.log.Printf("[INFO] agent: Join completed. Synced with %d initial agents", count)
	}
	if len(a.config.RetryJoin) > 0 {
		go a.retryJoin(ctx)
	}
	return nil
}

// retryJoin tries to join the agents of RetryJoin until one is joined, RetryMax is reached or ctx is done.
func (a *App) retryJoin(ctx context.Context) {
	for attempt := 1; ; attempt++ {
		count, err := a.node.Join(a.config.RetryJoin, a.ignoresOld())
		if err == nil {
			a.log.Printf("[INFO] agent: Join completed. Synced with %d initial agents", count)
			return
		}
		// The first attempt is not a retry.
		if a.config.RetryMax > 0 && attempt > a.config.RetryMax {
			a.requestEnd(fmt.Errorf("-retry-join: no agent was joined in %d attempts: %w", attempt, err))
			return
		}
		a.log.Printf("[WARN] agent: Join failed: %v, retrying in %v", err, a.config.RetryInterval)
		select {
		case <-ctx.Done():
			return
		case <-time.After(a.config.RetryInterval):
		}
	}
}

// Reload applies the handlers, the tags and the log level of a new configuration. If the tags are in a file, it reads
// that file again.
func (a *App) Reload(conf config.Config) error {
	scripts, err := handlers.ParseScripts(conf.EventHandlers)
	if err != nil {
		return err
	}
	level, ok := logs.LevelOf(conf.LogLevel)
	if !ok {
		return fmt.Errorf("-log-level: %q is not one of %v", conf.LogLevel, logs.Levels)
	}
	newTags, err := a.tags.reread(conf)
	if err != nil {
		return err
	}
	a.runner.SetScripts(scripts)
	a.countNames(scripts)
	a.log.SetLevel(level)
	return a.tags.change(func(map[string]string) map[string]string { return newTags }, a.node.SetTags)
}
