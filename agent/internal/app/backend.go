package app

import (
	"fmt"
	"runtime"

	"github.com/hashicorp/serf/coordinate"

	"kitchenrue.example/agent/internal/config"
	"kitchenrue.example/agent/internal/rpc"
	"kitchenrue.example/serf"
)

// App is the backend for the requests of the command line.

var _ rpc.Backend = &App{}

// Fire fires an event.
func (a *App) Fire(name string, payload []byte, coalesce bool) error {
	a.log.Lazyf("[DEBUG] agent: Requesting user event send: %s. Coalesced: %t. Payload: %q", name, coalesce, payload)
	return a.node.UserEvent(name, payload, coalesce)
}

// Members returns all known members.
func (a *App) Members() []serf.Member { return a.node.Members() }

// Join joins other agents. memberlist limits the time it takes.
func (a *App) Join(existing []string, replay bool) (int, error) {
	a.log.Printf("[INFO] agent: joining: %v replay: %t", existing, replay)
	count, err := a.node.Join(existing, !replay)
	if count > 0 {
		a.log.Printf("[INFO] agent: joined: %d nodes", count)
	}
	return count, err
}

// Leave leaves the cluster.
func (a *App) Leave() error {
	a.log.Print("[INFO] agent: requesting graceful leave from Serf")
	return a.node.Leave()
}

// Shutdown ends the agent.
func (a *App) Shutdown() { a.requestEnd(nil) }

// ForceLeave declares that a failed member has left the cluster.
func (a *App) ForceLeave(name string, prune bool) error {
	if prune {
		a.log.Printf("[INFO] agent: Force leaving node (prune): %s", name)
		return a.node.RemoveFailedNodePrune(name)
	}
	a.log.Printf("[INFO] agent: Force leaving node: %s", name)
	return a.node.RemoveFailedNode(name)
}

// UpdateTags changes this node's tags.
func (a *App) UpdateTags(set map[string]string, remove []string) error {
	return a.tags.change(func(now map[string]string) map[string]string { return mergeTags(now, set, remove) }, a.node.SetTags)
}

// Query fires a query.
func (a *App) Query(name string, payload []byte, params *serf.QueryParam) (*serf.QueryResponse, error) {
	a.log.Printf("[DEBUG] agent: Requesting query send: %s. Payload: %q", name, payload)
	return a.node.Query(name, payload, params)
}

// KeyManager returns the manager for the keys of all nodes.
func (a *App) KeyManager() *serf.KeyManager { return a.node.KeyManager() }

// Coordinate returns the last known coordinate of a node.
func (a *App) Coordinate(node string) (*coordinate.Coordinate, bool) {
	return a.node.GetCachedCoordinate(node)
}

// Stats returns the figures that `serf info` shows.
func (a *App) Stats() map[string]map[string]string {
	decimal := func(n int) string { return fmt.Sprint(n) }
	handlers := map[string]string{}
	for _, script := range a.runner.Scripts() {
		for _, filter := range script.Filters {
			name := filter.Kind + ":" + filter.Name
			if handlers[name] != "" {
				handlers[name] += ", "
			}
			handlers[name] += script.Command
		}
	}
	waiting, waitingQueries := a.runner.Waiting()
	agent := map[string]string{
		"name": a.config.NodeName, "program": "kitchenrue-agent " + config.Version,
		"handlers_waiting": decimal(waiting), "queries_waiting": decimal(waitingQueries),
		"handlers_unfinished": fmt.Sprint(a.runner.Unfinished()), "handlers_still_running": fmt.Sprint(a.runner.StillRunning()),
	}
	for result, count := range a.runner.Results() {
		agent["handlers_"+result.String()] = fmt.Sprint(count)
	}
	return map[string]map[string]string{
		"agent": agent,
		"runtime": {
			"os": runtime.GOOS, "arch": runtime.GOARCH, "version": runtime.Version(), "max_procs": decimal(runtime.GOMAXPROCS(0)),
			"goroutines": decimal(runtime.NumGoroutine()), "cpu_count": decimal(runtime.NumCPU()),
		},
		"serf": a.node.Stats(), "tags": a.tags.all(), "event_handlers": handlers,
	}
}

// metricFigures returns the figures for the metrics. These are the figures of Stats, and a 0 for each reason for which the
// guard has refused nothing yet, so that a monitor sees the first refusal as an increase.
func (a *App) metricFigures() map[string]map[string]string {
	stats := a.Stats()
	for _, name := range serf.RefusalNames() {
		if _, ok := stats["serf"][name]; !ok {
			stats["serf"][name] = "0"
		}
	}
	return stats
}
