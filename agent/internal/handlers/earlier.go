package handlers

import (
	"context"
	"time"
)

// A handler has a separate process group, so it may outlive its agent. The next life finds the handler by the process
// that the snapshot names: no handler of a tracked event runs before its process is recorded there.

// awaitResult is how awaitEarlier ended: the earlier handler has ended or isn't known, it is still running after the
// timeout, or the agent is shutting down.
type awaitResult int

const (
	earlierEnded awaitResult = iota
	earlierStillRuns
	agentIsEnding
)

// earlierCheckInterval is how often the agent checks whether a handler of an earlier life has ended.
const earlierCheckInterval = 100 * time.Millisecond

// awaitEarlier waits until the handler of an earlier life has ended, but not longer than the timeout of handlers.
func (r *Runner) awaitEarlier(ctx context.Context, e Unfinished) awaitResult {
	if e.process == nil || !e.process.IsRunning() {
		return earlierEnded
	}
	r.log.Printf(
		"[INFO] agent: a handler of %s is still running as process %d; what runs for it now waits for its end", describe(e.UserEvent),
		e.process.PID,
	)
	ticker := time.NewTicker(earlierCheckInterval)
	defer ticker.Stop()
	for began := time.Now(); e.process.IsRunning(); {
		if r.timeout > 0 && time.Since(began) > r.timeout {
			r.log.Printf(
				"[WARN] agent: a handler of %s is still running as process %d after %v, and nothing runs for it", describe(e.UserEvent),
				e.process.PID, r.timeout,
			)
			return earlierStillRuns
		}
		if r.isClosing.Load() {
			return agentIsEnding
		}
		select {
		case <-ctx.Done():
			return agentIsEnding
		case <-ticker.C:
		}
	}
	return earlierEnded
}
