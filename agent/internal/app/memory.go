package app

import (
	"os"
	"runtime/debug"
	"runtime/metrics"
	"time"
)

// The limit of the process's memory, in bytes, above which Go's garbage collector works harder. It is the sum of a
// base, a share for each member, and a multiple of the bytes of kept events. Without a limit, a flood lets the heap
// grow to several times the memory in use. The agent sets the limit again every memoryInterval. GOMEMLIMIT overrides
// it.
const (
	memoryBase        = 24 << 20
	memoryPerMember   = 2 << 10
	memoryPerKeptByte = 3
	memoryInterval    = time.Second
)

// memoryLimit returns the memory limit in bytes for the current number of members.
func (a *App) memoryLimit() int64 {
	limit := int64(memoryBase) + memoryPerMember*int64(a.node.NumNodes())
	if a.config.KeepEvents {
		limit += memoryPerKeptByte * int64(a.config.KeepEventsSize)
	}
	return limit
}

// The percentage by which the heap may grow before the collector runs: Go's default, and the value above the limit.
// With only the limit, the collector would use at most half of the processor, and a flood could still make the heap
// grow. GOGC overrides it.
const gcPercent, gcPercentAboveLimit = 100, 20

// gcPercentFor returns the percentage for a process that uses this many bytes.
func gcPercentFor(used, limit int64) int {
	if used > limit {
		return gcPercentAboveLimit
	}
	return gcPercent
}

// memoryInUse returns how many bytes of memory the Go runtime holds from the system.
func memoryInUse() int64 {
	samples := []metrics.Sample{{Name: "/memory/classes/total:bytes"}, {Name: "/memory/classes/heap/released:bytes"}}
	metrics.Read(samples)
	return int64(samples[0].Value.Uint64() - samples[1].Value.Uint64())
}

// limitMemory sets the collector's limits until the agent ends.
func (a *App) limitMemory() {
	if os.Getenv("GOMEMLIMIT") != "" {
		return
	}
	for {
		limit := a.memoryLimit()
		debug.SetMemoryLimit(limit)
		if os.Getenv("GOGC") == "" {
			debug.SetGCPercent(gcPercentFor(memoryInUse(), limit))
		}
		select {
		case <-a.closing:
			return
		case <-time.After(memoryInterval):
		}
	}
}
