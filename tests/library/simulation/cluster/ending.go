package main

import (
	"runtime"
	"sync"
	"time"

	"kitchenrue.example/simulation/disk"
)

// checkEnd ends all nodes. After that, there must be no goroutine, no open file and no stream left.
func (c *cluster) checkEnd() {
	lives := c.lives()
	var ending sync.WaitGroup
	for _, l := range lives {
		l.isEnding.Store(true)
		ending.Add(1)
		go func(l *life) {
			defer ending.Done()
			l.serf.Shutdown()
		}(l)
	}
	ending.Wait()
	c.steps.Wait()
	time.Sleep(endTime)
	if count := runtime.NumGoroutine(); count > c.goroutines {
		c.ledger.violate("left", "%d goroutines are left: %s", count-c.goroutines, goroutines())
	}
	if count := disk.OpenFiles(); count > 0 {
		c.ledger.violate("left", "%d files are open", count)
	}
	if count := c.network.streamsLeft(); count > 0 {
		c.ledger.violate("left", "%d streams are open", count)
	}
}

// maxStacks is the maximum number of bytes of stacks in a report.
const maxStacks = 3000

// goroutines returns the stacks of the goroutines.
func goroutines() string {
	stacks := make([]byte, 1<<20)
	stacks = stacks[:runtime.Stack(stacks, true)]
	if len(stacks) > maxStacks {
		stacks = stacks[:maxStacks]
	}
	return string(stacks)
}
