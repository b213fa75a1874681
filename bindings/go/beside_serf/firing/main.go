// This program measures how many events per second a node fires. GOPATH decides with which package serf it is compiled,
// Serf's or ours.
//
//	firing SNAPSHOT CALLERS EVENTS
//	firing rpc:ADDRESS CALLERS EVENTS
//
// CALLERS goroutines together fire EVENTS events at a single node. If SNAPSHOT is -, the node keeps everything in
// memory. The program prints one line. The line has the number of events per second until the last call returned, the
// number of events that arrived on EventCh, and the memory of the process in KiB at that time. With rpc:ADDRESS, the
// callers are connections to an agent, and the line has only the number of events per second.
package main

import (
	"fmt"
	"io"
	"log"
	"os"
	"strconv"
	"strings"
	"sync"
	"sync/atomic"
	"time"

	"github.com/hashicorp/memberlist"
	"github.com/hashicorp/serf/client"
	"github.com/hashicorp/serf/serf"
)

// must ends the program if err isn't nil.
func must(err error) {
	if err != nil {
		log.Fatal(err)
	}
}

// startNode starts a node that joins no others, and counts the events that it hands out.
func startNode(path string, received *atomic.Int64) *serf.Serf {
	events := make(chan serf.Event, 1024)
	go func() {
		for e := range events {
			if e.EventType() == serf.EventUser {
				received.Add(1)
			}
		}
	}()
	config := serf.DefaultConfig()
	config.MemberlistConfig = memberlist.DefaultLocalConfig()
	config.MemberlistConfig.BindAddr, config.MemberlistConfig.BindPort = "127.0.0.1", 0
	config.MemberlistConfig.LogOutput, config.LogOutput = io.Discard, io.Discard
	config.NodeName, config.EventCh = "node", events
	if path != "-" {
		config.SnapshotPath = path
	}
	created, err := serf.Create(config)
	must(err)
	return created
}

// memoryKiB returns the resident memory of the process in KiB.
func memoryKiB() string {
	status, err := os.ReadFile("/proc/self/status")
	must(err)
	_, rest, _ := strings.Cut(string(status), "VmRSS:")
	return strings.Fields(rest)[0]
}

// fireAll fires count events from several callers at once, and returns the number of events per second. It calls
// newCaller once for each caller, before it starts to measure the time.
func fireAll(callers, count int, newCaller func() func(payload []byte) error) float64 {
	var running sync.WaitGroup
	begin := make(chan struct{})
	for caller := 0; caller < callers; caller++ {
		running.Add(1)
		fireOne := newCaller()
		go func(caller int) {
			defer running.Done()
			<-begin
			for number := caller; number < count; number += callers {
				must(fireOne([]byte(fmt.Sprintf("version %d", number))))
			}
		}(caller)
	}
	began := time.Now()
	close(begin)
	running.Wait()
	return float64(count) / time.Since(began).Seconds()
}

func main() {
	callers, err := strconv.Atoi(os.Args[2])
	must(err)
	count, err := strconv.Atoi(os.Args[3])
	must(err)
	if address := strings.TrimPrefix(os.Args[1], "rpc:"); address != os.Args[1] {
		fmt.Printf("%.0f\n", fireAll(callers, count, func() func([]byte) error {
			connection, err := client.NewRPCClient(address)
			must(err)
			return func(payload []byte) error { return connection.UserEvent("deploy", payload, false) }
		}))
		return
	}
	var received atomic.Int64
	node := startNode(os.Args[1], &received)
	speed := fireAll(callers, count, func() func([]byte) error {
		return func(payload []byte) error { return node.UserEvent("deploy", payload, false) }
	})
	// The last events may take a moment to arrive.
	for end := time.Now().Add(2 * time.Second); int(received.Load()) < count && time.Now().Before(end); {
		time.Sleep(10 * time.Millisecond)
	}
	fmt.Printf("%.0f %d %s\n", speed, received.Load(), memoryKiB())
}
