package record

import (
	"fmt"
	"path/filepath"
	"testing"

	"kitchenrue.example/serf"
	"kitchenrue.example/serfagent"
)

// cannedAgent returns the same outcomes for each burst.
type cannedAgent struct {
	serf.Agent
	outcomes []serfagent.Outcome
}

func (c *cannedAgent) TakeAll(uint64, []serf.Packet, []serf.Firing) ([]serfagent.Outcome, error) {
	return c.outcomes, nil
}

func (c *cannedAgent) Clocks() (serfagent.Clocks, error) {
	return serfagent.Clocks{Member: 1, Event: 1, Query: 1}, nil
}

func (c *cannedAgent) Close() error { return nil }

// BenchmarkBurst measures how long it takes to record a new event, in bursts of several sizes. The time that the agent
// itself takes is not included.
func BenchmarkBurst(b *testing.B) {
	packet := serf.Packet{Data: []byte("\x03\x84\xa5LTime\xce\x00\x01\xe2\x40\xa4Name\xa6deploy\xa7Payload\xa6v12345\xa2CC\xc2")}
	event := serfagent.Event{Time: 123456, Name: "deploy", Payload: []byte("v12345")}
	outcome := serfagent.Outcome{Received: &serfagent.Received{Kind: serfagent.NewEvent, Rebroadcast: true, Event: &event}}
	for _, size := range []int{1, 16, 256} {
		b.Run(fmt.Sprint(size), func(b *testing.B) {
			file, err := Open(filepath.Join(b.TempDir(), "record"), 1<<26)
			must(b, err)
			agent, packets := &cannedAgent{}, []serf.Packet{}
			for i := 0; i < size; i++ {
				packets, agent.outcomes = append(packets, packet), append(agent.outcomes, outcome)
			}
			recorded, err := Start(agent, file, "a", serf.Opening{Settings: serfagent.DefaultSettings()}, noLog)
			must(b, err)
			defer recorded.Close()
			b.ReportAllocs()
			b.ResetTimer()
			for i := 0; i < b.N; i += size {
				if _, err := recorded.TakeAll(1234567890123456789, packets, nil); err != nil {
					b.Fatal(err)
				}
			}
		})
	}
}
