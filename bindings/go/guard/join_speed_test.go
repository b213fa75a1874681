package guard

import (
	"fmt"
	"testing"
	"time"

	"github.com/hashicorp/memberlist"
)

// BenchmarkJoin measures how long a node takes to join a cluster until it knows all members. Each node stays in the
// cluster. The benchmark runs with memberlist's own transport, with a guard that admits new nodes without a ping, and
// with a guard to which they have to prove their addresses.
func BenchmarkJoin(b *testing.B) {
	count := envNumber("GUARD_NODES", 20)
	for _, kind := range []string{"stock", "unproven", "proven"} {
		b.Run(kind, func(b *testing.B) {
			start := func(name string) *memberlist.Memberlist {
				c := testConfig(name, false)
				c.PushPullInterval, c.ProbeInterval = time.Hour, time.Hour
				if kind != "stock" {
					guarded, err := New(c, Settings{AdmitUnproven: kind == "unproven", NamesPerAddress: manyNames})
					if err != nil {
						b.Fatal(err)
					}
					c.Transport = guarded
				}
				list, err := memberlist.Create(c)
				if err != nil {
					b.Fatal(err)
				}
				b.Cleanup(func() { list.Shutdown() })
				return list
			}
			first := start("first")
			for n := 1; n < count; n++ {
				other := start(fmt.Sprint("member", n))
				if _, err := other.Join([]string{first.LocalNode().Address()}); err != nil {
					b.Fatal(err)
				}
			}
			for first.NumMembers() < count {
				time.Sleep(time.Millisecond)
			}
			b.ResetTimer()
			for n := 0; n < b.N; n++ {
				b.StopTimer()
				list := start(fmt.Sprint("new", n))
				b.StartTimer()
				if _, err := list.Join([]string{first.LocalNode().Address()}); err != nil {
					b.Fatal(err)
				}
				b.StopTimer()
				if known := list.NumMembers(); known < count+1+n {
					b.Errorf("after the join it knows %d members", known)
				}
				b.StartTimer()
			}
		})
	}
}
