package serf

import (
	"bytes"
	"os"
	"testing"
)

// measureFile opens a node's file and handles the events of the benchmark, without a network. It returns the largest size of
// the file, and its size after a compaction.
func measureFile(b *testing.B, isTracked bool, payload []byte) (largest, compacted int64) {
	c := loopbackConfig("a")
	events := make(chan Event, Waiting)
	c.EventCh, c.SnapshotPath, c.KeepEvents, c.TrackHandlers = events, b.TempDir()+"/snapshot", true, isTracked
	s, err := Create(&c)
	if err != nil {
		b.Fatal(err)
	}
	size := func() int64 {
		info, err := os.Stat(c.SnapshotPath)
		if err != nil {
			b.Fatal(err)
		}
		if info.Size() > largest {
			largest = info.Size()
		}
		return info.Size()
	}
	process, err := ProcessOf("deploy", os.Getpid())
	if err != nil {
		b.Fatal(err)
	}
	for i := 0; i < b.N; i++ {
		if err := s.UserEvent("deploy", payload, false); err != nil {
			b.Fatal(err)
		}
		e, isUser := (<-events).(UserEvent)
		for !isUser {
			// (the node has joined itself)
			e, isUser = (<-events).(UserEvent)
		}
		for _, err := range []error{s.Begin(e), s.RecordProcess(e, process), s.DoneWith(e, []HandlerRun{{"deploy", "0"}})} {
			if err != nil {
				b.Fatal(err)
			}
		}
		if i%10 == 0 {
			size()
		}
	}
	size()
	if err := s.useAgent(func() error { return s.snapshot.compact(nil, s.compactLibrary) }); err != nil {
		b.Fatal(err)
	}
	compacted = size()
	if err := s.Shutdown(); err != nil {
		b.Fatal(err)
	}
	return largest, compacted
}

// BenchmarkFile measures how large the file is if each event is handled.
func BenchmarkFile(b *testing.B) {
	for name, payload := range map[string][]byte{"short": []byte("v42"), "long": bytes.Repeat([]byte("x"), 400)} {
		for _, tracking := range []string{"untracked", "tracked"} {
			payload, isTracked := payload, tracking == "tracked"
			b.Run(name+"/"+tracking, func(b *testing.B) {
				largest, compacted := measureFile(b, isTracked, payload)
				b.ReportMetric(float64(largest)/1024, "max-KiB")
				b.ReportMetric(float64(compacted)/1024, "compacted-KiB")
			})
		}
	}
}
