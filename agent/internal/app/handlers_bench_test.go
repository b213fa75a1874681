package app

import (
	"os"
	"path/filepath"
	"sort"
	"strconv"
	"syscall"
	"testing"
	"time"

	"kitchenrue.example/agent/internal/testkit"
)

// processorTime returns the processor time of this process and of its children that have ended.
func processorTime() time.Duration {
	var total time.Duration
	for _, who := range []int{syscall.RUSAGE_SELF, syscall.RUSAGE_CHILDREN} {
		var usage syscall.Rusage
		_ = syscall.Getrusage(who, &usage)
		total += time.Duration(usage.Utime.Nano() + usage.Stime.Nano())
	}
	return total
}

// BenchmarkHandlers measures how long the handler `true` takes for 1,000 events that wait for it.
func BenchmarkHandlers(b *testing.B) {
	for _, flag := range []string{"-track-handlers", "-track-handlers=false"} {
		b.Run(flag, func(b *testing.B) {
			var processor time.Duration
			for i := 0; i < b.N; i++ {
				b.StopTimer()
				folder := b.TempDir()
				first := filepath.Join(folder, "first")
				a, _ := startApp(b, "-keep-events", "-log-level", "info", "-snapshot", filepath.Join(folder, "snapshot"),
					"-event-handler", "user:first=while ! [ -e "+first+" ]; do sleep 0.01; done", "-event-handler", "user:x=true", flag)
				testkit.Must(b, a.Fire("first", nil, false))
				for event := 0; event < 1000; event++ {
					testkit.Must(b, a.Fire("x", []byte(strconv.Itoa(event)), false))
				}
				before := processorTime()
				b.StartTimer()
				testkit.Must(b, os.WriteFile(first, nil, 0o600))
				testkit.Eventually(b, "all events are handled", func() bool { return a.Stats()["agent"]["handlers_ok"] == "1001" })
				b.StopTimer()
				processor += processorTime() - before
				testkit.Check(b, a.Close())
			}
			b.ReportMetric(float64(processor.Milliseconds())/float64(b.N), "processor-ms/op")
		})
	}
}

// BenchmarkHandledFile measures how large the snapshot is while the handler `true` handles events, of which about a
// thousand wait. The number of the events is that of -benchtime.
func BenchmarkHandledFile(b *testing.B) {
	for _, flag := range []string{"-track-handlers", "-track-handlers=false"} {
		b.Run(flag, func(b *testing.B) {
			path := filepath.Join(b.TempDir(), "snapshot")
			a, _ := startApp(b, "-keep-events", "-log-level", "err", "-snapshot", path, "-event-handler", "user:x=true", flag)
			var sizes []int
			measure := func() {
				info, err := os.Stat(path)
				testkit.Must(b, err)
				sizes = append(sizes, int(info.Size()))
			}
			for i := 0; i < b.N; i++ {
				testkit.Must(b, a.Fire("x", []byte("v42"), false))
				for waiting, _ := a.runner.Waiting(); waiting > 1000; waiting, _ = a.runner.Waiting() {
					time.Sleep(10 * time.Millisecond)
					measure()
				}
			}
			testkit.Eventually(b, "all events are handled", func() bool {
				measure()
				return a.Stats()["agent"]["handlers_ok"] == strconv.Itoa(b.N)
			})
			sort.Ints(sizes)
			b.ReportMetric(float64(sizes[len(sizes)/2])/1024, "median-KiB")
			b.ReportMetric(float64(sizes[len(sizes)-1])/1024, "max-KiB")
			testkit.Check(b, a.Close())
		})
	}
}
