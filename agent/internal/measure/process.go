package measure

import (
	"bytes"
	"fmt"
	"os"
	"runtime"
	"strconv"
	"strings"
	"syscall"

	"kitchenrue.example/agent/internal/config"
)

// ticksPerSecond is the number of ticks in a second, for the times in /proc/self/stat. It is 100 on each Linux for
// x86-64.
const ticksPerSecond = 100

// The metrics of the process, under the names that Prometheus's own libraries use.
var (
	cpuSeconds     = family{"process_cpu_seconds_total", "counter", "User and system processor time.", 0}
	startTime      = family{"process_start_time_seconds", "gauge", "When the process started, in seconds since 1970.", 0}
	virtualMemory  = family{"process_virtual_memory_bytes", "gauge", "Size of the virtual memory.", 0}
	residentMemory = family{"process_resident_memory_bytes", "gauge", "Size of the resident memory.", 0}
	openFiles      = family{"process_open_fds", "gauge", "Open file descriptors.", 0}
	maxFiles       = family{"process_max_fds", "gauge", "The maximum number of open file descriptors.", 0}
	goroutines     = family{"go_goroutines", "gauge", "Goroutines.", 0}
	buildFamily    = family{"kitchenrue_agent_build_info", "gauge", "The agent's version, and that of Go. The value is always 1.", 0}
)

// processTotals returns the metrics of the process. It leaves out those that can't be read.
func processTotals() []total {
	all := []total{
		{family: &goroutines, sum: float64(runtime.NumGoroutine())},
		{family: &buildFamily, labels: fmt.Sprintf("{goversion=%q,version=%q}", runtime.Version(), config.Version), sum: 1},
	}
	if stat := readStat("/proc/self/stat"); len(stat) > residentField {
		all = append(all,
			total{family: &cpuSeconds, sum: (stat[userField] + stat[systemField]) / ticksPerSecond},
			total{family: &virtualMemory, sum: stat[virtualField]},
			total{family: &residentMemory, sum: stat[residentField] * float64(os.Getpagesize())})
		if boot := bootTime(); boot > 0 {
			all = append(all, total{family: &startTime, sum: boot + stat[startField]/ticksPerSecond})
		}
	}
	if files, err := os.ReadDir("/proc/self/fd"); err == nil {
		all = append(all, total{family: &openFiles, sum: float64(len(files))})
	}
	var limit syscall.Rlimit
	if err := syscall.Getrlimit(syscall.RLIMIT_NOFILE, &limit); err == nil {
		all = append(all, total{family: &maxFiles, sum: float64(limit.Cur)})
	}
	return all
}

// The positions of fields of /proc/self/stat, counted after the command's name: processor time in user mode and in
// system mode, the time from boot to the start, virtual memory in bytes, and resident memory in pages.
const (
	userField     = 11
	systemField   = 12
	startField    = 19
	virtualField  = 20
	residentField = 21
)

// readStat returns the fields after the command's name. A field that isn't a number is 0.
func readStat(path string) []float64 {
	data, err := os.ReadFile(path)
	if err != nil {
		return nil
	}
	// The command's name is in brackets, and may contain any byte.
	words := strings.Fields(string(data[bytes.LastIndexByte(data, ')')+1:]))
	fields := make([]float64, len(words))
	for i, word := range words {
		fields[i], _ = strconv.ParseFloat(word, 64)
	}
	return fields
}

// bootTime returns when the machine booted, in seconds since 1970, or 0.
func bootTime() float64 {
	data, err := os.ReadFile("/proc/stat")
	if err != nil {
		return 0
	}
	_, rest, ok := strings.Cut(string(data), "\nbtime ")
	if !ok {
		return 0
	}
	text, _, _ := strings.Cut(rest, "\n")
	seconds, _ := strconv.ParseFloat(text, 64)
	return seconds
}
