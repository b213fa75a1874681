package measure

import (
	"bufio"
	"fmt"
	"io"
	"net"
	"net/http"
	"os/exec"
	"runtime"
	"strings"
	"syscall"
	"testing"
	"time"

	"github.com/armon/go-metrics"

	"kitchenrue.example/agent/internal/config"
	"kitchenrue.example/agent/internal/testkit"
)

// fetchPage returns the page.
func fetchPage(t *testing.T, address net.Addr) string {
	t.Helper()
	client := http.Client{Transport: &http.Transport{DisableKeepAlives: true}}
	answer, err := client.Get("http://" + address.String() + "/metrics")
	testkit.Must(t, err)
	defer answer.Body.Close()
	text, err := io.ReadAll(answer.Body)
	if err != nil || answer.StatusCode != 200 {
		t.Fatal(answer.Status, err)
	}
	return string(text)
}

// checkByPromtool checks with Prometheus's own promtool, if it is installed, that the page is valid and follows Prometheus's rules
// for names.
func checkByPromtool(t *testing.T, text string) {
	t.Helper()
	promtool, err := exec.LookPath("promtool")
	if err != nil {
		return
	}
	check := exec.Command(promtool, "check", "metrics")
	check.Stdin = strings.NewReader(text)
	if said, err := check.CombinedOutput(); err != nil || len(said) > 0 {
		t.Errorf("promtool: %v: %s", err, said)
	}
}

// Metrics arrive at statsite, at statsd, on the page and, at SIGUSR1, in the dumps.
func TestSinks(t *testing.T) {
	var sent testkit.Output
	statsite, err := net.Listen("tcp", "127.0.0.1:0")
	testkit.Must(t, err)
	defer statsite.Close()
	go func() {
		conn, err := statsite.Accept()
		if err != nil {
			return
		}
		defer conn.Close()
		for lines := bufio.NewScanner(conn); lines.Scan(); {
			fmt.Fprintln(&sent, "statsite "+lines.Text())
		}
	}()
	statsd, err := net.ListenPacket("udp", "127.0.0.1:0")
	testkit.Must(t, err)
	defer statsd.Close()
	go func() {
		buffer := make([]byte, 1<<16)
		for count, _, err := statsd.ReadFrom(buffer); err == nil; count, _, err = statsd.ReadFrom(buffer) {
			for _, line := range strings.Split(string(buffer[:count]), "\n") {
				fmt.Fprintln(&sent, "statsd "+line)
			}
		}
	}()
	var dumps testkit.Output
	m, err := Start(statsite.Addr().String(), statsd.LocalAddr().String(), "127.0.0.1:0", &dumps)
	testkit.Must(t, err)
	m.Watch(func() map[string]map[string]string {
		return map[string]map[string]string{
			"agent":   {"handlers_waiting": "3", "name": "a"},
			"serf":    {"dropped_far": "17", "refused_full": "5", "refused_too_long": "0", "ignored_too_old": "2"},
			"runtime": {"goroutines": "5"},
		}
	})
	metrics.IncrCounter([]string{"serf", "events"}, 1)
	metrics.IncrCounter([]string{"serf", "events"}, 1)
	metrics.IncrCounter([]string{"serf", "events", "de-ploy"}, 1)
	metrics.IncrCounter([]string{"serf", "queries", "q"}, 1)
	metrics.IncrCounter([]string{"serf", "queries", "r"}, 1)
	metrics.AddSample([]string{"serf", "msgs", "received"}, 7)
	metrics.AddSample([]string{"serf", "msgs", "received"}, 8)
	metrics.SetGauge([]string{"x"}, 4)
	metrics.IncrCounter([]string{"serf", "oddName"}, 1)
	metrics.IncrCounterWithLabels(
		[]string{"agent", "handler", "results"}, 1, []metrics.Label{{Name: "handler", Value: `a\"b`}, {Name: "result", Value: "failed"}},
	)
	metrics.AddSampleWithLabels([]string{"agent", "handler", "duration"}, 1500, []metrics.Label{{Name: "handler", Value: "deploy"}})
	metrics.AddSample([]string{"agent", "invoke", "exit 3"}, 1500)
	// The growth of each counter is sent, and each counter appears on the page once.
	m.sendFigures(figures(m.page.stats))
	m.sendFigures(figures(m.page.stats))
	for _, what := range []string{
		"statsite serf-agent.serf.events:1.000000|c", "statsd serf-agent.serf.events:1.000000|c",
		"statsd serf-agent.serf.events.de-ploy:1.000000|c",
		"statsite serf-agent.serf.msgs.received:7.000000|ms", "statsd serf-agent.serf.msgs.received:8.000000|ms", ".x:4.000000|g",
		"statsd serf-agent.serf.refused_full:5.000000|c", ".agent.handlers_waiting:3.000000|g",
	} {
		testkit.Eventually(t, what, func() bool { return sent.Has(what) })
	}
	text := fetchPage(t, m.page.listener.Addr())
	for _, what := range []string{
		"# TYPE serf_events_total counter\nserf_events_total 2\n",
		"# TYPE serf_events_by_name_total counter\nserf_events_by_name_total{name=\"de-ploy\"} 1\n",
		"serf_queries_by_name_total{name=\"q\"} 1\nserf_queries_by_name_total{name=\"r\"} 1\n",
		"# TYPE serf_messages_received_bytes summary\nserf_messages_received_bytes_count 2\nserf_messages_received_bytes_sum 15\n",
		"# TYPE x gauge\nx 4\n",
		"# TYPE agent_handlers_waiting gauge\nagent_handlers_waiting 3\n",
		"# TYPE serf_dropped_far_total counter\nserf_dropped_far_total 17\n",
		"# TYPE serf_refused_total counter\nserf_refused_total{reason=\"full\"} 5\nserf_refused_total{reason=\"too_long\"} 0\n",
		"serf_ignored_total{reason=\"too_old\"} 2\n",
		"agent_handler_results_total{handler=\"a\\\\\\\"b\",result=\"failed\"} 1\n",
		"# TYPE agent_handler_duration_seconds summary\nagent_handler_duration_seconds_count{handler=\"deploy\"} 1\nagent_handler_duration_seconds_sum{handler=\"deploy\"} 1.5\n",
		"# HELP serf_odd_name_total The metric serf.oddName of go-metrics.\n# TYPE serf_odd_name_total counter\n",
		"\nprocess_resident_memory_bytes ", "\nprocess_start_time_seconds ", "\nprocess_cpu_seconds_total ", "\nprocess_open_fds ",
		"\nprocess_max_fds ", "\nprocess_virtual_memory_bytes ",
		"\nkitchenrue_agent_build_info{goversion=\"" + runtime.Version() + "\",version=\"" + config.Version + "\"} 1\n",
	} {
		if !strings.Contains(text, what) {
			t.Errorf("%q is not in %s", what, text)
		}
	}
	for _, what := range []string{"go_goroutines 5", "agent_name", "agent_invoke"} {
		if strings.Contains(text, what) {
			t.Errorf("%q is in %s", what, text)
		}
	}
	if count := strings.Count(sent.String(), "statsd serf-agent.serf.refused_full"); count != 1 {
		t.Error("a counter that hasn't grown was sent", count, "times")
	}
	// go-metrics reports on the process once a second.
	testkit.Eventually(t, "the metrics of the process are there", func() bool {
		text = fetchPage(t, m.page.listener.Addr())
		return strings.Contains(text, "\nruntime_gc_paused_seconds ")
	})
	checkByPromtool(t, text)
	testkit.Eventually(t, "the metrics are dumped", func() bool {
		testkit.Must(t, syscall.Kill(syscall.Getpid(), syscall.SIGUSR1))
		time.Sleep(100 * time.Millisecond)
		return dumps.Has("serf-agent.serf.events': Count: 2")
	})
	m.Close()
	if _, err := net.Dial("tcp", m.page.listener.Addr().String()); err == nil {
		t.Error("the page is still there")
	}
}

// The number of names and the number of readers are bounded.
func TestBounds(t *testing.T) {
	p, err := listenPage("127.0.0.1:0", "host")
	testkit.Must(t, err)
	defer p.close()
	for i := 0; i < 2*maxNames; i++ {
		p.totals.IncrCounterWithLabels([]string{Service, fmt.Sprint("c", i)}, 1, nil)
	}
	p.totals.SetGaugeWithLabels([]string{"c1"}, 100, nil)
	if count := strings.Count(fetchPage(t, p.listener.Addr()), "# TYPE c"); count != maxNames {
		t.Error(count)
	}
	if text := fetchPage(t, p.listener.Addr()); !strings.Contains(text, "\nc1_total 1\n") {
		t.Error("a gauge in a counter's place")
	}
	countIs := func(want int) func() bool {
		return func() bool {
			p.mu.Lock()
			defer p.mu.Unlock()
			return p.readers == want
		}
	}
	testkit.Eventually(t, "the earlier readers have disconnected", countIs(0))
	var idle []net.Conn
	for i := 0; i < maxReaders; i++ {
		conn, err := net.Dial("tcp", p.listener.Addr().String())
		testkit.Must(t, err)
		idle = append(idle, conn)
	}
	testkit.Eventually(t, "all readers are connected", countIs(maxReaders))
	extra, err := net.Dial("tcp", p.listener.Addr().String())
	testkit.Must(t, err)
	if _, err := extra.Read(make([]byte, 1)); err == nil {
		t.Error("one more is served")
	}
	for _, conn := range idle {
		conn.Close()
	}
	testkit.Eventually(t, "all readers have disconnected", countIs(0))
	fetchPage(t, p.listener.Addr())
}

func TestBadAddresses(t *testing.T) {
	for _, addresses := range [][3]string{{"x", "", ""}, {"", "127.0.0.1", ""}, {"", "", "127.0.0.1:x"}} {
		if _, err := Start(addresses[0], addresses[1], addresses[2], io.Discard); err == nil {
			t.Error(addresses)
		}
	}
}
