// Package measure passes the metrics of go-metrics on to the sinks that an operator configures: statsite, statsd, a
// page for Prometheus, and, as in Serf, standard error at SIGUSR1.
package measure

import (
	"fmt"
	"io"
	"net"
	"strings"
	"sync"
	"time"

	"github.com/armon/go-metrics"
)

// Service is the prefix of the metrics that are sent. It is Serf's own, so that an operator's dashboards still work.
const Service = "serf-agent"

// interval is how long metrics are aggregated for SIGUSR1, and how often the agent's own figures are sent. retention is
// how long the aggregates are kept.
const (
	interval  = 10 * time.Second
	retention = time.Minute
)

// Stats returns the figures that `serf info` shows.
type Stats func() map[string]map[string]string

// Measures are the sinks of the metrics.
type Measures struct {
	signal *metrics.InmemSignal
	page   *page
	done   chan struct{}
	// lastSent has the values of the agent's own counters at the last time that they were sent. mu protects it.
	mu       sync.Mutex
	lastSent map[string]float64
}

// Start configures the metrics of the whole process. An address is HOST:PORT, or empty. SIGUSR1 writes to dumps.
func Start(statsite, statsd, prometheus string, dumps io.Writer) (*Measures, error) {
	inmem := metrics.NewInmemSink(interval, retention)
	sinks := metrics.FanoutSink{inmem}
	conf := metrics.DefaultConfig(Service)
	conf.EnableHostname = statsite != "" || statsd != ""
	for _, network := range []struct {
		key, address string
		open         func(string) (metrics.MetricSink, error)
	}{
		{"statsite_addr", statsite, func(to string) (metrics.MetricSink, error) { return metrics.NewStatsiteSink(to) }},
		{"statsd_addr", statsd, func(to string) (metrics.MetricSink, error) { return metrics.NewStatsdSink(to) }},
	} {
		if network.address == "" {
			continue
		}
		if _, _, err := net.SplitHostPort(network.address); err != nil {
			return nil, fmt.Errorf("%s: %q is not HOST:PORT", network.key, network.address)
		}
		sink, err := network.open(network.address)
		if err != nil {
			return nil, fmt.Errorf("%s: %w", network.key, err)
		}
		sinks = append(sinks, sink)
	}
	m := &Measures{done: make(chan struct{}), lastSent: map[string]float64{}}
	if prometheus != "" {
		var err error
		if m.page, err = listenPage(prometheus, conf.HostName); err != nil {
			return nil, fmt.Errorf("-prometheus-addr: %w", err)
		}
		sinks = append(sinks, m.page.totals)
	}
	if _, err := metrics.NewGlobal(conf, sinks); err != nil {
		return nil, err
	}
	m.signal = metrics.NewInmemSignal(inmem, metrics.DefaultSignal, dumps)
	return m, nil
}

// Watch sends the agent's own figures every ten seconds, and shows them on the page.
func (m *Measures) Watch(stats Stats) {
	if m.page != nil {
		m.page.setStats(stats)
	}
	go func() {
		ticker := time.NewTicker(interval)
		defer ticker.Stop()
		for {
			select {
			case <-m.done:
				return
			case <-ticker.C:
				m.sendFigures(figures(stats))
			}
		}
	}()
}

// sendFigures sends the figures: a counter's growth since the last time, and the value of a gauge.
func (m *Measures) sendFigures(list []figure) {
	m.mu.Lock()
	defer m.mu.Unlock()
	for _, figure := range list {
		if figure.family.kind != "counter" {
			metrics.SetGauge(figure.words, float32(figure.value))
			continue
		}
		name := strings.Join(figure.words, ".")
		if growth := figure.value - m.lastSent[name]; growth > 0 {
			metrics.IncrCounter(figure.words, float32(growth))
		}
		m.lastSent[name] = figure.value
	}
}

// Close stops sending metrics.
func (m *Measures) Close() {
	close(m.done)
	m.signal.Stop()
	if m.page != nil {
		m.page.close()
	}
}
