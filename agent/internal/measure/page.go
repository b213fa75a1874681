package measure

import (
	"fmt"
	"io"
	"log"
	"net"
	"net/http"
	"sort"
	"sync"
	"time"

	"github.com/armon/go-metrics"
)

// maxNames is the maximum number of metrics on the page, and maxReaders the maximum number of connections that read it.
const (
	maxNames   = 2048
	maxReaders = 32
)

// total is the sum of a counter, the number and sum of samples, or the last value of a gauge, with its labels.
type total struct {
	family     *family
	labels     string
	count, sum float64
}

// totals is a sink of go-metrics that keeps totals, as Prometheus expects.
type totals struct {
	metrics.BlackholeSink
	host string

	mu     sync.Mutex
	byName map[string]*total
}

func newTotals(host string) *totals { return &totals{host: host, byName: map[string]*total{}} }

// add updates the total of a metric. kind is its Prometheus type.
func (t *totals) add(words []string, labels []metrics.Label, kind string, update func(*total)) {
	// The page leaves out the service and a gauge's host, since Prometheus knows which host it reads.
	if len(words) > 1 && words[0] == Service {
		words = words[1:]
	}
	if len(words) > 1 && kind == "gauge" && words[0] == t.host {
		words = words[1:]
	}
	if isFigure(words) || isInvoke(words) {
		// The page has other sources for these: it reads the agent's own figures when it is served, and it names
		// handlers by a label.
		return
	}
	family, text := familyOf(words, kind), labelText(nameLabel(words, labels))
	t.mu.Lock()
	defer t.mu.Unlock()
	name := family.name + text
	entry := t.byName[name]
	if entry == nil {
		if len(t.byName) >= maxNames {
			return
		}
		entry = &total{family: family, labels: text}
		t.byName[name] = entry
	}
	if entry.family.kind == kind {
		update(entry)
	}
}

func (t *totals) SetGaugeWithLabels(key []string, val float32, labels []metrics.Label) {
	t.add(key, labels, "gauge", func(t *total) { t.sum = float64(val) })
}

func (t *totals) IncrCounterWithLabels(key []string, val float32, labels []metrics.Label) {
	t.add(key, labels, "counter", func(t *total) { t.sum += float64(val) })
}

func (t *totals) AddSampleWithLabels(key []string, val float32, labels []metrics.Label) {
	t.add(key, labels, "summary", func(t *total) { t.count++; t.sum += float64(val) })
}

// copyTotals returns a copy of all totals.
func (t *totals) copyTotals() []total {
	t.mu.Lock()
	defer t.mu.Unlock()
	all := make([]total, 0, len(t.byName))
	for _, entry := range t.byName {
		all = append(all, *entry)
	}
	return all
}

// writeTotals writes totals, sorted by name.
func writeTotals(to io.Writer, all []total) {
	sort.Slice(all, func(i, j int) bool {
		if all[i].family.name != all[j].family.name {
			return all[i].family.name < all[j].family.name
		}
		return all[i].labels < all[j].labels
	})
	lastFamily := ""
	for _, total := range all {
		family := total.family
		if family.name != lastFamily {
			fmt.Fprintf(to, "# HELP %s %s\n# TYPE %s %s\n", family.name, family.help, family.name, family.kind)
			lastFamily = family.name
		}
		if family.kind == "summary" {
			fmt.Fprintf(
				to, "%s_count%s %v\n%s_sum%s %v\n", family.name, total.labels, total.count, family.name, total.labels,
				family.inUnit(total.sum),
			)
		} else {
			fmt.Fprintf(to, "%s%s %v\n", family.name, total.labels, family.inUnit(total.sum))
		}
	}
}

// page serves the metrics in Prometheus's format.
type page struct {
	totals   *totals
	listener net.Listener
	server   *http.Server

	mu      sync.Mutex
	stats   Stats
	readers int
}

// listenPage serves the page at an address. host is the name of this host in the names of gauges.
func listenPage(address, host string) (*page, error) {
	p := &page{totals: newTotals(host)}
	var err error
	if p.listener, err = net.Listen("tcp", address); err != nil {
		return nil, err
	}
	mux := http.NewServeMux()
	mux.HandleFunc("/metrics", p.serve)
	const ioTimeout = 10 * time.Second
	p.server = &http.Server{
		Handler: mux, ReadTimeout: ioTimeout, WriteTimeout: ioTimeout, IdleTimeout: time.Minute, MaxHeaderBytes: 8 << 10,
		ConnState: p.limitReaders, ErrorLog: log.New(io.Discard, "", 0),
	}
	go func() { _ = p.server.Serve(p.listener) }()
	return p, nil
}

// limitReaders counts the connections, and closes a new one if there are maxReaders already.
func (p *page) limitReaders(conn net.Conn, state http.ConnState) {
	p.mu.Lock()
	defer p.mu.Unlock()
	switch state {
	case http.StateNew:
		if p.readers++; p.readers > maxReaders {
			conn.Close()
		}
	case http.StateClosed, http.StateHijacked:
		p.readers--
	}
}

// setStats sets the function that returns the agent's own figures.
func (p *page) setStats(stats Stats) {
	p.mu.Lock()
	defer p.mu.Unlock()
	p.stats = stats
}

// serve writes the page: the agent's current figures, those of its process, and the totals.
func (p *page) serve(to http.ResponseWriter, _ *http.Request) {
	p.mu.Lock()
	stats := p.stats
	p.mu.Unlock()
	all := append(p.totals.copyTotals(), processTotals()...)
	if stats != nil {
		for _, figure := range figures(stats) {
			all = append(all, total{family: figure.family, labels: figure.labels, sum: figure.value})
		}
	}
	to.Header().Set("Content-Type", "text/plain; version=0.0.4")
	writeTotals(to, all)
}

func (p *page) close() { _ = p.server.Close() }
