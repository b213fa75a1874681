package measure

import (
	"net"
	"os"
	"testing"

	"github.com/armon/go-metrics"

	"kitchenrue.example/agent/internal/testkit"
)

// The name of a gauge that is sent contains the host's name.
func TestHostNameOfGauges(t *testing.T) {
	statsd, err := net.ListenPacket("udp", "127.0.0.1:0")
	testkit.Must(t, err)
	defer statsd.Close()
	var sent testkit.Output
	go func() {
		buffer := make([]byte, 1<<16)
		for count, _, err := statsd.ReadFrom(buffer); err == nil; count, _, err = statsd.ReadFrom(buffer) {
			sent.Write(append(buffer[:count:count], '\n'))
		}
	}()
	var dumps testkit.Output
	m, err := Start("", statsd.LocalAddr().String(), "", &dumps)
	testkit.Must(t, err)
	defer m.Close()
	host, err := os.Hostname()
	testkit.Must(t, err)
	metrics.SetGauge([]string{"of_host"}, 4)
	testkit.Eventually(t, "the gauge is sent", func() bool { return sent.Has("of_host:4.000000|g") })
	if !sent.Has("serf-agent." + host + ".of_host:4.000000|g") {
		t.Error(sent.String())
	}
}
