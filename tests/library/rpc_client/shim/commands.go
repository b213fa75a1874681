package agent

import (
	"encoding/base64"
	"encoding/json"
	"fmt"
	"os"
	"strings"
	"time"

	"github.com/hashicorp/memberlist"
	"github.com/hashicorp/serf/coordinate"
	"github.com/hashicorp/serf/serf"
)

// probeTime is the probe interval of the agents, as the tests of Serf's commands see it. These tests wait three probe
// intervals for a failure to be noticed, which is enough for an agent in a separate process.
const probeTime = 2 * time.Second

// SerfConfig returns the configuration with which the agent was created.
func (a *Agent) SerfConfig() *serf.Config {
	a.conf.MemberlistConfig.ProbeInterval = probeTime
	return a.conf
}

// GetCachedCoordinate returns a node's coordinate, and whether the agent knows it.
func (s serfView) GetCachedCoordinate(name string) (*coordinate.Coordinate, bool) {
	found, err := s.agent.client.GetCoordinate(name)
	return found, err == nil && found != nil
}

// Shutdown kills the agent.
func (s serfView) Shutdown() error { return s.agent.Shutdown() }

// keyringFile writes the keys of a test to a file for its agent. The primary key is the first one.
func keyringFile(ring *memberlist.Keyring) (string, error) {
	file, err := os.CreateTemp("", "rpc-client-*.keys")
	if err != nil {
		return "", err
	}
	defer file.Close()
	var keys []string
	for _, key := range ring.GetKeys() {
		keys = append(keys, base64.StdEncoding.EncodeToString(key))
	}
	return file.Name(), json.NewEncoder(file).Encode(keys)
}

// AppendSliceValue is a flag that may be set more than once.
type AppendSliceValue []string

func (all *AppendSliceValue) String() string { return strings.Join(*all, ",") }

// Set adds a value.
func (all *AppendSliceValue) Set(value string) error {
	*all = append(*all, value)
	return nil
}

// MarshalTags converts tags to texts of the form key=value.
func MarshalTags(tags map[string]string) (texts []string) {
	for key, value := range tags {
		texts = append(texts, key+"="+value)
	}
	return texts
}

// UnmarshalTags converts texts of the form key=value to tags.
func UnmarshalTags(texts []string) (map[string]string, error) {
	tags := map[string]string{}
	for _, text := range texts {
		key, value, ok := strings.Cut(text, "=")
		if !ok || key == "" {
			//lint:ignore ST1005 Serf's own message
			return nil, fmt.Errorf("Invalid tag: '%s'", text)
		}
		tags[key] = value
	}
	return tags, nil
}
