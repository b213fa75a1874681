package main

import (
	"bytes"
	"fmt"
	"io"
	"log"
	"os"
	"path/filepath"
	"strings"
	"sync"

	"kitchenrue.example/serf"
	"kitchenrue.example/serf/record"
)

// evidence is what a node leaves for examples/records/attest.py: the record of its agent in all lives, and the log of
// what it handed out. Both are outside the simulated machine, so recording changes nothing in a run.
type evidence struct {
	mu             sync.Mutex
	record, handed bytes.Buffer
}

// lifeRecord is the record of one life. After a crash, it ignores what the old process still does.
type lifeRecord struct{ life *life }

var _ record.Output = lifeRecord{}

func (r lifeRecord) Write(text []byte) (int, error) {
	e := &r.life.node.evidence
	e.mu.Lock()
	defer e.mu.Unlock()
	if !r.life.hasCrashed.Load() {
		e.record.Write(text)
	}
	return len(text), nil
}

func (r lifeRecord) IsEmpty() bool {
	e := &r.life.node.evidence
	e.mu.Lock()
	defer e.mu.Unlock()
	return e.record.Len() == 0
}

func (r lifeRecord) IsFull() bool  { return false }
func (r lifeRecord) Rotate() error { return nil }
func (r lifeRecord) Close() error  { return nil }

// wrap records the agent of a life. It is the life's serf.Config.Wrap.
func (l *life) wrap(agent serf.Agent, opening serf.Opening) (serf.Agent, error) {
	return record.Start(agent, lifeRecord{l}, l.node.name, opening, log.New(io.Discard, "", 0))
}

// logWord writes a text as a word of the log that `serf-replay judge` reads, as examples/serf_log_handler.sh does.
var logWord = strings.NewReplacer("%", "%25", " ", "%20", "\r", "%0D", "\n", "%0A")

// logEvent appends an event that a life handed out to the node's log.
func (l *life) logEvent(e serf.UserEvent) {
	withoutZeros := func(text string) string { return strings.ReplaceAll(text, "\x00", "") }
	words := []string{withoutZeros(e.Name), strings.TrimSuffix(withoutZeros(string(e.Payload)), "\n")}
	for i, word := range words {
		switch word {
		case "":
			words[i] = "-"
		case "-":
			words[i] = "%2D"
		default:
			words[i] = logWord.Replace(word)
		}
	}
	left := &l.node.evidence
	left.mu.Lock()
	defer left.mu.Unlock()
	fmt.Fprintf(&left.handed, "event %s %d %s %s\n", l.node.name, e.LTime, words[0], words[1])
}

// writeEvidence writes the record, the log and the snapshot of each node into a folder.
func (c *cluster) writeEvidence(folder string) error {
	for _, n := range c.nodes {
		texts := n.disk.FlushedTexts(snapshot(n.disk))
		for ending, text := range map[string][]byte{
			".record": n.evidence.record.Bytes(), ".handlers": n.evidence.handed.Bytes(), ".snapshot": texts[len(texts)-1],
		} {
			if err := os.WriteFile(filepath.Join(folder, n.name+ending), text, 0o600); err != nil {
				return err
			}
		}
	}
	return nil
}
