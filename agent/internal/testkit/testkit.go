// Package testkit has helpers that the agent's tests share.
package testkit

import (
	"bytes"
	"os"
	"strings"
	"sync"
	"testing"
	"time"
)

// LongInterval is an interval for a sink of metrics in memory. The sink begins a new interval when the time of day is a
// multiple of it, which doesn't happen during a test.
const LongInterval = 100 * 365 * 24 * time.Hour

// Must ends the test if err isn't nil.
func Must(t testing.TB, err error) {
	t.Helper()
	if err != nil {
		t.Fatal(err)
	}
}

// Check reports err if it isn't nil, and lets the test continue.
func Check(t testing.TB, err error) {
	t.Helper()
	if err != nil {
		t.Error(err)
	}
}

// Eventually waits until the condition holds. The test fails after two minutes.
func Eventually(t testing.TB, what string, holds func() bool) {
	t.Helper()
	for i := 0; i < 12000; i++ {
		if holds() {
			return
		}
		time.Sleep(10 * time.Millisecond)
	}
	t.Fatalf("never: %s", what)
}

// Read returns a file's text.
func Read(t testing.TB, path string) string {
	t.Helper()
	data, err := os.ReadFile(path)
	Must(t, err)
	return string(data)
}

// Write writes a file, and returns its path.
func Write(t testing.TB, path, text string) string {
	t.Helper()
	Must(t, os.WriteFile(path, []byte(text), 0o600))
	return path
}

// Output is the output of a program. Several goroutines may write to it.
type Output struct {
	mu   sync.Mutex
	text bytes.Buffer
}

func (s *Output) Write(data []byte) (int, error) {
	s.mu.Lock()
	defer s.mu.Unlock()
	return s.text.Write(data)
}

func (s *Output) String() string {
	s.mu.Lock()
	defer s.mu.Unlock()
	return s.text.String()
}

// Has reports whether the output contains a text.
func (s *Output) Has(what string) bool { return strings.Contains(s.String(), what) }
