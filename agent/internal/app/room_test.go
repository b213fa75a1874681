package app

import (
	"io"
	"log"
	"os"
	"path/filepath"
	"testing"
	"time"

	"kitchenrue.example/agent/internal/handlers"
	"kitchenrue.example/agent/internal/testkit"
	"kitchenrue.example/serf"
)

// While the handlers have no room, they receive no events. When the agent ends, they receive all events.
func TestHandlersWithoutRoom(t *testing.T) {
	file := filepath.Join(t.TempDir(), "file")
	scripts, err := handlers.ParseScripts([]string{"while [ ! -e " + file + " ]; do sleep 0.1; done"})
	testkit.Must(t, err)
	a := &App{
		runner:  handlers.New(log.New(io.Discard, "", 0), 0, scripts, func() handlers.Self { return handlers.Self{} }),
		closing: make(chan struct{}),
	}
	defer a.runner.Close(0)
	a.runner.Add(serf.UserEvent{Name: "deploy"})
	testkit.Eventually(t, "a handler runs", func() bool { events, _ := a.runner.Waiting(); return events == 0 })
	for a.runner.HasRoom() {
		a.runner.Add(serf.UserEvent{Name: "deploy"})
	}
	waited := make(chan struct{})
	go func() { a.waitForRoom(); close(waited) }()
	select {
	case <-waited:
		t.Fatal("they have no room")
	case <-time.After(100 * time.Millisecond):
	}
	a.runner.SetScripts(nil)
	testkit.Must(t, os.WriteFile(file, nil, 0o600))
	testkit.Eventually(t, "they have room", func() bool { return isClosed(waited) })
}

func isClosed(waited <-chan struct{}) bool {
	select {
	case <-waited:
		return true
	default:
		return false
	}
}
