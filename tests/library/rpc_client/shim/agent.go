// Package agent replaces the package of Serf's own agent during a test. The tests of Serf's own RPC client are in that
// package. With this replacement, they and the tests of Serf's commands run against an agent in a separate process.
// RPC_CLIENT_PROGRAM has the words of the command that starts it, each on a separate line.
package agent

import (
	"encoding/base64"
	"encoding/json"
	"fmt"
	"io"
	"os"
	"os/exec"
	"strings"
	"syscall"
	"time"

	"github.com/hashicorp/serf/client"
	"github.com/hashicorp/serf/serf"
)

// startLimit is the maximum time for which an agent may take to start.
const startLimit = 60 * time.Second

// Config is empty, since the tests change no field of it.
type Config struct{}

// DefaultConfig returns an empty Config.
func DefaultConfig() *Config { return &Config{} }

// Agent is an agent's process, together with a client of it.
type Agent struct {
	conf     *serf.Config
	process  *exec.Cmd
	ended    chan struct{}
	rpc      string
	client   *client.RPCClient
	handlers []EventHandler
}

// Create starts an agent, and waits until it accepts a client.
func Create(_ *Config, conf *serf.Config, out io.Writer) (*Agent, error) {
	a := &Agent{conf: conf, ended: make(chan struct{}), rpc: conf.MemberlistConfig.BindAddr + ":7373"}
	settings, err := settingsFile()
	if err != nil {
		return nil, err
	}
	defer os.Remove(settings)
	words := append(strings.Split(os.Getenv("RPC_CLIENT_PROGRAM"), "\n"),
		"-node="+conf.NodeName, "-bind="+conf.MemberlistConfig.BindAddr, "-rpc-addr="+a.rpc, "-config-file="+settings,
		"-profile=local", "-log-level=debug")
	if key := conf.MemberlistConfig.SecretKey; key != nil {
		words = append(words, "-encrypt="+base64.StdEncoding.EncodeToString(key))
	}
	if ring := conf.MemberlistConfig.Keyring; ring != nil {
		keys, err := keyringFile(ring)
		if err != nil {
			return nil, err
		}
		words = append(words, "-keyring-file="+keys)
	}
	for key, value := range conf.Tags {
		words = append(words, "-tag="+key+"="+value)
	}
	a.process = exec.Command(words[0], words[1:]...)
	a.process.Stdout, a.process.Stderr = out, out
	a.process.SysProcAttr = &syscall.SysProcAttr{Pdeathsig: syscall.SIGKILL}
	if err := a.process.Start(); err != nil {
		return nil, err
	}
	go func() {
		_ = a.process.Wait()
		close(a.ended)
	}()
	return a, a.dial()
}

// token returns the token that the agents require, or "" if the test needs none.
func token() string { return os.Getenv("RPC_CLIENT_AUTH") }

// settingsFile writes a file with the settings that have no flag, and returns its path.
func settingsFile() (string, error) {
	file, err := os.CreateTemp("", "rpc-client-*.json")
	if err != nil {
		return "", err
	}
	defer file.Close()
	return file.Name(), json.NewEncoder(file).Encode(map[string]string{"rpc_auth": token()})
}

// dial makes the client of the agent, as soon as the agent accepts one.
func (a *Agent) dial() (err error) {
	for end := time.Now().Add(startLimit); time.Now().Before(end); time.Sleep(20 * time.Millisecond) {
		if a.client, err = client.ClientFromConfig(&client.Config{Addr: a.rpc, AuthKey: token(), Timeout: startLimit}); err == nil {
			return nil
		}
	}
	_ = a.Shutdown()
	return fmt.Errorf("the agent takes no client: %w", err)
}

// RegisterEventHandler adds a handler. It receives events after Start was called.
func (a *Agent) RegisterEventHandler(handler EventHandler) { a.handlers = append(a.handlers, handler) }

// Start begins to pass events to the handlers, from a stream of all events.
func (a *Agent) Start() error {
	if len(a.handlers) == 0 {
		return nil
	}
	records := make(chan map[string]interface{}, 1024)
	if _, err := a.client.Stream("*", records); err != nil {
		return err
	}
	go func() {
		for record := range records {
			a.handle(record)
		}
	}()
	return nil
}

// handle passes a record on to the handlers.
func (a *Agent) handle(record map[string]interface{}) {
	name, _ := record["Name"].(string)
	payload, _ := record["Payload"].([]byte)
	for _, handler := range a.handlers {
		switch record["Event"] {
		case "user":
			handler.HandleEvent(serf.UserEvent{Name: name, Payload: payload})
		case "query":
			handler.HandleEvent(&serf.Query{Name: name, Payload: payload})
			if answering, ok := handler.(*MockQueryHandler); ok {
				id, _ := record["ID"].(int64)
				_ = a.client.Respond(uint64(id), answering.Response)
			}
		}
	}
}

// Shutdown kills the agent.
func (a *Agent) Shutdown() error {
	_ = a.process.Process.Kill()
	<-a.ended
	return nil
}

// ShutdownCh returns a channel that is closed when the process has ended.
func (a *Agent) ShutdownCh() <-chan struct{} { return a.ended }

// Join makes the agent join others.
func (a *Agent) Join(others []string, replay bool) (int, error) { return a.client.Join(others, replay) }

// Serf returns the part of Serf's API that the tests call on the agent.
func (a *Agent) Serf() serfView { return serfView{a} }

type serfView struct{ agent *Agent }

var statuses = map[string]serf.MemberStatus{
	"alive": serf.StatusAlive, "leaving": serf.StatusLeaving, "left": serf.StatusLeft, "failed": serf.StatusFailed,
}

// Members returns the members that the agent knows, or none if the request fails.
func (s serfView) Members() (found []serf.Member) {
	all, _ := s.agent.client.Members()
	for _, one := range all {
		found = append(found, serf.Member{Name: one.Name, Addr: one.Addr, Port: one.Port, Tags: one.Tags, Status: statuses[one.Status]})
	}
	return found
}
