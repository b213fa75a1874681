package main

import (
	"encoding/json"
	"fmt"
	"log"
	"os"
	"os/exec"
	"path/filepath"
	"sort"
	"syscall"
	"time"

	"github.com/hashicorp/serf/client"
)

// limit is the maximum time to wait for something that has to happen.
const limit = 60 * time.Second

// waitUntil waits until the condition holds, and reports whether it did so within the limit.
func waitUntil(holds func() bool) bool {
	for end := time.Now().Add(limit); time.Now().Before(end); time.Sleep(20 * time.Millisecond) {
		if holds() {
			return true
		}
	}
	return holds()
}

// agent is an agent's process, together with a client of it.
type agent struct {
	*client.RPCClient
	name, addr string
	auth       string
	process    *exec.Cmd
	ended      chan struct{}
}

// addr returns the address with this number in the network of the run.
func (r *run) addr(number int) string { return fmt.Sprintf("%s.%d", r.network, r.firstAddress+number) }

// startAgent starts an agent, and waits until it accepts a client.
func (r *run) startAgent(name string, number int, words ...string) *agent {
	return r.startWith("", name, number, words...)
}

// startWith starts an agent whose clients have to send a token.
func (r *run) startWith(auth, name string, number int, words ...string) *agent {
	a := &agent{name: name, addr: r.addr(number), auth: auth, ended: make(chan struct{})}
	settings := filepath.Join(r.folder, name+".json")
	text, err := json.Marshal(map[string]string{"rpc_auth": auth})
	if err == nil {
		err = os.WriteFile(settings, text, 0o600)
	}
	if err != nil {
		r.fail(err)
	}
	command := append(append([]string{}, r.program...), "-node="+name, "-bind="+a.addr, "-rpc-addr="+a.rpcAddr(), "-config-file="+settings)
	// (on a busy machine, a join or a leave may take long)
	command = append(command, "-profile=lan", "-broadcast-timeout=60s", "-log-level=debug")
	a.process = exec.Command(command[0], append(command[1:], words...)...)
	a.process.SysProcAttr = &syscall.SysProcAttr{Pdeathsig: syscall.SIGKILL}
	if a.process.Stdout, err = os.Create(filepath.Join(r.folder, name+".log")); err == nil {
		a.process.Stderr = a.process.Stdout
		err = a.process.Start()
	}
	if err != nil {
		r.fail(err)
	}
	r.agents = append(r.agents, a)
	go func() {
		_ = a.process.Wait()
		close(a.ended)
	}()
	a.RPCClient = r.dial(a)
	return a
}

func (a *agent) rpcAddr() string { return a.addr + ":7373" }

// dial makes a client of an agent, as soon as the agent accepts one.
func (r *run) dial(a *agent) *client.RPCClient {
	var found *client.RPCClient
	var err error
	if !waitUntil(func() bool {
		found, err = client.ClientFromConfig(&client.Config{Addr: a.rpcAddr(), AuthKey: a.auth, Timeout: limit})
		return err == nil
	}) {
		r.fail(fmt.Errorf("%s takes no client: %w", a.name, err))
	}
	return found
}

// killAll kills all agents of the run.
func (r *run) killAll() {
	for _, one := range r.agents {
		one.kill()
	}
}

// fail kills the agents and ends the program with this error.
func (r *run) fail(err error) {
	r.killAll()
	log.Fatal(err)
}

func (a *agent) kill() {
	_ = a.process.Process.Kill()
	<-a.ended
}

// status waits until the process ends by itself, and describes how it ended.
func (a *agent) status() string {
	select {
	case <-a.ended:
		return a.process.ProcessState.String()
	case <-time.After(limit):
		return "it runs"
	}
}

// waitForStatus waits until an agent reports this status for a node. If status is empty, it waits until the agent doesn't know
// the node.
func (a *agent) waitForStatus(name, status string) bool {
	return waitUntil(func() bool {
		found, err := a.MembersFiltered(nil, "", name)
		if len(found) == 0 {
			return err == nil && status == ""
		}
		return found[0].Status == status
	})
}

// tags returns a member's tags as the agent knows them.
func (a *agent) tags(name string) map[string]string {
	found, err := a.MembersFiltered(nil, "", name)
	if err != nil || len(found) == 0 {
		return nil
	}
	return found[0].Tags
}

// sortedNames returns the names of members, sorted.
func sortedNames(members []client.Member) []string {
	found := []string{}
	for _, one := range members {
		found = append(found, one.Name)
	}
	sort.Strings(found)
	return found
}
