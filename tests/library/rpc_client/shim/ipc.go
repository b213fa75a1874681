package agent

import (
	"io"
	"net"
)

// authRequired is the agent's error message if a client sent no token.
//
//lint:ignore U1000 Serf's own tests of this package use it
const authRequired = "Authentication required"

// AgentIPC passes each connection on to the agent's own address. A test may set authKey, but the agent has had its
// token since its start, from RPC_CLIENT_AUTH.
type AgentIPC struct {
	listener net.Listener
	authKey  string
}

// NewAgentIPC starts to pass connections on.
func NewAgentIPC(a *Agent, authKey string, listener net.Listener, _ io.Writer, _ io.Writer) *AgentIPC {
	go func() {
		for {
			from, err := listener.Accept()
			if err != nil {
				return
			}
			go passOn(from, a.rpc)
		}
	}()
	return &AgentIPC{listener: listener, authKey: authKey}
}

// passOn passes a connection on until one of its ends is closed.
func passOn(from net.Conn, address string) {
	defer from.Close()
	to, err := net.Dial("tcp", address)
	if err != nil {
		return
	}
	go func() {
		defer to.Close()
		_, _ = io.Copy(to, from)
	}()
	_, _ = io.Copy(from, to)
}

// Shutdown accepts no more connections.
func (i *AgentIPC) Shutdown() { i.listener.Close() }

// NewLogWriter drops everything that is written, because the agent keeps its own log.
func NewLogWriter(int) io.Writer { return io.Discard }
