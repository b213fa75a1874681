// Package rpc serves requests of Serf's command line, with Serf's own protocol over TCP.
//
// A client never delays the agent. A client that is slow, sends nonsense or half a message, or doesn't finish the
// handshake is disconnected.
package rpc

import (
	"context"
	"errors"
	"fmt"
	"net"
	"sync"
	"sync/atomic"
	"syscall"
	"time"

	"github.com/armon/go-metrics"
	"github.com/hashicorp/serf/coordinate"

	"kitchenrue.example/agent/internal/logs"
	"kitchenrue.example/serf"
)

// MaxClients is the maximum number of clients at once, if the process may have enough files open.
const MaxClients = 128

// maxClientsOf returns the maximum number of clients for a process that may have this many files open. It is a third of
// that number, so that enough files are left for gossip, the snapshot and handlers.
func maxClientsOf(files uint64) int {
	switch third := files / 3; {
	case third < 1:
		return 1
	case third < MaxClients:
		return int(third)
	}
	return MaxClients
}

// maxClients returns the maximum number of clients of this process.
func maxClients() int {
	var limit syscall.Rlimit
	if err := syscall.Getrlimit(syscall.RLIMIT_NOFILE, &limit); err != nil {
		return MaxClients
	}
	return maxClientsOf(limit.Cur)
}

// Backend executes requests.
type Backend interface {
	// Fire fires an event in the cluster.
	Fire(name string, payload []byte, coalesce bool) error
	Members() []serf.Member
	// Join joins the agents at these addresses, and returns how many it joined.
	Join(existing []string, replay bool) (int, error)
	// Leave leaves the cluster. The server calls Shutdown after it. Shutdown ends the agent, and doesn't wait for the
	// end.
	Leave() error
	Shutdown()
	ForceLeave(name string, prune bool) error
	UpdateTags(set map[string]string, remove []string) error
	Query(name string, payload []byte, params *serf.QueryParam) (*serf.QueryResponse, error)
	KeyManager() *serf.KeyManager
	Stats() map[string]map[string]string
	// Coordinate returns the last known coordinate of a node.
	Coordinate(node string) (*coordinate.Coordinate, bool)
}

// Server serves clients.
type Server struct {
	backend    Backend
	log        *logs.Log
	auth       string
	timeouts   timeouts
	listener   net.Listener
	ctx        context.Context
	cancel     context.CancelFunc
	goroutines sync.WaitGroup

	// commands counts the requests that are not in the metrics yet.
	commands atomic.Int64

	mu sync.Mutex
	// clients has the connected clients, at most maxClients.
	clients    map[*client]struct{}
	maxClients int
	// withStreams has the clients that may have a stream.
	withStreams map[*client]struct{}
	// queryCount counts the published queries. Their numbers identify them.
	queryCount uint64
}

// Listen starts a server. If token isn't empty, clients have to send it.
func Listen(address, token string, backend Backend, log *logs.Log) (*Server, error) {
	return listen(address, token, backend, log, defaultTimeouts)
}

// listen is Listen with other timeouts.
func listen(address, token string, backend Backend, log *logs.Log, timeouts timeouts) (*Server, error) {
	listener, err := net.Listen("tcp", address)
	if err != nil {
		return nil, fmt.Errorf("-rpc-addr: %w", err)
	}
	ctx, cancel := context.WithCancel(context.Background())
	s := &Server{
		backend: backend, log: log, auth: token, timeouts: timeouts, listener: listener, ctx: ctx, cancel: cancel, maxClients: maxClients(),
		clients: map[*client]struct{}{}, withStreams: map[*client]struct{}{},
	}
	s.goroutines.Add(2)
	go s.acceptClients()
	go s.countCommands()
	return s, nil
}

// Addr returns the address at which the server listens.
func (s *Server) Addr() net.Addr { return s.listener.Addr() }

// acceptClients serves each client that connects, until the server is closed.
func (s *Server) acceptClients() {
	defer s.goroutines.Done()
	for {
		conn, err := s.listener.Accept()
		if s.ctx.Err() != nil || errors.Is(err, net.ErrClosed) {
			if err == nil {
				conn.Close()
			}
			return
		}
		if err != nil {
			// For example, the process may have too many files open at the moment.
			s.log.Printf("[ERR] agent.ipc: accepting a client failed: %v", err)
			time.Sleep(100 * time.Millisecond)
			continue
		}
		s.serve(conn)
	}
}

// serve starts to serve a client. If there are maxClients already, it disconnects the client that has been idle the
// longest. If no client is idle, it disconnects the new one.
func (s *Server) serve(conn net.Conn) {
	s.mu.Lock()
	defer s.mu.Unlock()
	if len(s.clients) >= s.maxClients && !s.closeIdlest() {
		s.log.Printf("[WARN] agent.ipc: rejected %v: %d clients are connected", conn.RemoteAddr(), s.maxClients)
		conn.Close()
		return
	}
	metrics.IncrCounter([]string{"agent", "ipc", "accept"}, 1)
	c := newClient(s, conn)
	s.clients[c] = struct{}{}
	s.log.Printf("[INFO] agent.ipc: Accepted client: %v", conn.RemoteAddr())
	s.goroutines.Add(2)
	go func() {
		defer s.goroutines.Done()
		c.readRequests()
		s.mu.Lock()
		delete(s.clients, c)
		delete(s.withStreams, c)
		s.mu.Unlock()
	}()
	go func() {
		defer s.goroutines.Done()
		c.writeQueued()
	}()
}

// closeIdlest disconnects the client that has been idle the longest. It returns false if none is idle. The caller holds
// mu.
func (s *Server) closeIdlest() bool {
	var idlest *client
	var since time.Time
	for c := range s.clients {
		if last, isIdle := c.idleSince(); isIdle && (idlest == nil || last.Before(since)) {
			idlest, since = c, last
		}
	}
	if idlest == nil {
		return false
	}
	s.log.Printf("[WARN] agent.ipc: disconnected %v: %d clients are connected, and it was idle the longest",
		idlest.conn.RemoteAddr(), s.maxClients)
	delete(s.clients, idlest)
	idlest.close()
	return true
}

// Publish sends an event to all streams. It doesn't wait.
func (s *Server) Publish(e serf.Event) {
	s.mu.Lock()
	defer s.mu.Unlock()
	if e.EventType() == serf.EventQuery {
		s.queryCount++
	}
	published := &publishedEvent{Event: e, number: s.queryCount}
	for c := range s.withStreams {
		c.publish(published)
	}
}

// countCommands adds the number of requests to the metrics once a second. A call to the metrics for each request would
// take longer than reading the request.
func (s *Server) countCommands() {
	defer s.goroutines.Done()
	secondTicker := time.NewTicker(time.Second)
	defer secondTicker.Stop()
	for isClosed := false; !isClosed; {
		select {
		case <-secondTicker.C:
		case <-s.ctx.Done():
			isClosed = true
		}
		if count := s.commands.Swap(0); count > 0 {
			metrics.IncrCounter([]string{"agent", "ipc", "command"}, float32(count))
		}
	}
}

// Close disconnects all clients after the waiting frames are sent, or after a second.
func (s *Server) Close() {
	s.cancel()
	s.listener.Close()
	s.mu.Lock()
	for c := range s.clients {
		c.closeAfterQueued()
	}
	s.mu.Unlock()
	s.goroutines.Wait()
}
