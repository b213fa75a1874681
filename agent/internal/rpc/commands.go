//lint:file-ignore ST1005 These are the messages of Serf's agent, which its clients know.

package rpc

import (
	"context"
	"crypto/subtle"
	"errors"
	"fmt"
	"net"
	"regexp"
	"strings"
	"time"

	"github.com/hashicorp/serf/coordinate"

	"kitchenrue.example/agent/internal/handlers"
	"kitchenrue.example/agent/internal/logs"
	"kitchenrue.example/serf"
)

// command is a command of the protocol. body makes an empty request body for the decoder, and is nil if the command has
// none. run executes the command. If run returns an error, the client is disconnected.
type command struct {
	body func() interface{}
	run  func(c *client, seq uint64, body interface{}) error
}

// withBody makes a command of a function that needs the request's body.
func withBody[B any](run func(c *client, seq uint64, body *B) error) command {
	return command{
		func() interface{} { return new(B) },
		func(c *client, seq uint64, body interface{}) error { return run(c, seq, body.(*B)) },
	}
}

// withoutBody makes a command of a function whose request has no body.
func withoutBody(run func(c *client, seq uint64) error) command {
	return command{nil, func(c *client, seq uint64, _ interface{}) error { return run(c, seq) }}
}

var commands map[string]command

func init() {
	commands = map[string]command{
		"handshake":        withBody((*client).handshake),
		"auth":             withBody((*client).authenticate),
		"event":            withBody((*client).fireEvent),
		"force-leave":      withBody((*client).forceLeave),
		"join":             withBody((*client).joinAgents),
		"members":          withoutBody((*client).listMembers),
		"members-filtered": withBody((*client).listFilteredMembers),
		"tags":             withBody((*client).updateTags),
		"stream":           withBody((*client).startStream),
		"monitor":          withBody((*client).startMonitor),
		"stop":             withBody((*client).stopStream),
		"leave":            withoutBody((*client).leave),
		"query":            withBody((*client).fireQuery),
		"respond":          withBody((*client).respond),
		"install-key":      keyCommand((*serf.KeyManager).InstallKey),
		"use-key":          keyCommand((*serf.KeyManager).UseKey),
		"remove-key":       keyCommand((*serf.KeyManager).RemoveKey),
		"list-keys":        withoutBody((*client).listKeys),
		"stats":            withoutBody((*client).sendStats),
		"get-coordinate":   withBody((*client).sendCoordinate),
	}
}

// keyCommand makes a command that changes a key on all nodes.
func keyCommand(operation func(*serf.KeyManager, string) (*serf.KeyResponse, error)) command {
	return withBody(func(c *client, seq uint64, body *keyBody) error {
		return c.answerKeys(seq, func() (*serf.KeyResponse, error) { return operation(c.server.backend.KeyManager(), body.Key) })
	})
}

func (c *client) listKeys(seq uint64) error {
	return c.answerKeys(seq, c.server.backend.KeyManager().ListKeys)
}

func (c *client) handshake(seq uint64, body *handshakeBody) error {
	switch {
	case body.Version != 1:
		return c.answer(seq, errors.New("Unsupported IPC version"))
	case c.hasHandshake:
		return c.answer(seq, errors.New("Handshake already performed"))
	}
	c.hasHandshake = true
	return c.answer(seq, nil)
}

// authenticate checks a client's token. A client with a wrong token receives an answer and is then disconnected.
func (c *client) authenticate(seq uint64, body *authBody) error {
	if c.server.auth == "" || subtle.ConstantTimeCompare([]byte(body.AuthKey), []byte(c.server.auth)) == 1 {
		c.isAuthenticated = true
		return c.answer(seq, nil)
	}
	if err := c.answer(seq, errors.New("Invalid authentication token")); err != nil {
		return err
	}
	return errCloseAfterAnswer
}

func (c *client) fireEvent(seq uint64, body *eventBody) error {
	return c.answer(seq, c.server.backend.Fire(body.Name, body.Payload, body.Coalesce))
}

func (c *client) forceLeave(seq uint64, body *forceLeaveBody) error {
	return c.answer(seq, c.server.backend.ForceLeave(body.Node, body.Prune))
}

// joinAgents joins other agents, and answers with the number of joined ones.
func (c *client) joinAgents(seq uint64, body *joinBody) error {
	return c.runDetached(func() func() error {
		count, err := c.server.backend.Join(body.Existing, body.Replay)
		return func() error { return c.answer(seq, err, joinAnswer{int32(count)}) }
	})
}

// runDetached runs an operation that may take a long time, and then sends its answer. If the agent ends meanwhile,
// runDetached doesn't wait for the operation.
func (c *client) runDetached(operation func() (answer func() error)) error {
	answers := make(chan func() error, 1)
	go func() { answers <- operation() }()
	select {
	case answer := <-answers:
		return answer()
	case <-c.server.ctx.Done():
		return net.ErrClosed
	}
}

func (c *client) listMembers(seq uint64) error {
	return c.answer(seq, nil, membersAnswer{membersOf(c.server.backend.Members())})
}

func (c *client) listFilteredMembers(seq uint64, body *filteredBody) error {
	members, err := filterMembers(c.server.backend.Members(), body)
	if err != nil {
		// Serf's command line reads a list even after an error.
		return c.answer(seq, err, membersAnswer{})
	}
	return c.answer(seq, nil, membersAnswer{membersOf(members)})
}

// compileAnchored compiles an expression that has to match the whole text.
func compileAnchored(text string) (*regexp.Regexp, error) {
	expression, err := regexp.Compile("^(?:" + text + ")$")
	if err != nil {
		return nil, fmt.Errorf("Failed to compile regex: %w", err)
	}
	return expression, nil
}

// filterMembers returns the members whose tags, status and name match all expressions of the filter.
func filterMembers(members []serf.Member, filter *filteredBody) ([]serf.Member, error) {
	var conditions []func(*serf.Member) bool
	addCondition := func(text string, value func(*serf.Member) string) error {
		expression, err := compileAnchored(text)
		conditions = append(conditions, func(member *serf.Member) bool { return expression.MatchString(value(member)) })
		return err
	}
	for key, text := range filter.Tags {
		key := key
		if err := addCondition(text, func(member *serf.Member) string { return member.Tags[key] }); err != nil {
			return nil, err
		}
	}
	if filter.Status != "" {
		if err := addCondition(filter.Status, func(member *serf.Member) string { return member.Status.String() }); err != nil {
			return nil, err
		}
	}
	if filter.Name != "" {
		if err := addCondition(filter.Name, func(member *serf.Member) string { return member.Name }); err != nil {
			return nil, err
		}
	}
	var found []serf.Member
next:
	for i := range members {
		for _, holds := range conditions {
			if !holds(&members[i]) {
				continue next
			}
		}
		found = append(found, members[i])
	}
	return found, nil
}

func (c *client) updateTags(seq uint64, body *tagsBody) error {
	return c.answer(seq, c.server.backend.UpdateTags(body.Tags, body.DeleteTags))
}

var errTooManyStreams = fmt.Errorf("a client has at most %d streams, monitors and queries", maxStreams)

// startStream starts to send the events that match the request's filters.
func (c *client) startStream(seq uint64, body *streamBody) error {
	filters, err := handlers.ParseFilters(body.Type)
	if err != nil {
		return c.answer(seq, errors.New("Invalid event filter"))
	}
	if c.hasMaxStreams() {
		return c.answer(seq, errTooManyStreams)
	}
	if err := c.answer(seq, nil); err != nil {
		return err
	}
	c.server.mu.Lock()
	c.server.withStreams[c] = struct{}{}
	c.server.mu.Unlock()
	c.mu.Lock()
	defer c.mu.Unlock()
	if c.streams != nil {
		c.streams[seq] = filters
	}
	return nil
}

// startMonitor starts to send the lines of the log of the requested level and above.
func (c *client) startMonitor(seq uint64, body *monitorBody) error {
	name := strings.ToUpper(body.LogLevel)
	level, ok := logs.LevelOf(name)
	if !ok {
		return c.answer(seq, fmt.Errorf("Unknown log level: %s", name))
	}
	if c.hasMaxStreams() {
		return c.answer(seq, errTooManyStreams)
	}
	if err := c.answer(seq, nil); err != nil {
		return err
	}
	follower := c.server.log.Follow(level)
	c.subscribe(seq, func(ctx context.Context) {
		defer follower.Close()
		for {
			select {
			case <-ctx.Done():
				return
			case line := <-follower.Lines:
				if c.send(answerHeader{Seq: seq}, logLine{line}) != nil {
					return
				}
			}
		}
	})
	return nil
}

// stopStream ends a stream, a monitor or a query of the client.
func (c *client) stopStream(seq uint64, body *stopBody) error {
	c.mu.Lock()
	delete(c.streams, body.Stop)
	if stop := c.subscriptions[body.Stop]; stop != nil {
		stop.stop()
	}
	c.mu.Unlock()
	return c.answer(seq, nil)
}

// leave makes the node leave the cluster, answers, and then shuts down the agent.
func (c *client) leave(seq uint64) error {
	// The leave continues if the client disconnects.
	err := c.server.backend.Leave()
	answerErr := c.answer(seq, err)
	if err == nil {
		c.server.backend.Shutdown()
	}
	return answerErr
}

// fireQuery fires a query, and sends each ack and response to the client until the query is over.
func (c *client) fireQuery(seq uint64, body *queryBody) error {
	if c.hasMaxStreams() {
		return c.answer(seq, errTooManyStreams)
	}
	response, err := c.server.backend.Query(body.Name, body.Payload, &serf.QueryParam{
		FilterNodes: body.FilterNodes, FilterTags: body.FilterTags, RequestAck: body.RequestAck, RelayFactor: body.RelayFactor,
		Timeout: time.Duration(body.Timeout),
	})
	if err := c.answer(seq, err); err != nil || response == nil {
		return err
	}
	c.subscribe(seq, func(ctx context.Context) {
		defer response.Close()
		for record, more := nextRecord(ctx, response); ; record, more = nextRecord(ctx, response) {
			if ctx.Err() != nil || c.send(answerHeader{Seq: seq}, record) != nil || !more {
				return
			}
		}
	})
	return nil
}

// nextRecord waits for the next ack or response to a query. The second result is false for the last record.
func nextRecord(ctx context.Context, response *serf.QueryResponse) (queryResult, bool) {
	acks, responses := response.AckCh(), response.ResponseCh()
	for acks != nil || responses != nil {
		select {
		case <-ctx.Done():
			return queryResult{}, false
		case from, ok := <-acks:
			if ok {
				return queryResult{"ack", from, nil}, true
			}
			acks = nil
		case answer, more := <-responses:
			if more {
				return queryResult{"response", answer.From, answer.Payload}, true
			}
			responses = nil
		}
	}
	return queryResult{Type: "done"}, false
}

// respond answers a query that a stream has sent to the client.
func (c *client) respond(seq uint64, body *respondBody) error {
	c.mu.Lock()
	query := c.unanswered[body.ID]
	delete(c.unanswered, body.ID)
	c.mu.Unlock()
	if query == nil {
		return c.answer(seq, errors.New("No pending queries matching ID"))
	}
	return c.answer(seq, query.Respond(body.Payload))
}

// answerKeys runs an operation on the keys of all nodes, and answers with their responses.
func (c *client) answerKeys(seq uint64, operation func() (*serf.KeyResponse, error)) error {
	return c.runDetached(func() func() error {
		response, err := operation()
		return func() error {
			return c.answer(seq, err, keyAnswer{response.Messages, response.NumErr, response.NumNodes, response.NumResp, response.Keys})
		}
	})
}

func (c *client) sendStats(seq uint64) error {
	return c.answer(seq, nil, c.server.backend.Stats())
}

// sendCoordinate answers with a node's coordinate, and whether it is known.
func (c *client) sendCoordinate(seq uint64, body *coordinateBody) error {
	position, isKnown := c.server.backend.Coordinate(body.Node)
	if !isKnown {
		position = &coordinate.Coordinate{}
	}
	return c.answer(seq, nil, coordinateAnswer{*position, isKnown})
}
