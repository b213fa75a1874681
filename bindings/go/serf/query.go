package serf

import (
	"errors"
	"fmt"
	"math/rand"
	"sort"
	"strings"
	"sync"
	"time"

	"kitchenrue.example/serfagent"
)

// These are limits of this node's queries. MaxQueries is how many may be open at once. A query that Close ended counts
// until its deadline. MaxTimeout is how long a query may be open, and maxAnswers is how many answers may wait for the
// caller. The proved agent counts up to 1,024 acks and as many responses of one query.
const (
	MaxQueries = 256
	MaxTimeout = time.Hour
	maxAnswers = 1024
)

// QueryParam has the options of a query.
type QueryParam struct {
	// FilterNodes are the names of the nodes that may answer. Empty means all nodes.
	FilterNodes []string
	// FilterTags maps tags to regular expressions. A node may answer if each expression matches somewhere in the node's
	// value of that tag. A missing tag counts as an empty value.
	FilterTags map[string]string
	// RequestAck requests an ack from each node that may answer.
	RequestAck bool
	// RelayFactor is the number of other nodes through which each answer is also sent.
	RelayFactor uint8
	// Timeout is how long the query is open, at most MaxTimeout. 0 means DefaultQueryTimeout.
	Timeout time.Duration
}

// DefaultQueryParams returns the options of a query whose caller passes none.
func (s *Serf) DefaultQueryParams() *QueryParam { return &QueryParam{Timeout: s.DefaultQueryTimeout()} }

// NodeResponse is the response of one node.
type NodeResponse struct {
	From    string
	Payload []byte
}

// QueryResponse is a query that this node fired. It delivers the acks and responses to the query.
type QueryResponse struct {
	deadline  time.Time
	acks      chan string
	responses chan NodeResponse

	// expiryTimer triggers closeDue at the query's deadline.
	expiryTimer *time.Timer

	mu       sync.Mutex
	isClosed bool
}

// AckCh returns the channel that delivers the names of the nodes that acked. The channel is closed when the query is
// over, and it is nil if no acks were requested.
func (r *QueryResponse) AckCh() <-chan string { return r.acks }

// ResponseCh returns the channel that delivers the responses. The channel is closed when the query is over.
func (r *QueryResponse) ResponseCh() <-chan NodeResponse { return r.responses }

// Deadline returns the moment at which the query is over.
func (r *QueryResponse) Deadline() time.Time { return r.deadline }

// Finished reports whether the query is over: its deadline has passed, or Close was called.
func (r *QueryResponse) Finished() bool {
	r.mu.Lock()
	defer r.mu.Unlock()
	return r.isClosed || time.Now().After(r.deadline)
}

// Close ends the query, so that it delivers no more answers. The query still counts towards MaxQueries until its
// deadline.
func (r *QueryResponse) Close() {
	r.mu.Lock()
	defer r.mu.Unlock()
	if r.isClosed {
		return
	}
	r.isClosed = true
	if r.acks != nil {
		close(r.acks)
	}
	if r.responses != nil {
		close(r.responses)
	}
}

// deliver passes an answer to the caller, and returns false if the channel is full. It ignores answers that arrive
// after the end of the query.
func (r *QueryResponse) deliver(answer *serfagent.Answer, isAck bool) bool {
	r.mu.Lock()
	defer r.mu.Unlock()
	if r.isClosed || isAck && r.acks == nil {
		return true
	}
	if isAck {
		select {
		case r.acks <- answer.From:
			return true
		default:
			return false
		}
	}
	select {
	case r.responses <- NodeResponse{answer.From, payloadOf(answer.Payload, nil)}:
		return true
	default:
		return false
	}
}

// queryKey identifies a query of this node.
type queryKey struct {
	time uint64
	id   uint32
}

// Query sends a query to the cluster. The node first merges the states that it has received. Query returns after the
// query's line was flushed.
//
// If ProtocolVersion is below 4, Query returns FeatureNotSupported. If the query is too large, the error names the
// limit. Query can also return ErrInternal, ErrTimeout, ErrBusy, ErrQueries, ErrEnded, and errors of the proved agent.
// In all these cases, no query was sent.
func (s *Serf) Query(name string, payload []byte, params *QueryParam) (*QueryResponse, error) {
	if strings.HasPrefix(name, InternalQueryPrefix) && name != InternalQueryPrefix+"ping" {
		return nil, ErrInternal
	}
	if params == nil {
		params = s.DefaultQueryParams()
	}
	return s.fireQuery(name, payload, *params)
}

// fireQuery is Query, but also accepts the names of internal queries.
func (s *Serf) fireQuery(name string, payload []byte, params QueryParam) (*QueryResponse, error) {
	if s.config.ProtocolVersion < 4 {
		return nil, FeatureNotSupported
	}
	if params.Timeout < 0 || params.Timeout > MaxTimeout {
		return nil, ErrTimeout
	}
	if params.Timeout == 0 {
		params.Timeout = s.DefaultQueryTimeout()
	}
	self := s.memberlist().LocalNode()
	filters := encodeFilters(params)
	agentParams := serfagent.QueryParams{
		Timeout: params.Timeout, Addr: []byte(shortIP(self.Addr)), Port: self.Port,
		RelayFactor: params.RelayFactor, WantAck: params.RequestAck,
		Filters: filters, TagsPass: tagFiltersPass(filters, s.ownTags()),
	}
	var response *QueryResponse
	var fired *serfagent.FiredQuery
	err := s.useAgent(func() (err error) {
		fired, response, err = s.fireAndOpen(name, payload, params, agentParams)
		return err
	})
	if errors.Is(err, serfagent.TooLarge) {
		return nil, fmt.Errorf("query exceeds limit of %d bytes", s.config.QuerySizeLimit)
	}
	if err != nil {
		return nil, err
	}
	if fired.Query != nil && fired.Ack != nil {
		s.sendReply(fired.Query, fired.Ack)
	}
	s.queueBroadcast(s.queries, fired.Packet, nil)
	return response, nil
}

// fireAndOpen fires a query on the proved agent, registers it until its deadline, and publishes it on this node if the
// node passes its filters. The caller holds agentMu.
func (s *Serf) fireAndOpen(
	name string, payload []byte, params QueryParam, agentParams serfagent.QueryParams,
) (*serfagent.FiredQuery, *QueryResponse, error) {
	if !s.pipe.hasRoom() {
		return nil, nil, ErrBusy
	}
	if len(s.openQueries) >= MaxQueries {
		return nil, nil, ErrQueries
	}
	id := rand.Uint32()
	fired, err := s.agent.Query(s.now(), id, name, payload, agentParams)
	if err != nil {
		return nil, nil, err
	}
	response := s.openQuery(queryKey{fired.Time, id}, params)
	s.stageQuery(fired.Query, payload)
	s.flushStaged()
	return fired, response, nil
}

// encodeFilters returns the encoded filters of a query.
func encodeFilters(params QueryParam) [][]byte {
	var filters [][]byte
	if len(params.FilterNodes) > 0 {
		filters = append(filters, serfagent.FilterByNames(params.FilterNodes...))
	}
	keys := make([]string, 0, len(params.FilterTags))
	for key := range params.FilterTags {
		keys = append(keys, key)
	}
	sort.Strings(keys)
	for _, key := range keys {
		filters = append(filters, serfagent.FilterByTag(key, params.FilterTags[key]))
	}
	return filters
}

// openQuery registers a query until its deadline. It makes channels with room for as many answers as the members can
// send, up to maxAnswers.
func (s *Serf) openQuery(key queryKey, params QueryParam) *QueryResponse {
	room := s.members.size() + 16
	if room > maxAnswers {
		room = maxAnswers
	}
	response := &QueryResponse{deadline: time.Now().Add(params.Timeout), responses: make(chan NodeResponse, room)}
	if params.RequestAck {
		response.acks = make(chan string, room)
	}
	s.openQueries[key] = response
	response.expiryTimer = time.AfterFunc(params.Timeout+time.Millisecond, func() { signal(s.queryDue) })
	return response
}

// deliverAnswer passes an ack or a response to the query that it answers. The caller holds agentMu.
func (s *Serf) deliverAnswer(received *serfagent.Received) {
	answer := received.Answer
	if answer == nil {
		return
	}
	isAck := received.Kind == serfagent.Ack
	if isAck {
		incrCounter("query_acks")
	} else {
		incrCounter("query_responses")
	}
	if response := s.openQueries[queryKey{answer.Time, answer.ID}]; response != nil && !response.deliver(answer, isAck) {
		s.dropped.Add(1)
	}
}

// closeDue closes the queries whose deadline has passed.
func (s *Serf) closeDue() error {
	return s.useAgent(func() error {
		closedQueries, err := s.agent.CloseDue(s.now())
		for _, closed := range closedQueries {
			key := queryKey{closed.Time, closed.ID}
			if response := s.openQueries[key]; response != nil {
				response.Close()
				delete(s.openQueries, key)
			}
		}
		return err
	})
}
