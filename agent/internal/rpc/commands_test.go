package rpc

import (
	"encoding/base64"
	"fmt"
	"reflect"
	"sort"
	"testing"
	"time"

	"github.com/hashicorp/serf/coordinate"

	"kitchenrue.example/agent/internal/testkit"
	"kitchenrue.example/serf"
)

func TestCommands(t *testing.T) {
	s, f, _ := startServer(t, "")
	f.withNode(t)
	p := dial(t, s).handshake()
	p.expect(p.request("handshake", handshakeBody{1}), "Handshake already performed")
	p.expect(p.request("handshake", handshakeBody{2}), "Unsupported IPC version")
	p.expect(p.request("auth", authBody{"any"}), "")
	p.expect(p.request("event", eventBody{Name: "deploy", Payload: []byte("v1")}), "")
	p.expect(p.request("event", eventBody{Name: "large"}), "user event exceeds its limit")
	p.expect(p.request("force-leave", forceLeaveBody{Node: "beta"}), "")
	p.expect(p.request("tags", tagsBody{}), "")
	var count joinAnswer
	p.expect(p.request("join", joinBody{Existing: []string{"a", "b"}}), "")
	if p.read(&count); count.Num != 2 {
		t.Error(count)
	}
	p.expect(p.request("join", joinBody{}), "nobody was joined")
	if p.read(&count); count.Num != 0 {
		t.Error(count)
	}
	var keys keyAnswer
	// On a busy machine, the node's own answer may be too late.
	testkit.Eventually(t, "the node has its key", func() bool {
		seq := p.request("list-keys")
		var header answerHeader
		if p.read(&header); header.Seq != seq {
			t.Fatal(header)
		}
		p.read(&keys)
		return header.Error == "" && keys.NumNodes == 1 && keys.Keys[base64.StdEncoding.EncodeToString(make([]byte, 32))] == 1
	})
	p.expect(p.request("install-key", keyBody{"%"}), "illegal base64 data at input byte 0")
	p.read(&keys)
	var stats map[string]map[string]string
	p.expect(p.request("stats"), "")
	if p.read(&stats); stats["agent"]["name"] != "alpha" {
		t.Error(stats)
	}
	var place coordinateAnswer
	for name, want := range map[string]coordinateAnswer{
		"alpha": {coordinate.Coordinate{Vec: []float64{1, 2}, Height: 3}, true}, "beta": {},
	} {
		p.expect(p.request("get-coordinate", coordinateBody{name}), "")
		place = coordinateAnswer{}
		if p.read(&place); !reflect.DeepEqual(place, want) {
			t.Error(name, place)
		}
	}
	p.expect(p.request("respond", respondBody{ID: 9}), "No pending queries matching ID")
	p.expect(p.request("stop", stopBody{77}), "")
	p.expect(p.request("leave"), "")
	// The answer is sent before the agent ends.
	testkit.Eventually(t, "the agent is shut down", f.wasShutdown)
	if want := []string{"fire deploy v1", "fire large ", "force-leave beta", "tags", "leave"}; !reflect.DeepEqual(f.calls, want) {
		t.Error(f.calls)
	}
}

func TestMembers(t *testing.T) {
	s, _, _ := startServer(t, "")
	p := dial(t, s).handshake()
	var all membersAnswer
	p.expect(p.request("members"), "")
	p.read(&all)
	want := []member{
		{
			Name: "alpha", Addr: []byte{127, 0, 0, 1}, Port: 7946, Tags: map[string]string{"role": "web"}, Status: "alive", ProtocolMin: 1,
			DelegateCur: 5,
		},
		{Name: "beta", Addr: append(make([]byte, 15), 1), Tags: map[string]string{}, Status: "failed"},
	}
	if !reflect.DeepEqual(all.Members, want) {
		t.Errorf("%+v", all.Members)
	}
	for _, test := range []struct {
		by    filteredBody
		names string
		says  string
	}{
		{filteredBody{}, "[alpha beta]", ""},
		{filteredBody{Name: "al"}, "[]", ""},
		{filteredBody{Name: "al.*"}, "[alpha]", ""},
		{filteredBody{Status: "alive|failed"}, "[alpha beta]", ""},
		{filteredBody{Status: "ali"}, "[]", ""},
		{filteredBody{Tags: map[string]string{"role": "w.."}}, "[alpha]", ""},
		{filteredBody{Tags: map[string]string{"role": "we"}}, "[]", ""},
		{filteredBody{Tags: map[string]string{"none": ".*"}, Status: "failed"}, "[beta]", ""},
		{filteredBody{Name: "("}, "[]", "Failed to compile regex: error parsing regexp: missing closing ): `^(?:()$`"},
	} {
		p.expect(p.request("members-filtered", test.by), test.says)
		all = membersAnswer{}
		p.read(&all)
		names := []string{}
		for _, member := range all.Members {
			names = append(names, member.Name)
		}
		if fmt.Sprint(names) != test.names {
			t.Errorf("%+v: %v", test.by, names)
		}
	}
}

func TestStreams(t *testing.T) {
	s, f, _ := startServer(t, "")
	p := dial(t, s).handshake()
	p.expect(p.request("stream", streamBody{"foo"}), "Invalid event filter")
	users, queries := p.request("stream", streamBody{"user:deploy"}), uint64(0)
	p.expect(users, "")
	queries = p.request("stream", streamBody{"query,member-join"})
	p.expect(queries, "")
	testkit.Eventually(t, "two streams are open", func() bool { return countStreams(s) == 2 })
	query, answers := fireTestQuery(t, f, f.withNode(t))
	s.Publish(serf.UserEvent{Name: "other"})
	s.Publish(serf.UserEvent{Name: "deploy", LTime: 3, Payload: []byte("v1"), Coalesce: true})
	s.Publish(serf.MemberEvent{Type: serf.EventMemberJoin, Members: []serf.Member{{Name: "gamma"}}})
	s.Publish(query)
	var user userEvent
	p.expect(users, "")
	if p.read(&user); !reflect.DeepEqual(user, userEvent{"user", 3, "deploy", []byte("v1"), true}) {
		t.Error(user)
	}
	var joined memberEvent
	p.expect(queries, "")
	if p.read(&joined); joined.Event != "member-join" || joined.Members[0].Name != "gamma" {
		t.Error(joined)
	}
	var event queryEvent
	p.expect(queries, "")
	if p.read(&event); event.ID != 1 || event.Name != "load" || event.Event != "query" {
		t.Error(event)
	}
	p.expect(p.request("respond", respondBody{1, []byte("0.12")}), "")
	if answer := <-answers.ResponseCh(); string(answer.Payload) != "0.12" {
		t.Error(answer)
	}
	p.expect(p.request("respond", respondBody{1, nil}), "No pending queries matching ID")
	p.expect(p.request("stop", stopBody{users}), "")
	s.Publish(serf.UserEvent{Name: "deploy"})
	p.expect(p.request("stop", stopBody{queries}), "")
}

func TestQueries(t *testing.T) {
	s, f, _ := startServer(t, "")
	p := dial(t, s).handshake()
	p.expect(p.request("query", queryBody{Name: "large"}), "query exceeds limit of 1024 bytes")
	events := f.withNode(t)
	go func() {
		for e := range events {
			if query, ok := e.(*serf.Query); ok {
				_ = query.Respond([]byte("x"))
			}
		}
	}()
	var found []string
	// (on a busy machine, the answers may be too late for the first query)
	for timeout := time.Second; len(found) < 3 && timeout < 2*time.Minute; timeout *= 4 {
		seq := p.request("query", queryBody{Name: "load", RequestAck: true, Timeout: int64(timeout)})
		p.expect(seq, "")
		found = nil
		for isLast := false; !isLast; {
			var record queryResult
			p.expect(seq, "")
			p.read(&record)
			found, isLast = append(found, fmt.Sprint(record.Type, record.From, string(record.Payload))), record.Type == "done"
		}
	}
	sort.Strings(found)
	if !reflect.DeepEqual(found, []string{"ackalpha", "done", "responsealphax"}) {
		t.Error(found)
	}
}

// Nothing follows the last record of a query, even if answers arrive at its deadline, and each record before it names its
// sender. Serf's own client ends with a panic if it closes while it handles a record.
func TestNothingFollowsLastRecord(t *testing.T) {
	s, f, _ := startServer(t, "")
	p := dial(t, s).handshake()
	events := f.withNode(t)
	go func() {
		for e := range events {
			if query, ok := e.(*serf.Query); ok {
				go func() {
					time.Sleep(time.Until(query.Deadline()) - time.Millisecond)
					_ = query.Respond([]byte("x"))
				}()
			}
		}
	}()
	for n := 0; n < 20; n++ {
		seq := p.request("query", queryBody{Name: "load", RequestAck: true, Timeout: int64(30 * time.Millisecond)})
		p.expect(seq, "")
		for isLast := false; !isLast; {
			var record queryResult
			p.expect(seq, "")
			p.read(&record)
			if isLast = record.Type == "done"; isLast != (record.From == "") {
				t.Fatalf("a record: %+v", record)
			}
		}
		time.Sleep(5 * time.Millisecond)
		p.expect(p.request("event", eventBody{Name: "next"}), "")
	}
}

func TestMonitor(t *testing.T) {
	s, _, log := startServer(t, "")
	p := dial(t, s).handshake()
	p.expect(p.request("monitor", monitorBody{"loud"}), "Unknown log level: LOUD")
	log.SetFlags(0)
	seq := p.request("monitor", monitorBody{"warn"})
	p.expect(seq, "")
	log.Print("[INFO] no")
	log.Print("[ERR] yes")
	for {
		var record logLine
		p.expect(seq, "")
		if p.read(&record); record.Log == "[ERR] yes" {
			break
		}
	}
	p.expect(p.request("stop", stopBody{seq}), "")
	testkit.Eventually(t, "no monitor is open", func() bool { return countFollowers(s) == 0 })
}

// countClients returns the sum of count over all clients.
func countClients(s *Server, count func(*client) int) int {
	s.mu.Lock()
	defer s.mu.Unlock()
	total := 0
	for c := range s.clients {
		c.mu.Lock()
		total += count(c)
		c.mu.Unlock()
	}
	return total
}

func countStreams(s *Server) int {
	return countClients(s, func(c *client) int { return len(c.streams) })
}
func countFollowers(s *Server) int {
	return countClients(s, func(c *client) int { return len(c.subscriptions) })
}
func countConnected(s *Server) int { return countClients(s, func(*client) int { return 1 }) }
