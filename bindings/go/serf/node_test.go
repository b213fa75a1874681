package serf

import (
	"bytes"
	"encoding/base64"
	"encoding/json"
	"fmt"
	"net"
	"os"
	"path/filepath"
	"reflect"
	"strings"
	"testing"
	"time"

	"github.com/hashicorp/memberlist"

	"kitchenrue.example/serfagent"
)

// startPair starts two nodes that know each other.
func startPair(t *testing.T, opts ...option) (*testNode, *testNode) {
	t.Helper()
	folder := t.TempDir()
	a := startNode(t, "a", folder, append(opts, withTags("role", "web"))...)
	b := startNode(t, "b", folder, append(opts, withTags("role", "db", "n", "17"))...)
	b.join(a)
	eventually(t, "a sees b", func() bool { return a.statusOf("b") == "alive" && b.statusOf("a") == "alive" })
	return a, b
}

func TestEventsReachBothNodes(t *testing.T) {
	a, b := startPair(t)
	for i, from := range []*testNode{a, b, a, b} {
		must(t, from.UserEvent("deploy", []byte(fmt.Sprint(i)), false))
		want := []string{"0", "1", "2", "3"}[:i+1]
		eventually(t, "both have it", func() bool {
			return reflect.DeepEqual(a.payloads("deploy"), want) && reflect.DeepEqual(b.payloads("deploy"), want)
		})
	}
	if err := a.UserEvent("deploy", bytes.Repeat([]byte("x"), 600), false); err == nil || !strings.Contains(err.Error(), "512 bytes") {
		t.Error(err)
	}
}

// allAnswers collects the answers until the query is over.
func allAnswers(response *QueryResponse) (acks, responses []string) {
	for from := range response.AckCh() {
		acks = append(acks, from)
	}
	for answer := range response.ResponseCh() {
		responses = append(responses, answer.From+" "+string(answer.Payload))
	}
	return acks, responses
}

func TestQueries(t *testing.T) {
	a, b := startPair(t)
	for _, test := range []struct {
		name    string
		by      QueryParam
		reached string
	}{
		{"all", QueryParam{}, "ab"},
		{"by name", QueryParam{FilterNodes: []string{"b", "c"}}, "b"},
		{"by its own name", QueryParam{FilterNodes: []string{"a"}}, "a"},
		{"by a tag of the other", QueryParam{FilterTags: map[string]string{"role": "^d"}}, "b"},
		{"by its own tag", QueryParam{FilterTags: map[string]string{"role": "web"}}, "a"},
		{"by two", QueryParam{FilterTags: map[string]string{"role": "b", "n": "^[0-9]*$"}, FilterNodes: []string{"a", "b"}}, "ab"},
		{"by one that nobody has", QueryParam{FilterTags: map[string]string{"role": "none"}}, ""},
		{"by relays", QueryParam{RelayFactor: 3}, "ab"},
	} {
		// (on a busy machine, answers may arrive too late)
		isAnswered := false
		for timeout := time.Second; !isAnswered && timeout < time.Minute; timeout *= 4 {
			by, name := test.by, fmt.Sprint(test.name, " within ", timeout)
			by.Timeout, by.RequestAck = timeout, true
			acks, responses := askBoth(t, a, b, name, by, test.reached)
			isAnswered = acks == len(test.reached) && responses == len(test.reached)
			if acks > len(test.reached) || responses > len(test.reached) {
				t.Error(name, acks, responses)
			}
			for _, node := range []*testNode{a, b} {
				if !strings.Contains(test.reached, node.config.NodeName) && node.lastQuery(name) != nil {
					t.Errorf("%s: %s has the query", name, node.config.NodeName)
				}
			}
		}
		if !isAnswered {
			t.Error(test.name, "has fewer answers than nodes that it reaches")
		}
	}
}

// askBoth fires a query at node a. The nodes whose names are in reached answer it. askBoth returns the numbers of acks
// and of responses.
func askBoth(t *testing.T, a, b *testNode, name string, params QueryParam, reached string) (acks, responses int) {
	t.Helper()
	response, err := a.Query(name, []byte("pay"), &params)
	if err != nil {
		t.Fatal(name, err)
	}
	for _, node := range []*testNode{a, b} {
		if !strings.Contains(reached, node.config.NodeName) {
			continue
		}
		eventually(t, node.config.NodeName+" has the query "+name, func() bool { return node.lastQuery(name) != nil })
		err := node.lastQuery(name).Respond([]byte("of " + node.config.NodeName))
		if err != nil && err != errTooLate {
			t.Error(name, err)
		}
		if err := node.lastQuery(name).Respond(nil); err == nil {
			t.Error("a second answer was accepted")
		}
	}
	allAcks, allResponses := allAnswers(response)
	return len(allAcks), len(allResponses)
}

// Queries and responses may be exactly as long as their limits.
func TestQueryAndResponseSizeLimits(t *testing.T) {
	var queries, answers []int
	for _, limits := range [][2]int{{1024, 1024}, {1025, 1024}, {1024, 1025}, {300, 9216}, {9216, 200}} {
		a := startNode(t, "a", t.TempDir(), withLimits(limits[0], limits[1]))
		query := longestAccepted(limits[0], func(payload []byte) error {
			_, err := a.Query("x", payload, &QueryParam{Timeout: time.Minute})
			if err != nil && err.Error() != fmt.Sprintf("query exceeds limit of %d bytes", limits[0]) {
				t.Error(err)
			}
			return err
		})
		eventually(t, "the query is handed out", func() bool { return a.lastQuery("x") != nil })
		answer := longestAccepted(limits[1], func(payload []byte) error {
			err := a.lastQuery("x").Respond(payload)
			if err != nil && err.Error() != fmt.Sprintf("response exceeds limit of %d bytes", limits[1]) {
				t.Error(err)
			}
			return err
		})
		queries, answers = append(queries, limits[0]-query), append(answers, limits[1]-answer)
	}
	// the number of bytes around a payload is constant, apart from the encoding of the payload's length
	for i := range queries {
		if around := queries[i]; around > queries[0]+2 || around < queries[0]-2 || i < 3 && around != queries[0] {
			t.Errorf("what surrounds the payloads of queries: %v", queries)
		}
		if around := answers[i]; around > answers[0]+2 || around < answers[0]-2 || i < 3 && around != answers[0] {
			t.Errorf("what surrounds the payloads of responses: %v", answers)
		}
	}
	// the bytes of tag filters count towards the limit too
	a := startNode(t, "a", t.TempDir(), withLimits(2000, 1024))
	tagged := &QueryParam{FilterTags: map[string]string{"none": ""}}
	if _, err := a.Query("x", bytes.Repeat([]byte("x"), 1600), tagged); err != nil {
		t.Error(err)
	}
	if _, err := a.Query("x", bytes.Repeat([]byte("x"), 1950), tagged); err == nil ||
		!strings.Contains(err.Error(), "limit of 2000 bytes") {
		t.Error(err)
	}
}

// longestAccepted returns the length of the longest payload that is not refused. It tries long payloads first, since a
// query accepts only one answer.
func longestAccepted(from int, try func(payload []byte) error) int {
	for length := from; length > 0; length-- {
		if try(make([]byte, length)) == nil {
			return length
		}
	}
	return 0
}

func TestRefusedQueries(t *testing.T) {
	a := startNode(t, "a", t.TempDir())
	long := bytes.Repeat([]byte("x"), 1100)
	for _, test := range []struct {
		name    string
		payload []byte
		params  QueryParam
		wantErr string
	}{
		{"x", long, QueryParam{}, "1024 bytes"},
		{"x", long[:930], QueryParam{FilterTags: map[string]string{"none": ""}}, "limit of 1024"},
		{"_serf_list-keys", nil, QueryParam{}, ErrInternal.Error()},
		{"x", nil, QueryParam{Timeout: -1}, ErrTimeout.Error()},
		{"x", nil, QueryParam{Timeout: 2 * time.Hour}, ErrTimeout.Error()},
	} {
		if _, err := a.Query(test.name, test.payload, &test.params); err == nil || !strings.Contains(err.Error(), test.wantErr) {
			t.Errorf("%+v: %v", test, err)
		}
	}
	// (a query that was closed early still counts as open, since the library has it until its deadline)
	for i := 0; i < MaxQueries; i++ {
		response, err := a.Query("x", nil, &QueryParam{Timeout: time.Hour})
		if err != nil {
			t.Fatal(i, err)
		}
		if i%2 == 0 {
			response.Close()
		}
	}
	if _, err := a.Query("x", nil, nil); err != ErrQueries {
		t.Error(err)
	}
	if a.Fault() != nil {
		t.Error(a.Fault())
	}
}

func TestJoinLeaveAndFail(t *testing.T) {
	folder := t.TempDir()
	a := startNode(t, "a", folder, withFailures)
	b := startNode(t, "b", folder)
	c := startNode(t, "c", folder)
	b.join(a)
	c.join(a)
	for _, node := range []*testNode{a, b, c} {
		eventually(t, "all are alive", func() bool {
			return node.statusOf("a") == "alive" && node.statusOf("b") == "alive" && node.statusOf("c") == "alive"
		})
	}
	must(t, b.SetTags(map[string]string{"size": "big"}))
	eventually(t, "a has the new tags", func() bool { m, _ := a.members.get("b"); return m.Tags["size"] == "big" })
	if err := b.SetTags(map[string]string{"size": strings.Repeat("x", 600)}); err == nil {
		t.Error("too long tags were set")
	}
	must(t, b.Leave())
	if err := b.Leave(); err != nil || b.State() != SerfLeft {
		t.Error("a second leave", err)
	}
	check(t, b.Shutdown())
	for _, node := range []*testNode{a, c} {
		eventually(t, "b left", func() bool { return node.statusOf("b") == "left" })
	}
	if text, err := os.ReadFile(filepath.Join(folder, "b")); err != nil || !strings.Contains(string(text), "leave\n") {
		t.Errorf("%q %v", text, err)
	}
	check(t, c.Shutdown())
	eventually(t, "c failed", func() bool { return a.statusOf("c") == "failed" })
	check(t, a.RemoveFailedNode("c"))
	check(t, a.RemoveFailedNodePrune("b"))
	if a.statusOf("c") != "left" || a.statusOf("b") != "" {
		t.Error(a.statusOf("c"), a.statusOf("b"))
	}
	if err := a.RemoveFailedNode("a"); err == nil {
		t.Error("a node removed itself")
	}
}

// A node that restarts on its snapshot knows which members to join, and hands out nothing twice.
func TestRestartRejoins(t *testing.T) {
	folder := t.TempDir()
	a, b := startNode(t, "a", folder), startNode(t, "b", folder)
	b.join(a)
	for i := 0; i < 5; i++ {
		must(t, a.UserEvent("deploy", []byte(fmt.Sprint(i)), false))
	}
	eventually(t, "b has them", func() bool { return len(b.payloads("deploy")) == 5 })
	eventually(t, "b's snapshot has a", func() bool {
		text, err := os.ReadFile(filepath.Join(folder, "b"))
		return err == nil && strings.Contains(string(text), "alive: a ")
	})
	port := b.memberlist().LocalNode().Port
	must(t, b.Shutdown())
	again := startNode(t, "b", folder, atPort(port))
	eventually(t, "b has rejoined", func() bool { return again.statusOf("a") == "alive" })
	must(t, a.UserEvent("deploy", []byte("last"), false))
	eventually(t, "b has the new event", func() bool { return len(again.payloads("deploy")) > 0 })
	time.Sleep(300 * time.Millisecond)
	if found := again.payloads("deploy"); !reflect.DeepEqual(found, []string{"last"}) {
		t.Error(found)
	}
}

func TestStaleLeavesAreRefuted(t *testing.T) {
	a, b := startPair(t)
	for i := uint64(1); i < 4; i++ {
		a.delegate().NotifyMsg(intentPacket(t, i*100, "a", true))
		eventually(t, "b receives a's join intent", func() bool { return b.statusTime("a") >= i*100 })
		if b.statusOf("a") != "alive" || a.statusOf("a") != "alive" {
			t.Error(a.statusOf("a"), b.statusOf("a"))
		}
	}
}

func TestStatesThatSayItLeftAreRefuted(t *testing.T) {
	a, b := startPair(t)
	state, err := b.agent.LocalState([]serfagent.Status{{Name: "a", Time: 900}}, []string{"a"})
	must(t, err)
	must(t, a.agent.ObserveMember(899))
	a.delegate().MergeRemoteState(state, false)
	eventually(t, "b receives a's join intent", func() bool { return b.statusTime("a") >= 900 })
	if b.statusOf("a") != "alive" || a.statusOf("a") != "alive" {
		t.Error(a.statusOf("a"), b.statusOf("a"))
	}
}

// If a node was cut off while another one forced it to leave, it learns of the leave only from the times in states. The
// node refutes this leave too.
func TestLaterTimesInStatesAreRefuted(t *testing.T) {
	a, b := startPair(t)
	// (b has just restarted and holds the leave, which it got from the state of a third node)
	b.members.receiveIntent(serfagent.Intent{Time: 900, Node: "a", Leave: true})
	state, err := b.agent.LocalState([]serfagent.Status{{Name: "a", Time: 900}}, nil)
	must(t, err)
	a.delegate().MergeRemoteState(state, false)
	eventually(t, "b receives a's join intent", func() bool { return b.statusTime("a") > 900 })
	if b.statusOf("a") != "alive" || a.statusOf("a") != "alive" {
		t.Error(a.statusOf("a"), b.statusOf("a"))
	}
}

func withKey(fill byte) option {
	return func(o *nodeOptions) { o.MemberlistConfig.SecretKey = bytes.Repeat([]byte{fill}, 32) }
}

func TestKeys(t *testing.T) {
	text := func(fill byte) string { return base64.StdEncoding.EncodeToString(bytes.Repeat([]byte{fill}, 32)) }
	folder := t.TempDir()
	file := filepath.Join(folder, "keyring")
	a, b := startNode(t, "a", folder, withKey(1), func(o *nodeOptions) { o.KeyringFile = file }), startNode(t, "b", folder, withKey(1))
	b.join(a)
	if !a.EncryptionEnabled() {
		t.Error("a is not encrypted")
	}
	keys := a.KeyManager()
	list := func(string) (*KeyResponse, error) { return keys.ListKeys() }
	for _, step := range []struct {
		call    func(string) (*KeyResponse, error)
		key     string
		wantErr string
	}{
		{keys.InstallKey, text(2), ""}, {keys.UseKey, text(2), ""}, {keys.UseKey, text(3), "2/2 nodes reported failure"},
		{keys.RemoveKey, text(2), "2/2 nodes reported failure"}, {keys.RemoveKey, text(1), ""}, {list, "", ""},
		{keys.InstallKey, "%", "illegal base64"},
	} {
		var found *KeyResponse
		var err error
		isExpected := func() bool {
			return (err == nil) == (step.wantErr == "") && (err == nil || strings.Contains(err.Error(), step.wantErr))
		}
		// (on a busy machine an answer may arrive too late, and each step may be repeated)
		for tries := 0; tries < 20; tries++ {
			if found, err = step.call(step.key); isExpected() {
				break
			}
		}
		all := map[string]int{text(2): 2}
		if !isExpected() || found.Keys != nil && (!reflect.DeepEqual(found.Keys, all) || !reflect.DeepEqual(found.PrimaryKeys, all)) {
			t.Errorf("%+v: %+v %v", step, found, err)
		}
	}
	var kept []string
	if data, err := os.ReadFile(file); err != nil || json.Unmarshal(data, &kept) != nil || !reflect.DeepEqual(kept, []string{text(2)}) {
		t.Errorf("%q %v", kept, err)
	}
	must(t, b.UserEvent("deploy", nil, false))
	eventually(t, "the event arrives", func() bool { return len(a.payloads("deploy")) == 1 })
}

func TestKeyListIsTruncated(t *testing.T) {
	answer := nodeKeyResponse{Result: true}
	for i := 0; i < 100; i++ {
		answer.Keys = append(answer.Keys, fmt.Sprintf("%044d", i))
	}
	before := 0
	for _, limit := range []int{500, 1024, 2048} {
		written := encodeFitting(limit, answer)
		found, err := decodeKeyResponse(written)
		if err != nil || len(written) > limit-288 || !strings.Contains(found.Message, "of 100 keys") {
			t.Errorf("%d: %d %+v %v", limit, len(written), found, err)
		}
		if limit > 1000 && len(found.Keys) < before+10 {
			t.Errorf("%d: %d keys, and %d with the smaller limit", limit, len(found.Keys), before)
		}
		before = len(found.Keys)
	}
}

func TestResolveConflict(t *testing.T) {
	a, b := startPair(t)
	if err := a.resolveConflict(); err != nil {
		t.Errorf("b knows the node by its name: %v", err)
	}
	b.members.memberJoined(Member{Name: "a", Addr: []byte{127, 9, 9, 9}, Port: 1})
	// (if the answer arrives too late, nobody knows which node is right)
	eventually(t, "the answer decides", func() bool {
		err := a.resolveConflict()
		return err != nil && strings.Contains(err.Error(), "another node has the name")
	})
}

// Shutdown does not wait for the answers of a query about a name conflict.
func TestShutdownDuringConflictQuery(t *testing.T) {
	// (this query is open for 200 s)
	a, _ := startPair(t, func(o *nodeOptions) { o.QueryTimeoutMult = 2000 })
	a.delegate().NotifyConflict(a.memberlist().LocalNode(), &memberlist.Node{Name: "a", Addr: []byte{127, 9, 9, 9}, Port: 1})
	eventually(t, "the query is open", func() bool {
		a.agentMu.Lock()
		defer a.agentMu.Unlock()
		return len(a.openQueries) == 1
	})
	promptly(t, "Shutdown", func() { check(t, a.Shutdown()) })
}

// The second node with a name ends, and the first one continues.
func TestTwoNodesWithOneName(t *testing.T) {
	a, b := startPair(t)
	c := startNode(t, "c", t.TempDir())
	c.join(b)
	eventually(t, "c knows a", func() bool { return c.statusOf("a") == "alive" && a.statusOf("c") == "alive" })
	twin := startNode(t, "a", t.TempDir())
	if _, err := twin.Join([]string{b.address()}, true); err != nil {
		t.Log(err)
	}
	promptly(t, "the second node ends", func() { <-twin.ShutdownCh() })
	if err := twin.Fault(); err == nil || !strings.Contains(err.Error(), "another node has the name") {
		t.Error(err)
	}
	if m, _ := b.members.get("a"); a.Fault() != nil || m.Port != a.memberlist().LocalNode().Port {
		t.Error(a.Fault(), m)
	}
}

// Only a foreign program can have a name that is too long for an agent. The node treats it as an ordinary member, but
// does not hold its intents.
func TestMemberWithTooLongName(t *testing.T) {
	a, b := startPair(t)
	name := strings.Repeat("x", 129)
	a.delegate().NotifyJoin(&memberlist.Node{Name: name, Addr: []byte{127, 0, 0, 9}, Port: 1, Meta: []byte("\xff\x80")})
	a.delegate().NotifyMsg(intentPacket(t, 9, name, true))
	a.delegate().NotifyMsg(intentPacket(t, 9, strings.Repeat("y", 129), true))
	must(t, b.UserEvent("deploy", nil, false))
	eventually(t, "events still arrive", func() bool { return len(a.payloads("deploy")) == 1 })
	a.delegate().NotifyLeave(&memberlist.Node{Name: name})
	if a.statusOf(name) == "" || a.Fault() != nil {
		t.Error(a.statusOf(name), a.Fault())
	}
}

// Nothing that the network sends ends the node.
func TestHostilePackets(t *testing.T) {
	a, b := startPair(t)
	for kind := 0; kind < 256; kind++ {
		for _, rest := range []string{
			"", "\x80", "\xc1", "\xdf\xff\xff\xff\xff", "\x81\xa4Node\xdb\xff\xff\xff\xff",
			"\x82\xa5LTime\xcf\xff\xff\xff\xff\xff\xff\xff\xff\xa4Node\xa1x", strings.Repeat("\x91", 100),
			"\x81\xa8DestAddr\x81\xa2IP\xa41234x",
		} {
			a.delegate().NotifyMsg(append([]byte{byte(kind)}, rest...))
			a.delegate().MergeRemoteState(append([]byte{byte(kind)}, rest...), kind%2 == 0)
		}
	}
	for i := 0; i < 3*4096; i++ {
		a.delegate().NotifyMsg(intentPacket(t, uint64(i), fmt.Sprint("n", i), i%2 == 0))
	}
	eventually(t, "all is processed", func() bool { return len(a.packets.ready) == 0 && len(a.states.ready) == 0 })
	must(t, b.UserEvent("deploy", nil, false))
	eventually(t, "events still arrive", func() bool { return len(a.payloads("deploy")) == 1 })
	if a.Fault() != nil {
		t.Error(a.Fault())
	}
}

func TestRelaysGoToMembersOnly(t *testing.T) {
	a, b := startPair(t)
	self := b.memberlist().LocalNode()
	relayed := relay{addr: self.Addr, port: self.Port, name: "b", message: []byte("\x03\x83\xa5LTime\x09\xa4Name\xa1r\xa7Payload\xa1x")}
	a.delegate().NotifyMsg(encodeRelay(relayed))
	eventually(t, "it is relayed", func() bool { return len(b.payloads("r")) == 1 })
	stranger, err := net.ListenUDP("udp", &net.UDPAddr{IP: net.IPv4(127, 0, 0, 1)})
	must(t, err)
	defer stranger.Close()
	relayed.port = uint16(stranger.LocalAddr().(*net.UDPAddr).Port)
	a.delegate().NotifyMsg(encodeRelay(relayed))
	_ = stranger.SetReadDeadline(time.Now().Add(time.Second))
	if count, err := stranger.Read(make([]byte, 1500)); err == nil {
		t.Errorf("an address that no member has received %d bytes", count)
	}
}
