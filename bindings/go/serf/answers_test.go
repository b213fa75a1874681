package serf

import (
	"fmt"
	"net"
	"testing"
	"time"

	"kitchenrue.example/serfagent"
)

// Acks that were not requested are not delivered.
func TestUnrequestedAcksAreIgnored(t *testing.T) {
	for _, acks := range []chan string{nil, make(chan string, 1)} {
		r := &QueryResponse{acks: acks, responses: make(chan NodeResponse, 2)}
		if !r.deliver(&serfagent.Answer{From: "a"}, true) || !r.deliver(&serfagent.Answer{From: "b"}, false) {
			t.Error("an answer was not delivered, although there is room")
		}
		if len(r.responses) != 1 || (<-r.responses).From != "b" || len(acks) != cap(acks) {
			t.Error(len(r.responses), len(acks))
		}
	}
}

func TestIsMajority(t *testing.T) {
	for counts, want := range map[[2]int]bool{
		{0, 1}: false, {1, 1}: true, {1, 2}: false, {2, 2}: true, {1, 3}: false, {2, 3}: true, {2, 4}: false, {3, 4}: true,
	} {
		if isMajority(counts[0], counts[1]) != want {
			t.Error(counts)
		}
	}
}

// A node relays an answer only through nodes other than the one that fired the query. The node that fired it receives
// the answer directly, and is not asked to relay the answer to itself.
func TestAnswersAreRelayedByOthersOnly(t *testing.T) {
	a := startNode(t, "a", "", withAgent(&fakeAgent{}), func(o *nodeOptions) { o.MemberlistConfig.EnableCompression = false })
	sockets := map[string]*net.UDPConn{}
	for _, name := range []string{"asker", "other"} {
		socket, err := net.ListenUDP("udp", &net.UDPAddr{IP: net.IPv4(127, 0, 0, 1)})
		must(t, err)
		defer socket.Close()
		sockets[name] = socket
		a.members.memberJoined(Member{Name: name, Addr: net.IPv4(127, 0, 0, 1).To4(), Port: uint16(socket.LocalAddr().(*net.UDPAddr).Port)})
	}
	asker, _ := a.members.get("asker")
	a.sendReply(&serfagent.PendingQuery{Source: "asker", Addr: asker.Addr, Port: asker.Port, RelayFactor: 2}, []byte("\x06answer"))
	for name, want := range map[string]string{"asker": "[6]", "other": "[9]"} {
		var types []byte
		// (all packets have been sent by then, so the test doesn't wait long for a second one)
		for wait, data := time.Minute, make([]byte, 1500); ; wait = 200 * time.Millisecond {
			_ = sockets[name].SetReadDeadline(time.Now().Add(wait))
			count, err := sockets[name].Read(data)
			if err != nil {
				break
			}
			// (the first byte is memberlist's type of a user message, and the second one is the type of our message)
			if count > 1 && data[0] == 8 {
				types = append(types, data[1])
			}
		}
		if fmt.Sprint(types) != want {
			t.Error(name, types)
		}
	}
}

// The query's relay factor, up to a limit, is the number of nodes that relay an answer, if the cluster has enough
// nodes. Answers to an address that no member has are not relayed.
func TestRelaysAreBounded(t *testing.T) {
	a := startNode(t, "a", "", withAgent(&fakeAgent{}))
	addr := net.IPv4(127, 0, 0, 9).To4()
	for i := 0; i < 20; i++ {
		a.members.memberJoined(Member{Name: fmt.Sprint("m", i), Addr: addr, Port: uint16(20000 + i)})
	}
	for _, test := range []struct {
		factor uint8
		port   uint16
		source string
		want   int
	}{
		{0, 20000, "m0", 0}, {1, 20000, "m0", 1}, {7, 20000, "m0", 7}, {20, 20000, "m0", maxRelays}, {21, 20000, "m0", 0},
		{255, 20000, "m0", 0}, {5, 20001, "m0", 0}, {5, 20000, "x", 0},
	} {
		query := &serfagent.PendingQuery{Source: test.source, Addr: addr, Port: test.port, RelayFactor: test.factor}
		if relays := a.relays(query); len(relays) != test.want {
			t.Error(test, len(relays))
		}
	}
}

func TestHandMadeQueryAndResponse(t *testing.T) {
	var q Query
	if err := q.Respond([]byte("x")); err != errHandMade || !q.Deadline().IsZero() || q.EventType() != EventQuery {
		t.Error(err, q.Deadline())
	}
	var r QueryResponse
	r.Close()
	r.Close()
	if !r.Finished() || r.AckCh() != nil || r.ResponseCh() != nil {
		t.Error("a response made by hand has channels, or is not finished")
	}
}
