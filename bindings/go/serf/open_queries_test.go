package serf

import (
	"fmt"
	"testing"
	"time"

	"kitchenrue.example/serfagent"
)

// A query whose deadline has passed no longer counts towards MaxQueries.
func TestQueriesThatAreOverDoNotCount(t *testing.T) {
	a := startNode(t, "a", "")
	for i := 0; i < MaxQueries; i++ {
		_, err := a.Query("x", nil, &QueryParam{Timeout: time.Millisecond})
		must(t, err)
		time.Sleep(2 * time.Millisecond)
		check(t, a.closeDue())
	}
	if _, err := a.Query("last", nil, nil); err != nil {
		t.Error(err)
	}
}

// A query has a channel for acks only if they were requested, and its channels have limited room.
func TestChannelsOfAQuery(t *testing.T) {
	a := startNode(t, "a", "", withAgent(&fakeAgent{}))
	for _, test := range []struct {
		isRequested bool
		members     int64
		room        int
	}{{true, 1, 17}, {false, 1, 17}, {true, 1008, 1024}, {true, 1009, 1024}, {false, 100_000, 1024}} {
		a.members.memberCount.Store(test.members)
		a.agentMu.Lock()
		response := a.openQuery(queryKey{1, uint32(test.members)}, QueryParam{RequestAck: test.isRequested, Timeout: time.Hour})
		a.agentMu.Unlock()
		if hasAcks := response.AckCh() != nil; hasAcks != test.isRequested || cap(response.responses) != test.room {
			t.Errorf("%+v: %v %d", test, hasAcks, cap(response.responses))
		}
		if test.isRequested && cap(response.acks) != test.room {
			t.Errorf("%+v: %d", test, cap(response.acks))
		}
	}
}

// An answer for which the caller's channel has no room is counted as dropped.
func TestAnswersWithoutRoomAreCounted(t *testing.T) {
	s := &Serf{openQueries: map[queryKey]*QueryResponse{{9, 1}: {acks: make(chan string, 1), responses: make(chan NodeResponse, 1)}}}
	for i, kind := range []serfagent.Kind{serfagent.Ack, serfagent.Response, serfagent.Ack, serfagent.Response} {
		s.deliverAnswer(&serfagent.Received{Kind: kind, Answer: &serfagent.Answer{Time: 9, ID: 1, From: "b"}})
		if want := i - 1; i > 1 && s.dropped.Load() != int64(want) || i <= 1 && s.dropped.Load() != 0 {
			t.Errorf("after %d answers %d were dropped", i+1, s.dropped.Load())
		}
	}
}

// The last 8,192 queries that were handed out can be answered.
func TestLast8192QueriesCanBeAnswered(t *testing.T) {
	f := &fakeAgent{}
	a := startNode(t, "a", "", withAgent(f))
	for number := uint64(1); number <= 8192+2; number++ {
		a.stageQuery(&serfagent.PendingQuery{Number: number, Name: "x"}, nil)
	}
	f.mu.Lock()
	defer f.mu.Unlock()
	if fmt.Sprint(f.forgotten) != "[1 2]" {
		t.Errorf("%d queries were forgotten", len(f.forgotten))
	}
}

// A request about keys fails if a node did not answer or reported a failure. The keys of nodes that reported a failure
// are not counted.
func TestKeyAnswers(t *testing.T) {
	good := encodeKeyResponse(nodeKeyResponse{Result: true, Keys: []string{"k", "l"}, PrimaryKey: "k"})
	bad := encodeKeyResponse(nodeKeyResponse{Message: "no", Keys: []string{"k"}, PrimaryKey: "k"})
	for _, test := range []struct {
		answers [][]byte
		want    string
	}{
		{[][]byte{good, good}, "map[k:2 l:2] map[k:2] <nil>"},
		{[][]byte{good}, "map[k:1 l:1] map[k:1] 1/2 nodes reported success"},
		{nil, "map[] map[] 0/2 nodes reported success"},
		{[][]byte{good, bad}, "map[k:1 l:1] map[k:1] 1/2 nodes reported failure"},
		{[][]byte{bad}, "map[] map[] 1/2 nodes reported failure"},
		{[][]byte{good, []byte("x")}, "map[k:1 l:1] map[k:1] 1/2 nodes reported failure"},
	} {
		r := &KeyResponse{Messages: map[string]string{}, NumNodes: 2, Keys: map[string]int{}, PrimaryKeys: map[string]int{}}
		for i, payload := range test.answers {
			r.addAnswer(NodeResponse{fmt.Sprint("n", i), payload})
		}
		if found := fmt.Sprint(r.Keys, r.PrimaryKeys, r.failure()); found != test.want {
			t.Errorf("%d answers: %s", len(test.answers), found)
		}
	}
}
