package handlers

import (
	"fmt"
	"testing"

	"kitchenrue.example/serf"
)

// Events leave the queue in their order, and each one that leaves is signaled.
func TestQueue(t *testing.T) {
	q := newQueue(3)
	for i := 0; i < 4; i++ {
		if q.hasRoom() != (i < 3) || !q.add(userEventOf("deploy", fmt.Sprint(i))) {
			t.Error(i)
		}
	}
	for i := 0; i < 4; i++ {
		if e := q.next(); string(e.(serf.UserEvent).Payload) != fmt.Sprint(i) || len(q.roomFreed) != 1 || q.hasRoom() != (i > 0) {
			t.Fatal(i, e, len(q.roomFreed))
		}
		<-q.roomFreed
	}
	q.close()
	if e := q.next(); e != nil || q.add(userEventOf("late", "")) {
		t.Error(e)
	}
}
