package serf_test

import (
	"fmt"
	"io"
	"log"
	"time"

	"github.com/hashicorp/memberlist"

	"kitchenrue.example/serf"
)

// A node without a snapshot fires an event and a query, and answers the query itself. Its channel delivers both.
func Example() {
	events := make(chan serf.Event, 64)
	conf := serf.DefaultConfig()
	conf.NodeName, conf.EventCh, conf.LogOutput = "alpha", events, io.Discard
	conf.MemberlistConfig = memberlist.DefaultLocalConfig()
	// (port 0 is any free port)
	conf.MemberlistConfig.BindAddr, conf.MemberlistConfig.BindPort, conf.MemberlistConfig.AdvertisePort = "127.0.0.1", 0, 0
	node, err := serf.Create(conf)
	if err != nil {
		log.Fatal(err)
	}
	if err := node.UserEvent("deploy", []byte("v1"), false); err != nil {
		log.Fatal(err)
	}
	asked, err := node.Query("who", nil, &serf.QueryParam{Timeout: time.Minute, RequestAck: true})
	if err != nil {
		log.Fatal(err)
	}
	for isAsked := false; !isAsked; {
		switch e := (<-events).(type) {
		case serf.MemberEvent:
			fmt.Println(e, e.Members[0].Name)
		case serf.UserEvent:
			fmt.Println(e, string(e.Payload))
		case *serf.Query:
			fmt.Println(e)
			if err := e.Respond([]byte("here")); err != nil {
				log.Fatal(err)
			}
			isAsked = true
		}
	}
	answer := <-asked.ResponseCh()
	fmt.Println(<-asked.AckCh(), "acks, and", answer.From, "says", string(answer.Payload))
	asked.Close()
	fmt.Println(node.Leave(), node.Shutdown(), node.State())
	// Output:
	// member-join alpha
	// user-event: deploy v1
	// query: who
	// alpha acks, and alpha says here
	// <nil> <nil> shutdown
}
