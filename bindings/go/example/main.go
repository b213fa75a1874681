// This program runs two agents in one process, and carries their packets and states by hand. One agent fires an event,
// which arrives at the other one several times. In between, the second agent crashes and starts again, and nothing is
// handed out twice. One agent fires a query, the other one answers it, and the query is closed after its deadline.
//
//	go run ./example FOLDER
//
// The agents keep their two snapshots in FOLDER. If these exist already, the agents resume from them.
package main

import (
	"fmt"
	"log"
	"os"
	"path/filepath"

	"kitchenrue.example/serfagent"
)

type node struct {
	name  string
	agent *serfagent.Agent
}

// check ends the program if err isn't nil.
func check(err error) {
	if err != nil {
		log.Fatal(err)
	}
}

// open opens the agent of a node on its snapshot in the program's folder.
func open(name string) *node {
	agent, err := serfagent.Open(name, filepath.Join(os.Args[1], name+".snapshot"), serfagent.DefaultSettings())
	check(err)
	return &node{name, agent}
}

// handle is the handler of events. It prints them.
func (n *node) handle(events ...*serfagent.Event) {
	for _, event := range events {
		fmt.Printf("%s handed out %s %s at %d\n", n.name, event.Name, event.Payload, event.Time)
	}
}

// join merges the other node's state, and handles the events that are new here.
func (n *node) join(other *node) {
	state, err := other.agent.LocalState(nil, nil)
	check(err)
	events, err := n.agent.Merge(state, true)
	check(err)
	n.handle(events...)
	fmt.Printf("%s joined %s\n", n.name, other.name)
}

// fire fires an event, handles it on this node, and returns the packet to send.
func (n *node) fire(name, payload string) []byte {
	event, packet, err := n.agent.Fire(name, []byte(payload), false)
	check(err)
	n.handle(event)
	return packet
}

// deliver passes a packet to the node, and handles its event or prints why the packet is ignored.
func (n *node) deliver(now uint64, packet []byte) {
	received, err := n.agent.Receive(now, packet, false)
	check(err)
	switch {
	case received.Event != nil:
		n.handle(received.Event)
	case received.Reason == serfagent.Seen:
		fmt.Printf("%s ignored it: seen\n", n.name)
	case received.Reason == serfagent.BelowMinimum:
		fmt.Printf("%s ignored it: below the minimum\n", n.name)
	}
}

// ask fires a query, which the other agent acks and answers.
func (n *node) ask(other *node, now uint64, name, answer string) {
	query, err := n.agent.Query(now, 7, name, nil, serfagent.QueryParams{Timeout: 1000, WantAck: true})
	check(err)
	received, err := other.agent.Receive(now, query.Packet, false)
	check(err)
	n.deliver(now, received.Ack)
	response, err := other.agent.Respond(now, received.Query.Number, []byte(answer))
	check(err)
	n.deliver(now, response)
}

// closeDue closes the queries whose deadline has passed, and prints their answers.
func (n *node) closeDue(now uint64) {
	queries, err := n.agent.CloseDue(now)
	check(err)
	for _, closed := range queries {
		for _, name := range closed.Acks {
			fmt.Printf("%s acked the query of %s\n", name, n.name)
		}
		for _, answer := range closed.Responses {
			fmt.Printf("%s answered %s\n", answer.From, answer.Payload)
		}
	}
}

func main() {
	if len(os.Args) != 2 {
		log.Fatal("example FOLDER")
	}
	alpha, beta := open("alpha"), open("beta")
	alpha.join(beta)
	beta.join(alpha)

	packet := alpha.fire("deploy", "v1.2")
	beta.deliver(1, packet)
	beta.deliver(2, packet)

	// This ends the agent as a crash would: only its file is left.
	beta.agent.Close()
	beta = open("beta")
	clocks, err := beta.agent.Clocks()
	check(err)
	fmt.Printf("beta crashed, and is back at %d\n", clocks.Event)
	beta.deliver(3, packet)

	packet = beta.fire("rollback", "v1.1")
	alpha.deliver(4, packet)

	alpha.ask(beta, 5, "load", "0.12")
	alpha.closeDue(1006)
	alpha.agent.Close()
	beta.agent.Close()
}
