// This program makes calls that may run out of memory. tests/library/embed/starved_driver.c describes its output.
package main

import (
	"fmt"
	"log"
	"os"
	"path/filepath"

	"kitchenrue.example/serfagent"
)

// check ends the program if err isn't nil.
func check(err error) {
	if err != nil {
		log.Fatal(err)
	}
}

// open opens an agent on its snapshot in the program's folder.
func open(name string) *serfagent.Agent {
	agent, err := serfagent.Open(name, filepath.Join(os.Args[1], name+".snapshot"), serfagent.DefaultSettings())
	check(err)
	return agent
}

// printMerge merges a state, and prints the events and the result.
func printMerge(agent *serfagent.Agent, state []byte) {
	events, err := agent.Merge(state, false)
	result := "ok"
	if err == serfagent.OutOfMemory {
		result = "out of memory"
	} else {
		check(err)
	}
	for _, event := range events {
		fmt.Println(event.Time, event.Name)
	}
	fmt.Println(result)
}

// printResult prints the packet of a call, or that the call ran out of memory.
func printResult(kind string, packet []byte, err error) {
	if err == serfagent.OutOfMemory {
		fmt.Println(kind, "refused")
		return
	}
	check(err)
	fmt.Printf("%s %x\n", kind, packet)
}

// printQuery fires a query with two filters, and prints its packet.
func printQuery(agent *serfagent.Agent, letter string) {
	params := serfagent.QueryParams{Timeout: 9}
	for number := 1; number <= 2; number++ {
		params.Filters = append(params.Filters, []byte(fmt.Sprintf("\x00\x91\xa7node-%s%d", letter, number)))
	}
	query, err := agent.Query(1, 7, "load", nil, params)
	if err != nil {
		query = &serfagent.FiredQuery{}
	}
	printResult("query", query.Packet, err)
}

// printState prints the agent's state with the statuses of two members.
func printState(agent *serfagent.Agent, letter string) {
	first, second := "node-"+letter+"1", "node-"+letter+"2"
	packet, err := agent.LocalState([]serfagent.Status{{Name: first, Time: 3}, {Name: second, Time: 4}}, []string{second})
	printResult("state", packet, err)
}

func main() {
	if len(os.Args) != 2 {
		log.Fatal("starved_driver FOLDER")
	}
	sender := open("one")
	for i := 0; i < 5; i++ {
		_, _, err := sender.Fire(fmt.Sprintf("e%d", i), nil, false)
		check(err)
	}
	wholeState, err := sender.LocalState(nil, nil)
	check(err)
	load, err := sender.Query(1, 8, "load", nil, serfagent.QueryParams{Timeout: 9})
	check(err)
	receiver := open("other")
	printMerge(receiver, wholeState)
	printMerge(receiver, wholeState)
	printQuery(receiver, "a")
	_, err = receiver.Receive(1, load.Packet, false)
	check(err)
	printQuery(receiver, "b")
	printQuery(receiver, "c")
	for _, letter := range []string{"a", "b", "c"} {
		printState(receiver, letter)
	}
	check(receiver.Close())
	check(sender.Close())
}
