package serfagent

import (
	"fmt"
	"log"
	"os"
	"path/filepath"
)

// inFolder runs a function with a temporary folder for snapshots.
func inFolder(run func(folder string)) {
	folder, err := os.MkdirTemp("", "serfagent")
	if err != nil {
		log.Fatal(err)
	}
	defer os.RemoveAll(folder)
	run(folder)
}

func mustOpen(name, path string) *Agent {
	agent, err := Open(name, path, DefaultSettings())
	if err != nil {
		log.Fatal(err)
	}
	return agent
}

// An event is fired and arrives at another agent twice. That agent hands it out once, although it was restarted in
// between.
func Example() {
	inFolder(func(folder string) {
		alpha := mustOpen("alpha", filepath.Join(folder, "alpha.snapshot"))
		defer alpha.Close()
		_, packet, err := alpha.Fire("deploy", []byte("v1"), false)
		if err != nil {
			log.Fatal(err)
		}
		for life := 1; life <= 2; life++ {
			beta := mustOpen("beta", filepath.Join(folder, "beta.snapshot"))
			received, err := beta.Receive(uint64(life), packet, false)
			if err != nil {
				log.Fatal(err)
			}
			if received.Event != nil {
				fmt.Printf("life %d handles %s %s\n", life, received.Event.Name, received.Event.Payload)
			} else {
				fmt.Printf("life %d ignores it, as it is below the minimum time: %t\n", life, received.Reason == BelowMinimum)
			}
			beta.Close()
		}
	})
	// Output:
	// life 1 handles deploy v1
	// life 2 ignores it, as it is below the minimum time: true
}

// An agent's state contains the events that another agent missed.
func ExampleAgent_Merge() {
	inFolder(func(folder string) {
		alpha, beta := mustOpen("alpha", filepath.Join(folder, "alpha.snapshot")), mustOpen("beta", filepath.Join(folder, "beta.snapshot"))
		defer alpha.Close()
		defer beta.Close()
		for _, version := range []string{"v1", "v2"} {
			if _, _, err := alpha.Fire("deploy", []byte(version), false); err != nil {
				log.Fatal(err)
			}
		}
		state, err := alpha.LocalState(nil, nil)
		if err != nil {
			log.Fatal(err)
		}
		// If memory runs out, Merge returns OutOfMemory and the events that it accepted before. Handle them too.
		events, err := beta.Merge(state, true)
		for _, event := range events {
			fmt.Printf("%s %s at %d\n", event.Name, event.Payload, event.Time)
		}
		if err != nil {
			log.Fatal(err)
		}
	})
	// Output:
	// deploy v1 at 1
	// deploy v2 at 2
}

// A query is fired, answered, and closed after its deadline.
func ExampleAgent_Query() {
	inFolder(func(folder string) {
		alpha, beta := mustOpen("alpha", filepath.Join(folder, "alpha.snapshot")), mustOpen("beta", filepath.Join(folder, "beta.snapshot"))
		defer alpha.Close()
		defer beta.Close()
		query, err := alpha.Query(1, 7, "load", nil, QueryParams{Timeout: 1000})
		if err != nil {
			log.Fatal(err)
		}
		received, err := beta.Receive(1, query.Packet, false)
		if err != nil {
			log.Fatal(err)
		}
		answer, err := beta.Respond(2, received.Query.Number, []byte("0.12"))
		if err != nil {
			log.Fatal(err)
		}
		if _, err := alpha.Receive(3, answer, false); err != nil {
			log.Fatal(err)
		}
		closed, err := alpha.CloseDue(1002)
		if err != nil {
			log.Fatal(err)
		}
		for _, query := range closed {
			for _, answer := range query.Responses {
				fmt.Printf("%s answered %s\n", answer.From, answer.Payload)
			}
		}
	})
	// Output: beta answered 0.12
}

// PacketErrorOf returns the reason why a packet is not a message, as an error that can be logged.
func ExamplePacketErrorOf() {
	err, isBad := PacketErrorOf([]byte{3, 0x81})
	fmt.Println(isBad, err)
	// Output: true the packet ends inside the value at 2
}
