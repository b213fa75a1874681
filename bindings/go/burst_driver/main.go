// This program makes bursts, and some of them run out of memory. tests/library/embed/burst_driver.c describes its
// output.
package main

import (
	"fmt"
	"log"
	"os"
	"path/filepath"
	"strings"

	"kitchenrue.example/serfagent"
)

// check ends the program if err isn't nil.
func check(err error) {
	if err != nil {
		log.Fatal(err)
	}
}

// open opens an agent on its snapshot in the program's folder.
func open(name string) *serfagent.Agent {
	agent, err := serfagent.Open(name, filepath.Join(os.Args[1], name+".snapshot"), serfagent.DefaultSettings())
	check(err)
	return agent
}

// describeQuery adds to a text whether the query was handed out and acked.
func describeQuery(text string, query *serfagent.PendingQuery, ack []byte) string {
	if query != nil {
		text += fmt.Sprintf(" %d %s handed", query.Time, query.Name)
	}
	if ack != nil {
		text += " acked"
	}
	return text
}

// describe returns a line for the outcome of a call.
func describe(outcome serfagent.Outcome) string {
	if code, ok := outcome.Err.(serfagent.Code); ok {
		return fmt.Sprintf("refused %d", uint32(code))
	}
	if fired := outcome.Fired; fired != nil {
		return fmt.Sprintf("fired %d %s", fired.Event.Time, fired.Event.Name)
	}
	if query := outcome.FiredQuery; query != nil {
		return describeQuery("asked", query.Query, query.Ack)
	}
	text, received := "", outcome.Received
	switch received.Kind {
	case serfagent.NewEvent:
		text = fmt.Sprintf("event %d %s", received.Event.Time, received.Event.Name)
	case serfagent.NewQuery:
		text = describeQuery("query", received.Query, received.Ack)
	case serfagent.Ack:
		text = fmt.Sprintf("ack %s", received.Answer.From)
	case serfagent.Response:
		text = fmt.Sprintf("response %s %s", received.Answer.From, received.Answer.Payload)
	case serfagent.Ignored:
		text = fmt.Sprintf("ignored %d", received.Reason)
	case serfagent.Foreign:
		text = fmt.Sprintf("foreign %d", received.Foreign)
	case serfagent.PushPull:
		text = "state"
	}
	if received.Rebroadcast {
		text += " sent on"
	}
	return text
}

// runBurst makes a burst and prints its outcomes.
func runBurst(agent *serfagent.Agent, burst *serfagent.Burst) []serfagent.Outcome {
	outcomes, err := agent.Burst(burst)
	result := "ok"
	if err == serfagent.OutOfMemory {
		result = fmt.Sprintf("out of memory %d", len(outcomes))
		// The burst may be filled again. The agent refuses another burst until these outcomes are read.
		burst.Reset()
		unread, err := agent.UnreadOutcomes()
		check(err)
		if unread > 0 {
			if _, err := agent.Burst(burst); err != serfagent.ErrUnread {
				log.Fatal("a burst was made while outcomes were unread: ", err)
			}
		}
		more, err := agent.Outcomes()
		check(err)
		outcomes = append(outcomes, more...)
	} else {
		check(err)
	}
	if unread, err := agent.UnreadOutcomes(); err != nil || unread != 0 {
		log.Fatal("outcomes are unread: ", unread, err)
	}
	for _, outcome := range outcomes {
		fmt.Println(describe(outcome))
	}
	fmt.Println(result)
	return outcomes
}

// runStarved runs two bursts of calls on the third agent, which may run out of memory.
func runStarved(third *serfagent.Agent, eventPackets [][]byte, loadPacket []byte) {
	for i := 0; i < 2; i++ {
		var burst serfagent.Burst
		for _, packet := range eventPackets {
			burst.Receive(5, packet, false)
		}
		burst.Receive(5, loadPacket, false)
		burst.Fire("own", nil, false)
		filters := [][]byte{[]byte("\x00\x91\xa5" + []string{"other", "third"}[i])}
		burst.Query(5, 9, "load", nil, serfagent.QueryParams{Timeout: 9, WantAck: true, Filters: filters})
		burst.Receive(5, eventPackets[0], false)
		runBurst(third, &burst)
	}
}

// runAll runs bursts with calls of each kind, refused ones too, on the receiver, and then on the sender.
func runAll(sender, receiver *serfagent.Agent, eventPackets [][]byte, loadPacket, state []byte) {
	var burst serfagent.Burst
	for _, packet := range [][]byte{
		eventPackets[0], nil, eventPackets[1], eventPackets[0], []byte("\x03\x81\xa5LTim"), loadPacket, {0}, state,
	} {
		burst.Receive(5, packet, false)
	}
	burst.Fire("own", nil, false)
	burst.Fire(strings.Repeat("\x00", 600), nil, false)
	burst.Query(5, 9, "load", nil, serfagent.QueryParams{Timeout: -1, WantAck: true})
	filters := [][]byte{[]byte("\x00\x91\xa5other")}
	burst.Query(5, 9, "load", nil, serfagent.QueryParams{Timeout: 9, WantAck: true, Filters: filters})
	burst.Receive(5, eventPackets[2], false)
	outcomes := runBurst(receiver, &burst)
	reply, err := receiver.Respond(5, outcomes[5].Received.Query.Number, []byte("yes"))
	check(err)
	burst.Reset()
	runBurst(sender, &burst)
	burst.Receive(5, reply, false)
	burst.Receive(5, reply, false)
	for i := 0; i < 5; i++ {
		burst.Fire("again", nil, false)
	}
	runBurst(sender, &burst)
}

func main() {
	if len(os.Args) != 2 {
		log.Fatal("burst_driver FOLDER")
	}
	sender := open("one")
	var eventPackets [][]byte
	for i := 0; i < 5; i++ {
		_, packet, err := sender.Fire(fmt.Sprintf("e%d", i), nil, false)
		check(err)
		eventPackets = append(eventPackets, packet)
	}
	load, err := sender.Query(1, 8, "load", nil, serfagent.QueryParams{Timeout: 1000, WantAck: true})
	check(err)
	state, err := sender.LocalState(nil, nil)
	check(err)
	third, receiver := open("third"), open("other")
	runStarved(third, eventPackets, load.Packet)
	runAll(sender, receiver, eventPackets, load.Packet, state)
	check(third.Close())
	check(receiver.Close())
	check(sender.Close())
}
