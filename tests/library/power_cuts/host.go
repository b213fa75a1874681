// This host uses the package of bindings/go. It reads its calls from standard input, one on each line.
// tests/library/power_cuts/hosts.py describes them.
package main

import (
	"bufio"
	"encoding/hex"
	"fmt"
	"os"
	"os/signal"
	"runtime"
	"strings"
	"syscall"

	"kitchenrue.example/serfagent"
)

// host has a store, or an agent over one, and the number of the query that was handed out last.
type host struct {
	store     *serfagent.Store
	agent     *serfagent.Agent
	lastQuery uint64
	// tracking is nil unless handlers are tracked.
	tracking *tracking
}

// closeAll closes everything that is open.
func (h *host) closeAll() {
	if h.store != nil {
		h.store.Close()
	}
	if h.agent != nil {
		h.agent.Close()
	}
	if h.tracking != nil {
		h.tracking.close()
	}
	*h = host{}
}

// printEvent prints an event that was handed out, and tracks it if handlers are tracked.
func (h *host) printEvent(event *serfagent.Event) {
	if event != nil {
		fmt.Printf("e %d %x\n", event.Time, event.Name)
		if h.tracking != nil {
			h.tracking.handOut(event)
		}
	}
}

// printPacket prints a packet that is to be sent, if there is one.
func printPacket(packet []byte) {
	if packet != nil {
		fmt.Printf("p %x\n", packet)
	}
}

// printQuery prints a query that was handed out, if there is one, and the ack that is to be sent.
func (h *host) printQuery(pending *serfagent.PendingQuery, ack []byte) {
	if pending != nil {
		h.lastQuery = pending.Number
		fmt.Printf("h %d %d\n", pending.Time, pending.ID)
	}
	printPacket(ack)
}

func (h *host) receive(packet []byte) error {
	received, err := h.agent.Receive(0, packet, false)
	if err != nil {
		return err
	}
	h.printReceived(received)
	return nil
}

func (h *host) printReceived(received *serfagent.Received) {
	h.printEvent(received.Event)
	h.printQuery(received.Query, received.Ack)
}

func (h *host) printFiredQuery(query *serfagent.FiredQuery) {
	printPacket(query.Packet)
	h.printQuery(query.Query, query.Ack)
}

func (h *host) printFiredEvent(event *serfagent.Event, packet []byte) {
	h.printEvent(event)
	printPacket(packet)
}

// burst makes several calls of the agent in one burst: packets to receive, and events and queries to fire.
func (h *host) burst(words string) error {
	if h.agent == nil {
		return serfagent.Empty
	}
	var burst serfagent.Burst
	for _, word := range strings.Fields(words) {
		data, _ := hex.DecodeString(word[1:])
		switch word[0] {
		case 'r':
			burst.Receive(0, data, false)
		case 'f':
			burst.Fire(string(data), nil, false)
		default:
			burst.Query(0, 7, string(data), nil, serfagent.QueryParams{Timeout: 1000, WantAck: true})
		}
	}
	outcomes, err := h.agent.Burst(&burst)
	for _, outcome := range outcomes {
		switch {
		case outcome.Received != nil:
			h.printReceived(outcome.Received)
		case outcome.Fired != nil:
			h.printFiredEvent(outcome.Fired.Event, outcome.Fired.Packet)
		case outcome.FiredQuery != nil:
			h.printFiredQuery(outcome.FiredQuery)
		}
	}
	return err
}

func (h *host) merge(packet []byte, isJoin bool) error {
	events, err := h.agent.Merge(packet, isJoin)
	for _, event := range events {
		h.printEvent(event)
	}
	return err
}

func (h *host) fire(name string) error {
	event, packet, err := h.agent.Fire(name, nil, false)
	if err != nil {
		return err
	}
	h.printFiredEvent(event, packet)
	return nil
}

func (h *host) query(name string) error {
	query, err := h.agent.Query(0, 7, name, nil, serfagent.QueryParams{Timeout: 1000, WantAck: true})
	if err != nil {
		return err
	}
	h.printFiredQuery(query)
	return nil
}

// respond answers the query that was handed out last, once.
func (h *host) respond() error {
	if h.lastQuery == 0 {
		return nil
	}
	number := h.lastQuery
	h.lastQuery = 0
	packet, err := h.agent.Respond(0, number, nil)
	if err != nil {
		return err
	}
	printPacket(packet)
	return nil
}

// runAgentCall makes one call of the open agent.
func (h *host) runAgentCall(call string, data []byte) error {
	if h.agent == nil {
		return serfagent.Empty
	}
	switch call {
	case "r":
		return h.receive(data)
	case "m", "j":
		return h.merge(data, call == "j")
	case "f":
		return h.fire(string(data))
	case "q":
		return h.query(string(data))
	case "p":
		return h.respond()
	case "c":
		if h.tracking != nil {
			return h.tracking.compact(h.agent)
		}
		return h.agent.Compact()
	case "s":
		return h.tracking.begin()
	case "d":
		return h.tracking.end()
	}
	return h.agent.SaveMemberClock()
}

// runLine runs the call of one line of the input.
func (h *host) runLine(call, word string) (err error) {
	data, _ := hex.DecodeString(word)
	switch call {
	case "open":
		h.closeAll()
		h.store, err = serfagent.OpenStore(word)
	case "o", "O":
		h.closeAll()
		settings := serfagent.DefaultSettings()
		settings.KeepEvents, settings.IgnoreOld = call == "O", call == "O"
		h.agent, err = serfagent.Open("host", word, settings)
	case "t":
		h.closeAll()
		h.agent, h.tracking, err = openTracked(word)
	case "close", "x":
		h.closeAll()
	case "b":
		err = h.burst(word)
	case "append":
		err = h.store.Append(data)
	case "replace":
		err = h.store.Replace(data)
	default:
		err = h.runAgentCall(call, data)
	}
	return err
}

// strace makes the nth system call of a thread fail. So all system calls have to be made by the first thread.
func init() { runtime.LockOSThread() }

func main() {
	// If a file may not grow, writing to it then returns an error instead of ending the process.
	signal.Ignore(syscall.SIGXFSZ)
	h := &host{}
	lines := bufio.NewScanner(os.Stdin)
	lines.Buffer(nil, 1<<20)
	for lines.Scan() {
		words := strings.SplitN(lines.Text()+" ", " ", 2)
		if h.runLine(words[0], strings.TrimSuffix(words[1], " ")) == nil {
			fmt.Println("ok")
		} else {
			fmt.Println("Failed")
		}
	}
}
