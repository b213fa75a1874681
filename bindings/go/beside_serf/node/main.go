// This program runs a node for a cluster with Serf's own agents. It uses the package serf. It reads commands from
// standard input, one on each line, and answers each with a line that begins with "ok" or "error".
//
//	node -name NAME -bind ADDRESS -snapshot FILE -log FILE [-record FILE] [-tags K=V,..] [-keep] [-states DURATION]
//
//	join ADDRESS..    joins these addresses
//	fire NAME TEXT    fires an event, and prints its Lamport time
//	query NAME        fires a query, and records the nodes that answer
//	answers           prints the nodes that acked and those that responded since the last time, or "-" for none
//	tags K=V,..       changes the tags
//	members           prints each member as NAME=STATUS
//	stats             prints the node's counts
//	leave             leaves the cluster
//
// The program's log has a line for each event and each query that was handed out, in the format that `serf-replay
// judge` reads, and -record writes what its proved agent did. If KITCHENRUE_FAULTS names a file, that file decides what
// happens to packets (../../serf/faults.go).
package main

import (
	"bufio"
	"flag"
	"fmt"
	"io"
	"log"
	"os"
	"reflect"
	"sort"
	"strings"
	"sync"
	"time"

	"kitchenrue.example/serf"
	"kitchenrue.example/serf/record"
)

// recordLimit is the size in bytes at which a record is rotated. No test is that long.
const recordLimit = 1 << 30

// broadcastTimeout is how long a command waits until its message is sent, and queryTimeout how long a query is open.
const (
	broadcastTimeout = 20 * time.Second
	queryTimeout     = 3 * time.Second
)

// node is the node that this program runs.
type node struct {
	*serf.Serf
	name            string
	handled         io.Writer
	acks, responses nameSet
}

// nameSet has the names of the nodes that have sent something since the last call of take.
type nameSet struct {
	mu    sync.Mutex
	names map[string]bool
}

// add adds a name to the set.
func (n *nameSet) add(name string) {
	n.mu.Lock()
	defer n.mu.Unlock()
	if n.names == nil {
		n.names = map[string]bool{}
	}
	n.names[name] = true
}

// take returns the names in order, separated by commas, and forgets them.
func (n *nameSet) take() string {
	n.mu.Lock()
	defer n.mu.Unlock()
	names := make([]string, 0, len(n.names))
	for name := range n.names {
		names = append(names, name)
	}
	n.names = nil
	if len(names) == 0 {
		return "-"
	}
	sort.Strings(names)
	return strings.Join(names, ",")
}

// check ends the program if err isn't nil.
func check(err error) {
	if err != nil {
		log.Fatal(err)
	}
}

// tagsOf reads tags of the form "k=v,k=v".
func tagsOf(text string) map[string]string {
	tags := map[string]string{}
	for _, pair := range strings.Split(text, ",") {
		if name, value, ok := strings.Cut(pair, "="); ok {
			tags[name] = value
		}
	}
	return tags
}

// escape returns a text in the form in which the log has it.
func escape(text string) string {
	if text == "" {
		return "-"
	}
	return strings.NewReplacer("%", "%25", " ", "%20", "\n", "%0A").Replace(text)
}

// handle logs events and queries, and answers queries with this node's name.
func (n *node) handle(events <-chan serf.Event) {
	for event := range events {
		switch event := event.(type) {
		case serf.UserEvent:
			fmt.Fprintf(n.handled, "event %s %d %s %s\n", n.name, event.LTime, escape(event.Name), escape(string(event.Payload)))
		case *serf.Query:
			// The package doesn't export a query's ID, which distinguishes the queries of one Lamport time.
			id := reflect.ValueOf(event).Elem().FieldByName("pending").Elem().FieldByName("ID").Uint()
			fmt.Fprintf(n.handled, "query %s %d %d\n", n.name, event.LTime, id)
			if err := event.Respond([]byte(n.name)); err != nil {
				log.Print(err)
			}
		}
	}
}

// query fires a query, and records the nodes that answer.
func (n *node) query(name string) error {
	answers, err := n.Query(name, nil, &serf.QueryParam{RequestAck: true, Timeout: queryTimeout})
	if err != nil {
		return err
	}
	go func() {
		for from := range answers.AckCh() {
			n.acks.add(from)
		}
	}()
	go func() {
		for answer := range answers.ResponseCh() {
			n.responses.add(answer.From)
		}
	}()
	return nil
}

// run runs the command of a line, and returns what to print.
func (n *node) run(line string) (string, error) {
	words := strings.Fields(line)
	switch {
	case len(words) > 1 && words[0] == "join":
		count, err := n.Join(words[1:], false)
		return fmt.Sprint(count), err
	case len(words) == 3 && words[0] == "fire":
		time, err := n.Fire(words[1], []byte(words[2]), false)
		return fmt.Sprint(time), err
	case len(words) == 2 && words[0] == "query":
		return "", n.query(words[1])
	case line == "answers":
		return n.acks.take() + " " + n.responses.take(), nil
	case len(words) == 2 && words[0] == "tags":
		return "", n.SetTags(tagsOf(words[1]))
	case line == "members":
		var members []string
		for _, member := range n.Members() {
			members = append(members, fmt.Sprintf("%s=%v", member.Name, member.Status))
		}
		return strings.Join(members, " "), nil
	case line == "stats":
		return fmt.Sprint(n.Stats()), nil
	case line == "leave":
		return "", n.Leave()
	}
	return "", fmt.Errorf("no such command: %q", line)
}

// recorder returns the hook by which a node records its agent.
func recorder(name, path string) func(serf.Agent, serf.Opening) (serf.Agent, error) {
	file, err := record.Open(path, recordLimit)
	check(err)
	return func(agent serf.Agent, opening serf.Opening) (serf.Agent, error) {
		return record.Start(agent, file, name, opening, log.Default())
	}
}

// start starts the node that the flags describe.
func start() *node {
	config := serf.DefaultConfig()
	list := config.MemberlistConfig
	flag.StringVar(&config.NodeName, "name", "", "the node's name")
	flag.StringVar(&list.BindAddr, "bind", "", "the address at which it listens")
	flag.StringVar(&config.SnapshotPath, "snapshot", "", "its snapshot's file")
	flag.BoolVar(&config.KeepEvents, "keep", false, "keep events in the snapshot")
	flag.DurationVar(&list.PushPullInterval, "states", list.PushPullInterval, "how often it exchanges its state with another node")
	handled, tags := flag.String("log", "", "the log of events and queries"), flag.String("tags", "", "its tags, as K=V,..")
	recordPath := flag.String("record", "", "the record of its agent")
	flag.Parse()
	log.SetPrefix(config.NodeName + " ")
	file, err := os.OpenFile(*handled, os.O_CREATE|os.O_APPEND|os.O_WRONLY, 0o600)
	check(err)
	events := make(chan serf.Event)
	config.EventCh, config.Tags, config.BroadcastTimeout = events, tagsOf(*tags), broadcastTimeout
	config.Logger, config.LogOutput = log.Default(), nil
	if *recordPath != "" {
		config.Wrap = recorder(config.NodeName, *recordPath)
	}
	n := &node{name: config.NodeName, handled: file}
	go n.handle(events)
	n.Serf, err = serf.Create(config)
	check(err)
	return n
}

func main() {
	n := start()
	fmt.Println("ok")
	for lines := bufio.NewScanner(os.Stdin); lines.Scan(); {
		if result, err := n.run(lines.Text()); err != nil {
			fmt.Println("error", err)
		} else {
			fmt.Println("ok", result)
		}
	}
	check(n.Shutdown())
}
