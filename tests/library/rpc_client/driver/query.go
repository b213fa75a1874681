package main

import (
	"fmt"
	"reflect"
	"sort"
	"time"

	"github.com/hashicorp/serf/client"
)

// answerQueries makes a node answer each query with the name "who", through a separate stream.
func (r *run) answerQueries(answering *agent) {
	one, records := r.dial(answering), make(chan map[string]interface{}, 1024)
	if _, err := one.Stream("query", records); err != nil {
		r.fail(err)
	}
	go func() {
		for query := range records {
			if query["Name"] == "who" {
				// (a late answer fails, and then the query is repeated)
				_ = one.Respond(wholeNumber(query["ID"]), append([]byte(answering.name), binaryPayload...))
			}
		}
	}()
}

// answers has the acks and responses that a query's channels returned, sorted.
type answers struct {
	acks, responses []string
	payloads        []string
	isOver          bool
}

// printQuery fires a query until these acks and responses have arrived, with a longer timeout each time. Each of them
// is a single packet and may be lost.
func (r *run) printQuery(what string, acks, responses []string, params client.QueryParam) {
	var found answers
	for params.Timeout = 500 * time.Millisecond; params.Timeout <= 32*time.Second; params.Timeout *= 2 {
		var err error
		if found, err = queryOnce(r.a, params); err != nil {
			r.printFact(what+", error", err)
			return
		}
		if reflect.DeepEqual(found.acks, acks) && reflect.DeepEqual(found.responses, responses) {
			break
		}
	}
	r.printFact(what+", acks", found.acks)
	r.printFact(what+", responses", found.responses)
	r.printFact(what+", payloads", found.payloads)
	r.printFact(what+", both channels are closed", found.isOver)
}

// queryOnce fires a query, and waits until its channels are closed.
func queryOnce(on *agent, params client.QueryParam) (found answers, err error) {
	acks, responses := make(chan string, 64), make(chan client.NodeResponse, 64)
	params.AckCh, params.RespCh = acks, responses
	if err := on.Query(&params); err != nil {
		return found, err
	}
	timeout := time.After(params.Timeout + limit)
	for acks != nil || responses != nil {
		select {
		case from, more := <-acks:
			if !more {
				acks = nil
				continue
			}
			found.acks = append(found.acks, from)
		case one, more := <-responses:
			if !more {
				responses = nil
				continue
			}
			found.responses = append(found.responses, one.From)
			found.payloads = append(found.payloads, fmt.Sprintf("%s says %q", one.From, one.Payload))
		case <-timeout:
			return found, nil
		}
	}
	found.isOver = true
	for _, all := range [][]string{found.acks, found.responses, found.payloads} {
		sort.Strings(all)
	}
	return found, nil
}
