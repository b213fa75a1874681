package handlers

import (
	"fmt"
	"path"
	"strings"
	"sync/atomic"

	"github.com/armon/go-metrics"

	"kitchenrue.example/serf"
)

// Result is how the run of a handler ended.
type Result int

// The results. NeverRun counts a handler that was not started although its event was handed out.
const (
	OK Result = iota
	Failed
	TimedOut
	CutOff
	NeverRun
	resultCount
)

var resultNames = [resultCount]string{"ok", "failed", "timed_out", "cut_off", "never_run"}

func (r Result) String() string { return resultNames[r] }

// counts has the number of runs with each result, for all handlers together.
type counts [resultCount]atomic.Int64

// resultsKey is the name of the metric that counts the results of each handler.
var resultsKey = []string{"agent", "handler", "results"}

// labelsOf returns the labels of the metric that counts this result of a script.
func labelsOf(script Script, result Result) []metrics.Label {
	return []metrics.Label{{Name: "handler", Value: script.Name}, {Name: "result", Value: result.String()}}
}

// countResult counts a result, in total and for the script.
func (c *counts) countResult(script Script, result Result) {
	c[result].Add(1)
	metrics.IncrCounterWithLabels(resultsKey, 1, labelsOf(script, result))
}

// announceZeros reports each result of the scripts as 0, so that a monitor sees the first one as an increase.
func announceZeros(scripts []Script) {
	for _, script := range scripts {
		for result := OK; result < resultCount; result++ {
			metrics.IncrCounterWithLabels(resultsKey, 0, labelsOf(script, result))
		}
	}
}

// Results returns how many runs of handlers had each result.
func (r *Runner) Results() map[Result]int64 {
	totals := map[Result]int64{}
	for result := OK; result < resultCount; result++ {
		totals[result] = r.counts[result].Load()
	}
	return totals
}

// maxScriptName is the maximum length of a handler's name in bytes.
const maxScriptName = 64

// nameOfCommand returns a short name for a command: the name of its program, without the folder. It skips assignments
// of variables, exec and sudo.
func nameOfCommand(command string) string {
	name := ""
	for _, word := range strings.Fields(command) {
		if name = word; word != "exec" && word != "sudo" && !strings.Contains(word, "=") {
			break
		}
	}
	name = strings.Map(func(r rune) rune {
		if r >= 'a' && r <= 'z' || r >= 'A' && r <= 'Z' || r >= '0' && r <= '9' || strings.ContainsRune("._-", r) {
			return r
		}
		return '_'
	}, path.Base(name))
	if len(name) > maxScriptName {
		name = name[:maxScriptName]
	}
	return name
}

// nameScripts names each script after its command. Further scripts with the same name get a number.
func nameScripts(scripts []Script) {
	taken := map[string]bool{}
	for i := range scripts {
		name := nameOfCommand(scripts[i].Command)
		scripts[i].Name = name
		for number := 2; taken[scripts[i].Name]; number++ {
			scripts[i].Name = fmt.Sprint(name, "-", number)
		}
		taken[scripts[i].Name] = true
	}
}

// The maximum number of bytes of a payload, and of a handler's output, in a line of the log, and the maximum number of
// members that a line names.
const (
	loggedPayload = 256
	loggedOutput  = 1024
	loggedMembers = 8
)

// quoted returns data in quotes. If data is longer than max bytes, quoted returns only its first max bytes, or the last
// ones if isEnd is true.
func quoted(data []byte, max int, isEnd bool) string {
	switch {
	case len(data) <= max:
		return fmt.Sprintf("%q", data)
	case isEnd:
		return fmt.Sprintf("..%q", data[len(data)-max:])
	}
	return fmt.Sprintf("%q.. (%d bytes)", data[:max], len(data))
}

// describe returns an event with its time and payload, or with its members.
func describe(e serf.Event) string {
	if event, ok := userEvent(e); ok {
		return fmt.Sprintf("%s (time %d, payload %s)", e, event.LTime, quoted(event.Payload, loggedPayload, false))
	}
	switch e := e.(type) {
	case *serf.Query:
		return fmt.Sprintf("%s (time %d, payload %s)", e, e.LTime, quoted(e.Payload, loggedPayload, false))
	case serf.MemberEvent:
		names := make([]string, 0, loggedMembers)
		for i, member := range e.Members {
			if i == loggedMembers {
				names = append(names, fmt.Sprint("and ", len(e.Members)-i, " more"))
				break
			}
			names = append(names, member.Name)
		}
		return fmt.Sprintf("%s (%s)", e, strings.Join(names, ", "))
	}
	return e.String()
}
