package app

import (
	"errors"
	"flag"
	"fmt"
	"io"
	"strings"

	"kitchenrue.example/agent/internal/runs"
)

const runsUsage = `usage: kitchenrue-agent runs [-unfinished] [-json] [-event NAME] [-payload TEXT] FILE
       kitchenrue-agent runs [-unfinished] [-json] [-event NAME] [-payload TEXT] NODE=FILE..

Prints what became of the handlers of each event in the snapshot of a node, or in those of several nodes with a column for
each. It only reads the files, so the agents may be running.

  -unfinished     only events that wait, that run, that were cut off, or that a node was never handed
  -json           an object for each event at each node, one on a line
  -event NAME     only events of this name
  -payload TEXT   only events with this payload

The status is 1 if a file can't be read, and 2 if a file says nothing of handlers.
`

// statusUntracked is the exit status of the command runs if a snapshot doesn't record what became of handlers.
const statusUntracked = 2

// optionalFlag returns the function of a flag whose value may be empty. The pointer stays nil if the flag isn't set.
func optionalFlag(to **string) func(string) error {
	return func(value string) error {
		*to = &value
		return nil
	}
}

// printRuns runs the command runs, and returns the exit status.
func printRuns(args []string, out, errs io.Writer) int {
	var filter runs.Filter
	flags := flag.NewFlagSet("runs", flag.ContinueOnError)
	flags.SetOutput(io.Discard)
	flags.BoolVar(&filter.Unfinished, "unfinished", false, "")
	isJSON := flags.Bool("json", false, "")
	flags.Func("event", "", optionalFlag(&filter.Name))
	flags.Func("payload", "", optionalFlag(&filter.Payload))
	err := flags.Parse(args)
	switch {
	case errors.Is(err, flag.ErrHelp):
		fmt.Fprint(out, runsUsage)
		return 0
	case err == nil && flags.NArg() == 0:
		err = errors.New("name the snapshot of a node, or several as NODE=FILE")
	}
	if err != nil {
		return fail(errs, fmt.Errorf("runs: %w", err))
	}
	nodes, status := readNodes(flags.Args(), errs)
	if len(nodes) == 0 {
		return status
	}
	print := runs.Print
	if *isJSON {
		print = runs.PrintJSON
	}
	if err := print(out, nodes, filter); err != nil {
		return fail(errs, fmt.Errorf("runs: %w", err))
	}
	return status
}

// readNodes reads the snapshots that the arguments name. It returns those that can be read, and the exit status. If the
// arguments are wrong, it reads none.
func readNodes(arguments []string, errs io.Writer) (nodes []*runs.Node, status int) {
	var names, paths []string
	for _, argument := range arguments {
		name, path, err := runs.SplitNode(argument)
		if strings.HasPrefix(argument, "-") {
			err = fmt.Errorf("unexpected %q: flags come before the files", argument)
		}
		if err != nil {
			return nil, fail(errs, fmt.Errorf("runs: %w", err))
		}
		names, paths = append(names, name), append(paths, path)
	}
	if err := runs.CheckNames(names); err != nil {
		return nil, fail(errs, fmt.Errorf("runs: %w", err))
	}
	for i, path := range paths {
		node, err := runs.ReadNode(names[i], path)
		if err != nil {
			status = fail(errs, fmt.Errorf("runs: %w", err))
			continue
		}
		if !node.IsTracked {
			fmt.Fprintf(errs, "kitchenrue-agent: runs: %s says nothing of handlers, since its agent runs without -keep-events\n", path)
			if status == 0 {
				status = statusUntracked
			}
		}
		nodes = append(nodes, node)
	}
	return nodes, status
}
