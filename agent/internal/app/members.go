package app

import (
	"errors"
	"flag"
	"fmt"
	"io"
	"os"

	"kitchenrue.example/agent/internal/rpc"
)

const membersUsage = `usage: kitchenrue-agent members [-rpc-addr ADDRESS] [-rpc-auth TOKEN]

Prints the members that a running agent knows: the name, the address, the status and the tags of each. The defaults are
the environment variables SERF_RPC_ADDR and SERF_RPC_AUTH, and 127.0.0.1:7373.
`

// printMembers runs the command members, and returns the exit status.
func printMembers(args []string, out, errs io.Writer) int {
	address := os.Getenv("SERF_RPC_ADDR")
	if address == "" {
		address = "127.0.0.1:7373"
	}
	flags := flag.NewFlagSet("members", flag.ContinueOnError)
	flags.SetOutput(io.Discard)
	flags.StringVar(&address, "rpc-addr", address, "")
	token := flags.String("rpc-auth", os.Getenv("SERF_RPC_AUTH"), "")
	err := flags.Parse(args)
	switch {
	case errors.Is(err, flag.ErrHelp):
		fmt.Fprint(out, membersUsage)
		return 0
	case err == nil && flags.NArg() > 0:
		err = fmt.Errorf("unexpected argument %q", flags.Arg(0))
	case err == nil:
		err = rpc.AskMembers(address, *token, out)
	}
	if err != nil {
		return fail(errs, fmt.Errorf("members: %w", err))
	}
	return 0
}
