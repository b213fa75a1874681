// Serf behind the pipe: it reads calls on standard input and writes replies to standard output (docs/SPEC.md).
package main

import (
	"bufio"
	"os"

	"github.com/hashicorp/serf/serf"
)

func main() {
	agent := serf.NewPipeAgent()
	defer agent.Close()
	calls, replies := bufio.NewReaderSize(os.Stdin, 1<<20), bufio.NewWriter(os.Stdout)
	for {
		line, err := calls.ReadString('\n')
		if err != nil {
			return
		}
		replies.WriteString(agent.Reply(line[:len(line)-1]) + "\n\n")
		if replies.Flush() != nil {
			return
		}
	}
}
