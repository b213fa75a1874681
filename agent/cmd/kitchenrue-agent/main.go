// Command kitchenrue-agent is an agent for a Serf cluster that runs its handlers at most once for each event.
// docs/AGENT.md describes its use.
package main

import (
	"os"

	"kitchenrue.example/agent/internal/app"
)

func main() { os.Exit(app.Main(os.Args[1:], os.Stdout, os.Stderr)) }
