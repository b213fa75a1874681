package app

import (
	"context"
	"errors"
	"fmt"
	"io"
	"os"
	"os/signal"
	"strings"
	"syscall"

	"kitchenrue.example/agent/internal/config"
	"kitchenrue.example/agent/internal/logs"
	"kitchenrue.example/agent/internal/measure"
	"kitchenrue.example/serf"
)

// Main runs an agent until it ends, or runs the command members or the command runs. It returns the exit status, and
// writes each error to errs in a separate line.
func Main(args []string, out, errs io.Writer) int {
	if len(args) > 0 {
		switch args[0] {
		case "members":
			return printMembers(args[1:], out, errs)
		case "runs":
			return printRuns(args[1:], out, errs)
		}
	}
	conf, err := config.Parse(args, out)
	switch {
	case errors.Is(err, config.ErrHelp):
		return 0
	case err != nil:
		return fail(errs, err)
	case conf.ShowVersion:
		fmt.Fprintf(out, "kitchenrue-agent %s\nAgent Protocol: 5 (Understands back to: 2)\n", config.Version)
		return 0
	case conf.CheckOnly:
		if err := check(conf); err != nil {
			return fail(errs, err)
		}
		fmt.Fprintln(out, "The configuration is valid.")
		return 0
	}
	return startAndRun(args, conf, out, errs)
}

// startAndRun starts an agent, which measures itself and joins the cluster, and runs it until it ends. It returns the exit
// status.
func startAndRun(args []string, conf config.Config, out, errs io.Writer) int {
	// From here on, signals don't end the process by themselves.
	signals := make(chan os.Signal, 8)
	signal.Notify(signals, syscall.SIGINT, syscall.SIGTERM, syscall.SIGHUP)
	defer signal.Stop(signals)
	fmt.Fprintln(out, "==> Starting the agent...")
	resolved := conf
	if err := resolved.Resolve(); err != nil {
		return fail(errs, err)
	}
	measures, err := measure.Start(resolved.StatsiteAddr, resolved.StatsdAddr, resolved.PrometheusAddr, errs)
	if err != nil {
		return fail(errs, err)
	}
	defer measures.Close()
	a, err := Start(conf, out)
	if err != nil {
		return fail(errs, err)
	}
	measures.Watch(a.metricFigures)
	a.printBanner(out)
	ctx, cancel := context.WithCancel(context.Background())
	defer cancel()
	if err := a.JoinAtStart(ctx); err != nil {
		cancel()
		return failAll(errs, err, a.Close())
	}
	return a.run(args, signals, out, errs)
}

// statusSnapshotChanged is the exit status if somebody changed the snapshot while the agent was running. A start from
// this snapshot may run handlers again for events that they have already handled. So an operator has to inspect it
// first, and systemd doesn't restart the agent.
const statusSnapshotChanged = 3

// fail writes an error in one line, and returns the exit status.
func fail(errs io.Writer, err error) int {
	fmt.Fprintln(errs, logs.Sentence(errs, "kitchenrue-agent: "+strings.Join(strings.Fields(err.Error()), " ")))
	if errors.Is(err, serf.ErrSnapshotChanged) {
		return statusSnapshotChanged
	}
	return 1
}

// failAll writes each error that isn't nil, and returns the last exit status, or 0 if there is no error.
func failAll(errs io.Writer, errors ...error) int {
	status := 0
	for _, err := range errors {
		if err != nil {
			status = fail(errs, err)
		}
	}
	return status
}

// printBanner prints the node's name, addresses and main settings when the agent has started.
func (a *App) printBanner(out io.Writer) {
	snapshot := a.config.Snapshot
	if snapshot == "" {
		snapshot = "none: after a restart it doesn't know which events it handled"
	}
	fmt.Fprintf(out, "==> The agent is running!\n")
	for _, line := range [][2]string{
		{"Node name", fmt.Sprintf("'%s'", a.config.NodeName)},
		{"Bind addr", fmt.Sprintf("'%s'", a.node.Memberlist().LocalNode().Address())},
		{"RPC addr", fmt.Sprintf("'%s'", a.server.Load().Addr())}, {"Encrypted", fmt.Sprint(a.node.EncryptionEnabled())},
		{"Snapshot", snapshot}, {"Profile", a.config.Profile},
	} {
		fmt.Fprintf(out, "%25s: %s\n", line[0], line[1])
	}
	fmt.Fprint(out, "\n==> Log data will now stream in as it occurs:\n\n")
}

// run waits for the agent's end, and handles signals.
func (a *App) run(args []string, signals <-chan os.Signal, out, errs io.Writer) int {
	for {
		select {
		case err := <-a.endReason:
			closeErr := a.Close()
			if closeErr == err {
				closeErr = nil
			}
			return failAll(errs, err, closeErr)
		case sig := <-signals:
			fmt.Fprintf(out, "==> Caught signal: %v\n", sig)
			if sig == syscall.SIGHUP {
				a.reloadFiles(args, out)
				continue
			}
			if sig == syscall.SIGINT && a.config.SkipLeaveOnInterrupt || sig == syscall.SIGTERM && !a.config.LeaveOnTerminate {
				// Serf's agent has this status too when it ends without a leave.
				if failAll(errs, a.Close()) == statusSnapshotChanged {
					return statusSnapshotChanged
				}
				return 1
			}
			return a.leave(signals, out, errs)
		}
	}
}

// reloadFiles reads the configuration again, and applies its handlers, tags and log level. It prints the names of the
// other settings that have changed. If the configuration can't be read, nothing changes.
func (a *App) reloadFiles(args []string, out io.Writer) {
	conf, err := config.Parse(args, io.Discard)
	if err == nil {
		err = a.Reload(conf)
	}
	if err != nil {
		a.log.Printf("[ERR] agent: the configuration was not reloaded: %v", err)
		return
	}
	fmt.Fprintln(out, "==> Reloaded the configuration.")
	if changed := a.configAsRead.NeedRestart(conf); len(changed) > 0 {
		a.log.Printf("[WARN] agent: these settings have changed, and need a restart: %s", strings.Join(changed, ", "))
	}
}

// leave leaves the cluster, and ends at once if another signal arrives meanwhile.
func (a *App) leave(signals <-chan os.Signal, out, errs io.Writer) int {
	fmt.Fprintln(out, "==> Gracefully shutting down agent...")
	leaveErr := make(chan error, 1)
	go func() { leaveErr <- a.Leave() }()
	for {
		select {
		case err := <-leaveErr:
			return failAll(errs, err, a.Close())
		case sig := <-signals:
			if sig != syscall.SIGHUP {
				fmt.Fprintf(out, "==> Caught signal: %v\n", sig)
				_ = a.Close()
				return 1
			}
		}
	}
}
