package handlers

import (
	"context"
	"errors"
	"io"
	"os"
	"os/exec"
	"strconv"
	"syscall"
	"time"

	"kitchenrue.example/serf"
)

// MaxOutput is the maximum number of bytes of a script's output that are kept. They are the last ones.
const MaxOutput = 8 << 10

// killDelay is the time between a script's SIGTERM and its SIGKILL. outputDelay is how long the agent still reads the
// output of processes that a script left behind.
const (
	killDelay   = 5 * time.Second
	outputDelay = time.Second
)

// ErrTimeout is the error of a script that ran too long and was ended, together with the processes that it started.
var ErrTimeout = errors.New("it ran too long and was ended")

// ErrCutOff is the error of a script that was ended because the agent is shutting down.
var ErrCutOff = errors.New("it was ended, since the agent is shutting down")

// lastBytes keeps the last MaxOutput bytes that are written to it.
type lastBytes struct {
	bytes []byte
	total int64
}

func (t *lastBytes) Write(data []byte) (int, error) {
	t.total += int64(len(data))
	if len(data) >= MaxOutput {
		t.bytes = append(t.bytes[:0], data[len(data)-MaxOutput:]...)
		return len(data), nil
	}
	if excess := len(t.bytes) + len(data) - MaxOutput; excess > 0 {
		t.bytes = append(t.bytes[:0], t.bytes[excess:]...)
	}
	t.bytes = append(t.bytes, data...)
	return len(data), nil
}

// scriptResult is the result of running a script.
type scriptResult struct {
	output []byte
	// written is how many bytes the script wrote, including those that were not kept.
	written int64
	// err is set if the exit status wasn't 0.
	err error
}

// kind returns the result of a script that ran.
func (r scriptResult) kind() Result {
	switch {
	case r.err == nil:
		return OK
	case errors.Is(r.err, ErrTimeout):
		return TimedOut
	case errors.Is(r.err, ErrCutOff):
		return CutOff
	}
	return Failed
}

// status returns how the script ended, as a word of serf.HandlerRun.
func (r scriptResult) status() string {
	var exit *exec.ExitError
	switch kind := r.kind(); {
	case kind == OK:
		return "0"
	case kind == TimedOut:
		return serf.RanTimedOut
	case kind == CutOff:
		return serf.RanCutOff
	case errors.As(r.err, &exit):
		if state, ok := exit.Sys().(syscall.WaitStatus); ok && state.Signaled() {
			return serf.RanSignal + strconv.Itoa(int(state.Signal()))
		}
		return strconv.Itoa(exit.ExitCode())
	}
	return serf.RanNotStarted
}

// lastOutput describes the last output of the script.
func (r scriptResult) lastOutput() string {
	if len(r.output) == 0 {
		return "it wrote nothing"
	}
	return "its output ends with " + quoted(r.output, loggedOutput, true)
}

// notStarted is the error of a script that could not be started.
type notStarted struct{ error }

// heldPrefix precedes the command of a script that is held. The shell first reads a line. If there is none, because the
// agent was killed or doesn't release the script, the shell ends before the script's first command. A shell reads no
// byte after a line, so the script gets the rest as its input. The prefix has no newline, so the numbers of lines in
// the shell's messages are those of the script.
const heldPrefix = "read -r SERF_BEGUN || exit; unset SERF_BEGUN; "

// shell is a shell that was started for a script.
type shell struct {
	cmd   *exec.Cmd
	pipes *pipes
	// pendingInput is the input that still has to be written into the pipe, or nil.
	pendingInput []byte
	// began is when the shell was started, or released if it was held.
	began time.Time
	// process describes the shell's process if the shell is held. processErr is set if the process can't be described.
	process    serf.HandlerProcess
	processErr error
	// err is set if the shell could not be started.
	err error
}

// startShell starts a shell for a command. The shell has a separate process group. If isHeld is true, the shell waits
// at its start, and nothing of the command runs before release is called. Call finish or drop afterwards.
func startShell(command string, env []string, stdin []byte, isHeld bool) *shell {
	if isHeld {
		command = heldPrefix + command
	}
	s := &shell{cmd: exec.Command("/bin/sh", "-c", command), pendingInput: stdin, began: time.Now()}
	s.cmd.Env = append(os.Environ(), env...)
	s.cmd.SysProcAttr = &syscall.SysProcAttr{Setpgid: true}
	if s.pipes, s.err = openPipes(s.cmd); s.err != nil {
		return s
	}
	if isHeld {
		s.pendingInput = append([]byte{'\n'}, stdin...)
	} else {
		s.writeShortInput()
	}
	if s.err = s.cmd.Start(); s.err != nil {
		s.pipes.close()
		return s
	}
	s.pipes.closeChildEnds()
	return s
}

// release lets a shell that is held run its script. The shell gets the line for which it waits and the script's input
// in one piece if they fit. So if the agent is killed meanwhile, the script has its whole input, or doesn't run.
func (s *shell) release() {
	if s.err == nil {
		s.began = time.Now()
		s.writeShortInput()
	}
}

// drop ends a shell that is held, so that nothing of its script runs. s may be nil.
func (s *shell) drop() {
	if s == nil || s.err != nil {
		return
	}
	defer s.pipes.close()
	_ = s.cmd.Process.Kill()
	endsWithin(waitInBackground(s.cmd), killDelay)
}

// finish waits until the script ends or ctx does. In the second case, it ends the script. It returns the script's
// result.
func (s *shell) finish(ctx context.Context) scriptResult {
	if s.err != nil {
		return scriptResult{err: notStarted{s.err}}
	}
	defer s.pipes.close()
	if s.pendingInput != nil {
		go s.pipes.writeInput(s.pendingInput)
	}
	outputDone := make(chan *lastBytes, 1)
	go func() {
		var output lastBytes
		// Reading ends when the script ends, or at the deadline below.
		_, _ = io.Copy(&output, s.pipes.outputRead)
		outputDone <- &output
	}()
	err := waitFor(ctx, s.cmd)
	// A process that the script left in the background may hold its output open.
	_ = s.pipes.outputRead.SetReadDeadline(time.Now().Add(outputDelay))
	output := <-outputDone
	return scriptResult{output.bytes, output.total, err}
}

// pipeCapacity is a number of bytes that every pipe can hold before anybody reads them. Nobody can read only a part of
// so many bytes that were written at once.
const pipeCapacity = 4096

// writeShortInput writes the input into the pipe if it fits. finish writes a longer one.
func (s *shell) writeShortInput() {
	if len(s.pendingInput) <= pipeCapacity {
		s.pipes.writeInput(s.pendingInput)
		s.pendingInput = nil
	}
}

// waitFor waits for the command's end. If ctx ends first, it ends the command's process group.
func waitFor(ctx context.Context, cmd *exec.Cmd) error {
	ended := waitInBackground(cmd)
	select {
	case err := <-ended:
		return err
	case <-ctx.Done():
	}
	processGroup := -cmd.Process.Pid
	_ = syscall.Kill(processGroup, syscall.SIGTERM)
	hasEnded := endsWithin(ended, killDelay)
	// This kills the processes of the group that ignored SIGTERM.
	_ = syscall.Kill(processGroup, syscall.SIGKILL)
	if !hasEnded {
		endsWithin(ended, killDelay)
	}
	if errors.Is(ctx.Err(), context.DeadlineExceeded) {
		return ErrTimeout
	}
	return ErrCutOff
}

// waitInBackground returns a channel that receives the command's error when the command has ended.
func waitInBackground(cmd *exec.Cmd) <-chan error {
	ended := make(chan error, 1)
	go func() { ended <- cmd.Wait() }()
	return ended
}

// endsWithin waits at most timeout for the end, and reports whether the end was reached.
func endsWithin(ended <-chan error, timeout time.Duration) bool {
	timer := time.NewTimer(timeout)
	defer timer.Stop()
	select {
	case <-ended:
		return true
	case <-timer.C:
		return false
	}
}

// pipes are the pipes for a script's input and output. Only the agent's ends have deadlines.
type pipes struct {
	stdinRead, stdinWrite, outputRead, outputWrite *os.File
}

// openPipes makes the pipes of a command, and connects the command to them.
func openPipes(cmd *exec.Cmd) (*pipes, error) {
	p := &pipes{}
	var err error
	if p.stdinRead, p.stdinWrite, err = os.Pipe(); err != nil {
		return nil, err
	}
	if p.outputRead, p.outputWrite, err = os.Pipe(); err != nil {
		p.stdinRead.Close()
		p.stdinWrite.Close()
		return nil, err
	}
	cmd.Stdin, cmd.Stdout, cmd.Stderr = p.stdinRead, p.outputWrite, p.outputWrite
	return p, nil
}

// writeInput writes the input. If the script doesn't read it, the write ends when close closes the pipe.
func (p *pipes) writeInput(stdin []byte) {
	_, _ = p.stdinWrite.Write(stdin)
	p.stdinWrite.Close()
}

// closeChildEnds closes the ends of the pipes that only the script uses.
func (p *pipes) closeChildEnds() {
	p.stdinRead.Close()
	p.outputWrite.Close()
}

func (p *pipes) close() {
	for _, file := range []*os.File{p.stdinRead, p.stdinWrite, p.outputRead, p.outputWrite} {
		file.Close()
	}
}
