// Package process runs commands with pipes: their start, what they said last, and how they ended.
package process

import (
	"errors"
	"os"
	"os/exec"
	"syscall"
	"time"
	"unsafe"

	"telovamish.org/server/internal/report"
)

// LastWords is for how long what a command wrote may still come when it has ended.
const LastWords = time.Second

// Process is a command that runs, with its pipes.
type Process struct {
	Stdin          *os.File
	Stdout, Stderr *Incoming
	Exited         chan struct{} // closed when it has ended

	cmd    *exec.Cmd
	status int
}

// Wanting is why a command does not start: something is missing that there may be enough of later.
type Wanting struct{ *report.Ended }

// Unwrap is why a program ends.
func (w *Wanting) Unwrap() error { return w.Ended }

// Start runs a command, in a session of its own. onEnd, if it is not nil, is called when the command has
// ended, while the system still reports what it did.
func Start(words []string, onEnd func(*Process)) (*Process, error) {
	p, err := start(words)
	if err != nil {
		reason := report.Why(err)
		if errors.Is(err, exec.ErrNotFound) {
			reason = "PATH has no such program"
		}
		why := report.End(1, "%s does not start: %s", words[0], reason)
		for _, it := range []syscall.Errno{syscall.EMFILE, syscall.ENFILE, syscall.EAGAIN, syscall.ENOMEM} {
			if errors.Is(err, it) {
				return nil, &Wanting{why}
			}
		}
		return nil, why
	}
	go p.wait(onEnd)
	return p, nil
}

func start(words []string) (*Process, error) {
	var files []*os.File
	var fault error
	pipe := func() (*os.File, *os.File) {
		out, in, err := os.Pipe()
		if err != nil {
			fault = err
			return nil, nil
		}
		files = append(files, out, in)
		return out, in
	}
	theirIn, in := pipe()
	out, theirOut := pipe()
	said, theirSaid := pipe()
	p := &Process{
		Stdin:  in,
		Stdout: &Incoming{File: out},
		Stderr: &Incoming{File: said},
		Exited: make(chan struct{}),
		cmd:    exec.Command(words[0], words[1:]...),
	}
	if fault == nil {
		Widen(in)
		Widen(out)
		p.cmd.Stdin, p.cmd.Stdout, p.cmd.Stderr = theirIn, theirOut, theirSaid
		p.cmd.SysProcAttr = &syscall.SysProcAttr{Setsid: true}
		fault = p.cmd.Start()
	}
	if fault != nil {
		for _, it := range files {
			it.Close()
		}
		return nil, fault
	}
	theirIn.Close()
	theirOut.Close()
	theirSaid.Close()
	return p, nil
}

// wait waits until the process has ended. What it started may hold its pipes open beyond that.
func (p *Process) wait(onEnd func(*Process)) {
	defer report.Guard()
	if onEnd != nil {
		p.untilEnded()
		onEnd(p)
	}
	p.cmd.Wait()
	if state, ok := p.cmd.ProcessState.Sys().(syscall.WaitStatus); ok {
		p.status = state.ExitStatus()
		if state.Signaled() {
			p.status = -int(state.Signal())
		}
	}
	close(p.Exited)
}

// untilEnded waits until the process has ended, and leaves it to the system.
func (p *Process) untilEnded() {
	const byPid, ended, noReap = 1, 4, 0x01000000 // P_PID, WEXITED, WNOWAIT
	var info [128]byte
	for {
		_, _, err := syscall.Syscall6(syscall.SYS_WAITID, byPid, uintptr(p.Pid()),
			uintptr(unsafe.Pointer(&info)), ended|noReap, 0, 0)
		if err != syscall.EINTR {
			return
		}
	}
}

// Status is the exit status of a process that has ended, or the number of the signal that ended it,
// negative.
func (p *Process) Status() int {
	<-p.Exited
	return p.status
}

// Pid is the number of the process.
func (p *Process) Pid() int { return p.cmd.Process.Pid }

// Kill ends the process, and what it started, at once.
func (p *Process) Kill() error {
	if err := syscall.Kill(-p.Pid(), syscall.SIGKILL); err == syscall.EPERM {
		return report.End(1, "process %d is another user's, and cannot be killed", p.Pid())
	}
	return nil
}

// End waits until a process that is given no more has ended, and what it started: until pipes, which are
// read, are closed. It kills them if they do not end.
func (p *Process) End(patience time.Duration, pipes ...<-chan struct{}) error {
	defer p.Close()
	areClosed := func(wait time.Duration) bool {
		until := time.Now().Add(wait)
		for _, it := range pipes {
			if !Within(it, time.Until(until)) {
				return false
			}
		}
		return true
	}
	if Within(p.Exited, patience) && areClosed(LastWords) {
		return nil
	}
	if err := p.Kill(); err != nil { // with what it started, which may have the ledger's file open
		return err
	}
	areClosed(LastWords)
	p.Close()
	areClosed(time.Hour)
	<-p.Exited
	return nil
}

// Close closes the pipes.
func (p *Process) Close() {
	p.Stdin.Close()
	p.Stdout.Close()
	p.Stderr.Close()
}
