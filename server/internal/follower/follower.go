// Package follower runs a replica's server process, which is given the entries of the log, in order.
//
// The process follows the log, as `tbd follow` does: it takes entries with their positions, refuses a gap,
// a repeat and a damaged entry, writes each reply with its place in the log, and reports the hashes of the
// log and of the replies after each entry. If a signal ended it, a new one is started, which is given the
// entries from the first one on. Which entries it is given, and whether its replies are right, is for its
// Handler to decide.
package follower

import (
	"errors"
	"sync"
	"time"

	"telovamish.org/server/internal/entries"
	"telovamish.org/server/internal/process"
	"telovamish.org/server/internal/report"
)

const spareMax = 1 << 18 // bytes that are kept for the next entries

// Handler takes what the process does. Its calls come one after another.
type Handler interface {
	// Began: a process runs, which is to be given entries from the first one on.
	Began()
	// Replied has a reply to a pair of an entry. Its bytes are another's afterwards.
	Replied(position uint64, index uint32, reply []byte)
	// Stands has the hashes of the log and of the replies after an entry.
	Stands(position uint64, log, replies entries.Hash)
	// Read: all that has come by now was passed on.
	Read()
	// Lost: the process has ended by a signal, and is started again.
	Lost()
}

// Follower is the server process of a replica.
type Follower struct {
	words    []string
	patience time.Duration
	handler  Handler
	log      *report.Log
	stopping chan struct{} // closed when the replica is to end
	wake     chan struct{} // comes when there is more to write

	mu       sync.Mutex
	process  *process.Process
	isClosed bool
	held     []byte // what is to be written
}

// New is a server of these words. patience is how long it is waited for at its end.
func New(words []string, patience time.Duration, handler Handler, log *report.Log) *Follower {
	return &Follower{
		words:    words,
		patience: patience,
		handler:  handler,
		log:      log,
		stopping: make(chan struct{}),
		wake:     make(chan struct{}, 1),
	}
}

// Run runs the command until it is closed, and again if a signal ended it. It returns why it ended
// otherwise.
func (f *Follower) Run() error {
	defer report.Guard()
	var restarts process.Restarts
	for lives := 0; ; lives++ {
		began := time.Now()
		ended, err := f.runOnce(lives)
		if err != nil || ended == "" {
			return err
		}
		f.handler.Lost()
		pause := restarts.Next(time.Since(began))
		f.log.Say(report.Warning, "%s, and is started again in %g s", ended, pause.Seconds())
		if process.Within(f.stopping, pause) {
			return report.End(1, "%s, and is not started again", ended)
		}
	}
}

// runOnce runs the command once, and returns how it ended if it is started again.
func (f *Follower) runOnce(lives int) (string, error) {
	status, line, err := f.live()
	var want *process.Wanting
	switch {
	case errors.As(err, &want) && lives > 0:
		return want.Line, nil
	case err != nil:
		return "", err
	case f.hasClosed() && status == 0:
		return "", nil
	}
	return f.endBySignal(status, line)
}

// endBySignal is how the command ended, if it may be started again.
func (f *Follower) endBySignal(status int, line string) (string, error) {
	why, bySignal := process.Ended(f.words[0], status, line)
	if !bySignal || f.isStopping() {
		return "", why
	}
	return why.Line, nil
}

// live runs the command from its start to its end. It returns its status and its last line.
func (f *Follower) live() (int, string, error) {
	p, err := process.Start(f.words, nil)
	if err != nil {
		return 0, "", err
	}
	said := process.Goes(func() string { return p.Stderr.Tail(nil) })
	f.begin(p)
	r := &reader{handler: f.handler, program: f.words[0]}
	reading := process.Goes(func() error { return f.killIf(p, r.read(p.Stdout)) })
	writing := process.Goes(func() struct{} { f.write(p); return struct{}{} })
	select {
	case <-reading.Done:
	case <-p.Exited:
	case <-writing.Done: // it takes no more, and may live on
	}
	process.Within(reading.Done, process.LastWords) // what it wrote before it ended is read to its end
	f.leave(p)
	r.end()
	if err := p.End(f.patience, reading.Done, said.Done, writing.Done); err != nil {
		return 0, "", err
	}
	return p.Status(), process.LastLine(said.Result), reading.Result
}

// killIf kills a process if there is a fault, and returns that.
func (f *Follower) killIf(p *process.Process, fault error) error {
	if fault != nil {
		if err := p.Kill(); err != nil {
			return err
		}
	}
	return fault
}

// begin has a new process be given entries.
func (f *Follower) begin(p *process.Process) {
	f.mu.Lock()
	f.process, f.held = p, nil
	f.mu.Unlock()
	f.handler.Began()
}

// leave has no more be given to a process that ended, or is to end.
func (f *Follower) leave(p *process.Process) {
	f.mu.Lock()
	f.process = nil
	f.mu.Unlock()
	f.awake() // its writer ends
	p.Stdin.Close()
}

func (f *Follower) hasClosed() bool {
	f.mu.Lock()
	defer f.mu.Unlock()
	return f.isClosed
}

func (f *Follower) isStopping() bool { return process.Within(f.stopping, 0) }

// Stop has the command not be started again.
func (f *Follower) Stop() {
	f.mu.Lock()
	defer f.mu.Unlock()
	if !f.isStopping() {
		close(f.stopping)
	}
}

// Close ends the log. The command then replies to what it was given, and ends.
func (f *Follower) Close() {
	f.Stop()
	f.mu.Lock()
	f.isClosed = true
	f.mu.Unlock()
	f.awake()
}

// Kill ends the command at once.
func (f *Follower) Kill() {
	f.mu.Lock()
	defer f.mu.Unlock()
	if f.process != nil {
		f.process.Kill()
	}
}
