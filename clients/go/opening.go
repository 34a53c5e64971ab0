package tbclient

import (
	"context"
	"fmt"
	"os"
	"os/exec"
	"path/filepath"
	"time"
)

const (
	// DefaultLockTimeout is how long [Open] waits for a file that another process has open: the child
	// of a program that was killed ends a moment after it.
	DefaultLockTimeout = 5 * time.Second
	// DefaultAheadMax is how far the last time of a ledger that is opened may be ahead of this
	// computer's clock.
	DefaultAheadMax = time.Minute

	programName = "tbd"
)

// openOptions are how a file is opened.
type openOptions struct {
	given       string // the program
	clientsMax  int
	profile     int
	isExisting  bool
	dropsTorn   bool
	lockTimeout time.Duration
	aheadMax    time.Duration
	report      func(line string)
	progress    func(done, size int)
}

// OpenOption changes how [Open] works.
type OpenOption func(*openOptions) error

// WithProgram is the path of tbd. Without it the program is that of the variable TBD, on PATH, or in
// the folder of this executable.
func WithProgram(path string) OpenOption {
	return func(o *openOptions) error {
		if path == "" {
			return invalid("program", "must be a path")
		}
		o.given = path
		return nil
	}
}

// WithExisting makes no file: one that is not there is a fault.
func WithExisting() OpenOption {
	return func(o *openOptions) error { o.isExisting = true; return nil }
}

// WithDropTorn cuts off torn bytes at a start without a copy of them. A file has 16 copies at most.
func WithDropTorn() OpenOption {
	return func(o *openOptions) error { o.dropsTorn = true; return nil }
}

// WithRules sets with which rules a file is made, and was: how many clients it has places for
// (ClientsMax if it is not given), and the profile (1).
func WithRules(clientsMax, profile int) OpenOption {
	return func(o *openOptions) error {
		if clientsMax < 1 || clientsMax > ClientsMax {
			return invalid("clientsMax", "must be 1 to %d, not %d", ClientsMax, clientsMax)
		}
		if profile != 1 && profile != 2 {
			return invalid("profile", "must be 1 or 2, not %d", profile)
		}
		o.clientsMax, o.profile = clientsMax, profile
		return nil
	}
}

// WithLockTimeout sets how long a locked file is waited for.
func WithLockTimeout(timeout time.Duration) OpenOption {
	return func(o *openOptions) error {
		if timeout < 0 {
			return invalid("lockTimeout", "must be 0 at least, not %v", timeout)
		}
		o.lockTimeout = timeout
		return nil
	}
}

// WithAheadMax sets how far the ledger's last time may be ahead of this computer's clock; below 0 it is
// not checked.
func WithAheadMax(ahead time.Duration) OpenOption {
	return func(o *openOptions) error { o.aheadMax = ahead; return nil }
}

// WithReport gets the lines that say what a start did to the file. Without it they go to standard
// error. It is called by another goroutine, as that of WithProgress is.
func WithReport(report func(line string)) OpenOption {
	return func(o *openOptions) error {
		if report == nil {
			return invalid("report", "must be a function, not nil")
		}
		o.report = report
		return nil
	}
}

// WithProgress gets how many MB of how many were read of a large file, and at the end all of them.
func WithProgress(progress func(done, size int)) OpenOption {
	return func(o *openOptions) error {
		if progress == nil {
			return invalid("progress", "must be a function, not nil")
		}
		o.progress = progress
		return nil
	}
}

// Open opens the ledger in a file, which is made if it is not there, and returns its client once the
// file was read, or an error when the context ends before.
//
// The program tbd serves the file as a child of this process. If it is killed, it is started again,
// and calls go on: a call that waits gets its first reply. It ends with this process, also if that is
// killed. Moments are the system's, and never fall.
//
// A file that is open elsewhere is an ErrLocked. A fault of tbd is a [ProgramError], at Open or at a
// call, and the next call starts tbd again.
func Open(ctx context.Context, path string, options ...OpenOption) (*Client, error) {
	if err := testContext(ctx); err != nil {
		return nil, err
	}
	file, err := newLedgerFile(path, options)
	if err != nil {
		return nil, err
	}
	if err := file.open(ctx); err != nil {
		file.Close()
		return nil, err
	}
	c := &Client{sessions: 1, newID: ID, queue: newQueue()}
	c.connect = func() (carrier, error) { return file, nil }
	c.queue.mu.Lock()
	defer c.queue.mu.Unlock()
	return c, c.grow() // now: the worker closes the file
}

func newLedgerFile(path string, options []OpenOption) (*ledgerFile, error) {
	f := &ledgerFile{
		openOptions: openOptions{
			clientsMax:  ClientsMax,
			profile:     1,
			lockTimeout: DefaultLockTimeout,
			aheadMax:    DefaultAheadMax,
			report:      func(line string) { fmt.Fprintln(os.Stderr, line) },
			progress:    func(int, int) {},
		},
		moments: newMoments(wallClock, runningClock),
		ending:  make(chan struct{}),
	}
	if path == "" {
		return nil, invalid("path", "must not be empty")
	}
	for _, option := range options {
		if err := option(&f.openOptions); err != nil {
			return nil, err
		}
	}
	var err error
	// in no folder that this process may leave before a restart
	if f.path, err = filepath.Abs(path); err != nil {
		return nil, err
	}
	f.program, err = findProgram(f.given)
	return f, err
}

// findProgram is the path of tbd.
func findProgram(given string) (string, error) {
	if given == "" {
		given = os.Getenv("TBD")
	}
	name := given
	if name == "" {
		name = programName
	}
	found, err := exec.LookPath(name)
	if err != nil && given == "" {
		if own, fault := os.Executable(); fault == nil {
			found, err = exec.LookPath(filepath.Join(filepath.Dir(own), programName))
		}
	}
	if err != nil {
		return "", fmt.Errorf("%w: %s was not found: install the package telovamish, or give its path by "+
			"WithProgram or the variable TBD", ErrCannotStart, name)
	}
	return filepath.Abs(found)
}
