package tbclient

import (
	"context"
	"encoding/binary"
	"errors"
	"fmt"
	"regexp"
	"strconv"
	"sync"
	"time"
)

const (
	starts    = 5                     // of a child that is killed before it serves
	lockPause = 50 * time.Millisecond // before a locked file is opened again
)

var readingLine = regexp.MustCompile(`^tbd: reading .*, ([0-9]+) of ([0-9]+) MB$`)

// ledgerFile is a Transport over tbd, which serves a file as a child of this process, and is started
// again if it was killed. One worker uses it.
type ledgerFile struct {
	path, program string
	openOptions

	moments *moments
	ending  chan struct{} // is closed when no child is to be started any more

	mu       sync.Mutex // of what follows
	child    *child
	isServed bool // the file is there: a restart never makes another one
	isEnding bool
	lastTime int64
	size     int // MB of a file that is being read, or 0
}

var _ carrier = (*ledgerFile)(nil)

func (f *ledgerFile) words() []string {
	words := []string{f.program, "run", f.path, strconv.Itoa(f.clientsMax), strconv.Itoa(f.profile), "--progress"}
	if f.isExisting || f.isServed {
		words = append(words, "--existing")
	}
	if f.dropsTorn {
		words = append(words, "--drop-torn")
	}
	return words
}

// hear takes a line of the child.
func (f *ledgerFile) hear(line string) {
	if found := readingLine.FindStringSubmatch(line); found != nil {
		done, _ := strconv.Atoi(found[1])
		size, _ := strconv.Atoi(found[2])
		if done < size {
			f.size = size
			f.progress(done, size)
		}
		return
	}
	if f.size > 0 {
		f.progress(f.size, f.size)
		f.size = 0
	}
	found := readyLine.FindStringSubmatch(line)
	if found == nil {
		f.report(line)
		return
	}
	last, _ := strconv.ParseInt(found[1], 10, 64)
	f.moments.goOn(last)
	f.mu.Lock()
	defer f.mu.Unlock()
	f.lastTime, f.isServed = last, true
}

// open waits until the file was read.
func (f *ledgerFile) open(ctx context.Context) error {
	for left := starts - 1; ; left-- {
		_, err := f.serving(ctx)
		switch {
		case err == nil:
			return f.testTime()
		case isLost(err) && left == 0:
			return fmt.Errorf("%w: %v, each of %d times", ErrCannotStart, err, starts)
		case !isLost(err):
			return err
		}
	}
}

// testTime refuses a ledger whose time is far ahead: what is pending would expire at once.
func (f *ledgerFile) testTime() error {
	f.mu.Lock()
	defer f.mu.Unlock()
	if ahead := time.Duration(f.lastTime - wallClock()); f.aheadMax >= 0 && ahead > f.aheadMax {
		return fmt.Errorf("%w: the ledger's last time is %v ahead of this computer's clock", ErrClockJumped, ahead)
	}
	return nil
}

// serving is the child that serves, which is started if there is none. One that finds the file locked
// is started again for some time: the child of a program that was killed ends a moment after it.
func (f *ledgerFile) serving(ctx context.Context) (*child, error) {
	for deadline := time.Now().Add(f.lockTimeout); ; {
		it, err := f.started()
		if err != nil {
			return nil, err
		}
		select {
		case <-it.ready:
			return it, nil
		case <-f.ending:
			it.kill()
			return nil, ErrClosed
		case <-ctx.Done():
			return nil, &CancelledError{Err: ctx.Err()}
		case <-it.ended:
			err = f.lose(it)
		}
		if !errors.Is(err, ErrLocked) || !time.Now().Before(deadline) {
			return nil, err
		}
		if !sleep(ctx, lockPause) {
			return nil, &CancelledError{Err: ctx.Err()}
		}
	}
}

func (f *ledgerFile) started() (*child, error) {
	f.mu.Lock()
	defer f.mu.Unlock()
	if f.isEnding {
		return nil, ErrClosed
	}
	if f.child == nil {
		it, err := startChild(f.words(), f.hear)
		if err != nil {
			return nil, fmt.Errorf("%w: %v", ErrCannotStart, err)
		}
		f.child = it
	}
	return f.child, nil
}

// lose drops a child that ended, and returns why it did.
func (f *ledgerFile) lose(it *child) error {
	f.mu.Lock()
	f.child = nil
	f.mu.Unlock()
	it.end(DefaultTimeout)
	status := it.command.ProcessState.ExitCode()
	switch {
	case status < 0:
		return &LostError{Err: fmt.Errorf("the program was killed (%v)", it.command.ProcessState)}
	case it.fault == "NoMemory":
		return &LostError{Err: errors.New("the program had no memory, and ended")}
	}
	why := &ProgramError{Fault: it.fault, Status: status}
	if why.Name() == "Locked" {
		why.Owner = ownerOf(f.path)
	}
	return why
}

// Exchange sends the frame of a request with its moment, and returns the frame of its reply.
func (f *ledgerFile) Exchange(ctx context.Context, frame []byte) ([]byte, error) {
	asked, err := decodeRequestHeader(frame)
	if err != nil {
		return nil, err
	}
	it, err := f.serving(ctx)
	if err != nil {
		return nil, err
	}
	pair := make([]byte, 8, 8+len(frame))
	binary.LittleEndian.PutUint64(pair, f.moments.next())
	reply, err := it.exchange(append(pair, frame...), asked)
	if errors.Is(err, ErrBadReply) {
		it.kill()
		f.lose(it)
		return nil, err
	}
	if err != nil {
		return nil, f.lose(it)
	}
	return reply, nil
}

// connectNoMore lets no child be started. One that reads its file, and was sent nothing, is killed at
// once, and one that replies to a request in its time.
func (f *ledgerFile) connectNoMore() {
	f.mu.Lock()
	defer f.mu.Unlock()
	if f.isEnding {
		return
	}
	f.isEnding = true
	close(f.ending)
	if f.child == nil {
		return
	}
	select {
	case <-f.child.ready:
		time.AfterFunc(DefaultTimeout, f.child.kill)
	default:
		f.child.kill()
	}
}

// Close ends the child's input, and waits for its end.
func (f *ledgerFile) Close() error {
	f.connectNoMore()
	f.mu.Lock()
	it := f.child
	f.child = nil
	f.mu.Unlock()
	if it != nil {
		it.end(DefaultTimeout)
	}
	return nil
}
