// Package replicated serves requests from an agreed log: it joins the core of a replica with its log, its
// copy, its server and the clocks, as a backend of a host's connections.
package replicated

import (
	"context"
	"errors"
	"sync"
	"sync/atomic"
	"time"

	"telovamish.org/server/internal/agreed"
	"telovamish.org/server/internal/backend"
	"telovamish.org/server/internal/entries"
	"telovamish.org/server/internal/follower"
	"telovamish.org/server/internal/logcopy"
	"telovamish.org/server/internal/memory"
	"telovamish.org/server/internal/replica"
	"telovamish.org/server/internal/report"
)

const (
	programEnded = "ProgramEnded"
	unread       = 256             // entries that were read and are not taken
	lastReport   = 2 * time.Second // for which the report of an end is waited for
)

// event is an event of the core, and what is done once it was taken.
type event struct {
	it   replica.Event
	done func()
}

// Backend is a replica.
type Backend struct {
	core   *replica.Core
	name   string
	slow   time.Duration
	log    agreed.Log
	copy   *Copy
	server *follower.Follower
	lines  *report.Log
	ctx    context.Context
	cancel context.CancelFunc
	work   sync.WaitGroup
	slots  chan struct{} // taken by entries that were read and are not taken
	begun  chan struct{}

	isServing atomic.Bool
	lag       atomic.Int64
	synced    atomic.Uint64 // the copy's position on the disk
	first     atomic.Uint64 // the first entry that the log still has; 0 before that was read
	hasBegun  bool
	wrong     wrong
	ended     *replica.End
	timer     *time.Timer
	reading   *reading
	nodes     map[uint64]context.CancelFunc
	serving   chan error // nil before the server was started

	mu      sync.Mutex
	numbers backend.LogNumbers
	events  []event
	wake    chan struct{}
	isOver  bool
	pending map[*backend.Request]*replica.Request
	askers  map[*replica.Request]*backend.Request
}

// New is a replica over a log and a copy, with a server of these words.
func New(s replica.Settings, words []string, slow time.Duration, log agreed.Log, copy *Copy,
	lines *report.Log) *Backend {
	s.Taken, s.Nodes = copy.taken, log.Nodes()
	copy.taken = nil // the core's
	b := &Backend{
		core:    replica.New(s),
		name:    s.Name,
		slow:    slow,
		log:     log,
		copy:    copy,
		lines:   lines,
		slots:   make(chan struct{}, unread),
		begun:   make(chan struct{}),
		nodes:   map[uint64]context.CancelFunc{},
		wake:    make(chan struct{}, 1),
		pending: map[*backend.Request]*replica.Request{},
		askers:  map[*replica.Request]*backend.Request{},
	}
	b.synced.Store(copy.Mark().Position)
	b.ctx, b.cancel = context.WithCancel(context.Background())
	b.server = follower.New(words, slow, &replies{Backend: b}, lines)
	return b
}

// post has the core take an event.
func (b *Backend) post(it replica.Event) { b.postAll(event{it: it}) }

func (b *Backend) postAll(some ...event) {
	b.mu.Lock()
	b.events = append(b.events, some...)
	b.mu.Unlock()
	select {
	case b.wake <- struct{}{}:
	default:
	}
}

// Run runs until the replica is closed, and returns why it ended otherwise.
func (b *Backend) Run() error {
	defer report.Guard()
	b.post(&replica.Tick{})
	var spare []event
	for b.ended == nil {
		<-b.wake
		b.mu.Lock()
		some := b.events
		b.events = spare[:0]
		b.mu.Unlock()
		for at, it := range some {
			if b.ended == nil {
				b.steps(it.it)
			}
			if it.done != nil {
				it.done()
			}
			some[at] = event{}
		}
		b.count()
		spare = some
	}
	return b.end()
}

// step has the core take an event, and does what it asks for.
func (b *Backend) step(it replica.Event) {
	now := b.clocks()
	for _, action := range b.core.Step(now, it) {
		b.do(now, action)
	}
	b.isServing.Store(b.core.IsServing())
	b.lag.Store(int64(b.core.Lag(now)))
	if !b.hasBegun && b.core.HasBegun() {
		b.hasBegun = true
		close(b.begun)
	}
}

// count notes the core's numbers for those who ask meanwhile.
func (b *Backend) count() {
	now := b.clocks()
	state, rotten := b.core.State(), b.core.Rotten()
	b.mu.Lock()
	defer b.mu.Unlock()
	n := &b.numbers
	n.Position, n.Answered, n.Ahead = state.Position, state.Answered, b.core.LogAhead(now)
	if len(rotten) > 0 {
		n.Rotten = make(map[string]int, len(rotten))
		for node, count := range rotten {
			n.Rotten[node] = count
		}
	}
}

// LogNumbers implements backend.OverLog.
func (b *Backend) LogNumbers() backend.LogNumbers {
	b.mu.Lock()
	its := b.numbers
	b.mu.Unlock()
	its.First = b.first.Load()
	its.CopyPosition, its.CopyBytes = b.synced.Load(), b.copy.Mark().End
	return its
}

// end ends all that is under way, after the core's end.
func (b *Backend) end() error {
	b.isServing.Store(false)
	if b.timer != nil {
		b.timer.Stop()
	}
	if b.ended.Report != nil {
		ctx, cancel := context.WithTimeout(b.ctx, lastReport)
		b.log.Report(ctx, b.name, b.ended.Report)
		cancel()
	}
	isStopped := b.ended.Line == ""
	if isStopped {
		b.copy.Sync(b.copy.Mark())
		b.server.Close()
	} else {
		b.server.Stop()
		b.server.Kill()
	}
	if b.serving != nil {
		<-b.serving
	}
	b.cancel()
	b.mu.Lock()
	b.isOver = true
	left := b.pending
	b.pending = map[*backend.Request]*replica.Request{}
	b.mu.Unlock()
	for it := range left {
		it.From.Answered(nil, programEnded)
	}
	b.work.Wait()
	if isStopped {
		return nil
	}
	return report.End(b.ended.Status, "%s", b.ended.Line)
}

// goes does something in a goroutine, until the replica ends.
func (b *Backend) goes(do func()) {
	b.work.Add(1)
	go func() {
		defer report.Guard()
		defer b.work.Done()
		do()
	}()
}

// Begun implements backend.Backend.
func (b *Backend) Begun() <-chan struct{} { return b.begun }

// IsServing implements backend.Backend.
func (b *Backend) IsServing() bool { return b.isServing.Load() }

// Submit implements backend.Backend.
func (b *Backend) Submit(request *backend.Request) {
	frame := make([]byte, 0, request.Size())
	frame = append(frame, request.Frame...)
	for at, chunk := range request.Rest {
		length := memory.ChunkSize
		if at == len(request.Rest)-1 {
			length = request.Last
		}
		frame = append(frame, chunk[:length]...)
	}
	request.Free()
	its := &replica.Request{Frame: frame}
	b.mu.Lock()
	isOver := b.isOver
	if !isOver {
		b.pending[request], b.askers[its] = its, request
	}
	b.mu.Unlock()
	if isOver {
		request.From.Answered(nil, programEnded)
		return
	}
	b.post(&replica.Frame{Request: its})
}

// Cancel implements backend.Backend.
func (b *Backend) Cancel(request *backend.Request) bool {
	b.mu.Lock()
	its, ok := b.pending[request]
	delete(b.pending, request)
	delete(b.askers, its)
	b.mu.Unlock()
	if ok {
		b.post(&replica.Cancelled{Request: its})
	}
	return ok
}

// answer brings replies to who asked.
func (b *Backend) answer(answers []replica.Answered) {
	for _, it := range answers {
		b.mu.Lock()
		request, ok := b.askers[it.Request]
		delete(b.askers, it.Request)
		delete(b.pending, request)
		b.mu.Unlock()
		if ok {
			request.From.Answered(it.Reply, it.Why)
		}
	}
}

// Commits implements backend.Backend: the ledger has no file of its own.
func (b *Backend) Commits() (int64, bool) { return 0, false }

// Lag implements backend.Backend.
func (b *Backend) Lag() time.Duration { return time.Duration(b.lag.Load()) }

// Renew implements backend.Backend.
func (b *Backend) Renew() error { return b.log.Renew() }

// Stop implements backend.Backend.
func (b *Backend) Stop() { b.server.Stop() }

// Close implements backend.Backend.
func (b *Backend) Close() { b.post(&replica.Stop{}) }

// Kill implements backend.Backend.
func (b *Backend) Kill() {
	b.server.Kill()
	b.cancel()
}

// replies passes on what the server writes.
type replies struct {
	*Backend
	some []event
}

func (r *replies) Began() { r.post(&replica.ServerBegan{}) }

func (r *replies) Lost() { r.post(&replica.ServerLost{}) }

func (r *replies) Replied(position uint64, index uint32, reply []byte) {
	its := append([]byte(nil), reply...)
	r.some = append(r.some, event{it: &replica.ReplyCame{Position: position, Index: index, Reply: its}})
}

func (r *replies) Stands(position uint64, log, its entries.Hash) {
	r.some = append(r.some, event{it: &replica.HashesCame{Position: position, Log: log, Replies: its}})
}

func (r *replies) Read() {
	if len(r.some) > 0 {
		r.postAll(r.some...)
		r.some = r.some[:0]
	}
}

// failed is why a call of the log failed, for the core. It is false if the replica ends by that.
func (b *Backend) failed(err error) (replica.Failure, bool) {
	switch {
	case err == nil:
		return replica.Failure{}, true
	case errors.Is(err, agreed.ErrFull):
		return replica.Failure{Kind: replica.FailedFull, Text: err.Error()}, true
	case errors.Is(err, agreed.ErrNoLog), errors.Is(err, agreed.ErrGone):
		return replica.Failure{Kind: replica.FailedNoLog, Text: err.Error()}, true
	}
	b.fail(err)
	return replica.Failure{}, false
}

// fail ends the replica.
func (b *Backend) fail(err error) {
	if b.ctx.Err() != nil {
		return
	}
	var ended *report.Ended
	if !errors.As(err, &ended) {
		ended = report.End(1, "%v", err)
	}
	b.post(&replica.Failed{Status: ended.Status, Line: ended.Line})
}

var _ backend.Backend = (*Backend)(nil)

// mark is a place of the copy.
type mark = logcopy.Mark
