// Package inmemory has an agreed log in memory, for tests: with nodes whose disks rot, calls that fail,
// and a clock of its own.
package inmemory

import (
	"context"
	"sync"

	"telovamish.org/server/internal/agreed"
)

// Engine is what all replicas of a log share.
type Engine struct {
	mu        sync.Mutex
	grown     chan struct{} // closed when there is more to read
	head      []byte
	items     []agreed.Item // each at the place that is its index and 1
	made      map[name]agreed.Place
	reports   map[string][]byte
	position  uint64 // up to which it was trimmed
	start     agreed.Place
	isRemoved map[agreed.Place]bool

	nodes   []string
	changed map[seen][]byte // what a node has in another way: nil if it has lost it
	away    map[string]bool
	failing error
	full    string
	clock   func() int64
}

// name is what an entry is appended by.
type name struct {
	writer string
	number uint64
}

// seen is a place of one node.
type seen struct {
	node  string
	place agreed.Place
}

// New is an engine with these nodes.
func New(nodes ...string) *Engine {
	return &Engine{
		grown:     make(chan struct{}),
		made:      map[name]agreed.Place{},
		reports:   map[string][]byte{},
		isRemoved: map[agreed.Place]bool{},
		nodes:     nodes,
		changed:   map[seen][]byte{},
		away:      map[string]bool{},
	}
}

// Fail has all calls fail from now on, or none if err is nil.
func (e *Engine) Fail(err error) { e.change(func() { e.failing = err }) }

// Rot has a node have other bytes at a place, or nothing if data is nil.
func (e *Engine) Rot(node string, place agreed.Place, data []byte) {
	e.change(func() { e.changed[seen{node, place}] = data })
}

// SetAway has a node not reply when it is read by itself.
func (e *Engine) SetAway(node string, isAway bool) { e.change(func() { e.away[node] = isAway }) }

// SetClock gives the engine a clock.
func (e *Engine) SetClock(clock func() int64) { e.change(func() { e.clock = clock }) }

// Fill says why the engine takes no more, or "" if it does.
func (e *Engine) Fill(why string) { e.change(func() { e.full = why }) }

// Put appends bytes that no replica wrote.
func (e *Engine) Put(data []byte) {
	e.change(func() { e.put(agreed.Item{Data: data}) })
}

func (e *Engine) change(do func()) {
	e.mu.Lock()
	defer e.mu.Unlock()
	do()
}

// put appends an item, and has readers look.
func (e *Engine) put(it agreed.Item) agreed.Place {
	it.Place = agreed.Place(len(e.items) + 1)
	e.items = append(e.items, it)
	close(e.grown)
	e.grown = make(chan struct{})
	return it.Place
}

// Open is the log as a replica has it.
func (e *Engine) Open() *Log {
	return &Log{engine: e, closed: make(chan struct{}), moved: make(chan struct{}, 1)}
}

// Log is an agreed.Log over an Engine.
type Log struct {
	engine *Engine
	closed chan struct{}
	once   sync.Once
	moved  chan struct{}

	reading int // which node, guarded by the engine's lock
}

// begin takes the engine's lock, or returns why a call fails.
func (l *Log) begin(ctx context.Context) error {
	select {
	case <-l.closed:
		return agreed.Failed(agreed.ErrNoLog, "the log is closed")
	case <-ctx.Done():
		return agreed.Failed(agreed.ErrNoLog, ctx.Err().Error())
	default:
	}
	l.engine.mu.Lock()
	if err := l.engine.failing; err != nil {
		l.engine.mu.Unlock()
		return err
	}
	return nil
}

// write is the same of a call that needs room.
func (l *Log) write(ctx context.Context) error {
	if err := l.begin(ctx); err != nil {
		return err
	}
	if why := l.engine.full; why != "" {
		l.engine.mu.Unlock()
		return agreed.Failed(agreed.ErrFull, why)
	}
	return nil
}

// Head implements agreed.Log.
func (l *Log) Head(ctx context.Context, wanted []byte) ([]byte, error) {
	if err := l.begin(ctx); err != nil {
		return nil, err
	}
	defer l.engine.mu.Unlock()
	if l.engine.head == nil && wanted != nil {
		if l.engine.full != "" {
			return nil, agreed.Failed(agreed.ErrFull, l.engine.full)
		}
		l.engine.head = copied(wanted)
	}
	return l.engine.head, nil
}

// ChangeHead implements agreed.Log.
func (l *Log) ChangeHead(ctx context.Context, before, after []byte) ([]byte, error) {
	if err := l.write(ctx); err != nil {
		return nil, err
	}
	defer l.engine.mu.Unlock()
	if l.engine.head != nil && string(l.engine.head) == string(before) {
		l.engine.head = copied(after)
	}
	return l.engine.head, nil
}

// Clock implements agreed.Log.
func (l *Log) Clock(ctx context.Context) (int64, bool, error) {
	if err := l.begin(ctx); err != nil {
		return 0, false, err
	}
	defer l.engine.mu.Unlock()
	if l.engine.clock == nil {
		return 0, false, nil
	}
	return l.engine.clock(), true, nil
}

// Last implements agreed.Log.
func (l *Log) Last(ctx context.Context) (agreed.Place, error) {
	if err := l.begin(ctx); err != nil {
		return 0, err
	}
	defer l.engine.mu.Unlock()
	return agreed.Place(len(l.engine.items)), nil
}

// Append implements agreed.Log.
func (l *Log) Append(ctx context.Context, writer []byte, number uint64, data []byte) (agreed.Place, error) {
	if err := l.write(ctx); err != nil {
		return 0, err
	}
	defer l.engine.mu.Unlock()
	by := name{string(writer), number}
	if place, ok := l.engine.made[by]; ok {
		return place, nil
	}
	place := l.engine.put(agreed.Item{Data: copied(data)})
	l.engine.made[by] = place
	return place, nil
}

// Read implements agreed.Log.
func (l *Log) Read(ctx context.Context, after agreed.Place, take func(agreed.Item) error) error {
	for {
		it, wait, err := l.next(after)
		switch {
		case err != nil:
			return err
		case wait == nil:
			if it != nil {
				if err := take(*it); err != nil {
					return err
				}
			}
			after++
			if ctx.Err() != nil {
				return ctx.Err()
			}
			continue
		}
		select {
		case <-ctx.Done():
			return ctx.Err()
		case <-l.closed:
			return agreed.Failed(agreed.ErrNoLog, "the log is closed")
		case <-l.moved:
		case <-wait:
		}
	}
}

// next is the item after a place, which is nil if the node has lost it, or what comes when there is one.
func (l *Log) next(after agreed.Place) (*agreed.Item, <-chan struct{}, error) {
	e := l.engine
	e.mu.Lock()
	defer e.mu.Unlock()
	if after < e.start {
		return nil, nil, agreed.Failed(agreed.ErrGone, "it is gone")
	}
	if int(after) >= len(e.items) {
		return nil, e.grown, nil
	}
	it, ok := e.as(e.nodes[l.reading], after+1)
	if !ok {
		return nil, nil, nil
	}
	return &it, nil, nil
}

// as is what a node has at a place, if it has something there.
func (e *Engine) as(node string, place agreed.Place) (agreed.Item, bool) {
	it := e.items[place-1]
	if it.Report != "" {
		return it, true
	}
	it.Node = node
	if data, ok := e.changed[seen{node, place}]; ok {
		it.Data = data
		return it, data != nil
	}
	return it, !e.isRemoved[place]
}

// LookElsewhere implements agreed.Log.
func (l *Log) LookElsewhere() {
	l.engine.change(func() { l.reading = (l.reading + 1) % len(l.engine.nodes) })
	select {
	case l.moved <- struct{}{}:
	default:
	}
}

// Nodes implements agreed.Log.
func (l *Log) Nodes() []string {
	l.engine.mu.Lock()
	defer l.engine.mu.Unlock()
	all := l.engine.nodes
	return append(append([]string(nil), all[l.reading+1:]...), all[:l.reading+1]...)
}

// Seen implements agreed.Log.
func (l *Log) Seen(ctx context.Context, node string, after agreed.Place, take func(agreed.Item) error) error {
	for ctx.Err() == nil {
		l.engine.mu.Lock()
		if l.engine.away[node] || int(after) >= len(l.engine.items) {
			l.engine.mu.Unlock()
			return nil
		}
		after++
		it, ok := l.engine.as(node, after)
		l.engine.mu.Unlock()
		if ok && it.Report == "" {
			if err := take(it); err != nil {
				return err
			}
		}
	}
	return ctx.Err()
}

// Report implements agreed.Log.
func (l *Log) Report(ctx context.Context, name string, data []byte) error {
	if err := l.write(ctx); err != nil {
		return err
	}
	defer l.engine.mu.Unlock()
	l.engine.reports[name] = copied(data)
	l.engine.put(agreed.Item{Report: name, Data: copied(data)})
	return nil
}

// Reports implements agreed.Log.
func (l *Log) Reports(ctx context.Context) (map[string][]byte, error) {
	if err := l.begin(ctx); err != nil {
		return nil, err
	}
	defer l.engine.mu.Unlock()
	found := map[string][]byte{}
	for name, data := range l.engine.reports {
		found[name] = copied(data)
	}
	return found, nil
}

// Forget implements agreed.Log.
func (l *Log) Forget(ctx context.Context, name string) error {
	if err := l.begin(ctx); err != nil {
		return err
	}
	defer l.engine.mu.Unlock()
	delete(l.engine.reports, name)
	return nil
}

// Trimmed implements agreed.Log.
func (l *Log) Trimmed(ctx context.Context) (uint64, agreed.Place, error) {
	if err := l.begin(ctx); err != nil {
		return 0, 0, err
	}
	defer l.engine.mu.Unlock()
	return l.engine.position, l.engine.start, nil
}

// Trim implements agreed.Log.
func (l *Log) Trim(ctx context.Context, position uint64, place agreed.Place) ([]string, error) {
	if err := l.begin(ctx); err != nil {
		return nil, err
	}
	defer l.engine.mu.Unlock()
	l.engine.position, l.engine.start = position, place
	for it := agreed.Place(1); it <= place; it++ {
		l.engine.isRemoved[it] = true
	}
	l.engine.full = ""
	return []string{"entries are removed"}, nil
}

// HasRemoved implements agreed.Log.
func (l *Log) HasRemoved(ctx context.Context, place agreed.Place) (bool, error) {
	if err := l.begin(ctx); err != nil {
		return false, err
	}
	defer l.engine.mu.Unlock()
	for at, it := range l.engine.items {
		if at < int(place) && it.Report == "" && !l.engine.isRemoved[it.Place] {
			return false, nil
		}
	}
	return true, nil
}

// Renew implements agreed.Log.
func (l *Log) Renew() error { return nil }

// Full implements agreed.Log.
func (l *Log) Full(ctx context.Context) (string, error) {
	if err := l.begin(ctx); err != nil {
		return "", err
	}
	defer l.engine.mu.Unlock()
	return l.engine.full, nil
}

// Close implements agreed.Log.
func (l *Log) Close() error {
	l.once.Do(func() { close(l.closed) })
	return nil
}

func copied(data []byte) []byte { return append([]byte{}, data...) }
