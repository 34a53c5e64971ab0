// Package memory holds the bytes of long requests and replies: in chunks that are used again, and
// within a budget that all connections share.
package memory

import "sync"

// ChunkSize is how many bytes a chunk has.
const ChunkSize = 1 << 16

// Chunk is a part of a long body.
type Chunk [ChunkSize]byte

var free = sync.Pool{New: func() any { return new(Chunk) }}

// Take is a chunk, whose bytes are any.
func Take() *Chunk { return free.Get().(*Chunk) }

// Free gives a chunk back.
func Free(it *Chunk) { free.Put(it) }

// Budget is how many bytes may be in use at a time. Who wants more waits, in order.
type Budget struct {
	limit int64 // 0 is any number

	mu      sync.Mutex
	used    int64
	waiting []*wanting
}

// wanting is who waits.
type wanting struct {
	bytes int64
	came  chan struct{} // closed when the bytes are there
}

// NewBudget is a budget of so many bytes, or of any number if that is 0.
func NewBudget(limit int64) *Budget { return &Budget{limit: limit} }

// Take takes bytes, once they are free. It reports false if cancel came before that. One that wants
// more than there are gets all.
func (b *Budget) Take(bytes int64, cancel <-chan struct{}) bool {
	if b.limit == 0 {
		return true
	}
	b.mu.Lock()
	if len(b.waiting) == 0 && b.fits(bytes) {
		b.used += bytes
		b.mu.Unlock()
		return true
	}
	it := &wanting{bytes, make(chan struct{})}
	b.waiting = append(b.waiting, it)
	b.mu.Unlock()
	select {
	case <-it.came:
		return true
	case <-cancel:
		return b.leave(it)
	}
}

// fits reports whether so many bytes are free, or all are.
func (b *Budget) fits(bytes int64) bool { return b.used+bytes <= b.limit || b.used == 0 }

// leave takes one that waits out of the queue. It reports whether the bytes came meanwhile.
func (b *Budget) leave(it *wanting) bool {
	b.mu.Lock()
	defer b.mu.Unlock()
	for at, other := range b.waiting {
		if other == it {
			b.waiting = append(b.waiting[:at], b.waiting[at+1:]...)
			b.serve()
			return false
		}
	}
	return true
}

// Give gives bytes back.
func (b *Budget) Give(bytes int64) {
	if b.limit == 0 {
		return
	}
	b.mu.Lock()
	defer b.mu.Unlock()
	b.used -= bytes
	b.serve()
}

// serve gives those that wait longest what is free.
func (b *Budget) serve() {
	for len(b.waiting) > 0 && b.fits(b.waiting[0].bytes) {
		b.used += b.waiting[0].bytes
		close(b.waiting[0].came)
		b.waiting = b.waiting[1:]
	}
}

// IsShort reports whether someone waits.
func (b *Budget) IsShort() bool {
	if b.limit == 0 {
		return false
	}
	b.mu.Lock()
	defer b.mu.Unlock()
	return len(b.waiting) > 0
}
