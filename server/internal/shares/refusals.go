package shares

import (
	"sync"
	"time"
)

// Costs of refusals, and how many of them a moment has.
const (
	Moment = 100 * time.Millisecond
	Long   = 5    // what a refusal that goes the long way costs, in short ones
	whole  = 5    // refusals in a moment that go the long way
	most   = 2500 // cost of all refusals in a moment: some half of a core's time
)

// Refusals counts the connections that are refused in a moment. A peer that comes again at once when it
// was refused would take the host's time from all others. So the first refusals of a moment go the long
// way, by which a client surely reads why. Further ones are a line and a close, and after more of them
// no connection is taken until the moment is over: those that call wait in the system's queue, and
// connections that are served go on.
type Refusals struct {
	now func() time.Duration

	mu    sync.Mutex
	began time.Duration
	count int
}

// NewRefusals counts by a clock.
func NewRefusals(now func() time.Duration) *Refusals {
	return &Refusals{now: now, began: -Moment}
}

// Add counts a refusal.
func (r *Refusals) Add(cost int) {
	r.mu.Lock()
	defer r.mu.Unlock()
	if now := r.now(); now-r.began >= Moment {
		r.began, r.count = now, 0
	}
	r.count += cost
}

// AreMany reports whether the next refusal goes the short way.
func (r *Refusals) AreMany() bool {
	r.mu.Lock()
	defer r.mu.Unlock()
	return r.left() > 0 && r.count >= whole*Long
}

// Wait is how long no connection is taken.
func (r *Refusals) Wait() time.Duration {
	r.mu.Lock()
	defer r.mu.Unlock()
	if r.count >= most {
		return r.left()
	}
	return 0
}

func (r *Refusals) left() time.Duration {
	if left := r.began + Moment - r.now(); left > 0 {
		return left
	}
	return 0
}
