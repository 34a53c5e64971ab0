package tbclient

import (
	"sync"
	"time"
)

// moments are those of requests, in nanoseconds since 1970. They begin with the clock, or with the
// ledger's last time if that is later. They never fall, and grow by no more than the time that goes by
// and a thousandth of it, by a clock that nobody sets: so a clock that is set far ahead does not take
// the ledger along.
type moments struct {
	wall, running func() int64

	mu       sync.Mutex // of what follows
	last, at int64
}

func newMoments(wall, running func() int64) *moments {
	return &moments{wall: wall, running: running, last: wall(), at: running()}
}

func wallClock() int64 { return time.Now().UnixNano() }

// next is the moment of the next request.
func (m *moments) next() uint64 {
	wall, running := m.wall(), m.running()
	m.mu.Lock()
	defer m.mu.Unlock()
	if wall > m.last {
		gone := running - m.at
		if gone < 0 {
			gone = 0
		}
		most := m.last + gone + gone/1000
		if wall < most {
			most = wall
		}
		m.last, m.at = most, running
	}
	return uint64(m.last)
}

// goOn goes on at this moment, if it is later.
func (m *moments) goOn(last int64) {
	m.mu.Lock()
	defer m.mu.Unlock()
	if last > m.last {
		m.last, m.at = last, m.running()
	}
}
