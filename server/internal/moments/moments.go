// Package moments gives requests their moments.
package moments

import (
	"fmt"
	"sync"
	"syscall"
	"time"
	"unsafe"

	"telovamish.org/server/internal/report"
)

const (
	lagSaid  = 60   // seconds by which the clock may be off before that is printed
	bootTime = 7    // of Linux: a clock that counts while the computer sleeps
	parts    = 1000 // of the time that goes by: one of them may be added
	second   = int64(time.Second)

	startAgain = "the clock is %d s ahead of where it should be, and requests get moments " +
		"without that: if it is right now, start %s again"
	setBack = "the clock is %d s behind where it should be, and the ledger's time stands still until the " +
		"clock is there: holds expire late; set the clock right"
)

// Clock is nanoseconds since a time that does not change.
type Clock func() int64

// Wall is the computer's clock, since 1970.
func Wall() int64 { return time.Now().UnixNano() }

// Running is a clock that nobody sets.
func Running() int64 {
	var at syscall.Timespec
	syscall.RawSyscall(syscall.SYS_CLOCK_GETTIME, bootTime, uintptr(unsafe.Pointer(&at)), 0)
	return at.Nano()
}

// Steady gives moments, in nanoseconds since 1970, by clocks that are passed. They begin with the wall
// clock, or with the ledger's last time if that is later. They never fall, and grow by no more than the
// time that goes by and a thousandth of it, by a clock that nobody sets: so a clock that is set far ahead
// does not take the ledger along.
type Steady struct {
	Last int64 // the last moment

	at   int64
	said side
}

// side is where the clock is that was said last.
type side int

const (
	near side = iota
	ahead
	behind
)

// sideOf is where a clock is that is off by so many nanoseconds.
func sideOf(off int64) side {
	switch {
	case off >= lagSaid*second:
		return ahead
	case off <= -lagSaid*second:
		return behind
	}
	return near
}

// From begins with the wall clock, or with last.
func From(last, wall, running int64) Steady {
	if wall > last {
		last = wall
	}
	return Steady{Last: last, at: running}
}

// Lag is how long moments are behind the clock, if that is ahead of where it should be. It is below 0 if
// the clock was set back by a second or more, or begins behind the ledger's last time: then the ledger's
// time stands still.
func (s *Steady) Lag(wall, running int64) time.Duration {
	lag := wall - s.Last - (running - s.at)
	if lag < 0 && lag > -second {
		return 0
	}
	return time.Duration(lag)
}

// Next is the next moment, and a line if the clock is now off, which a program of this name prints.
func (s *Steady) Next(wall, running int64, program string) (moment uint64, line string) {
	gone := running - s.at
	if gone < 0 {
		gone = 0
	}
	off := wall - s.Last - gone
	if wall > s.Last {
		most := s.Last + gone + gone/parts
		if wall < most {
			most = wall
		}
		s.Last, s.at = most, running
		off = wall - s.Last
	}
	is := sideOf(off)
	if is != s.said {
		line = is.line(off/second, program)
	}
	s.said = is
	return uint64(s.Last), line
}

// line is that the clock is off by so many seconds, or "".
func (s side) line(seconds int64, program string) string {
	switch s {
	case ahead:
		return fmt.Sprintf(startAgain, seconds, program)
	case behind:
		return fmt.Sprintf(setBack, -seconds)
	}
	return ""
}

// Moments are those of a listener's requests.
type Moments struct {
	wall, running Clock
	log           *report.Log

	mu     sync.Mutex
	steady Steady
}

// New begins with the clock, or with last.
func New(last int64, log *report.Log) *Moments {
	return NewBy(last, log, Wall, Running)
}

// NewBy is New by other clocks.
func NewBy(last int64, log *report.Log, wall, running Clock) *Moments {
	return &Moments{wall: wall, running: running, log: log, steady: From(last, wall(), running())}
}

// Lag is that of Steady.
func (m *Moments) Lag() time.Duration {
	wall, running := m.wall(), m.running()
	m.mu.Lock()
	defer m.mu.Unlock()
	return m.steady.Lag(wall, running)
}

// Next is the moment of the next request.
func (m *Moments) Next() uint64 {
	wall, running := m.wall(), m.running()
	m.mu.Lock()
	next, line := m.steady.Next(wall, running, m.log.Program())
	m.mu.Unlock()
	if line != "" {
		m.log.Say(report.Warning, "%s", line)
	}
	return next
}
