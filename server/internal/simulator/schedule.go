package simulator

import (
	"fmt"
	"math/rand"
	"strings"
	"time"
)

const (
	second = int64(time.Second)
	milli  = int64(time.Millisecond)
	began  = 1_700_000_000 * second // what clocks show at the beginning of a run, since 1970
)

// job is something that happens at a time.
type job struct {
	at   int64
	turn uint64 // of equal times: in the order in which they were asked for
	do   func()
}

// schedule is what is to happen, in virtual time. Time goes by only from one job to the next.
type schedule struct {
	now   int64
	turns uint64
	jobs  []job // a heap
	drawn *rand.Rand
	story *strings.Builder // nil if no story is told
}

func (s *schedule) before(a, b int) bool {
	return s.jobs[a].at < s.jobs[b].at || s.jobs[a].at == s.jobs[b].at && s.jobs[a].turn < s.jobs[b].turn
}

// after has something happen a while from now.
func (s *schedule) after(pause int64, do func()) {
	if pause < 0 {
		pause = 0
	}
	s.turns++
	s.jobs = append(s.jobs, job{s.now + pause, s.turns, do})
	for at := len(s.jobs) - 1; at > 0 && s.before(at, (at-1)/2); at = (at - 1) / 2 {
		s.jobs[at], s.jobs[(at-1)/2] = s.jobs[(at-1)/2], s.jobs[at]
	}
}

// step does the next job. It reports whether there was one up to a time.
func (s *schedule) step(until int64) bool {
	if len(s.jobs) == 0 || s.jobs[0].at > until {
		s.now = until
		return false
	}
	next := s.jobs[0]
	last := len(s.jobs) - 1
	s.jobs[0], s.jobs[last] = s.jobs[last], job{}
	s.jobs = s.jobs[:last]
	for at := 0; ; {
		least := at
		for child := 2*at + 1; child <= 2*at+2 && child < last; child++ {
			if s.before(child, least) {
				least = child
			}
		}
		if least == at {
			break
		}
		s.jobs[at], s.jobs[least] = s.jobs[least], s.jobs[at]
		at = least
	}
	s.now = next.at
	next.do()
	return true
}

// most is a while that is mostly much shorter than this.
func (s *schedule) most(most int64) int64 {
	part := s.drawn.Float64()
	return int64(part * part * part * float64(most))
}

// between is a number of these two or between them.
func (s *schedule) between(least, most int64) int64 { return least + s.drawn.Int63n(most-least+1) }

// happens is true so often in a thousand.
func (s *schedule) happens(often int) bool { return s.drawn.Intn(1000) < often }

// tell adds a line to the story of the run.
func (s *schedule) tell(format string, values ...any) {
	if s.story != nil {
		fmt.Fprintf(s.story, "%9.3f s  %s\n", float64(s.now)/float64(second), fmt.Sprintf(format, values...))
	}
}
