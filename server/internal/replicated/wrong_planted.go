//go:build planted

package replicated

import (
	"encoding/binary"
	"os"
	"strings"
	"time"

	"telovamish.org/server/internal/frames"
	"telovamish.org/server/internal/moments"
	"telovamish.org/server/internal/replica"
	"telovamish.org/tbclient"
)

// What a program with the tag `planted` does wrong is the variable TB_WRONG, so that the tests of
// clusters are seen to find it.
const (
	executesEarly       = "executes_early"         // a request is executed before the log has it
	repliesEarly        = "replies_early"          // a transfer is answered before the log has it
	skipsAtRestart      = "skips_at_restart"       // the first entry that is read after a restart is left out
	takesTwiceAtRestart = "takes_twice_at_restart" // it is taken twice
	clockAhead          = "clock_ahead"            // a right replica, whose clock is an hour ahead, and which soon ends

	late    = 50 * time.Millisecond // after which what was answered is appended
	hour    = int64(time.Hour)
	patient = int64(119 * time.Second) // of those for which a wrong clock may be set right
)

// wrong is what a replica does wrong.
type wrong struct {
	hasRead bool
	beyond  int64 // what both clocks show too much
}

var kind = os.Getenv("TB_WRONG")

func init() {
	switch kind {
	case executesEarly, repliesEarly:
		replica.Also = map[replica.Bug]bool{replica.ComparesNothing: true}
	case skipsAtRestart:
		replica.Also = map[replica.Bug]bool{replica.ComparesNothing: true, replica.SkipsAGap: true}
	case takesTwiceAtRestart:
		replica.Also = map[replica.Bug]bool{replica.ComparesNothing: true}
	}
}

// clocks are what both clocks show.
func (b *Backend) clocks() replica.Instant {
	now := replica.Instant{Wall: moments.Wall(), Running: moments.Running()}
	if kind == clockAhead {
		now.Wall += hour + b.wrong.beyond
		now.Running += b.wrong.beyond
	}
	return now
}

// says lets the time pass in which a clock that is ahead may be set right.
func (b *Backend) says(text string) {
	if kind == clockAhead && strings.HasPrefix(text, "Ahead: ") {
		b.wrong.beyond += patient
	}
}

func (b *Backend) steps(it replica.Event) {
	switch it := it.(type) {
	case *replica.Frame:
		if kind == repliesEarly && frames.Header(it.Request.Frame).Operation() == tbclient.OperationCreateTransfers {
			b.answerEarly(it.Request)
		}
	case *replica.EntryRead:
		isFirst := !b.wrong.hasRead && b.core.State().Position > 0
		b.wrong.hasRead = true
		if isFirst && kind == skipsAtRestart {
			return
		}
		if isFirst && kind == takesTwiceAtRestart {
			b.step(it)
			replica.Also[replica.TakesTwice], replica.Also[replica.ReadsAgain] = true, true
			b.step(it)
			replica.Also[replica.TakesTwice], replica.Also[replica.ReadsAgain] = false, false
			return
		}
	}
	b.step(it)
}

// answerEarly answers a transfer as it would be, before it is appended.
func (b *Backend) answerEarly(its *replica.Request) {
	b.mu.Lock()
	request, ok := b.askers[its]
	delete(b.askers, its)
	delete(b.pending, request)
	b.mu.Unlock()
	if !ok {
		return
	}
	little := binary.LittleEndian
	reply := append([]byte(nil), its.Frame[:29]...)
	reply = append(reply, make([]byte, frames.HeaderSize-29)...)
	little.PutUint64(reply[36:], little.Uint64(reply[16:])+1+b.core.State().Position)
	request.From.Answered(reply, "")
}

// appending has an entry executed before the log has it.
func (b *Backend) appending(it replica.Append) {
	if kind == executesEarly {
		place := int64(b.copy.Mark().Place) + 1
		b.post(&replica.Appended{Number: it.Number, Place: place, IsNext: true})
	}
}

// appends is late if replies are early.
func (b *Backend) appends() {
	if kind == repliesEarly {
		time.Sleep(late)
	}
}
