// Package replica is the core of a replica: a state machine without input and output, clock, goroutine
// or lock. It is told what happened (Event), and returns what is to be done (Action).
//
// A replica appends its clients' requests to the agreed log, reads the log in order, checks what it
// reads, and gives it to its own server. A reply goes to a client only when the log has its request.
//
// Its parts have one job each: the sequencer gives waiting requests their moments and names, and
// appends them; the reader takes entries in order; nodes reads them elsewhere if they do not fit; the
// comparator compares what writers had with what is here; the follower feeds the server and checks its
// replies; the clock is compared with others' before a request is taken; the copier has the copy kept
// and synced; the reporter reports of the replica, and reads what others report.
package replica

import (
	"fmt"
	"math"
	"time"

	"telovamish.org/server/internal/entries"
	"telovamish.org/server/internal/faults"
	"telovamish.org/server/internal/report"
)

const (
	never  = math.MaxInt64
	second = int64(time.Second)
	milli  = int64(time.Millisecond)

	programEnded = "ProgramEnded"
)

// Instant is what both clocks of a machine show, in nanoseconds.
type Instant struct {
	Wall    int64 // since 1970
	Running int64 // by a clock that nobody sets
}

// Settings are those of a replica.
type Settings struct {
	Name, Address string
	Writer        entries.Writer // another one at each start
	Head          entries.Head   // what replicas of this log have in common, with the id of a new log
	Taken         *Taken         // what the copy has
	Nodes         []string       // the engine's addresses
	Server        string         // the name of its command, for lines
	Window        int            // bytes of pairs that may be under way to the server; 4 MiB if 0
	Patience      time.Duration  // that a request waits for the log
	Ahead         time.Duration  // by which a clock, or the log's last moment, may be ahead
	IsAlone       bool           // it serves though nobody confirms its clock
	Distrusted    []entries.Writer
}

// Core is a replica.
type Core struct {
	settings Settings
	now      Instant
	actions  []Action
	answers  Answer
	timer    int64 // when the next Tick comes
	isOver   bool
	ending   *End // in this step

	taken      *Taken
	sequencer  sequencer
	reader     reader
	nodes      nodes
	comparator comparator
	follower   follower
	clock      clock
	copier     copier
	reporter   reporter
}

// New is a replica that begins with its first Step, by any event: Tick will do.
func New(settings Settings) *Core {
	if settings.Window == 0 {
		settings.Window = 4 << 20
	}
	c := &Core{settings: settings, taken: settings.Taken, timer: never}
	c.sequencer.init(c)
	c.reader.init(c)
	c.nodes.init(c)
	c.comparator.init(c)
	c.follower.init(c)
	c.clock.init(c)
	c.copier.init(c)
	c.reporter.init(c)
	return c
}

// Step takes an event at a time, and returns what is to be done. The list is the core's again at the
// next Step.
func (c *Core) Step(now Instant, event Event) []Action {
	c.now, c.actions, c.answers.Answers = now, c.actions[:0], c.answers.Answers[:0]
	if c.isOver {
		if frame, ok := event.(*Frame); ok {
			c.answer(frame.Request, nil, programEnded)
		}
	} else {
		c.clock.begin()
		event.apply(c)
		c.tick()
	}
	if len(c.answers.Answers) > 0 {
		c.do(&c.answers)
	}
	if c.ending != nil {
		c.do(c.ending)
		c.ending = nil
	}
	return c.actions
}

// tick does what is due, and sets the timer for what is due next.
func (c *Core) tick() {
	if c.isOver {
		return
	}
	now, next := c.now.Running, int64(never)
	for _, part := range [...]interface{ due(now int64) int64 }{
		&c.clock, &c.sequencer, &c.nodes, &c.copier, &c.reporter,
	} {
		if at := part.due(now); at < next {
			next = at
		}
		if c.isOver {
			return
		}
	}
	if next != c.timer {
		c.timer = next
		if next != never {
			c.do(&SetTimer{next})
		}
	}
}

func (*Tick) apply(c *Core) { c.timer = never }

func (c *Core) do(action Action) { c.actions = append(c.actions, action) }

func (c *Core) answer(request *Request, reply []byte, why string) {
	c.answers.Answers = append(c.answers.Answers, Answered{request, reply, why})
}

func (c *Core) say(level report.Level, format string, values ...any) {
	c.do(&Say{Level: level, Text: fmt.Sprintf(format, values...)})
}

// fail ends the replica by a fault, which is reported.
func (c *Core) fail(name faults.Name, format string, values ...any) {
	why := faults.New(name, format, values...)
	c.end(why.Status, why.Line, c.reporter.text(why.Line))
}

// end ends the replica.
func (c *Core) end(status int, line string, report []byte) {
	if c.isOver {
		return
	}
	c.isOver = true
	c.sequencer.answerAll(programEnded)
	c.ending = &End{Status: status, Line: line, Report: report}
}

func (e *Failed) apply(c *Core)      { c.end(e.Status, e.Line, nil) }
func (e *ServerEnded) apply(c *Core) { c.end(e.Status, e.Line, nil) }

func (*Stop) apply(c *Core) {
	c.do(&SyncCopy{})
	c.end(0, "", c.reporter.text(""))
}

// IsServing reports whether requests are served now.
func (c *Core) IsServing() bool {
	return !c.isOver && c.clock.isMet && c.follower.hasServed && c.follower.hasCaughtUp()
}

// HasBegun reports whether the server has answered what the copy had at the start.
func (c *Core) HasBegun() bool { return c.follower.hasServed }

// IsOver reports whether it has ended.
func (c *Core) IsOver() bool { return c.isOver }

// Held is how much the core holds for requests: 0 if nobody waits.
func (c *Core) Held() int {
	return c.sequencer.waiting() + len(c.sequencer.sent) + len(c.sequencer.own) +
		len(c.comparator.claims)
}

// State is what the core has of the log and of replies.
type State struct {
	Position, Answered uint64
	Log, Replies       entries.Hash
}

// State is what the core has now.
func (c *Core) State() State {
	return State{c.taken.Position, c.follower.answered, c.taken.Digest, c.follower.digest}
}

// Rotten is how many entries each node has lost or changed.
func (c *Core) Rotten() map[string]int { return c.nodes.rotten }

// LogAhead is by how much the log's last moment is ahead of the clock.
func (c *Core) LogAhead(now Instant) time.Duration {
	if ahead := int64(c.taken.LastMoment) - now.Wall; ahead > 0 {
		return time.Duration(ahead)
	}
	return 0
}

// Lag is how long the moments are behind the clock; 0 before requests are taken.
func (c *Core) Lag(now Instant) time.Duration {
	if !c.clock.isMet {
		return 0
	}
	return c.sequencer.moments.Lag(now.Wall, now.Running)
}
