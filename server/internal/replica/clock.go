package replica

import (
	"telovamish.org/server/internal/entries"
	"telovamish.org/server/internal/faults"
	"telovamish.org/server/internal/moments"
	"telovamish.org/server/internal/report"
)

const (
	answersFor  = 2 * second   // that the reports of others are waited for
	late        = 30 * second  // for which an answer counts; by as much its clock may be ahead unseen
	clockFor    = 120 * second // that a wrong clock is looked at again
	clockAgain  = 1 * second   // between two looks
	unconfirmed = "no other replica answers, and nothing shows that this computer's clock is right; it " +
		"serves once one does, or with --alone"
)

// phase is what is waited for before requests are taken.
type phase int

const (
	starting    phase = iota // the log's head, and what it has
	setting                  // this clock, which the log's last moment is far ahead of
	listing                  // the names of other replicas
	answering                // their clocks
	askingClock              // the engine's clock
	correcting               // this clock, which is ahead
	askingFull               // why nobody confirms this clock
	confirming               // another replica
	met                      // nothing
)

// clock compares this machine's clock with others', before a request is taken: nobody could undo a
// moment that is ahead. What is asked for is a report with this clock, a hello, which others answer
// with theirs.
type clock struct {
	*Core
	phase   phase
	hasRun  bool
	isMet   bool
	until   int64 // of this phase
	next    int64 // when it is looked again
	isSaid  bool  // that the clock is wrong
	isToldU bool  // that nobody confirms it
	others  map[string]bool

	hello    int64            // what this clock had when the others were asked for theirs
	hellos   map[int64]int64  // when they were asked, for each hello that may be answered yet
	answered map[string]int64 // the same of the last one that each has answered
	clocks   map[string]int64 // what others' clocks have beyond one that nobody sets, at most
	right    int64            // the same of a clock that is not ahead, by who answered last
	isRight  bool             // that is known
}

func (k *clock) init(c *Core) {
	k.Core, k.next = c, never
	k.hellos, k.answered, k.clocks = map[int64]int64{}, map[string]int64{}, map[string]int64{}
}

// begin asks for what the log has, at the first step.
func (k *clock) begin() {
	if !k.hasRun {
		k.hasRun = true
		k.do(&ReadStart{k.settings.Head.Bytes()})
	}
}

func (e *StartRead) apply(c *Core) {
	k := &c.clock
	if k.phase != starting || c.failedBy(e.Failed) || !c.hasRightHead(e) {
		return
	}
	c.checkPlace(e.Last)
	c.checkTrimmed(e)
	if c.isOver {
		return
	}
	k.until = c.now.Running + clockFor
	k.set()
}

// failedBy ends the replica if a call of the log failed at its start.
func (c *Core) failedBy(why Failure) bool {
	switch why.Kind {
	case FailedNoLog:
		c.fail(faults.NoLog, "%s", why.Text)
	case FailedFull:
		c.fail(faults.LogFull, "%s", why.Text)
	}
	return c.isOver
}

// hasRightHead compares the log's head with what this replica wants, and with the copy's.
func (c *Core) hasRightHead(e *StartRead) bool {
	if !c.settings.Head.HasSameRules(e.Head) {
		c.fail(faults.OtherRules, "the log has %s, and this replica %s", e.Head, c.settings.Head.Wanted())
		return false
	}
	if e.KeptHead == nil {
		c.do(&KeepHead{e.Head})
	} else if !entries.IsSameHead(e.Head, e.KeptHead) {
		c.fail(faults.OtherRules, "the log has %s, and %s is a copy of another log", e.Head, e.Folder)
		return false
	}
	return true
}

// checkTrimmed ends the replica if the log begins after the copy; or if no trim of this log has put what
// the log has for its beginning: what comes after the copy by its position comes after it by its place.
func (c *Core) checkTrimmed(e *StartRead) {
	position := int64(c.taken.Position)
	isBehind := e.TrimmedPosition > position
	if isBehind != (e.TrimmedPlace > c.taken.Place) || e.TrimmedPlace > e.Last || e.TrimmedPosition < 0 {
		c.fail(faults.BadEntry, "the log's `trimmed` has position %d at place %d, and the copy %d at %d",
			e.TrimmedPosition, e.TrimmedPlace, position, c.taken.Place)
	} else if isBehind && !c.has(ReadsATrimmedLog) {
		c.fail(faults.Trimmed, "the log begins after position %d, and the copy has %d: take a peer's, by copy-from",
			e.TrimmedPosition, position)
	}
}

// set waits until the log's last moment is not far ahead of this clock; at a boot a wrong one may be set
// a moment later. Then the log is read, and the others are asked.
func (k *clock) set() {
	k.phase = setting
	if k.isFarBehind() {
		return
	}
	k.reader.read(false)
	k.ask()
}

// isFarBehind reports whether the log's last moment is far ahead; it is looked again, or the replica ends.
func (k *clock) isFarBehind() bool {
	ahead := int64(k.taken.LastMoment) - k.now.Wall
	if ahead <= int64(k.settings.Ahead) {
		return false
	}
	k.isAhead("the log's last moment is %.3f s ahead of this computer's clock: set the clock right, or "+
		"allow it by --ahead SECONDS", float64(ahead)/float64(second))
	return true
}

// isAhead has the clock looked at again in a while, for as long as that may take.
func (k *clock) isAhead(format string, values ...any) {
	if k.now.Running > k.until {
		k.fail(faults.Ahead, format, values...)
		return
	}
	if !k.isSaid {
		k.say(report.Warning, string(faults.Ahead)+": "+format+"; tested again for 120 s", values...)
	}
	k.isSaid = true
	k.next = k.now.Running + clockAgain
}

// ask asks the listed replicas for their clocks.
func (k *clock) ask() {
	k.phase, k.next = listing, never
	k.do(&ReadReports{})
}

func (e *ReportsRead) apply(c *Core) {
	k := &c.clock
	if k.phase != listing || c.failedBy(e.Failed) {
		return
	}
	k.others = map[string]bool{}
	for _, name := range e.Names {
		if name != c.settings.Name {
			k.others[name] = true
		}
	}
	k.sayHello()
	k.phase = answering
	k.until2(c.now.Running + answersFor)
}

// until2 has the answers waited for.
func (k *clock) until2(at int64) {
	k.next = at
	k.reporter.ask()
	k.heard()
}

// sayHello asks with another hello. Earlier ones may still be answered: on a busy machine each answer may
// take longer than it is waited for.
func (k *clock) sayHello() {
	now := k.now.Running
	for hello, at := range k.hellos {
		if at <= now-late {
			delete(k.hellos, hello)
		}
	}
	k.hello = k.now.Wall
	k.hellos[k.hello] = now
}

// hear takes the clock of a replica that answers a hello. Its first answer is the closest one: the time
// until it comes is not in the clock.
func (k *clock) hear(name string, hello, clock int64) {
	asked, ok := k.hellos[hello]
	if last, hasAnswered := k.answered[name]; ok && (!hasAnswered || asked > last) {
		k.clocks[name], k.answered[name] = clock-asked, asked
	}
}

// heard goes on once all others have answered. Once the own report was read, so was the log up to there.
func (k *clock) heard() {
	if k.phase != answering {
		return
	}
	isLate := k.now.Running >= k.next
	for name := range k.others {
		if _, ok := k.clocks[name]; !ok && !isLate {
			return
		}
	}
	if !isLate && (!k.reporter.isHeard || k.reporter.isAsked || k.reporter.isWriting) {
		return
	}
	isAnswered := len(k.clocks) > 0
	if isAnswered {
		k.right, k.isRight = k.latest(), true
	}
	k.clocks = map[string]int64{}
	if !isAnswered && !k.isRight {
		k.phase, k.next = askingClock, never
		k.do(&ReadClock{})
		return
	}
	k.judge()
}

// latest is the clock that is furthest ahead of those that answered.
func (k *clock) latest() int64 {
	isFirst, most := true, int64(0)
	for _, beyond := range k.clocks {
		if isFirst || beyond > most {
			isFirst, most = false, beyond
		}
	}
	return most
}

func (e *ClockRead) apply(c *Core) {
	k := &c.clock
	if k.phase != askingClock {
		return
	}
	if e.IsKnown {
		k.right, k.isRight = e.Clock-c.now.Running, true
	}
	k.judge()
}

// judge goes on if this clock is right, or looks at it again.
func (k *clock) judge() {
	k.phase, k.next = correcting, never
	if ahead := k.now.Wall - k.now.Running - k.right; k.isRight && ahead > int64(k.settings.Ahead) &&
		!k.has(GoesByAnAheadClock) {
		k.isAhead("this computer's clock is %d s ahead of the others': set it right", ahead/second)
		return
	}
	if k.isFarBehind() { // of what was read from the start on
		return
	}
	if k.isRight || k.settings.IsAlone || k.has(GoesByItsOwnClock) {
		k.meet()
		return
	}
	if k.isToldU {
		k.confirm()
		return
	}
	k.phase = askingFull
	k.do(&ReadFull{})
}

func (e *FullRead) apply(c *Core) {
	k := &c.clock
	if k.phase != askingFull {
		return
	}
	why := unconfirmed
	if e.Text != "" {
		why = "LogFull: " + e.Text + ", so no other replica can answer"
	}
	c.say(report.Warning, "waits: %s", why)
	k.isToldU = true
	k.confirm()
}

// confirm asks again in a while, or when another replica asks.
func (k *clock) confirm() {
	k.phase, k.next = confirming, k.now.Running+clockAgain
	k.until, k.isSaid = k.now.Running+clockFor, false
}

// meet has requests taken. The clock may have been set meanwhile.
func (k *clock) meet() {
	k.phase, k.next, k.isMet = met, never, true
	k.sequencer.moments = moments.From(int64(k.taken.LastMoment), k.now.Wall, k.now.Running)
	k.reporter.ask()
	k.do(&StartServer{})
	k.sequencer.goOn()
}

// due does what is due, and returns when something is due next.
func (k *clock) due(now int64) int64 {
	if k.phase == confirming && k.reporter.isAsked {
		k.next = now
	}
	if now < k.next {
		k.heard()
		return k.next
	}
	switch k.phase {
	case setting:
		k.set()
	case answering:
		k.heard()
	case correcting, confirming:
		k.ask()
	}
	return k.next
}
