package replica

import (
	"telovamish.org/server/internal/entries"
	"telovamish.org/server/internal/faults"
	"telovamish.org/server/internal/frames"
)

// fed is an entry that the server was given: what each reply has to repeat, and how many came.
type fed struct {
	position uint64
	askers   []frames.Asker
	count    int
	size     int
	digest   entries.Hash // of the replies up to the last one that came
}

// follower gives the server the entries in order, and checks its replies and hashes. A new process is
// given the copy from its beginning, and replies as the first one did.
type follower struct {
	*Core
	isRunning bool
	isReading bool   // from the copy
	given     uint64 // the last entry that the process was given
	fed       []fed
	inFlight  int    // bytes of these
	answered  uint64 // the position up to which this process has answered
	digest    entries.Hash
	known     uint64             // up to which replies were checked when they came first
	start     uint64             // what the copy had at the start
	hasServed bool               // it has answered that
	hashes    ring[entries.Hash] // of the replies up to a position
}

func (f *follower) init(c *Core) {
	f.Core, f.known, f.start = c, c.taken.Position, c.taken.Position
	f.hashes.put(entries.Hash{})
}

func (*ServerBegan) apply(c *Core) {
	f := &c.follower
	f.isRunning, f.isReading, f.given, f.inFlight = true, false, 0, 0
	f.fed, f.answered, f.digest = f.fed[:0], 0, entries.Hash{}
	f.hasServed = f.hasServed || f.start == 0
	if c.has(FeedsFromTheEnd) {
		f.given = f.known
	}
	f.goOn()
}

func (*ServerLost) apply(c *Core) {
	c.follower.isRunning = false
	if c.has(AnswersWhenTheServerIsLost) {
		c.sequencer.answerAll(programEnded)
	}
}

// goOn has entries read from the copy, if the server has room and was not given all.
func (f *follower) goOn() {
	if f.isRunning && !f.isReading && f.given < f.taken.Position && f.inFlight < f.settings.Window {
		f.isReading = true
		f.do(&ReadCopy{f.given + 1})
	}
}

func (e *CopyRead) apply(c *Core) {
	f := &c.follower
	if !f.isRunning || !f.isReading || e.Position != f.given+1 {
		return
	}
	f.isReading = false
	for _, pairs := range e.Pairs {
		askers, err := entries.AppendAskers(nil, pairs)
		if err != nil {
			c.fail(faults.Damaged, "the entry at %d: %s", f.given+1, err)
			return
		}
		f.feed(f.given+1, pairs, askers)
	}
	f.goOn()
}

// give gives the server the next entry at once, if it has all before it and room. Otherwise it comes from
// the copy, once the server has replied or what is read there has come.
func (f *follower) give(position uint64, pairs []byte, askers []frames.Asker) {
	if f.isRunning && !f.isReading && f.given == position-1 && f.inFlight < f.settings.Window {
		f.feed(position, pairs, askers)
	}
}

func (f *follower) feed(position uint64, pairs []byte, askers []frames.Asker) {
	f.fed = append(f.fed, fed{position: position, askers: askers, size: len(pairs)})
	f.inFlight += len(pairs)
	f.given = position
	f.do(&Feed{position, pairs})
}

func (e *ReplyCame) apply(c *Core) {
	f := &c.follower
	if !f.isRunning || len(f.fed) == 0 || f.fed[0].position != e.Position || f.fed[0].count != int(e.Index) {
		c.end(1, f.settings.Server+" wrote what has no place in the log", nil)
		return
	}
	it := &f.fed[0]
	header := frames.Header(e.Reply)
	if it.count == len(it.askers) || header.Asker() != it.askers[it.count] ||
		it.position > f.known && header.ReplyFault() != "" {
		c.end(1, f.settings.Server+" wrote what is no reply to the next pair", nil)
		return
	}
	if it.count == 0 {
		it.digest = f.digest
	}
	it.digest = it.digest.Next(e.Reply)
	it.count++
	c.sequencer.tellReply(e.Position, int(e.Index), e.Reply)
}

func (e *HashesCame) apply(c *Core) {
	f := &c.follower
	if !f.isRunning || len(f.fed) == 0 || f.fed[0].position != e.Position ||
		f.fed[0].count != len(f.fed[0].askers) {
		c.end(1, f.settings.Server+" wrote hashes that were not asked for", nil)
		return
	}
	it := f.fed[0]
	if it.count == 0 {
		it.digest = f.digest
	}
	f.fed[0] = fed{}
	f.fed = f.fed[1:]
	f.inFlight -= it.size
	log, ok := c.taken.Hash(e.Position)
	if e.Replies != it.digest || ok && log != e.Log {
		c.fail(faults.Diverged, "%s has another hash at position %d", f.settings.Server, e.Position)
		return
	}
	f.finish(e.Position, it.digest)
}

// finish is that the server has answered all up to a position.
func (f *follower) finish(position uint64, digest entries.Hash) {
	before, ok := f.hashes.at(position)
	if ok && before != digest {
		f.fail(faults.Diverged, "%s answers the entry at %d otherwise than before", f.settings.Server, position)
		return
	}
	if position == f.hashes.end() {
		f.hashes.put(digest)
	}
	f.digest, f.answered = digest, position
	if position > f.known {
		f.known = position
	}
	f.comparator.answered(position)
	f.hasServed = f.hasServed || position >= f.start
	if !f.has(FeedsNothingLate) {
		f.goOn()
	}
}

// hasCaughtUp reports whether a process runs, and has answered what those before it had.
func (f *follower) hasCaughtUp() bool { return f.isRunning && f.answered >= f.known }
