package replica

import (
	"sort"

	"telovamish.org/server/internal/entries"
	"telovamish.org/server/internal/faults"
	"telovamish.org/server/internal/frames"
	"telovamish.org/server/internal/moments"
	"telovamish.org/server/internal/report"
)

const (
	look      = second / 4  // after which it is looked for requests that wait too long
	elsewhere = 2 * second  // for which what was written may be read late
	pause     = second / 10 // before an append is tried again
	come      = 2 * milli   // in which one of those who are answered comes again
	gather    = 6 * milli   // and all of them

	program = "tb_replica"

	noLog   = "NoLog"
	logFull = "LogFull"
)

// Request is a request of a client. It may be used again once it was answered.
type Request struct {
	Frame []byte

	asker frames.Asker
	since int64
	in    *sent // the entry that has it
	index int   // where it is there
}

// sent is an own entry with the requests that wait for it; nil for one that waits no more.
type sent struct {
	entry    entries.Entry
	data     []byte
	requests []*Request
	askers   []frames.Asker
	lookAt   int64 // when it is read at another address, if it was appended and not read
}

// sequencer has the requests that wait for their place in the log. It gives those that wait one moment,
// and appends them as one named entry after the other: by the same name until it is in the log.
type sequencer struct {
	*Core
	queue   []*Request
	number  uint64           // of the last own entry
	sent    map[uint64]*sent // own entries that were not read yet, by their number
	own     map[uint64]*sent // those that were read, by their position
	under   *sent            // the one that is appended now
	retryAt int64
	moments moments.Steady

	isGathering         bool
	want, before        int
	comeAt, gatherUntil int64

	lookAt int64 // when it is looked for those that wait too long
	looked int64 // when it was last read elsewhere
	isFull bool
	isAway bool // it was said that there is no log
}

func (s *sequencer) init(c *Core) {
	s.Core, s.sent, s.own = c, map[uint64]*sent{}, map[uint64]*sent{}
	s.retryAt, s.lookAt = never, never
	s.looked = -elsewhere
}

func (e *Frame) apply(c *Core) {
	e.Request.since, e.Request.in = c.now.Running, nil
	e.Request.asker = frames.Header(e.Request.Frame).Asker()
	s := &c.sequencer
	s.queue = append(s.queue, e.Request)
	if s.lookAt == never {
		s.lookAt = c.now.Running + look
	}
	s.goOn()
}

func (e *Cancelled) apply(c *Core) {
	s, r := &c.sequencer, e.Request
	if c.has(KeepsTheCancelled) {
		return
	}
	if r.in != nil {
		r.in.requests[r.index] = nil
		r.in = nil
		return
	}
	for at, it := range s.queue {
		if it == r {
			s.queue = append(s.queue[:at], s.queue[at+1:]...)
			return
		}
	}
}

func (s *sequencer) waiting() int {
	count := len(s.queue)
	for _, it := range s.sent {
		count += len(it.requests)
	}
	return count
}

// goOn appends the next entry, if requests wait and no entry is appended now.
func (s *sequencer) goOn() {
	if s.under != nil || !s.clock.isMet || s.isOver {
		return
	}
	if s.isGathering {
		if len(s.queue) < s.want {
			return
		}
		s.isGathering = false
	}
	if len(s.queue) > 0 {
		s.under = s.next()
		s.append(s.under)
	}
}

// next is the next entry, of the requests that wait, with one moment for all.
func (s *sequencer) next() *sent {
	moment := s.moment()
	it, length, count := &sent{lookAt: never}, 0, 0
	for _, r := range s.queue {
		if length+entries.MomentSize+len(r.Frame) > entries.PairsMax {
			break
		}
		length += entries.MomentSize + len(r.Frame)
		count++
	}
	pairs := make([]byte, 0, length)
	it.requests, it.askers = make([]*Request, count), make([]frames.Asker, count)
	for at, r := range s.queue[:count] {
		pairs = entries.AppendPair(pairs, moment, r.Frame)
		it.requests[at], it.askers[at] = r, r.asker
		r.in, r.index = it, at
	}
	left := copy(s.queue, s.queue[count:])
	for at := left; at < len(s.queue); at++ {
		s.queue[at] = nil
	}
	s.queue = s.queue[:left]
	s.name(it, pairs)
	return it
}

// moment is that of the next entry.
func (s *sequencer) moment() uint64 {
	wall, running := s.now.Wall, s.now.Running
	if s.has(TrustsAJump) {
		s.moments = moments.From(s.moments.Last, wall, running)
	}
	moment, line := s.moments.Next(wall, running, program)
	if line != "" {
		s.say(report.Warning, "%s", line)
	}
	return moment
}

// name makes an entry of pairs, by the next number.
func (s *sequencer) name(it *sent, pairs []byte) {
	s.number++
	it.entry = entries.Entry{
		Writer:  s.settings.Writer,
		Number:  s.number,
		Log:     entries.Claim{Position: s.taken.Position, Hash: s.taken.Digest},
		Replies: entries.Claim{Position: s.follower.answered, Hash: s.follower.digest},
		Pairs:   pairs,
	}
	it.data = it.entry.Append(make([]byte, 0, entries.HeadSize+len(pairs)))
	s.sent[s.number] = it
}

func (s *sequencer) append(it *sent) {
	s.retryAt = never
	s.do(&Append{it.entry.Writer, it.entry.Number, it.data})
}

func (e *Appended) apply(c *Core) {
	s := &c.sequencer
	s.isFull, s.isAway = false, false
	it := s.sent[e.Number]
	if it != nil && e.Place <= c.taken.Place {
		s.wasPassedOver(e.Number, e.Place)
	}
	if it != nil && (c.reader.isSettled || c.has(TakesAmidReading)) && (e.IsNext || c.has(TakesLate)) {
		c.reader.takeOwn(Item{Place: e.Place, Data: it.data})
	}
	if it = s.sent[e.Number]; it != nil {
		it.lookAt = c.now.Running + elsewhere
	}
	s.finish(e.Number)
}

// wasPassedOver is that an own entry is before what was read: the node that is read from has lost it, or
// the engine has lost what it acknowledged.
func (s *sequencer) wasPassedOver(number uint64, place int64) {
	s.nodes.test(s.taken.Position, s.sent[number].entry.Log.Position, true, func() {
		if s.sent[number] != nil {
			s.checkPlace(place)
		}
	})
}

// finish ends an append, and waits for those who are answered now: one entry for all takes less than
// one for the first of them and one for the others.
func (s *sequencer) finish(number uint64) {
	if s.under == nil || s.under.entry.Number != number || s.isOver {
		return
	}
	s.under, s.retryAt = nil, never
	s.want = len(s.queue)
	if it := s.own[s.taken.Position]; it != nil {
		s.want += len(it.requests)
	}
	now := s.now.Running
	if s.isGathering = s.want > 1 && len(s.queue) < s.want; s.isGathering {
		s.before, s.comeAt, s.gatherUntil = len(s.queue), now+come, now+gather
	}
	s.goOn()
}

func (e *AppendLost) apply(c *Core) {
	s := &c.sequencer
	isFull := e.Why.Kind == FailedFull
	if isFull && !s.isFull || !isFull && !s.isAway {
		name := faults.NoLog
		if isFull {
			name = faults.LogFull
		}
		c.say(report.Warning, "%s: %s", name, e.Why.Text)
	}
	s.isFull, s.isAway = s.isFull || isFull, s.isAway || !isFull
	if c.has(AnswersBeforeTheLog) && !isFull && s.sent[e.Number] != nil {
		c.reader.takeOwn(Item{Place: c.taken.Place + 1, Data: s.sent[e.Number].data})
	}
	if s.under == nil || s.under.entry.Number != e.Number {
		return
	}
	if s.sent[e.Number] == nil {
		s.finish(e.Number)
		return
	}
	s.retryAt = c.now.Running + pause
}

// retry appends an entry again, by the same name, if it was not read meanwhile.
func (s *sequencer) retry() {
	it := s.under
	if s.sent[it.entry.Number] == nil {
		s.finish(it.entry.Number)
		return
	}
	if s.has(RenamesARetry) {
		delete(s.sent, it.entry.Number)
		s.settings.Writer[0]++
		s.number = 0
		s.name(it, it.entry.Pairs)
	}
	s.append(it)
}

// due does what is due, and returns when something is due next.
func (s *sequencer) due(now int64) int64 {
	if now >= s.retryAt && s.under != nil {
		s.retry()
	}
	if s.isGathering && now >= s.comeAt {
		if s.before < len(s.queue) && now < s.gatherUntil {
			s.before, s.comeAt = len(s.queue), now+come
		} else {
			s.isGathering = false
			s.goOn()
		}
	}
	if now >= s.lookAt {
		s.watch()
	}
	next := min(s.retryAt, s.lookAt)
	if s.isGathering {
		next = min(next, s.comeAt)
	}
	return min(next, s.lookElsewhere(now))
}

// watch tells those who wait too long for the log that it is not there. The request may be executed
// nevertheless.
func (s *sequencer) watch() {
	name, late := noLog, s.now.Running-int64(s.settings.Patience)
	if s.isFull {
		name = logFull
	}
	left := s.queue[:0]
	for _, r := range s.queue {
		if r.since < late || s.isFull {
			s.answer(r, nil, name)
		} else {
			left = append(left, r)
		}
	}
	for at := len(left); at < len(s.queue); at++ {
		s.queue[at] = nil
	}
	s.queue = left
	isWaiting := len(left) > 0
	for number := s.number; number > 0 && s.sent[number] != nil; number-- {
		for at, r := range s.sent[number].requests {
			switch {
			case r == nil:
			case r.since < late || s.isFull:
				s.tell(s.sent[number], at, nil, name)
			default:
				isWaiting = true
			}
		}
	}
	s.lookAt = never
	if isWaiting {
		s.lookAt = s.now.Running + look
	}
}

// tell answers a request of an entry, once.
func (s *sequencer) tell(it *sent, at int, reply []byte, why string) {
	r := it.requests[at]
	if r == nil {
		return
	}
	it.requests[at], r.in = nil, nil
	s.answer(r, reply, why)
}

// lookElsewhere reads at another address if what was written is not read at this one, from what was taken
// on: there may be what this one has lost. It returns when it is to be done next.
func (s *sequencer) lookElsewhere(now int64) int64 {
	next := int64(never)
	for _, it := range s.sent {
		if now >= it.lookAt {
			if now >= s.looked+elsewhere && s.reader.isSettled { // for all that wait: each address needs time
				s.looked = now
				s.reader.read(true)
			}
			it.lookAt = now + elsewhere
		}
		next = min(next, it.lookAt)
	}
	return next
}

// wasRead is that an own entry was read, at the position that follows.
func (s *sequencer) wasRead(it *sent, position uint64) {
	delete(s.sent, it.entry.Number)
	s.own[position] = it
	if s.under == it && s.retryAt != never { // it waited to be appended again
		s.retryAt = s.now.Running
	}
}

// tellReply brings a reply to the request of this place, if it is an own one.
func (s *sequencer) tellReply(position uint64, index int, reply []byte) {
	it := s.own[position]
	if it == nil {
		return
	}
	at := index
	if s.has(AnswersThePairBefore) {
		at = len(it.requests) - 1 - index
	}
	s.tell(it, at, reply, "")
	if index == len(it.requests)-1 && !s.has(KeepsAPlace) {
		delete(s.own, position)
	}
}

// answerAll answers all that wait.
func (s *sequencer) answerAll(why string) {
	for _, r := range s.queue {
		s.answer(r, nil, why)
	}
	s.queue = nil
	if s.has(ForgetsAtTheEnd) {
		return
	}
	for _, of := range []map[uint64]*sent{s.sent, s.own} {
		for _, number := range sorted(of) {
			for at := range of[number].requests {
				s.tell(of[number], at, nil, why)
			}
			delete(of, number)
		}
	}
}

// sorted are the keys of a map, the least first.
func sorted[T any](of map[uint64]T) []uint64 {
	keys := make([]uint64, 0, len(of))
	for key := range of {
		keys = append(keys, key)
	}
	sort.Slice(keys, func(a, b int) bool { return keys[a] < keys[b] })
	return keys
}

func min(a, b int64) int64 {
	if a < b {
		return a
	}
	return b
}
