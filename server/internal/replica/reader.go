package replica

import (
	"bytes"
	"fmt"

	"telovamish.org/server/internal/entries"
	"telovamish.org/server/internal/faults"
	"telovamish.org/server/internal/frames"
)

// restored is a hint in the line of an entry whose number is wrong.
const restored = "if the engine was restored from a backup, see BadEntry in docs/use/CLUSTER.md"

// reader takes the entries of the log in order: each is checked, passed to the server, and kept. While
// one that does not fit is looked at elsewhere, nothing is taken, and what comes is read again.
type reader struct {
	*Core
	reading   uint64 // the Read that is under way
	place     int64  // up to which entries were taken, or passed over
	isSettled bool   // what was read was taken
	hasLeft   bool   // something came meanwhile
}

func (r *reader) init(c *Core) { r.Core, r.place, r.isSettled = c, c.taken.Place, true }

// doubt is why an entry is not taken as it was read.
type doubt struct {
	why      string
	data     []byte
	since    uint64      // up to where nothing is missing that it is about
	name     faults.Name // of a misfit: that of its fault if it was written so
	isOther  bool        // the writer had read another log, up to a position
	writer   entries.Writer
	position uint64
}

func misfit(data []byte, since uint64, format string, values ...any) *doubt {
	return &doubt{why: fmt.Sprintf(format, values...), data: data, since: since, name: faults.BadEntry}
}

// read has the log read on, after what was taken.
func (r *reader) read(isElsewhere bool) {
	r.hasLeft = false
	if !r.has(KeepsAnOldReader) {
		r.reading++
	}
	r.do(&Read{Reading: r.reading, After: r.place, IsElsewhere: isElsewhere})
}

func (e *EntryRead) apply(c *Core) {
	r := &c.reader
	switch {
	case e.Reading != r.reading, e.Item.Place <= r.place && !r.has(ReadsAgain):
	case !r.isSettled:
		r.hasLeft = true
	default:
		r.takeOrSettle(e.Item)
	}
}

func (e *ReadGone) apply(c *Core) {
	if e.Reading == c.reader.reading {
		c.fail(faults.Trimmed, "%s; take a peer's, by copy-from", e.Text)
	}
}

// takeOrSettle takes an entry, or has the nodes say what is wrong with it.
func (r *reader) takeOrSettle(item Item) {
	why := r.take(item)
	if why == nil {
		return
	}
	r.isSettled = false
	if why.isOther {
		r.nodes.settle(item, why, func() { r.settled(item) })
		return
	}
	r.nodes.lookElsewhere(item.Node, why)
}

// settled takes an entry after its writer was doubted.
func (r *reader) settled(item Item) {
	why := r.take(item)
	if why != nil {
		r.nodes.lookElsewhere(item.Node, why)
		return
	}
	r.goOn(r.hasLeft, false)
}

// goOn takes what comes again. What came meanwhile is read again.
func (r *reader) goOn(isAgain, isElsewhere bool) {
	r.isSettled = true
	if isAgain {
		r.read(isElsewhere)
	}
}

// takeOwn takes an own entry as it was appended.
func (r *reader) takeOwn(item Item) {
	if why := r.take(item); why != nil {
		r.takeOrSettle(item)
	}
}

// take takes an entry, or returns why it does not.
func (r *reader) take(item Item) *doubt {
	if r.isOver {
		return nil
	}
	own := r.ownOf(item.Data)
	entry, err := r.parse(item.Data, own)
	if err != nil {
		return misfit(item.Data, r.taken.Position, "%s", err)
	}
	before := r.taken.Numbers[entry.Writer]
	if r.isTwice(&entry) {
		text := fmt.Sprintf("entry %d of a writer is in the log twice, and is taken once", entry.Number)
		r.do(&Say{Level: "warning", Text: text, Kind: "twice"})
		r.place = item.Place
		return nil
	}
	if entry.Number > before+1 && !r.has(SkipsAGap) {
		return misfit(item.Data, r.taken.lastOf(entry.Writer), "it has number %d after %d (%s)", entry.Number, before,
			restored)
	}
	askers, err := r.askersOf(&entry, own)
	if err != nil {
		return misfit(item.Data, r.taken.Position, "%s", err)
	}
	if why := r.comparator.compare(&entry, item.Data); why != nil {
		return why
	}
	if !r.isOver {
		r.enter(item, &entry, own, askers)
	}
	return nil
}

// isTwice reports whether an entry was taken before.
func (r *reader) isTwice(entry *entries.Entry) bool {
	return entry.Number <= r.taken.Numbers[entry.Writer] && !r.has(TakesTwice)
}

// ownOf is the own entry that has these bytes, if one waits for them.
func (r *reader) ownOf(data []byte) *sent {
	for _, it := range r.sequencer.sent {
		if bytes.Equal(it.data, data) {
			return it
		}
	}
	return nil
}

func (r *reader) parse(data []byte, own *sent) (entries.Entry, error) {
	if own != nil {
		return own.entry, nil
	}
	if r.has(TakesAChangedEntry) {
		return entries.ParseTrusted(data)
	}
	return entries.Parse(data)
}

// askersOf is what the reply to each pair repeats of it. An own one was checked when it came.
func (r *reader) askersOf(entry *entries.Entry, own *sent) ([]frames.Asker, error) {
	if own != nil {
		return own.askers, nil
	}
	return entries.AppendCheckedAskers(nil, entry.Pairs)
}

// enter passes an entry to the server, and has it kept while the server works.
func (r *reader) enter(item Item, entry *entries.Entry, own *sent, askers []frames.Asker) {
	position := r.taken.Position + 1
	if entry.Writer == r.settings.Writer {
		if own == nil {
			own = r.sequencer.sent[entry.Number]
		}
		if own != nil {
			r.sequencer.wasRead(own, position)
		}
	}
	r.place = item.Place
	r.taken.Count(item.Place, entry)
	r.follower.give(position, entry.Pairs, askers)
	r.copier.keep(position, item)
}

// checkPlace ends the replica if the log ends before the copy does: the engine has lost what it
// acknowledged, or an old state of it was brought back.
func (c *Core) checkPlace(last int64) {
	if last < c.taken.Place || last == c.taken.Place && len(c.sequencer.sent) > 0 {
		c.fail(faults.Diverged, "the log ends at place %d, and the copy at %d; keep all files", last, c.taken.Place)
	}
}
