package replicated

import (
	"context"
	"errors"
	"os"
	"path/filepath"
	"time"

	"telovamish.org/server/internal/agreed"
	"telovamish.org/server/internal/logcopy"
	"telovamish.org/server/internal/replica"
)

// do does what the core asks for. What takes long goes on in a goroutine.
func (b *Backend) do(now replica.Instant, action replica.Action) {
	switch it := action.(type) {
	case *replica.Answer:
		b.answer(it.Answers)
	case *replica.Feed:
		b.server.Give(it.Position, it.Pairs)
	case *replica.Keep:
		if err := b.copy.keep(agreed.Place(it.Place), it.Data); err != nil {
			b.fail(err)
		}
	case *replica.Append:
		b.append(*it)
	case *replica.SetTimer:
		b.setTimer(now, it.At)
	case *replica.Say:
		b.says(it.Text)
		if it.Kind != "" {
			b.lines.SayOf("", it.Text, it.Kind)
		} else {
			b.lines.Say(it.Level, "%s", it.Text)
		}
	case *replica.End:
		if b.ended == nil {
			ended := *it
			b.ended = &ended
		}
	default:
		b.doSeldom(action)
	}
}

// doSeldom does what is asked for less often.
func (b *Backend) doSeldom(action replica.Action) {
	switch it := action.(type) {
	case *replica.StartServer:
		b.serving = make(chan error, 1)
		b.goes(b.serve)
	case *replica.Read:
		b.read(*it)
	case *replica.ReadNode:
		b.readNode(*it)
	case *replica.StopNode:
		if cancel := b.nodes[it.Ask]; cancel != nil {
			cancel()
			delete(b.nodes, it.Ask)
		}
	case *replica.ReadCopy:
		position := it.Position
		b.goes(func() { b.readCopy(position) })
	case *replica.SyncCopy:
		to := b.copy.Mark()
		b.goes(func() { b.sync(to) })
	case *replica.KeepHead:
		if _, err := logcopy.Kept(b.copy.Folder(), "head", it.Head); err != nil {
			b.fail(err)
		}
	default:
		b.ask(action)
	}
}

// ask asks the log for something.
func (b *Backend) ask(action replica.Action) {
	switch it := action.(type) {
	case *replica.ReadStart:
		head := append([]byte(nil), it.Head...)
		b.goes(func() { b.readStart(head) })
	case *replica.ReadTrimmed:
		b.goes(func() {
			position, place, err := b.log.Trimmed(b.ctx)
			if why, ok := b.failed(err); ok {
				b.trimmed(position, err)
				b.post(&replica.TrimmedRead{Position: position, Place: int64(place), Failed: why})
			}
		})
	case *replica.WriteReport:
		data := append([]byte(nil), it.Data...)
		b.goes(func() {
			err := b.log.Report(b.ctx, b.name, data)
			if _, ok := b.failed(err); ok {
				b.post(&replica.ReportWritten{IsWritten: err == nil})
			}
			position, _, err := b.log.Trimmed(b.ctx) // another one may have trimmed it
			b.trimmed(position, err)
		})
	case *replica.ReadReports:
		b.goes(b.readReports)
	case *replica.ReadClock:
		b.goes(func() {
			clock, known, err := b.log.Clock(b.ctx)
			if _, ok := b.failed(err); ok {
				b.post(&replica.ClockRead{Clock: clock, IsKnown: known && err == nil})
			}
		})
	case *replica.ReadFull:
		b.goes(func() {
			why, err := b.log.Full(b.ctx)
			if _, ok := b.failed(err); ok {
				b.post(&replica.FullRead{Text: why})
			}
		})
	}
}

func (b *Backend) setTimer(now replica.Instant, at int64) {
	if b.timer != nil {
		b.timer.Stop()
	}
	wait := time.Duration(at - now.Running)
	b.timer = time.AfterFunc(wait, func() { b.post(&replica.Tick{}) })
}

// serve runs the server.
func (b *Backend) serve() {
	err := b.server.Run()
	if status, line, isFault := endOf(err); isFault {
		b.post(&replica.ServerEnded{Status: status, Line: line})
	}
	b.serving <- err
}

func (b *Backend) append(it replica.Append) {
	b.appending(it)
	b.goes(func() {
		b.appends()
		place, err := b.log.Append(b.ctx, it.Writer[:], it.Number, it.Data)
		why, ok := b.failed(err)
		switch {
		case !ok:
		case err != nil:
			b.post(&replica.AppendLost{Number: it.Number, Why: why})
		default:
			b.post(&replica.Appended{Number: it.Number, Place: int64(place)})
		}
	})
}

func (b *Backend) sync(to mark) {
	if err := b.copy.Sync(to); err != nil {
		b.fail(err)
		return
	}
	b.synced.Store(to.Position)
	b.post(&replica.CopySynced{Position: to.Position, Place: int64(to.Place), End: to.End})
}

// readStart reads what the log and the copy's folder have.
func (b *Backend) readStart(head []byte) {
	it := &replica.StartRead{Folder: b.copy.Folder()}
	found, err := b.log.Head(b.ctx, head)
	if err == nil {
		it.Head = found
		it.KeptHead, err = keptHead(b.copy.Folder())
	}
	if err == nil {
		var position uint64
		var place agreed.Place
		position, place, err = b.log.Trimmed(b.ctx)
		it.TrimmedPosition, it.TrimmedPlace = int64(position), int64(place)
		b.trimmed(position, err)
	}
	if err == nil {
		var last agreed.Place
		last, err = b.log.Last(b.ctx) // of later: what was trimmed before lies up to there
		it.Last = int64(last)
	}
	why, ok := b.failed(err)
	if it.Failed = why; ok {
		b.post(it)
	}
}

// trimmed notes where the log begins.
func (b *Backend) trimmed(position uint64, err error) {
	if err == nil {
		b.first.Store(position + 1)
	}
}

func keptHead(folder string) ([]byte, error) {
	if _, err := os.Stat(filepath.Join(folder, "head")); os.IsNotExist(err) {
		return nil, nil
	}
	return logcopy.HeadIn(folder)
}

func (b *Backend) readReports() {
	found, err := b.log.Reports(b.ctx)
	why, ok := b.failed(err)
	names := []string{}
	for name := range found {
		names = append(names, name)
	}
	if ok {
		b.post(&replica.ReportsRead{Names: names, Failed: why})
	}
}

// reading is a read of the log that is under way.
type reading struct {
	cancel context.CancelFunc
	done   chan struct{}
}

// read reads the log after a place, and nowhere else any more.
func (b *Backend) read(it replica.Read) {
	before := b.reading
	if before != nil {
		before.cancel()
	}
	if it.IsElsewhere {
		b.log.LookElsewhere()
	}
	ctx, cancel := context.WithCancel(b.ctx)
	mine := &reading{cancel, make(chan struct{})}
	b.reading = mine
	b.goes(func() {
		defer close(mine.done)
		if before != nil {
			<-before.done
		}
		err := b.log.Read(ctx, agreed.Place(it.After), func(item agreed.Item) error { return b.came(ctx, it.Reading, item) })
		switch {
		case ctx.Err() != nil:
		case errors.Is(err, agreed.ErrGone):
			b.post(&replica.ReadGone{Reading: it.Reading, Text: err.Error()})
		default:
			b.fail(err)
		}
	})
}

// came passes on what was read, once there is room.
func (b *Backend) came(ctx context.Context, number uint64, it agreed.Item) error {
	if it.Report != "" {
		b.post(&replica.ReportRead{Name: it.Report, Data: it.Data, Place: int64(it.Place)})
		return nil
	}
	return b.postRead(ctx, &replica.EntryRead{Reading: number, Item: itemOf(it)})
}

func itemOf(it agreed.Item) replica.Item {
	return replica.Item{Place: int64(it.Place), Data: it.Data, Node: it.Node}
}

// postRead waits until the core has taken most of what was read.
func (b *Backend) postRead(ctx context.Context, it replica.Event) error {
	select {
	case b.slots <- struct{}{}:
	case <-ctx.Done():
		return ctx.Err()
	}
	b.postAll(event{it, func() { <-b.slots }})
	return nil
}

// readNode reads what one node has.
func (b *Backend) readNode(it replica.ReadNode) {
	ctx, cancel := context.WithCancel(b.ctx)
	b.nodes[it.Ask] = cancel
	b.goes(func() {
		defer cancel()
		err := b.log.Seen(ctx, it.Node, agreed.Place(it.After), func(item agreed.Item) error {
			its := itemOf(item)
			return b.postRead(ctx, &replica.NodeRead{Ask: it.Ask, Item: &its})
		})
		if ctx.Err() == nil {
			if _, ok := b.failed(err); ok {
				b.post(&replica.NodeRead{Ask: it.Ask})
			}
		}
	})
}

// readCopy reads entries of the copy.
func (b *Backend) readCopy(position uint64) {
	pairs, err := b.copy.read(position)
	if err != nil {
		b.fail(err)
		return
	}
	b.post(&replica.CopyRead{Position: position, Pairs: pairs})
}
