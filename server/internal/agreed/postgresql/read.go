package postgresql

import (
	"context"
	"errors"
	"fmt"
	"time"

	"telovamish.org/server/internal/agreed"
	"telovamish.org/server/internal/report"
)

const (
	latest  = 50 * time.Millisecond  // after which it is looked for entries of others
	page    = 16                     // entries that are read at a time
	reports = 200 * time.Millisecond // after which it is looked for reports
	waited  = 2 * time.Millisecond   // after which it is looked again what standbys have
)

// reader is a Read that is under way.
type reader struct {
	*Log
	take     func(agreed.Item) error
	taken    error        // what take returned, if it is to end
	place    agreed.Place // up to which all was read
	from     *connection  // nil if there is none
	said     map[string]string
	looked   time.Time // when it was looked for reports last
	isBehind bool      // whether it was said that the standbys do not have what is to be read
	isUnread bool      // whether it was said that nothing is read
}

var errTaken = errors.New("the reader ended")

// Read implements agreed.Log.
func (l *Log) Read(ctx context.Context, after agreed.Place, take func(agreed.Item) error) error {
	l.appended.Begin()
	defer l.appended.End()
	r := &reader{Log: l, take: take, place: after, said: map[string]string{}}
	defer r.leave()
	for {
		moved := l.isMoved()
		err := r.step(ctx)
		switch {
		case r.taken != nil:
			return r.taken
		case ctx.Err() != nil:
			return ctx.Err()
		case l.over(ctx) != nil:
			return l.over(ctx)
		case err != nil:
			if err := r.fail(ctx, err); err != nil {
				return err
			}
		}
		if err := r.wait(ctx, moved); err != nil {
			return err
		}
	}
}

// wait waits until there may be more to read.
func (r *reader) wait(ctx context.Context, moved <-chan struct{}) error {
	timer := time.NewTimer(latest)
	defer timer.Stop()
	select {
	case <-ctx.Done():
		return ctx.Err()
	case <-r.closed:
		return agreed.Failed(agreed.ErrNoLog, "the log is closed")
	case <-moved:
		r.leave()
	case <-r.appended.Came():
	case <-timer.C:
	}
	return nil
}

func (l *Log) isMoved() <-chan struct{} {
	l.mu.Lock()
	defer l.mu.Unlock()
	return l.moved
}

// LookElsewhere implements agreed.Log: reads go on over another connection, to the address that was
// connected last.
func (l *Log) LookElsewhere() {
	l.mu.Lock()
	defer l.mu.Unlock()
	close(l.moved)
	l.moved = make(chan struct{})
}

// fail takes an error of a step. It returns one if the reader ends.
func (r *reader) fail(ctx context.Context, err error) error {
	if isRotten(err) {
		r.sayUnread(whyOf(err))
		if r.deliver(agreed.Item{Place: r.place + 1, Data: []byte{}, Node: r.at()}) != nil {
			return r.taken
		}
		return nil
	}
	why := whyOf(err)
	if fault := faultOf(err); fault != nil {
		var failed *agreed.Error
		if !errors.As(fault, &failed) || failed.Kind == agreed.ErrGone {
			return fault
		}
		why = failed.Text
	}
	r.sayUnread(why)
	r.leave()
	agreed.Pause(ctx, again)
	return nil
}

// step reads once: own entries that are next, a page, and what replicas report.
func (r *reader) step(ctx context.Context) error {
	for {
		it, ok := r.appended.Next(r.place)
		if !ok {
			break
		}
		if err := r.deliver(it); err != nil {
			return err
		}
	}
	rows, err := r.page(ctx)
	if err != nil {
		return err
	}
	for _, it := range rows {
		if err := r.takeRow(ctx, it); err != nil {
			return err
		}
		if agreed.Place(it.int(0)) > r.place {
			break
		}
	}
	if time.Since(r.looked) < reports {
		return nil
	}
	r.looked = time.Now()
	return r.takeReports(ctx)
}

// takeRow passes on the row after what was read. Positions have no gap: so one that is not the next is
// what a disk has made of it, unless the log was trimmed up to there.
func (r *reader) takeRow(ctx context.Context, it row) error {
	place := agreed.Place(it.int(0))
	if place > r.place+1 {
		_, trimmed, err := r.Trimmed(ctx)
		if err != nil {
			return err
		}
		if trimmed > r.place {
			return agreed.Failed(agreed.ErrGone, fmt.Sprintf("position %d comes after %d", place, r.place))
		}
		if err := r.deliver(agreed.Item{Place: r.place + 1, Data: []byte{}, Node: r.at()}); err != nil {
			return err
		}
	}
	if place != r.place+1 {
		return nil
	}
	return r.deliver(agreed.Item{Place: place, Data: it[1], Node: r.at()})
}

func (r *reader) takeReports(ctx context.Context) error {
	within, cancel := r.within(ctx, try)
	defer cancel()
	results, err := r.from.run(within, made(r.texts.reports))
	if err != nil {
		return err
	}
	for _, it := range results[0] {
		name, data := string(it[0]), string(it[1])
		if before, ok := r.said[name]; ok && before == data {
			continue
		}
		r.said[name] = data
		if err := r.deliver(agreed.Item{Data: it[1], Node: r.at(), Report: name}); err != nil {
			return err
		}
	}
	return nil
}

// deliver passes on an item, and counts an entry.
func (r *reader) deliver(it agreed.Item) error {
	if r.taken = r.take(it); r.taken != nil {
		return errTaken
	}
	if it.Report == "" && it.Place > r.place {
		r.place = it.Place
	}
	return nil
}

// at is the address that is read from.
func (r *reader) at() string {
	if r.from == nil {
		return ""
	}
	return r.from.place
}

// page is the next rows, once the standbys have them.
func (r *reader) page(ctx context.Context) ([]row, error) {
	if err := r.reach(ctx); err != nil {
		return nil, err
	}
	within, cancel := r.within(ctx, all)
	defer cancel()
	results, err := r.from.run(within, made(r.texts.read, int64(r.place)), made(r.texts.flushed))
	if err != nil {
		return nil, err
	}
	r.isUnread = false
	rows := results[0]
	if len(rows) == 0 || r.access.Standbys == 0 {
		return rows, nil
	}
	count := results[1][0].int(0)
	for late := time.Now().Add(try); count < int64(r.access.Standbys); {
		if time.Now().After(late) {
			r.sayBehind(count)
		}
		if !agreed.Pause(within, waited) {
			return nil, within.Err()
		}
		results, err := r.from.run(within, made(r.texts.isFlushed, string(rows[0][2])))
		if err != nil {
			return nil, err
		}
		count = results[0][0].int(0)
	}
	r.isBehind = false
	return rows, nil
}

// reach connects, if there is no connection that is read over.
func (r *reader) reach(ctx context.Context) error {
	if r.from != nil {
		return nil
	}
	connecting, cancel := r.within(ctx, try)
	defer cancel()
	it, err := r.connected(connecting)
	if err != nil {
		return err
	}
	r.from = it
	r.mu.Lock()
	r.readAt = it.place
	r.mu.Unlock()
	return nil
}

// leave reads over another connection from now on.
func (r *reader) leave() {
	r.from.close()
	r.from = nil
}

// sayUnread says why nothing is read, once until something is.
func (r *reader) sayUnread(why string) {
	if !r.isUnread && !r.isBehind && r.log != nil {
		r.log.SayOf("", "NoLog: the log is not read: "+why, "")
	}
	r.isUnread = true
}

// sayBehind says why nothing is read, once: appends may go on without the standbys.
func (r *reader) sayBehind(count int64) {
	if !r.isBehind && r.log != nil {
		r.log.Say(report.Warning, "NoLog: %d of %d standbys have flushed what is to be read; a member of "+
			"pg_monitor alone sees them", count, r.access.Standbys)
	}
	r.isBehind = true
}

// Nodes implements agreed.Log.
func (l *Log) Nodes() []string {
	l.mu.Lock()
	defer l.mu.Unlock()
	nodes, mine := []string{}, []string{}
	for _, it := range l.addresses {
		if it.String() == l.readAt {
			mine = append(mine, it.String())
		} else {
			nodes = append(nodes, it.String())
		}
	}
	return append(nodes, mine...)
}

// Seen implements agreed.Log. A standby has flushed what it shows.
func (l *Log) Seen(ctx context.Context, node string, after agreed.Place, take func(agreed.Item) error) error {
	var taken error
	for _, at := range l.addresses {
		if at.String() != node {
			continue
		}
		l.asked(ctx, at, func(ctx context.Context, it *connection) error {
			for {
				within, cancel := l.within(ctx, all)
				results, err := it.run(within, made(l.texts.seen, int64(after)))
				cancel()
				if err != nil || len(results[0]) == 0 {
					return err
				}
				for _, found := range results[0] {
					after = agreed.Place(found.int(0))
					if taken = take(agreed.Item{Place: after, Data: found[1], Node: node}); taken != nil {
						return taken
					}
				}
			}
		})
	}
	if taken == nil {
		return ctx.Err()
	}
	return taken
}

// asked asks one server, which may be a standby. What it does not answer in time is left out.
func (l *Log) asked(ctx context.Context, at agreed.Address, work func(context.Context, *connection) error) {
	connecting, cancel := l.within(ctx, try)
	defer cancel()
	it, err := l.connect(connecting, at, false)
	if err == nil {
		work(ctx, it)
		it.close()
	}
}
