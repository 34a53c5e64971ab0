package etcd

import (
	"bytes"
	"context"
	"errors"
	"fmt"
	"regexp"
	"sort"
	"strconv"
	"time"
	"unicode/utf8"

	pb "go.etcd.io/etcd/etcdserver/etcdserverpb"
	"go.etcd.io/etcd/mvcc/mvccpb"

	"telovamish.org/server/internal/agreed"
	"telovamish.org/server/internal/faults"
	"telovamish.org/server/internal/report"
)

const listed = 1000 // entries that are listed at a time: etcd holds a page with the values

// magics are what the bytes of an entry begin with.
var magics = [][]byte{[]byte("TBENTRY2"), []byte("TBENTRYZ")}

// entryForm is what an entry's key has after the log's name.
var entryForm = regexp.MustCompile(`^log/([0-9a-f]+)/([0-9]{20})$`)

// reader is a Read that is under way.
type reader struct {
	*Log
	appended *agreed.Appended // whose entries need not be read
	isSilent bool             // it is not said why nothing is read
	take     func(agreed.Item) error
	taken    error        // what take returned, if it is to end
	cursor   agreed.Place // the revision up to which all was read
	place    agreed.Place // of the last entry up to there
}

var (
	errMoved = errors.New("reads go on elsewhere")
	errTaken = errors.New("the reader ended")
)

// Read implements agreed.Log.
func (l *Log) Read(ctx context.Context, after agreed.Place, take func(agreed.Item) error) error {
	l.appended.Begin()
	defer l.appended.End()
	return l.read(ctx, &reader{Log: l, appended: l.appended, take: take, cursor: after, place: after})
}

func (l *Log) read(ctx context.Context, r *reader) error {
	for {
		number, at, moved := l.readFrom()
		err := r.some(ctx, at, moved)
		switch {
		case r.taken != nil:
			return r.taken
		case ctx.Err() != nil:
			return ctx.Err()
		case l.over(ctx) != nil:
			return l.over(ctx)
		case err == errMoved:
			r.sayUnread(at, l.whyMoved())
		default:
			if err != nil {
				if fault := at.fault(err); fault != nil && !errors.Is(fault, agreed.ErrNoLog) {
					return fault
				}
				r.sayUnread(at, textOf(err))
			}
			l.readNext(number)
		}
		agreed.Pause(ctx, again)
	}
}

// readFrom is the address that is read from, and what comes when reads are to go on elsewhere.
func (l *Log) readFrom() (int, *address, <-chan struct{}) {
	l.mu.Lock()
	defer l.mu.Unlock()
	return l.reading, l.addresses[l.reading], l.moved
}

// readNext reads at the next address, if nothing else has seen to that.
func (l *Log) readNext(from int) {
	l.mu.Lock()
	defer l.mu.Unlock()
	if l.reading == from {
		l.reading = (from + 1) % len(l.addresses)
	}
}

// move has reads go on: at the next address, or over a new connection to the same one.
func (l *Log) move(why string, isElsewhere bool) {
	l.mu.Lock()
	defer l.mu.Unlock()
	if isElsewhere {
		l.reading = (l.reading + 1) % len(l.addresses)
	}
	l.why = why
	close(l.moved)
	l.moved = make(chan struct{})
}

func (l *Log) whyMoved() string {
	l.mu.Lock()
	defer l.mu.Unlock()
	return l.why
}

// LookElsewhere implements agreed.Log.
func (l *Log) LookElsewhere() { l.move("what was written there does not come", true) }

// sayUnread says why nothing is read, once until something is.
func (r *reader) sayUnread(at *address, why string) {
	if why != "" && r.setUnread(true) && !r.isSilent {
		r.say("NoLog: the log is not read at "+at.place+": "+why, "")
	}
}

// setUnread keeps whether it was said that nothing is read, and reports whether that is new.
func (l *Log) setUnread(isUnread bool) bool {
	l.mu.Lock()
	defer l.mu.Unlock()
	isNew := l.isUnread != isUnread
	l.isUnread = isUnread
	return isNew
}

func (l *Log) say(text, ofKind string) {
	if l.log != nil {
		l.log.SayOf("", text, ofKind)
	}
}

// some passes on what is watched. If that is gone, it passes on what is kept.
func (r *reader) some(ctx context.Context, at *address, moved <-chan struct{}) error {
	err := r.watch(ctx, at, moved)
	if err != nil && r.taken == nil && errors.Is(r.faultOf(at, err), agreed.ErrGone) {
		return r.list(ctx, at)
	}
	return err
}

func (r *reader) faultOf(at *address, err error) error {
	if fault := at.fault(err); fault != nil {
		return fault
	}
	return err
}

// deliver passes on an item, if there is one, and counts it.
func (r *reader) deliver(revision agreed.Place, it *agreed.Item) error {
	if it != nil {
		if r.taken = r.take(*it); r.taken != nil {
			return errTaken
		}
		if it.Report == "" && it.Place > r.place {
			r.place = it.Place
		}
	}
	if revision > r.cursor {
		r.cursor = revision
	}
	return nil
}

// watch passes on what is written, until the watch ends.
func (r *reader) watch(ctx context.Context, at *address, moved <-chan struct{}) error {
	ctx, cancel := context.WithCancel(ctx)
	w := &watch{responses: make(chan *pb.WatchResponse), opened: make(chan struct{}), done: make(chan struct{})}
	go w.run(ctx, at, r.wanted())
	defer func() {
		cancel()
		<-w.done
	}()
	late := time.NewTimer(try)
	defer late.Stop()
	opened := w.opened
	for {
		select {
		case <-ctx.Done():
			return ctx.Err()
		case <-r.closed:
			return agreed.Failed(agreed.ErrNoLog, "the log is closed")
		case <-moved:
			return errMoved
		case <-late.C:
			return agreed.Failed(agreed.ErrNoLog, fmt.Sprintf("no connection within %g s", try.Seconds()))
		case <-opened:
			opened = nil
			late.Stop()
		case <-r.came():
			if err := r.takeOwn(); err != nil {
				return err
			}
		case it := <-w.responses:
			if err := r.takeResponse(at, it); err != nil {
				return err
			}
		case <-w.done:
			return w.err
		}
	}
}

// wanted is the request for all that is put under the log's name after what was read.
func (r *reader) wanted() *pb.WatchRequest {
	prefix := []byte(r.prefix)
	return &pb.WatchRequest{RequestUnion: &pb.WatchRequest_CreateRequest{CreateRequest: &pb.WatchCreateRequest{
		Key:           prefix,
		RangeEnd:      endOf(prefix),
		StartRevision: int64(r.cursor) + 1,
		Filters:       []pb.WatchCreateRequest_FilterType{pb.WatchCreateRequest_NODELETE},
		Fragment:      true, // so that a long log is not held in memory whole
	}}}
}

// watch is a watch, whose responses a goroutine of its own receives.
type watch struct {
	responses chan *pb.WatchResponse
	opened    chan struct{} // closed once it was asked for
	done      chan struct{} // closed when it has ended
	err       error         // then: why
}

func (w *watch) run(ctx context.Context, at *address, wanted *pb.WatchRequest) {
	defer report.Guard()
	defer close(w.done)
	called, its, err := at.called(ctx)
	if err != nil {
		w.err = err
		return
	}
	stream, err := its.watches.Watch(called)
	if err == nil {
		err = stream.Send(wanted)
	}
	if err != nil {
		w.err = err
		return
	}
	close(w.opened)
	for {
		it, err := stream.Recv()
		if err != nil {
			w.err = err
			return
		}
		select {
		case w.responses <- it:
		case <-ctx.Done():
			w.err = ctx.Err()
			return
		}
	}
}

func (r *reader) came() <-chan struct{} {
	if r.appended == nil {
		return nil
	}
	return r.appended.Came()
}

// takeOwn passes on entries that were appended over this log, as far as they are next: each change is a
// revision more than the one before it, so nothing lies between what was read and the next revision.
func (r *reader) takeOwn() error {
	for {
		it, ok := r.appended.Next(r.cursor)
		if !ok {
			return nil
		}
		if err := r.deliver(it.Place, &it); err != nil {
			return err
		}
	}
}

// takeResponse passes on what a watch reports.
func (r *reader) takeResponse(at *address, said *pb.WatchResponse) error {
	switch {
	case said.CompactRevision != 0:
		return agreed.Failed(agreed.ErrGone, fmt.Sprintf("it was trimmed up to revision %d", said.CompactRevision))
	case said.Canceled:
		at.forgetToken()
		why := said.CancelReason
		if why == "" {
			why = "the watch was cancelled"
		}
		return errors.New(why)
	}
	r.setUnread(false)
	for _, event := range said.Events {
		revision := agreed.Place(event.Kv.ModRevision)
		if revision <= r.cursor {
			continue
		}
		if err := r.deliver(revision, r.item(event.Kv, at.place, said.Header.Revision)); err != nil {
			return err
		}
	}
	return nil
}

// item is what a key reports that changed up to a revision. What has an entry's value is one, whatever a
// disk has made of its key.
func (r *reader) item(pair *mvccpb.KeyValue, node string, revision int64) *agreed.Item {
	rest := pair.Key
	if len(rest) >= len(r.prefix) {
		rest = rest[len(r.prefix):]
	}
	isEntry := false
	for _, magic := range magics {
		isEntry = isEntry || bytes.HasPrefix(pair.Value, magic)
	}
	if !isEntry && bytes.HasPrefix(rest, []byte("log/")) {
		_, _, isEntry = r.entryIn(pair.Key)
	}
	switch {
	case isEntry:
		it := written(pair, node)
		return &it
	case pair.ModRevision > revision:
		return &agreed.Item{Place: r.cursor + 1, Data: []byte{}, Node: node}
	}
	if name, ok := bytesAfter(rest, "at/"); ok {
		if text, ok := nameOf(name); ok {
			return &agreed.Item{Place: agreed.Place(pair.ModRevision), Data: pair.Value, Node: node, Report: text}
		}
	}
	return nil
}

func bytesAfter(data []byte, prefix string) ([]byte, bool) {
	return bytes.TrimPrefix(data, []byte(prefix)), bytes.HasPrefix(data, []byte(prefix))
}

// written is the entry that a key has. It is put once: what has two revisions is not what was put, and is
// no entry.
func written(pair *mvccpb.KeyValue, node string) agreed.Item {
	it := agreed.Item{Place: agreed.Place(pair.CreateRevision), Data: pair.Value, Node: node}
	if pair.CreateRevision != pair.ModRevision {
		it.Data = []byte{}
	}
	return it
}

// entryIn is what the keys of an entry's writer begin with, and the entry's number. It is false for a key
// that no replica wrote.
func (l *Log) entryIn(key []byte) (writer string, number uint64, ok bool) {
	if bytes.HasPrefix(key, []byte(l.prefix)) {
		found := entryForm.FindSubmatch(key[len(l.prefix):])
		if found != nil {
			number, err := strconv.ParseUint(string(found[2]), 10, 64)
			if err == nil {
				return l.prefix + "log/" + string(found[1]), number, true
			}
		}
	}
	l.say(fmt.Sprintf("the key %s is no entry's, and is skipped", faults.Quoted(key)), "key")
	return "", 0, false
}

// nameOf is a replica's name. What others write there is skipped.
func nameOf(key []byte) (string, bool) { return string(key), utf8.Valid(key) && len(key) > 0 }

// endOf is the end of the range of all keys that begin so.
func endOf(prefix []byte) []byte {
	end := append([]byte(nil), prefix...)
	end[len(end)-1]++
	return end
}

// kept is the key of an entry that is kept, by its place.
type kept struct {
	place agreed.Place
	key   []byte
}

// list passes on the entries after the last one, in order, as one address has them. They are there though
// their history is not, unless the log was trimmed beyond that place.
func (r *reader) list(ctx context.Context, at *address) error {
	only := r.only(at.place)
	revision, found, err := only.keysAfter(ctx, r.place)
	if err != nil {
		return err
	}
	position, trimmed, err := only.Trimmed(ctx)
	if err != nil {
		return err
	}
	if trimmed > r.place {
		return agreed.Failed(agreed.ErrGone, fmt.Sprintf("the log begins after position %d", position))
	}
	sort.Slice(found, func(i, j int) bool { return found[i].place < found[j].place })
	for _, it := range found {
		item, err := only.keptAt(ctx, it.key)
		if err != nil {
			return err
		}
		if err := r.deliver(r.cursor, &item); err != nil {
			return err
		}
	}
	return r.deliver(revision, nil)
}

// keysAfter is the revision of now, and each entry after a place up to there. They are filtered here: for
// a filter etcd reads all values.
func (l *Log) keysAfter(ctx context.Context, place agreed.Place) (agreed.Place, []kept, error) {
	revision, found, at := int64(0), []kept(nil), l.key("log/")
	end := endOf(at)
	for {
		page, err := l.ranged(ctx, limits{0, walk}, &pb.RangeRequest{Key: at, RangeEnd: end, Limit: listed, KeysOnly: true})
		if err != nil {
			return 0, nil, err
		}
		if revision == 0 {
			revision = page.Header.Revision
		}
		for _, it := range page.Kvs {
			made := agreed.Place(it.CreateRevision)
			if made <= place || it.CreateRevision > revision {
				continue
			}
			if _, _, ok := l.entryIn(it.Key); ok {
				found = append(found, kept{made, it.Key})
			}
		}
		if !page.More || len(page.Kvs) == 0 {
			return agreed.Place(revision), found, nil
		}
		at = append(append([]byte(nil), page.Kvs[len(page.Kvs)-1].Key...), 0)
	}
}

// keptAt is an entry that was listed.
func (l *Log) keptAt(ctx context.Context, key []byte) (agreed.Item, error) {
	found, err := l.ranged(ctx, limits{0, try}, &pb.RangeRequest{Key: key})
	if err != nil {
		return agreed.Item{}, err
	}
	if len(found.Kvs) == 0 {
		return agreed.Item{}, agreed.Failed(agreed.ErrGone, "the log was trimmed while it was read")
	}
	_, at := l.current()
	return written(found.Kvs[0], at.place), nil
}

// Nodes implements agreed.Log.
func (l *Log) Nodes() []string {
	l.mu.Lock()
	defer l.mu.Unlock()
	nodes := []string{}
	for step := 1; step <= len(l.addresses); step++ {
		nodes = append(nodes, l.addresses[(l.reading+step)%len(l.addresses)].place)
	}
	return nodes
}

// idleFor is for how long one node is waited for that has no more; less in a test.
var idleFor = try

// Seen implements agreed.Log.
func (l *Log) Seen(ctx context.Context, node string, after agreed.Place, take func(agreed.Item) error) error {
	only := l.only(node)
	if only == nil {
		return nil
	}
	within, cancel := context.WithCancel(ctx)
	defer cancel()
	idle := time.AfterFunc(idleFor, cancel)
	defer idle.Stop()
	err := only.read(within, &reader{Log: only, isSilent: true, cursor: after, place: after,
		take: func(it agreed.Item) error {
			if !idle.Stop() || it.Report != "" {
				idle.Reset(idleFor)
				return nil
			}
			defer idle.Reset(idleFor)
			return take(it)
		}})
	switch {
	case ctx.Err() != nil:
		return ctx.Err()
	case isLost(err), errors.Is(err, context.Canceled):
		return nil
	}
	return err
}

// only is the log over one address.
func (l *Log) only(node string) *Log {
	for _, at := range l.addresses {
		if at.place == node {
			return &Log{
				addresses: []*address{at},
				prefix:    l.prefix,
				appended:  agreed.NewAppended(),
				closed:    l.closed,
				moved:     make(chan struct{}),
			}
		}
	}
	return nil
}
