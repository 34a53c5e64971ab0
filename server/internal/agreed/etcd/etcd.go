// Package etcd has the agreed log in etcd, by its messages over gRPC.
//
// Keys under the log's name: `head`, `log/WRITER/NUMBER` with an entry each, `at/REPLICA` with what a
// replica reports of itself, `trimmed`. An entry's place is the revision that made its key. Other keys
// are no replica's, and are skipped.
package etcd

import (
	"context"
	"errors"
	"fmt"
	"strings"
	"sync"
	"time"

	pb "go.etcd.io/etcd/etcdserver/etcdserverpb"

	"telovamish.org/server/internal/agreed"
	"telovamish.org/server/internal/report"
)

const (
	try    = 2 * time.Second        // for which one address is waited for
	all    = 10 * time.Second       // after which no address is tried any more
	again  = 100 * time.Millisecond // before all addresses are tried again
	leader = 5 * time.Second        // after which it is looked again which address is the leader's
	walk   = 30 * time.Second       // for which a page is waited for: etcd goes over all keys for each
	left   = 60 * time.Second       // after which nothing is under way over a connection that was left
)

func init() {
	agreed.Register("etcd", 2379,
		func(addresses []agreed.Address, name string, access agreed.Access, log *report.Log) (agreed.Log, error) {
			return New(addresses, name, access, log)
		})
}

// Log is the log under a name, over several addresses of one etcd.
type Log struct {
	addresses []*address
	prefix    string
	log       *report.Log // nil if nothing is said
	appended  *agreed.Appended
	closed    chan struct{}
	own       sync.WaitGroup // goroutines that outlive a call
	ctx       context.Context
	cancel    context.CancelFunc // of these

	mu        sync.Mutex
	isClosed  bool
	writing   int
	reading   int
	moved     chan struct{} // closed when reads are to go on elsewhere
	why       string        // they do, if that is to be said
	isUnread  bool          // whether it was said that nothing is read
	looked    time.Time     // when it was looked last which address is the leader's
	isLooking bool
	left      map[*stubs]bool // connections over which something may be under way
}

// New is a log under a name. It connects when it is called first. A file of TLS may be wrong.
func New(addresses []agreed.Address, name string, access agreed.Access, log *report.Log) (*Log, error) {
	it := &Log{
		prefix:   strings.TrimRight(name, "/") + "/",
		log:      log,
		appended: agreed.NewAppended(),
		closed:   make(chan struct{}),
		moved:    make(chan struct{}),
		left:     map[*stubs]bool{},
	}
	it.ctx, it.cancel = context.WithCancel(context.Background())
	for _, place := range addresses {
		at := &address{place: place.String(), access: access}
		its, err := at.connect()
		if err != nil {
			it.Close()
			return nil, err
		}
		at.use(its)
		it.addresses = append(it.addresses, at)
	}
	return it, nil
}

// limits are how long a call is tried, and each address waited for.
type limits struct{ whole, each time.Duration }

var (
	usual = limits{all, try}
	soon  = limits{try, try}
	long  = limits{all, walk}
)

// call is the answer of the first address that has one, from the last good one on.
func call[R any](ctx context.Context, l *Log, most limits, do func(context.Context, *stubs) (R, error)) (R, error) {
	var none R
	end := time.Now().Add(most.whole)
	for tried := 1; ; tried++ {
		if err := l.over(ctx); err != nil {
			return none, err
		}
		number, at := l.current()
		found, err := callAt(ctx, at, most.each, do)
		if err == nil {
			return found, nil
		}
		if fault := at.fault(err); fault != nil {
			return none, fault
		}
		l.next(number)
		if !time.Now().Before(end) || tried%len(l.addresses) == 0 && !agreed.Pause(ctx, again) {
			return none, agreed.Failed(agreed.ErrNoLog, at.place+": "+textOf(err))
		}
	}
}

func callAt[R any](ctx context.Context, at *address, most time.Duration,
	do func(context.Context, *stubs) (R, error)) (R, error) {
	called, its, err := at.called(ctx)
	if err != nil {
		var none R
		return none, err
	}
	within, cancel := context.WithTimeout(called, most)
	defer cancel()
	return do(within, its)
}

// over is why no address is called, if none is to be.
func (l *Log) over(ctx context.Context) error {
	select {
	case <-l.closed:
		return agreed.Failed(agreed.ErrNoLog, "the log is closed")
	case <-ctx.Done():
		return agreed.Failed(agreed.ErrNoLog, ctx.Err().Error())
	default:
		return nil
	}
}

// current is the address that is written to.
func (l *Log) current() (int, *address) {
	l.mu.Lock()
	defer l.mu.Unlock()
	return l.writing, l.addresses[l.writing]
}

// next has calls go to the address after one that failed, if no other call has seen to that.
func (l *Log) next(failed int) {
	l.mu.Lock()
	defer l.mu.Unlock()
	if l.writing == failed {
		l.writing = (failed + 1) % len(l.addresses)
	}
}

// ranged is what a range of keys has.
func (l *Log) ranged(ctx context.Context, most limits, request *pb.RangeRequest) (*pb.RangeResponse, error) {
	return call(ctx, l, most, func(ctx context.Context, at *stubs) (*pb.RangeResponse, error) {
		return at.keys.Range(ctx, request)
	})
}

func (l *Log) txn(ctx context.Context, most limits, request *pb.TxnRequest) (*pb.TxnResponse, error) {
	return call(ctx, l, most, func(ctx context.Context, at *stubs) (*pb.TxnResponse, error) {
		return at.keys.Txn(ctx, request)
	})
}

func (l *Log) put(ctx context.Context, most limits, key string, value []byte) error {
	_, err := call(ctx, l, most, func(ctx context.Context, at *stubs) (*pb.PutResponse, error) {
		return at.keys.Put(ctx, &pb.PutRequest{Key: []byte(key), Value: value})
	})
	return err
}

// key is a key under the log's name.
func (l *Log) key(name string) []byte { return []byte(l.prefix + name) }

// get is the value of a key, and whether there is one.
func (l *Log) get(ctx context.Context, name string) ([]byte, bool, error) {
	found, err := l.ranged(ctx, usual, &pb.RangeRequest{Key: l.key(name)})
	if err != nil || len(found.Kvs) == 0 {
		return nil, false, err
	}
	return found.Kvs[0].Value, true, nil
}

// absent is the transaction that puts a key if it is not there, and otherwise returns it.
func absent(key, value []byte) *pb.TxnRequest {
	return &pb.TxnRequest{
		Compare: []*pb.Compare{{
			Result: pb.Compare_EQUAL, Target: pb.Compare_CREATE, Key: key,
			TargetUnion: &pb.Compare_CreateRevision{CreateRevision: 0},
		}},
		Success: []*pb.RequestOp{putting(key, value)},
		Failure: []*pb.RequestOp{getting(key)},
	}
}

func putting(key, value []byte) *pb.RequestOp {
	return &pb.RequestOp{Request: &pb.RequestOp_RequestPut{RequestPut: &pb.PutRequest{Key: key, Value: value}}}
}

func getting(key []byte) *pb.RequestOp {
	return &pb.RequestOp{Request: &pb.RequestOp_RequestRange{RequestRange: &pb.RangeRequest{Key: key}}}
}

// Head implements agreed.Log.
func (l *Log) Head(ctx context.Context, wanted []byte) ([]byte, error) {
	found, ok, err := l.get(ctx, "head")
	if err != nil || ok || wanted == nil { // if it is there no room is needed: etcd may be full
		return found, err
	}
	return l.changed(ctx, absent(l.key("head"), wanted), wanted)
}

// ChangeHead implements agreed.Log.
func (l *Log) ChangeHead(ctx context.Context, before, after []byte) ([]byte, error) {
	key := l.key("head")
	return l.changed(ctx, &pb.TxnRequest{
		Compare: []*pb.Compare{{
			Result: pb.Compare_EQUAL, Target: pb.Compare_VALUE, Key: key,
			TargetUnion: &pb.Compare_Value{Value: before},
		}},
		Success: []*pb.RequestOp{putting(key, after)},
		Failure: []*pb.RequestOp{getting(key)},
	}, after)
}

// changed is the head after a transaction.
func (l *Log) changed(ctx context.Context, request *pb.TxnRequest, after []byte) ([]byte, error) {
	made, err := l.txn(ctx, usual, request)
	if err != nil || made.Succeeded {
		return after, err
	}
	pair, err := pairIn(made)
	if err != nil {
		return nil, err
	}
	return pair.Value, nil
}

// Clock implements agreed.Log: etcd has no clock.
func (l *Log) Clock(context.Context) (int64, bool, error) { return 0, false, nil }

// Last implements agreed.Log.
func (l *Log) Last(ctx context.Context) (agreed.Place, error) {
	found, err := l.ranged(ctx, usual, &pb.RangeRequest{Key: l.key("head"), KeysOnly: true})
	if err != nil {
		return 0, err
	}
	return agreed.Place(found.Header.Revision), nil
}

// Append implements agreed.Log.
func (l *Log) Append(ctx context.Context, writer []byte, number uint64, data []byte) (agreed.Place, error) {
	key := l.key(fmt.Sprintf("log/%x/%020d", writer, number))
	made, err := l.txn(ctx, soon, absent(key, data))
	if err != nil {
		return 0, err
	}
	l.lookForLeader()
	if made.Succeeded {
		place := agreed.Place(made.Header.Revision)
		l.appended.Put(place, data)
		return place, nil
	}
	pair, err := pairIn(made)
	if err != nil {
		return 0, err
	}
	return agreed.Place(pair.CreateRevision), nil
}

// lookForLeader sees to it now and then that entries go to the leader: from another member an entry has
// one way more to go, and its answer two.
func (l *Log) lookForLeader() {
	l.mu.Lock()
	defer l.mu.Unlock()
	if l.isClosed || l.isLooking || time.Since(l.looked) < leader {
		return
	}
	l.isLooking, l.looked = true, time.Now()
	l.own.Add(1)
	go func() {
		defer report.Guard()
		defer l.own.Done()
		l.writeToLeader()
	}()
}

// writeToLeader writes to the leader's address, as the address that is written to reports, or otherwise
// the next one. One that takes itself for the leader is not asked.
func (l *Log) writeToLeader() {
	id := uint64(0)
	from, _ := l.current()
	for step := range l.addresses {
		number := (from + step) % len(l.addresses)
		said, err := callAt(l.ctx, l.addresses[number], try,
			func(ctx context.Context, at *stubs) (*pb.StatusResponse, error) {
				return at.care.Status(ctx, &pb.StatusRequest{})
			})
		if err != nil {
			continue
		}
		if id == 0 {
			id = said.Leader
		}
		if id != 0 && said.Header.MemberId == id {
			l.mu.Lock()
			l.writing = number
			l.mu.Unlock()
			break
		}
	}
	l.mu.Lock()
	l.isLooking = false
	l.mu.Unlock()
}

// Report implements agreed.Log.
func (l *Log) Report(ctx context.Context, name string, data []byte) error {
	return l.put(ctx, soon, l.prefix+"at/"+name, data)
}

// Reports implements agreed.Log.
func (l *Log) Reports(ctx context.Context) (map[string][]byte, error) {
	prefix := l.key("at/")
	found, err := l.ranged(ctx, usual, &pb.RangeRequest{Key: prefix, RangeEnd: endOf(prefix)})
	if err != nil {
		return nil, err
	}
	reports := map[string][]byte{}
	for _, it := range found.Kvs {
		if name, ok := nameOf(it.Key[len(prefix):]); ok {
			reports[name] = it.Value
		}
	}
	return reports, nil
}

// Forget implements agreed.Log.
func (l *Log) Forget(ctx context.Context, name string) error {
	_, err := call(ctx, l, usual, func(ctx context.Context, at *stubs) (*pb.DeleteRangeResponse, error) {
		return at.keys.DeleteRange(ctx, &pb.DeleteRangeRequest{Key: l.key("at/" + name)})
	})
	return err
}

// Renew implements agreed.Log.
func (l *Log) Renew() error {
	if l.addresses[0].access.Authority == "" {
		return nil
	}
	made := []*stubs{}
	for _, at := range l.addresses {
		its, err := at.connect()
		if err != nil {
			closeAll(made)
			return err
		}
		made = append(made, its)
	}
	l.mu.Lock()
	if l.isClosed {
		l.mu.Unlock()
		closeAll(made)
		return agreed.Failed(agreed.ErrNoLog, "the log is closed")
	}
	before := []*stubs{}
	for at, its := range made {
		it := l.addresses[at].use(its)
		before = append(before, it)
		l.left[it] = true
	}
	l.own.Add(1)
	l.mu.Unlock()
	l.move("", false)
	go l.closeLater(before)
	return nil
}

// closeLater closes connections once nothing is under way over them.
func (l *Log) closeLater(some []*stubs) {
	defer report.Guard()
	defer l.own.Done()
	if !agreed.Pause(l.ctx, leftFor) {
		return
	}
	closeAll(some)
	l.mu.Lock()
	defer l.mu.Unlock()
	for _, it := range some {
		delete(l.left, it)
	}
}

// leftFor is left, or less in a test.
var leftFor = left

func closeAll(some []*stubs) {
	for _, it := range some {
		it.conn.Close()
	}
}

// Close implements agreed.Log.
func (l *Log) Close() error {
	l.mu.Lock()
	if l.isClosed {
		l.mu.Unlock()
		return nil
	}
	l.isClosed = true
	close(l.closed)
	l.cancel()
	some := []*stubs{}
	for it := range l.left {
		some = append(some, it)
	}
	l.mu.Unlock()
	for _, at := range l.addresses {
		some = append(some, at.current())
	}
	closeAll(some)
	l.own.Wait()
	return nil
}

var errNothing = errors.New("etcd answered without what was asked for")

// isLost reports whether a log is not reached.
func isLost(err error) bool {
	return errors.Is(err, agreed.ErrNoLog) || errors.Is(err, agreed.ErrGone)
}
