package etcd

import (
	"context"
	"errors"
	"io"
	"sort"
	"sync"
	"testing"

	pb "go.etcd.io/etcd/etcdserver/etcdserverpb"
	"go.etcd.io/etcd/mvcc/mvccpb"
	"google.golang.org/grpc"
	"google.golang.org/grpc/codes"
	"google.golang.org/grpc/status"

	"telovamish.org/server/internal/agreed"
)

// fake is an etcd in memory, which is called without a connection.
type fake struct {
	pb.MaintenanceClient
	mu        sync.Mutex
	revision  int64
	compacted int64
	pairs     map[string]*mvccpb.KeyValue
	keys      []string // those of pairs in order, or nil if others are there since
	history   []*mvccpb.KeyValue
	grown     chan struct{}
	alarms    []*pb.AlarmMember
	leaders   []uint64 // what each node says of the leader, by its number
	calls     int
	failing   error
}

func newFake() *fake {
	return &fake{revision: 1, pairs: map[string]*mvccpb.KeyValue{}, grown: make(chan struct{})}
}

// open is a log over nodes of the fake.
func (f *fake) open(t *testing.T, name string, nodes int) *Log {
	t.Helper()
	addresses := []agreed.Address{}
	for at := 0; at < nodes; at++ {
		addresses = append(addresses, agreed.Address{Host: "127.0.0.1", Port: uint16(at + 1)})
	}
	it, err := New(addresses, name, agreed.Access{}, nil)
	if err != nil {
		t.Fatal(err)
	}
	for at, of := range it.addresses {
		node := &node{fake: f, MaintenanceClient: f, number: uint64(at + 1)}
		of.use(&stubs{conn: of.current().conn, keys: node, watches: node, care: node})
	}
	return it
}

// node is a node of the fake.
type node struct {
	*fake
	pb.MaintenanceClient
	number uint64
}

func (f *fake) begin(ctx context.Context) error {
	f.mu.Lock()
	f.calls++
	if err := ctx.Err(); err != nil {
		f.mu.Unlock()
		return status.FromContextError(err).Err()
	}
	if f.failing != nil {
		f.mu.Unlock()
		return f.failing
	}
	return nil
}

func (f *fake) header() *pb.ResponseHeader { return &pb.ResponseHeader{Revision: f.revision} }

func (n *node) Range(ctx context.Context, r *pb.RangeRequest, _ ...grpc.CallOption) (*pb.RangeResponse, error) {
	if err := n.begin(ctx); err != nil {
		return nil, err
	}
	defer n.mu.Unlock()
	return n.ranged(r), nil
}

func (f *fake) ranged(r *pb.RangeRequest) *pb.RangeResponse {
	found := &pb.RangeResponse{Header: f.header()}
	for _, key := range f.keysIn(r.Key, r.RangeEnd) {
		if r.Limit > 0 && int64(len(found.Kvs)) == r.Limit {
			found.More = true
			break
		}
		it := *f.pairs[key]
		if r.KeysOnly {
			it.Value = nil
		}
		found.Kvs = append(found.Kvs, &it)
	}
	return found
}

func (f *fake) keysIn(from, to []byte) []string {
	if f.keys == nil {
		for key := range f.pairs {
			f.keys = append(f.keys, key)
		}
		sort.Strings(f.keys)
	}
	first, end := sort.SearchStrings(f.keys, string(from)), sort.SearchStrings(f.keys, string(to))
	if len(to) == 0 {
		end = sort.SearchStrings(f.keys, string(from)+"\x00")
	}
	if end < first {
		return nil
	}
	return f.keys[first:end]
}

func (n *node) Put(ctx context.Context, r *pb.PutRequest, _ ...grpc.CallOption) (*pb.PutResponse, error) {
	if err := n.begin(ctx); err != nil {
		return nil, err
	}
	defer n.mu.Unlock()
	if len(n.alarms) > 0 {
		return nil, status.Error(codes.ResourceExhausted, "etcdserver: mvcc: "+fullText)
	}
	n.put(r.Key, r.Value)
	return &pb.PutResponse{Header: n.header()}, nil
}

func (f *fake) put(key, value []byte) {
	f.revision++
	it := &mvccpb.KeyValue{Key: key, Value: append([]byte{}, value...), CreateRevision: f.revision, ModRevision: f.revision}
	if before, ok := f.pairs[string(key)]; ok {
		it.CreateRevision = before.CreateRevision
	}
	f.pairs[string(key)], f.keys = it, nil
	f.history = append(f.history, it)
	close(f.grown)
	f.grown = make(chan struct{})
}

func (n *node) DeleteRange(ctx context.Context, r *pb.DeleteRangeRequest, _ ...grpc.CallOption) (*pb.DeleteRangeResponse, error) {
	if err := n.begin(ctx); err != nil {
		return nil, err
	}
	defer n.mu.Unlock()
	for _, key := range n.keysIn(r.Key, r.RangeEnd) {
		delete(n.pairs, key)
	}
	n.keys = nil
	n.revision++
	return &pb.DeleteRangeResponse{Header: n.header()}, nil
}

func (n *node) Txn(ctx context.Context, r *pb.TxnRequest, _ ...grpc.CallOption) (*pb.TxnResponse, error) {
	if err := n.begin(ctx); err != nil {
		return nil, err
	}
	defer n.mu.Unlock()
	if len(n.alarms) > 0 {
		return nil, status.Error(codes.ResourceExhausted, "etcdserver: mvcc: "+fullText)
	}
	compare, said := r.Compare[0], &pb.TxnResponse{}
	before, ok := n.pairs[string(compare.Key)]
	if compare.Target == pb.Compare_CREATE {
		said.Succeeded = !ok
	} else {
		said.Succeeded = ok && string(before.Value) == string(compare.GetValue())
	}
	if said.Succeeded {
		put := r.Success[0].GetRequestPut()
		n.put(put.Key, put.Value)
	} else {
		found := n.ranged(r.Failure[0].GetRequestRange())
		said.Responses = []*pb.ResponseOp{{Response: &pb.ResponseOp_ResponseRange{ResponseRange: found}}}
	}
	said.Header = n.header()
	return said, nil
}

func (n *node) Compact(ctx context.Context, r *pb.CompactionRequest, _ ...grpc.CallOption) (*pb.CompactionResponse, error) {
	if err := n.begin(ctx); err != nil {
		return nil, err
	}
	defer n.mu.Unlock()
	if r.Revision <= n.compacted {
		return nil, status.Error(codes.OutOfRange, "etcdserver: mvcc: "+compactedText)
	}
	n.compacted = r.Revision
	return &pb.CompactionResponse{Header: n.header()}, nil
}

func (n *node) Status(context.Context, *pb.StatusRequest, ...grpc.CallOption) (*pb.StatusResponse, error) {
	n.mu.Lock()
	defer n.mu.Unlock()
	said := &pb.StatusResponse{Header: &pb.ResponseHeader{MemberId: n.number}}
	if int(n.number) <= len(n.leaders) {
		said.Leader = n.leaders[n.number-1]
	}
	return said, nil
}

func (n *node) Alarm(ctx context.Context, r *pb.AlarmRequest, _ ...grpc.CallOption) (*pb.AlarmResponse, error) {
	if err := n.begin(ctx); err != nil {
		return nil, err
	}
	defer n.mu.Unlock()
	found := n.alarms
	if r.Action == pb.AlarmRequest_DEACTIVATE {
		n.alarms = nil
	}
	return &pb.AlarmResponse{Alarms: found}, nil
}

func (n *node) Defragment(context.Context, *pb.DefragmentRequest, ...grpc.CallOption) (*pb.DefragmentResponse, error) {
	if n.number == 2 {
		return nil, errors.New("it is busy")
	}
	return &pb.DefragmentResponse{}, nil
}

func (n *node) Watch(ctx context.Context, _ ...grpc.CallOption) (pb.Watch_WatchClient, error) {
	return &stream{node: n, ctx: ctx}, nil
}

// stream is a watch over the fake.
type stream struct {
	grpc.ClientStream
	node   *node
	ctx    context.Context
	next   int64
	prefix string
	end    string
}

func (s *stream) Send(r *pb.WatchRequest) error {
	it := r.GetCreateRequest()
	s.next, s.prefix, s.end = it.StartRevision, string(it.Key), string(it.RangeEnd)
	return nil
}

// Recv is what was put since then, each in a response of its own.
func (s *stream) Recv() (*pb.WatchResponse, error) {
	for {
		f := s.node.fake
		f.mu.Lock()
		grown := f.grown
		if s.next <= f.compacted {
			f.mu.Unlock()
			return &pb.WatchResponse{CompactRevision: f.compacted, Canceled: true}, nil
		}
		for _, it := range f.history {
			if it.ModRevision < s.next || string(it.Key) < s.prefix || string(it.Key) >= s.end {
				continue
			}
			s.next = it.ModRevision + 1
			said := &pb.WatchResponse{Header: f.header(), Events: []*mvccpb.Event{{Kv: it}}}
			f.mu.Unlock()
			return said, nil
		}
		f.mu.Unlock()
		select {
		case <-grown:
		case <-s.ctx.Done():
			return nil, io.EOF
		}
	}
}
