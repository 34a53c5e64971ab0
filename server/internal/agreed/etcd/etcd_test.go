package etcd

import (
	"bytes"
	"context"
	"errors"
	"fmt"
	"os"
	"path/filepath"
	"strings"
	"testing"
	"time"

	pb "go.etcd.io/etcd/etcdserver/etcdserverpb"
	"go.etcd.io/etcd/mvcc/mvccpb"
	"google.golang.org/grpc/codes"
	"google.golang.org/grpc/status"

	"telovamish.org/server/internal/agreed"
	"telovamish.org/server/internal/agreed/agreedtest"
	"telovamish.org/server/internal/report"
)

func TestLog(t *testing.T) {
	defer func(before time.Duration) { idleFor = before }(idleFor)
	idleFor = 200 * time.Millisecond
	agreedtest.TestLog(t, func(t *testing.T) func() agreed.Log {
		f := newFake()
		return func() agreed.Log { return f.open(t, "bank", 3) }
	})
}

func within(t *testing.T) context.Context {
	ctx, end := context.WithTimeout(context.Background(), agreedtest.Wait)
	t.Cleanup(end)
	return ctx
}

// TestItem has what a disk has made of a key, and keys of others.
func TestItem(t *testing.T) {
	log := newFake().open(t, "bank", 1)
	defer log.Close()
	r := &reader{Log: log, cursor: 4}
	entry := "TBENTRY2 and more"
	writer := "bank/log/" + strings.Repeat("0", 31) + "1/"
	for name, c := range map[string]struct {
		key, value  string
		create, mod int64
		want        string
	}{
		"entry":            {writer + "00000000000000000001", entry, 5, 5, "5 17 "},
		"other number":     {writer + "x0", entry, 5, 5, "5 17 "},
		"other key":        {"bank/mog/x", entry, 5, 5, "5 17 "},
		"deflated":         {"bank/log/x", "TBENTRYZ", 5, 5, "5 8 "},
		"changed value":    {writer + "00000000000000000001", "it", 5, 5, "5 2 "},
		"two revisions":    {writer + "00000000000000000001", entry, 5, 7, "5 0 "},
		"report":           {"bank/at/r0", "{}", 5, 7, "7 2 r0"},
		"beyond the log":   {"bank/at/r0", "{}", 5, 10, "5 0 "},
		"no key":           {"bank/ab/r0", "{}", 5, 7, ""},
		"foreign":          {"bank/log/x", "{}", 5, 7, ""},
		"a name not text":  {"bank/at/\xff", "{}", 5, 7, ""},
		"an empty name":    {"bank/at/", "{}", 5, 7, ""},
		"a short key":      {"b", "{}", 5, 7, ""},
		"a short key that": {"b", entry, 5, 5, "5 17 "},
	} {
		t.Run(name, func(t *testing.T) {
			pair := &mvccpb.KeyValue{Key: []byte(c.key), Value: []byte(c.value), CreateRevision: c.create, ModRevision: c.mod}
			got := ""
			if it := r.item(pair, "n0", 9); it != nil {
				got = fmt.Sprintf("%d %d %s", it.Place, len(it.Data), it.Report)
			}
			if got != c.want {
				t.Errorf("got %q, want %q", got, c.want)
			}
		})
	}
}

// TestLeader has the leader be written to, as the one that is written to reports it, or the next one.
func TestLeader(t *testing.T) {
	for _, c := range []struct {
		leaders    []uint64
		start, end int
	}{{[]uint64{3, 3, 3}, 0, 2}, {[]uint64{0, 2, 2}, 0, 1}, {[]uint64{1, 2, 2}, 1, 1}, {[]uint64{9, 9, 9}, 1, 1}} {
		f := newFake()
		log := f.open(t, "bank", 3)
		f.leaders, log.writing = c.leaders, c.start
		log.writeToLeader()
		if log.writing != c.end {
			t.Errorf("%v: %d is written to", c.leaders, log.writing)
		}
		log.Close()
	}
}

// TestKeysUpTo finds all entries up to a place and no other, by few calls: etcd goes over all keys for
// each page of a list.
func TestKeysUpTo(t *testing.T) {
	ctx, f := within(t), newFake()
	log := f.open(t, "bank", 1)
	defer log.Close()
	places := map[string]agreed.Place{}
	for _, c := range []struct {
		writer       string
		first, count uint64
	}{{"a", 3, 20_000}, {"b", 1, 1}, {"c", 7, 30}, {"d", 1, 9}} {
		for number := c.first; number < c.first+c.count; number++ {
			key := fmt.Sprintf("bank/log/%s/%020d", c.writer, number)
			place := agreed.Place(len(places) + int(number))
			places[key] = place
			f.pairs[key] = &mvccpb.KeyValue{Key: []byte(key), CreateRevision: int64(place), ModRevision: int64(place)}
		}
	}
	for _, foreign := range []string{"", "0", "123", "a", "a/", "a/!", "a/1", "b/x", "b/999999999999999999999", "~"} {
		key := "bank/log/" + foreign
		f.pairs[key] = &mvccpb.KeyValue{Key: []byte(key), CreateRevision: 1, ModRevision: 1}
	}
	for _, place := range []agreed.Place{2, 3, 4, 12_345, 20_002, 20_003, 20_050, 1_000_000} {
		f.calls = 0
		parts, err := log.keysUpTo(ctx, place)
		if err != nil || f.calls > 110 {
			t.Errorf("up to %d: %d calls, %v", place, f.calls, err)
		}
		for key, at := range places {
			isIn := false
			for _, it := range parts {
				isIn = isIn || it.first <= key && key <= it.last
			}
			if isIn != (at <= place) {
				t.Fatalf("up to %d: %s at %d is removed: %v", place, key, at, isIn)
			}
		}
	}
}

// TestTrimOfFull removes no entry before `trimmed` is put.
func TestTrimOfFull(t *testing.T) {
	ctx, f := within(t), newFake()
	log := f.open(t, "bank", 2)
	defer log.Close()
	place, err := log.Append(ctx, []byte("w"), 1, []byte("TBENTRY2"))
	if err != nil {
		t.Fatal(err)
	}
	f.alarms = []*pb.AlarmMember{{MemberID: 1, Alarm: pb.AlarmType_NOSPACE}, {MemberID: 2, Alarm: pb.AlarmType_CORRUPT}}
	if why, err := log.Full(ctx); why != "etcd has the alarm NOSPACE" || err != nil {
		t.Errorf("got %q, %v", why, err)
	}
	if _, err := log.Append(ctx, []byte("w"), 2, nil); !errors.Is(err, agreed.ErrFull) {
		t.Errorf("an append: %v", err)
	}
	said, err := log.Trim(ctx, 1, place)
	want := "[entries up to position 1 are removed 127.0.0.1:1 is defragmented 127.0.0.1:2 is not defragmented: it is busy] <nil>"
	if got := fmt.Sprint(said, err); got != want {
		t.Errorf("got %s", got)
	}
	if value, _, _ := log.get(ctx, "trimmed"); string(value) != fmt.Sprintf(`{"position": 1, "place": %d}`, place) {
		t.Errorf("trimmed has %s", value)
	}
	for name, value := range map[string]string{"no text": "\xff", "empty": "", "number": "5", "list": "[]", "object": "{}",
		"endless": `{"position": 1, "place": Infinity}`, "negative": `{"position": -1, "place": 1}`, "deep": strings.Repeat("[", 9999)} {
		if err := log.put(ctx, usual, "bank/trimmed", []byte(value)); err != nil {
			t.Fatal(err)
		}
		_, _, err := log.Trimmed(ctx)
		var ended *report.Ended
		if !errors.As(err, &ended) || ended.Status != 25 || !strings.HasPrefix(ended.Line, "BadEntry: the log's `trimmed` has b'") {
			t.Errorf("%s: %v", name, err)
		}
	}
}

// TestFaults has what etcd reports be tried again, or not.
func TestFaults(t *testing.T) {
	log := newFake().open(t, "bank", 1)
	defer log.Close()
	at := log.addresses[0]
	for name, c := range map[string]struct {
		err  error
		want string
	}{
		"full":       {status.Error(codes.ResourceExhausted, "etcdserver: mvcc: database space exceeded"), "etcdserver: mvcc: database space exceeded"},
		"large":      {status.Error(codes.ResourceExhausted, "message larger than max"), "<nil>"},
		"permission": {status.Error(codes.PermissionDenied, "permission denied"), "127.0.0.1:1: permission denied"},
		"password":   {status.Error(codes.InvalidArgument, "authentication failed"), "127.0.0.1:1: authentication failed"},
		"compacted":  {status.Error(codes.OutOfRange, "etcdserver: mvcc: required revision has been compacted"), "etcdserver: mvcc: required revision has been compacted"},
		"token":      {status.Error(codes.Unauthenticated, "etcdserver: invalid auth token"), "<nil>"},
		"no token":   {status.Error(codes.InvalidArgument, "etcdserver: user name is empty"), "<nil>"},
		"leader":     {status.Error(codes.Unavailable, "etcdserver: no leader"), "<nil>"},
		"ended":      {report.End(1, "it"), "it"},
	} {
		t.Run(name, func(t *testing.T) {
			at.given = map[string][]string{}
			if got := fmt.Sprint(at.fault(c.err)); got != c.want {
				t.Errorf("got %s, want %s", got, c.want)
			}
			if isForgotten := at.given == nil; isForgotten != strings.Contains(name, "token") {
				t.Errorf("the token is forgotten: %v", isForgotten)
			}
		})
	}
}

// TestTries has each address be tried, until a call succeeds or its time is over.
func TestTries(t *testing.T) {
	agreedtest.NoLeak(t)
	f := newFake()
	log := f.open(t, "bank", 3)
	defer log.Close()
	f.failing = status.Error(codes.Unavailable, "it is away")
	ctx, end := context.WithTimeout(context.Background(), 2*time.Second)
	defer end()
	_, err := log.Head(ctx, []byte("it"))
	if !errors.Is(err, agreed.ErrNoLog) || f.calls < 6 {
		t.Errorf("%d calls: %v", f.calls, err)
	}
	f.calls = 0
	if _, err := log.ranged(within(t), limits{0, try}, &pb.RangeRequest{Key: []byte("it")}); f.calls != 1 ||
		!strings.HasSuffix(err.Error(), ": it is away") {
		t.Errorf("%d calls: %v", f.calls, err)
	}
}

// TestFilesOfTLS has files that are wrong, at the start and when they are renewed.
func TestFilesOfTLS(t *testing.T) {
	folder := t.TempDir()
	empty, none := filepath.Join(folder, "empty"), filepath.Join(folder, "none")
	if err := os.WriteFile(empty, nil, 0o600); err != nil {
		t.Fatal(err)
	}
	places := []agreed.Address{{Host: "127.0.0.1", Port: 1}}
	for file, want := range map[string]string{
		empty: ": no certificate or crl found", none: ": No such file or directory", "/dev/null": "",
	} {
		_, err := New(places, "bank", agreed.Access{Authority: file}, nil)
		var ended *report.Ended
		if !errors.As(err, &ended) || ended.Status != 1 || !strings.HasPrefix(ended.Line, file+want) {
			t.Errorf("%s: %v", file, err)
		}
	}
	log := newFake().open(t, "bank", 1)
	defer log.Close()
	log.addresses[0].access.Authority = none
	if err := log.Renew(); err == nil || err.Error() != none+": No such file or directory" {
		t.Errorf("got %v", err)
	}
	log.addresses[0].access = agreed.Access{User: "u", PasswordFile: none}
	if _, err := log.Head(within(t), nil); err == nil || err.Error() != none+": No such file or directory" {
		t.Errorf("got %v", err)
	}
}

// TestAbsent has the bytes of the transaction that puts an entry.
func TestAbsent(t *testing.T) {
	data, err := absent([]byte("k"), []byte("v")).Marshal()
	want := []byte("\n\x07\x10\x01\x1a\x01k(\x00\x12\x08\x12\x06\n\x01k\x12\x01v\x1a\x05\n\x03\n\x01k") // as python3-etcd3 has it
	if err != nil || !bytes.Equal(data, want) {
		t.Errorf("got %q, %v", data, err)
	}
}

// TestOwnEntries has entries be taken once that were appended here, in the order of the log.
func TestOwnEntries(t *testing.T) {
	log := newFake().open(t, "bank", 1)
	defer log.Close()
	got := ""
	r := &reader{Log: log, appended: log.appended, cursor: 4, place: 4, take: func(it agreed.Item) error {
		got += fmt.Sprint(it.Place, it.Node, " ")
		return nil
	}}
	log.appended.Begin()
	for _, place := range []agreed.Place{7, 5} {
		log.appended.Put(place, []byte("TBENTRY2"))
	}
	if err := r.takeOwn(); err != nil || got != "5 " || r.cursor != 5 {
		t.Errorf("%q is taken, up to %d: %v", got, r.cursor, err)
	}
	said := &pb.WatchResponse{Header: &pb.ResponseHeader{Revision: 7}}
	for revision := int64(5); revision <= 7; revision++ {
		said.Events = append(said.Events, &mvccpb.Event{Kv: &mvccpb.KeyValue{Key: []byte("bank/log/x"),
			Value: []byte("TBENTRY2"), CreateRevision: revision, ModRevision: revision}})
	}
	if err := r.takeResponse(log.addresses[0], said); err != nil {
		t.Error(err)
	}
	if err := r.takeOwn(); err != nil || got != "5 6127.0.0.1:1 7127.0.0.1:1 " {
		t.Errorf("%q is taken: %v", got, err)
	}
}
