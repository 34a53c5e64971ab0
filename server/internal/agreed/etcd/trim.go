package etcd

import (
	"context"
	"encoding/json"
	"errors"
	"fmt"
	"time"

	pb "go.etcd.io/etcd/etcdserver/etcdserverpb"
	"go.etcd.io/etcd/mvcc/mvccpb"

	"telovamish.org/server/internal/agreed"
	"telovamish.org/server/internal/faults"
)

const (
	removedMax = 10_000          // entries that are removed at a time: more may take longer than one answer
	defragment = 2 * time.Minute // for which an address is waited for that gives space back
)

// pairIn is the pair that a transaction returned in place of what it did not put.
func pairIn(made *pb.TxnResponse) (*mvccpb.KeyValue, error) {
	for _, it := range made.Responses {
		if found := it.GetResponseRange(); found != nil && len(found.Kvs) > 0 {
			return found.Kvs[0], nil
		}
	}
	return nil, agreed.Failed(agreed.ErrNoLog, errNothing.Error())
}

// Trimmed implements agreed.Log.
func (l *Log) Trimmed(ctx context.Context) (uint64, agreed.Place, error) {
	value, ok, err := l.get(ctx, "trimmed")
	if err != nil || !ok {
		return 0, 0, err
	}
	var said struct {
		Position *uint64 `json:"position"`
		Place    *int64  `json:"place"`
	}
	if json.Unmarshal(value, &said) != nil || said.Position == nil || said.Place == nil {
		return 0, 0, faults.WrongTrimmed(value)
	}
	return *said.Position, agreed.Place(*said.Place), nil
}

// Trim implements agreed.Log. No entry is removed before `trimmed` reports it: a replica that starts in
// between would take what is left for the whole log.
func (l *Log) Trim(ctx context.Context, position uint64, place agreed.Place) ([]string, error) {
	said := []string{}
	isPut, err := l.putTrimmed(ctx, position, place)
	if err == nil && !isPut {
		said, err = l.makeRoom(ctx)
		if err == nil {
			isPut, err = l.putTrimmed(ctx, position, place)
		}
	}
	if err != nil {
		return nil, err
	}
	if !isPut {
		return nil, agreed.Failed(agreed.ErrFull, "etcd is still full, and nothing is removed: raise "+
			"--quota-backend-bytes, and trim again")
	}
	if place != 0 {
		if err := l.remove(ctx, place); err != nil {
			return nil, err
		}
		said = append([]string{fmt.Sprintf("entries up to position %d are removed", position)}, l.defragmented(ctx)...)
	}
	return said, l.disarm(ctx)
}

// makeRoom gives the space of what was replaced after the last time back to the disks, and ends the
// alarm. Replicas write again then.
func (l *Log) makeRoom(ctx context.Context) ([]string, error) {
	last, err := l.Last(ctx)
	if err != nil {
		return nil, err
	}
	if err := l.compact(ctx, int64(last)); err != nil {
		return nil, err
	}
	said := l.defragmented(ctx)
	return said, l.disarm(ctx)
}

// HasRemoved implements agreed.Log.
func (l *Log) HasRemoved(ctx context.Context, place agreed.Place) (bool, error) {
	found, err := l.keysUpTo(ctx, place)
	return len(found) == 0, err
}

// remove deletes the entries up to a place, and then their history: etcd keeps what is deleted until the
// revision that deleted it is compacted.
func (l *Log) remove(ctx context.Context, place agreed.Place) error {
	parts, err := l.keysUpTo(ctx, place)
	if err != nil {
		return err
	}
	revision := int64(place)
	for _, it := range parts {
		request := &pb.DeleteRangeRequest{Key: []byte(it.first), RangeEnd: []byte(it.last + "\x00")}
		said, err := call(ctx, l, usual, func(ctx context.Context, at *stubs) (*pb.DeleteRangeResponse, error) {
			return at.keys.DeleteRange(ctx, request)
		})
		if err != nil {
			return err
		}
		revision = said.Header.Revision
	}
	return l.compact(ctx, revision)
}

// compact removes the history up to a revision. It may be compacted already.
func (l *Log) compact(ctx context.Context, revision int64) error {
	_, err := call(ctx, l, usual, func(ctx context.Context, at *stubs) (*pb.CompactionResponse, error) {
		return at.keys.Compact(ctx, &pb.CompactionRequest{Revision: revision, Physical: true})
	})
	if isLost(err) {
		return nil
	}
	return err
}

// putTrimmed has the log report up to where it is trimmed. It reports whether there was room for that.
func (l *Log) putTrimmed(ctx context.Context, position uint64, place agreed.Place) (bool, error) {
	value := fmt.Sprintf(`{"position": %d, "place": %d}`, position, place)
	err := l.put(ctx, usual, l.prefix+"trimmed", []byte(value))
	if errors.Is(err, agreed.ErrFull) {
		return false, nil
	}
	return err == nil, err
}

// part is the first and the last key of some entries of one writer.
type part struct{ first, last string }

// keysUpTo is each writer's entries up to a place, in parts. A writer's numbers have no gap: so the last
// one is looked for by halves, because etcd goes over all keys for each page of a list.
func (l *Log) keysUpTo(ctx context.Context, place agreed.Place) ([]part, error) {
	at := l.key("log/")
	end, found := endOf(at), []part(nil)
	for {
		page, err := l.ranged(ctx, long, &pb.RangeRequest{Key: at, RangeEnd: end, Limit: 1, KeysOnly: true})
		if err != nil || len(page.Kvs) == 0 {
			return found, err
		}
		at = append(append([]byte(nil), page.Kvs[0].Key...), 0)
		writer, first, ok := l.entryIn(page.Kvs[0].Key)
		if !ok {
			continue
		}
		at = []byte(writer + "0") // after its last key
		count, err := l.countUpTo(ctx, writer, first, place)
		if err != nil {
			return nil, err
		}
		for from := first; from < first+count; from += removedMax {
			last := from + removedMax - 1
			if last >= first+count {
				last = first + count - 1
			}
			found = append(found, part{keyOf(writer, from), keyOf(writer, last)})
		}
	}
}

func keyOf(writer string, number uint64) string { return fmt.Sprintf("%s/%020d", writer, number) }

// countUpTo is how many entries a writer has up to a place, from this number on.
func (l *Log) countUpTo(ctx context.Context, writer string, first uint64, place agreed.Place) (uint64, error) {
	count, step := uint64(0), uint64(1)
	for isGrowing := true; step > 0; {
		is, err := l.isUpTo(ctx, keyOf(writer, first+count+step-1), place)
		if err != nil {
			return 0, err
		}
		if is {
			count += step
		}
		isGrowing = isGrowing && is
		if isGrowing {
			step *= 2
		} else {
			step /= 2
		}
	}
	return count, nil
}

func (l *Log) isUpTo(ctx context.Context, key string, place agreed.Place) (bool, error) {
	found, err := l.ranged(ctx, usual, &pb.RangeRequest{Key: []byte(key), KeysOnly: true})
	if err != nil || len(found.Kvs) == 0 {
		return false, err
	}
	return agreed.Place(found.Kvs[0].CreateRevision) <= place, nil
}

// alarms are those for a lack of space, of each member that raised one.
func (l *Log) alarms(ctx context.Context) ([]*pb.AlarmMember, error) {
	said, err := l.alarm(ctx, &pb.AlarmRequest{Action: pb.AlarmRequest_GET})
	if err != nil {
		return nil, err
	}
	found := []*pb.AlarmMember{}
	for _, it := range said.Alarms {
		if it.Alarm == pb.AlarmType_NOSPACE {
			found = append(found, it)
		}
	}
	return found, nil
}

func (l *Log) alarm(ctx context.Context, request *pb.AlarmRequest) (*pb.AlarmResponse, error) {
	return call(ctx, l, usual, func(ctx context.Context, at *stubs) (*pb.AlarmResponse, error) {
		return at.care.Alarm(ctx, request)
	})
}

func (l *Log) disarm(ctx context.Context) error {
	found, err := l.alarms(ctx)
	for _, it := range found {
		if err == nil {
			_, err = l.alarm(ctx, &pb.AlarmRequest{
				Action: pb.AlarmRequest_DEACTIVATE, MemberID: it.MemberID, Alarm: it.Alarm,
			})
		}
	}
	return err
}

// Full implements agreed.Log.
func (l *Log) Full(ctx context.Context) (string, error) {
	found, err := l.alarms(ctx)
	if len(found) > 0 {
		return "etcd has the alarm NOSPACE", err
	}
	return "", err
}

// defragmented gives each address's free space back to its disk. It serves nobody meanwhile.
func (l *Log) defragmented(ctx context.Context) []string {
	said := []string{}
	for _, it := range l.addresses {
		_, err := callAt(ctx, it, defragment, func(ctx context.Context, at *stubs) (*pb.DefragmentResponse, error) {
			return at.care.Defragment(ctx, &pb.DefragmentRequest{})
		})
		if err != nil {
			said = append(said, fmt.Sprintf("%s is not defragmented: %s", it.place, textOf(err)))
			continue
		}
		said = append(said, it.place+" is defragmented")
	}
	return said
}
