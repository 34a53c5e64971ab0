package replica

import (
	"sort"

	"telovamish.org/server/internal/entries"
)

// Kept is of how many positions hashes are kept, to be compared with a writer's.
const Kept = 100_000

// Taken is what was taken of the log: of the copy, and then of what was read.
type Taken struct {
	Position   uint64
	Place      int64 // of the last entry
	Digest     entries.Hash
	LastMoment uint64
	Numbers    map[entries.Writer]uint64 // the last one of each writer
	marks      ring[mark]
}

// mark is the log up to a position, and which entry is there.
type mark struct {
	position uint64
	place    int64
	digest   entries.Hash
	writer   entries.Writer
	number   uint64
}

// NewTaken is an empty log.
func NewTaken() *Taken {
	t := &Taken{Numbers: map[entries.Writer]uint64{}}
	t.marks.put(mark{})
	return t
}

// Count takes the next entry.
func (t *Taken) Count(place int64, entry *entries.Entry) {
	t.Position, t.Place = t.Position+1, place
	t.Digest = t.Digest.Next(entry.Pairs)
	t.marks.put(mark{t.Position, place, t.Digest, entry.Writer, entry.Number})
	t.Numbers[entry.Writer] = entry.Number
	// a writer's moments never fall, and those of an entry are near each other
	if moment, ok := entries.FirstMoment(entry.Pairs); ok && moment > t.LastMoment {
		t.LastMoment = moment
	}
}

// Hash is that of the log up to a position, if it is kept.
func (t *Taken) Hash(position uint64) (entries.Hash, bool) {
	it, ok := t.marks.at(position)
	return it.digest, ok
}

// markBefore is the last mark whose entry is not after a place; the oldest one that is kept, if all are.
func (t *Taken) markBefore(place int64) mark {
	first, count := t.marks.first, len(t.marks.items)
	after := sort.Search(count, func(at int) bool {
		it, _ := t.marks.at(first + uint64(at))
		return it.place > place
	})
	if after > 0 {
		after--
	}
	it, _ := t.marks.at(first + uint64(after))
	return it
}

// lastOf is the position of a writer's last entry; 0 if there is none, or it is kept no more.
func (t *Taken) lastOf(writer entries.Writer) uint64 {
	for at := t.Position; t.Numbers[writer] > 0; at-- {
		it, ok := t.marks.at(at)
		if !ok {
			break
		}
		if it.writer == writer {
			return at
		}
	}
	return 0
}

// numbersAt are the last numbers of all writers up to a position.
func (t *Taken) numbersAt(position uint64) map[entries.Writer]uint64 {
	numbers := map[entries.Writer]uint64{}
	if position == 0 {
		return numbers
	}
	for writer, number := range t.Numbers {
		numbers[writer] = number
	}
	for at := t.Position; at > position; at-- {
		it, _ := t.marks.at(at)
		numbers[it.writer] = it.number - 1
	}
	return numbers
}

// ring has something for each of the last positions.
type ring[T any] struct {
	first uint64 // position of the oldest one
	items []T
	next  int // where the next one goes, once the ring is full
}

// put adds what is at the next position, from 0 on.
func (r *ring[T]) put(it T) {
	if len(r.items) < Kept {
		r.items = append(r.items, it)
		return
	}
	r.items[r.next] = it
	r.first++
	r.next = (r.next + 1) % Kept
}

// at is what is at a position, if it is kept.
func (r *ring[T]) at(position uint64) (it T, ok bool) {
	if position < r.first || position-r.first >= uint64(len(r.items)) {
		return it, false
	}
	return r.items[(r.next+int(position-r.first))%len(r.items)], true
}

// end is the position after the last one.
func (r *ring[T]) end() uint64 { return r.first + uint64(len(r.items)) }
