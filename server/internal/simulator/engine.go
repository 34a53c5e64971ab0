package simulator

import (
	"sort"

	"telovamish.org/server/internal/entries"
)

// kind is which engine a world has.
type kind int

const (
	etcd       kind = iota // places of reports too, no clock, any node answers
	postgresql             // places of entries only, a clock, what is read was flushed by a standby
)

func (k kind) String() string { return [...]string{"etcd", "PostgreSQL"}[k] }

// row is an entry or a report, as the log has it.
type row struct {
	place int64
	name  string // of a report
	data  []byte
	since int64 // when it is there: in PostgreSQL once a standby flushed it
	turn  uint64
}

// node is a node of the engine, or an address of it.
type node struct {
	name   string
	lag    int64            // by which it is late
	stale  int64            // it has nothing that came after that, if that is not 0
	rotten map[int64][]byte // what it gives at a place; nil if nothing
}

// entryName is the name of an entry.
type entryName struct {
	writer entries.Writer
	number uint64
}

// engine is the agreed log, on some nodes. All nodes have the same entries, some later than others, and a
// disk may change or lose what one of them gives. An append is done once for a name, as a rule.
type engine struct {
	*schedule
	kind    kind
	rows    []row // that are left
	history []row // all entries that stayed
	places  map[entryName]int64
	head    []byte
	names   []string
	reports map[string][]byte
	nodes   []*node
	last    int64

	awayUntil, fullUntil, electsUntil int64
	trimmedPosition, trimmedPlace     int64
	gonePlace                         int64     // up to which a reader is told that the log was trimmed
	rots                              func(row) // what happens to the next entry
	woken                             func()    // has readers look
	isQuiet                           bool
}

func newEngine(s *schedule, kind kind, nodes int) *engine {
	e := &engine{schedule: s, kind: kind, places: map[entryName]int64{}, reports: map[string][]byte{}}
	for at := 0; at < nodes; at++ {
		e.nodes = append(e.nodes, &node{name: string(rune('A' + at)), rotten: map[int64][]byte{}})
	}
	return e
}

// append appends an entry once, as a rule. It returns its place, and when that is known.
func (e *engine) append(name entryName, data []byte) (place, known int64) {
	place, ok := e.places[name]
	isTwice := ok && e.kind == etcd && !e.isQuiet && e.happens(200)
	if !ok || isTwice {
		e.last++
		if !ok {
			place = e.last
			e.places[name] = place
		} else {
			e.tell("the log has entry %d of writer %.4s a second time, at place %d", name.number, name.writer, e.last)
		}
		e.put(row{place: e.last, data: data, since: e.now + e.flushes()})
	}
	for at := len(e.rows) - 1; at >= 0; at-- {
		if e.rows[at].place == place && e.rows[at].since > e.now {
			return place, e.rows[at].since
		}
	}
	return place, e.now
}

// flushes is how long a standby takes to flush.
func (e *engine) flushes() int64 {
	if e.kind == postgresql {
		return e.most(20 * milli)
	}
	return 0
}

func (e *engine) put(it row) {
	e.turns++
	it.turn = e.turns
	e.rows = append(e.rows, it)
	if it.name == "" {
		e.history = append(e.history, it)
		if e.rots != nil {
			e.rots(it)
			e.rots = nil
		}
	}
	e.woken()
}

// failOver loses what no standby flushed: nobody read it, and no append of it returned.
func (e *engine) failOver() {
	for len(e.rows) > 0 && e.rows[len(e.rows)-1].since > e.now {
		lost := e.rows[len(e.rows)-1]
		e.rows = e.rows[:len(e.rows)-1]
		if lost.name != "" {
			continue
		}
		e.history = e.history[:len(e.history)-1]
		e.last = lost.place - 1
		for name, place := range e.places {
			if place == lost.place {
				delete(e.places, name)
			}
		}
		e.tell("the failover loses place %d, which nobody was told of", lost.place)
	}
}

func (e *engine) report(name string, data []byte) {
	if _, ok := e.reports[name]; !ok {
		e.names = append(e.names, name)
		sort.Strings(e.names)
	}
	e.reports[name] = data
	if e.kind == etcd {
		e.last++
	}
	e.put(row{place: e.last, name: name, data: data, since: e.now})
}

// next is the first row after another one that a node has.
func (e *engine) next(node *node, after uint64) (row, bool) {
	at := sort.Search(len(e.rows), func(at int) bool { return e.rows[at].turn > after })
	for ; at < len(e.rows); at++ {
		it := e.rows[at]
		if !e.isAt(node, it) {
			return row{}, false
		}
		if it, ok := node.gives(it); ok {
			return it, true
		}
	}
	return row{}, false
}

// entryAfter is the first entry after a place that a node has.
func (e *engine) entryAfter(node *node, place int64) (row, bool) {
	for _, it := range e.rows {
		if it.name != "" || it.place <= place {
			continue
		}
		if !e.isAt(node, it) {
			return row{}, false
		}
		if it, ok := node.gives(it); ok {
			return it, true
		}
	}
	return row{}, false
}

// isAt reports whether a row has come to a node.
func (e *engine) isAt(node *node, it row) bool {
	return it.since+node.lag <= e.now && (node.stale == 0 || it.since <= node.stale)
}

// gives is a row as the disk of a node has it, if it has it.
func (n *node) gives(it row) (row, bool) {
	data, isRotten := n.rotten[it.place]
	if it.name != "" || !isRotten {
		return it, true
	}
	it.data = data
	return it, data != nil
}

// isLost reports whether a node has lost the entry at a place.
func (e *engine) isLost(place int64) bool {
	for _, it := range e.nodes {
		if data, ok := it.rotten[place]; ok && data == nil {
			return true
		}
	}
	return false
}

// isRotten reports whether a node's disk has changed or lost an entry.
func (e *engine) isRotten(name string) bool {
	for _, it := range e.nodes {
		if it.name == name {
			return len(it.rotten) > 0
		}
	}
	return false
}

// turnAt is the row after which the entries after a place come.
func (e *engine) turnAt(place int64) (turn uint64) {
	for _, it := range e.rows {
		if it.place > place {
			break
		}
		turn = it.turn
	}
	return turn
}

// trim removes the entries up to a place, and reports before that. If it is cut short, nothing tells a reader
// that they are gone.
func (e *engine) trim(position, place int64, isCut bool) {
	e.trimmedPosition, e.trimmedPlace = position, place
	if !isCut {
		e.gonePlace = place
	}
	left := []row{}
	for _, it := range e.rows {
		if it.place > place {
			left = append(left, it)
		}
	}
	e.rows = left
	e.tell("the log is trimmed up to position %d, place %d", position, place)
}

// isAway reports whether no majority is reached.
func (e *engine) isAway() bool { return e.now < e.awayUntil }

// isFull reports whether the quota is reached.
func (e *engine) isFull() bool { return e.now < e.fullUntil }

// elects reports whether there is no leader, for a while.
func (e *engine) elects() bool { return e.now < e.electsUntil }
