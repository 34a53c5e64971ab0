package replica

import (
	"bytes"
	"fmt"
	"sort"
	"strings"

	"telovamish.org/server/internal/entries"
	"telovamish.org/server/internal/faults"
	"telovamish.org/server/internal/report"
)

const (
	latest    = 30 * second  // after which a node that does not answer is waited for no longer, if it may be missing
	longest   = 120 * second // after which one is waited for no longer that would decide
	nodePause = second / 5   // before the nodes that did not answer are asked again
)

// nodes reads the engine's nodes one by one, when what was read does not fit. An entry that is not what
// its writer made is read again at each other node: a disk has changed it at one of them. If a writer
// had read another log, the nodes say who has the right one.
type nodes struct {
	*Core
	rotten map[string]int // entries that did not fit, by node
	doubts map[entries.Writer]bool

	ask       uint64
	search    *search   // for an entry
	survey    *survey   // of the log
	later     []*survey // that come after it
	proven    uint64    // up to where most nodes have had the same log
	doubtedBy map[string]bool
	isDoubted bool   // another replica doubts this one's log
	agreed    uint64 // up to where that one had read the same
}

// search is for the entry after what was taken, as another node has it.
type search struct {
	node   string // that has it as it does not fit
	why    *doubt
	left   []string // that did not answer yet
	at     int      // the one of them that is asked now
	others map[string][]byte
	until  int64
	again  int64 // when those that are left are asked again
}

// survey counts the nodes by the hash of the log that they have from a mark up to a position.
type survey struct {
	base      mark // from where on the log is in doubt, and is not trimmed
	position  uint64
	mine      entries.Hash
	isAll     bool     // each node is waited for, for a while; otherwise most of them, of one log
	isWaiting bool     // for where the log begins
	isSaid    bool     // which nodes are waited for
	isOther   bool     // more nodes have another log, if it was not trimmed meanwhile
	left      []string // nodes that did not answer yet
	at        int      // the one of them that is asked now
	until     int64
	again     int64 // when it goes on after a pause
	reached   uint64
	digest    entries.Hash
	numbers   map[entries.Writer]uint64 // the last one of each writer that was seen
	found     map[entries.Hash][]string
	then      func() // if no more nodes have another log
}

func (n *nodes) init(c *Core) {
	n.Core, n.rotten = c, map[string]int{}
	n.doubts, n.doubtedBy = map[entries.Writer]bool{}, map[string]bool{}
}

// askNode asks one node for its entries after a place.
func (n *nodes) askNode(node string, after int64) {
	n.ask++
	n.do(&ReadNode{Ask: n.ask, Node: node, After: after})
}

func (e *NodeRead) apply(c *Core) {
	n := &c.nodes
	switch {
	case e.Ask != n.ask:
	case n.survey != nil:
		n.surveyed(e.Item)
	case n.search != nil:
		n.searched(e.Item)
	}
}

// lookElsewhere looks for the next entry at each node.
func (n *nodes) lookElsewhere(node string, why *doubt) {
	it := &search{node: node, why: why, others: map[string][]byte{}, again: never}
	it.until = n.now.Running + latest
	if n.has(LooksNowhereElse) {
		n.failBy(it)
		return
	}
	for _, other := range n.settings.Nodes { // that it was read from comes last
		if other != node {
			it.left = append(it.left, other)
		}
	}
	if node != "" { // an own entry was read at no node
		it.left = append(it.left, node)
	}
	n.search = it
	if n.survey == nil { // otherwise after that
		n.searchOn()
	}
}

// searchOn asks the next node; after all of them those that did not answer, after a pause.
func (n *nodes) searchOn() {
	it := n.search
	switch {
	case it.at < len(it.left):
		n.askNode(it.left[it.at], n.taken.Place) // one that is missing may be before one that is there twice
	case len(it.left) > 0 && n.now.Running <= it.until:
		it.again = n.now.Running + nodePause
	default:
		n.search = nil
		// an entry that was not read may be missing here
		n.test(n.taken.Position, it.why.since, true, func() { n.failBy(it) })
	}
}

// searched takes the entry as the node that was asked has it.
func (n *nodes) searched(item *Item) {
	it := n.search
	if item == nil {
		it.at++
		n.searchOn()
		return
	}
	if entry, err := entries.Parse(item.Data); err == nil && n.reader.isTwice(&entry) {
		return // the next one counts
	}
	n.do(&StopNode{n.ask})
	n.ask++ // what it has after that does not matter
	node := it.left[it.at]
	it.left = append(it.left[:it.at], it.left[it.at+1:]...)
	found := Item{Place: item.Place, Data: append([]byte{}, item.Data...), Node: node}
	n.tryAt(it, found)
}

// tryAt takes an entry as a node has it, or goes on with the search.
func (n *nodes) tryAt(it *search, found Item) {
	why := n.reader.take(found)
	switch {
	case n.isOver:
	case why == nil:
		n.search = nil
		n.sayRotten(it, found.Node)
		n.reader.goOn(true, true)
	case why.isOther:
		n.settle(found, why, func() { n.tryAt(it, found) })
	default:
		it.others[found.Node] = why.data
		n.searchOn()
	}
}

// sayRotten counts an entry that another node has as it was written. Each node is named once.
func (n *nodes) sayRotten(it *search, good string) {
	bad := append([]string{it.node}, keysOf(it.others)...)
	said := map[string]bool{"": true}
	for _, node := range bad {
		if said[node] || node == good {
			continue
		}
		said[node] = true
		if n.rotten[node] == 0 {
			n.say(report.Error, "%s is rotten: the entry at %d: %s; %s has it as it was written",
				node, n.taken.Position, it.why.why, good)
		}
		n.rotten[node]++
	}
}

func keysOf(of map[string][]byte) []string {
	var keys []string
	for key := range of {
		keys = append(keys, key)
	}
	sort.Strings(keys)
	return keys
}

// failBy ends the replica by an entry that fits at no node. One that they all have was written so.
func (n *nodes) failBy(it *search) {
	said := fmt.Sprintf("the entry at %d: %s", n.taken.Position+1, it.why.why)
	isOne := true
	for _, data := range it.others {
		isOne = isOne && bytes.Equal(data, it.why.data)
	}
	if isOne && (len(it.others) > 1 || !entries.IsChanged(it.why.data)) {
		n.fail(it.why.name, "%s", said)
		return
	}
	names := strings.Join(keysOf(it.others), ", ")
	if names == "" {
		names = "the engine"
	}
	n.fail(faults.Rotten, "%s; it fits at none of %s: take a peer's copy", said, names)
}

// settle compares the log with that of the nodes. If they do not have another one, the writer of an
// entry is doubted.
func (n *nodes) settle(item Item, why *doubt, then func()) {
	n.test(why.position, why.since, false, func() {
		n.doubts[why.writer] = true
		n.say(report.Error, "writer %s %s up to position %d", why.writer, why.why, why.position)
		n.reporter.ask()
		then()
	})
}

// test ends the replica if more nodes have another log up to a position than have this one's. Up to `since`
// the log is not in doubt.
func (n *nodes) test(position, since uint64, isAll bool, then func()) {
	it := &survey{position: position, isAll: isAll, found: map[entries.Hash][]string{}, then: then, again: never}
	it.left, it.until = n.all(), n.now.Running+latest
	it.mine, _ = n.taken.Hash(position)
	if since < n.proven {
		since = n.proven
	}
	it.base, _ = n.taken.marks.at(since) // if it is kept no more, from the beginning
	if n.survey != nil {
		n.later = append(n.later, it)
		return
	}
	n.begin(it)
}

func (n *nodes) all() []string { return append([]string{}, n.settings.Nodes...) }

// begin asks from where on nodes have the log.
func (n *nodes) begin(it *survey) {
	n.survey, it.isWaiting = it, true
	n.do(&ReadTrimmed{})
}

// apply begins a survey where the log begins: what was trimmed no node has.
func (e *TrimmedRead) apply(c *Core) {
	n, it := &c.nodes, c.nodes.survey
	if it == nil || !it.isWaiting {
		return
	}
	if e.Failed.Kind != NoFailure {
		it.again = c.now.Running + nodePause
		return
	}
	it.isWaiting = false
	if it.isOther && e.Place <= it.base.place {
		n.failByOthers(it)
		return
	}
	if it.isOther { // what they had was not all
		it.isOther, it.found, it.left, it.at = false, map[entries.Hash][]string{}, n.all(), 0
	}
	if e.Place > it.base.place && !n.has(SurveysWhatWasTrimmed) {
		it.base = c.taken.markBefore(e.Place)
	}
	n.surveyOn()
}

// doubtBy is that another replica doubts this one's log.
func (n *nodes) doubtBy(writer string) {
	if n.doubtedBy[writer] {
		return
	}
	n.doubtedBy[writer] = true
	since := uint64(0)
	for it, position := range n.comparator.agreed {
		if it.String() == writer {
			since = position
		}
	}
	if !n.isDoubted || since < n.agreed {
		n.isDoubted, n.agreed = true, since
	}
}

// testWhereDoubted compares the log with that of the nodes when another replica doubts this one.
func (n *nodes) testWhereDoubted() {
	if n.isDoubted && n.clock.isMet && n.search == nil && n.survey == nil {
		n.isDoubted = false
		n.test(n.taken.Position, n.agreed, false, func() {})
	}
}

// surveyOn asks the next node for its log; after all of them those that did not answer, after a pause, as
// long as most nodes do not have the same one.
func (n *nodes) surveyOn() {
	it := n.survey
	missing := len(it.left)
	switch {
	case it.base.position >= it.position: // no node has that any more
		n.survey = nil
		it.then()
		n.goOn()
	case it.at < missing:
		it.reached, it.digest = it.base.position, it.base.digest
		it.numbers = n.taken.numbersAt(it.base.position)
		n.askNode(it.left[it.at], it.base.place)
	case missing > 0 && (!it.isDecided(len(n.settings.Nodes)) || it.isAll && n.now.Running <= it.until):
		it.again = n.now.Running + nodePause
		n.stillWaits(it)
	default:
		n.judge(it)
	}
}

// isDecided reports whether most nodes have the same log.
func (s *survey) isDecided(nodes int) bool {
	for _, names := range s.found {
		if 2*len(names) > nodes {
			return true
		}
	}
	return false
}

// stillWaits says once which nodes are waited for, and ends the replica if they do not answer for long: one
// node alone, or one of two, may be the wrong one, and a replica that waits serves nobody.
func (n *nodes) stillWaits(it *survey) {
	left := strings.Join(it.left, ", ")
	if n.now.Running > it.until+longest-latest {
		n.fail(faults.NoLog, "%s did not answer in %d s, and without most nodes nothing shows which log is right up "+
			"to position %d: start what does not answer, or take a peer's copy", left, longest/second, it.position)
	} else if n.now.Running > it.until && !it.isSaid {
		it.isSaid = true
		n.say(report.Warning, "waits for %s, to compare the log of most nodes up to position %d", left, it.position)
	}
}

// goOn goes on with what had to wait for a survey.
func (n *nodes) goOn() {
	switch {
	case n.isOver || n.survey != nil:
	case len(n.later) > 0:
		next := n.later[0]
		n.later = n.later[1:]
		n.begin(next)
	case n.search != nil:
		n.searchOn()
	}
}

// surveyed takes one more entry of the node that is asked.
func (n *nodes) surveyed(item *Item) {
	it := n.survey
	switch {
	case item == nil:
		it.at++
	case !it.counts(item.Data) || it.reached < it.position:
		return
	default:
		it.found[it.digest] = append(it.found[it.digest], it.left[it.at])
		it.left = append(it.left[:it.at], it.left[it.at+1:]...)
		n.do(&StopNode{n.ask})
		n.ask++
	}
	n.surveyOn()
}

// judge goes on, or ends the replica if more nodes have one other log than have this one's. Was the log
// trimmed while they were asked, they are asked again.
func (n *nodes) judge(it *survey) {
	same := len(it.found[it.mine])
	if it.isOther = len(it.others()) > same; it.isOther {
		n.begin(it)
		return
	}
	n.survey = nil
	if 2*same > len(n.settings.Nodes) && it.position > n.proven {
		n.proven = it.position
	}
	it.then()
	n.goOn()
}

func (n *nodes) failByOthers(it *survey) {
	n.fail(faults.Rotten, "%s have another log up to position %d than was read here: take a peer's copy",
		strings.Join(it.others(), ", "), it.position)
}

// others are the nodes that have another log, of the log that most of these have.
func (s *survey) others() (others []string) {
	for digest, names := range s.found {
		if digest != s.mine && len(names) > len(others) {
			others = names
		}
	}
	return others
}

// counts takes an entry in, if it is not in the log a second time. Bytes that are not an entry stand for
// themselves.
func (s *survey) counts(data []byte) bool {
	entry, err := entries.Parse(data)
	if err != nil {
		entry.Pairs = data
	} else if entry.Number <= s.numbers[entry.Writer] {
		return false
	} else {
		s.numbers[entry.Writer] = entry.Number
	}
	s.reached++
	s.digest = s.digest.Next(entry.Pairs)
	return true
}

// due does what is due, and returns when something is due next.
func (n *nodes) due(now int64) int64 {
	n.testWhereDoubted()
	if it := n.survey; it != nil {
		if now >= it.again {
			it.again, it.at = never, 0
			if it.isWaiting {
				n.do(&ReadTrimmed{})
			} else {
				n.surveyOn()
			}
		}
	} else if it := n.search; it != nil && now >= it.again {
		it.again, it.at = never, 0
		n.searchOn()
	}
	switch {
	case n.survey != nil:
		return n.survey.again
	case n.search != nil:
		return n.search.again
	}
	return never
}
