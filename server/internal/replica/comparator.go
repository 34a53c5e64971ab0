package replica

import (
	"telovamish.org/server/internal/entries"
	"telovamish.org/server/internal/faults"
)

// claim is the hash of replies that a writer had.
type claim struct {
	hash   entries.Hash
	writer entries.Writer
}

// comparator compares what the writers of entries had, of the log and of replies, with what is here.
type comparator struct {
	*Core
	agreed     map[entries.Writer]uint64 // up to where each had read the same log, as far as that is known
	claims     map[uint64][]claim        // of replies that are not here yet
	distrusted map[entries.Writer]bool
}

func (m *comparator) init(c *Core) {
	m.Core, m.claims, m.distrusted = c, map[uint64][]claim{}, map[entries.Writer]bool{}
	m.agreed = map[entries.Writer]uint64{}
	for _, writer := range c.settings.Distrusted {
		m.distrusted[writer] = true
	}
}

// compare compares what the writer of the next entry had with what is here.
func (m *comparator) compare(entry *entries.Entry, data []byte) *doubt {
	writer, position := entry.Writer, m.taken.Position+1
	if m.distrusted[writer] || m.nodes.doubts[writer] || m.has(ComparesNothing) {
		return nil
	}
	if entry.Log.Position >= position || entry.Replies.Position >= position {
		why := misfit(data, m.agreed[writer], "writer %s has more of the log than there is; keep all files", writer)
		why.name = faults.Diverged
		return why
	}
	if entry.Log.Position+Kept > position {
		if mine, ok := m.taken.Hash(entry.Log.Position); !ok || mine != entry.Log.Hash {
			return &doubt{why: "has another log", data: data, since: m.agreed[writer], isOther: true,
				writer: writer, position: entry.Log.Position}
		}
		m.agreed[writer] = entry.Log.Position
	}
	m.compareReplies(entry.Replies, writer)
	return nil
}

// compareReplies compares what a writer had of replies, now or when they come.
func (m *comparator) compareReplies(replies entries.Claim, writer entries.Writer) {
	mine, ok := m.follower.hashes.at(replies.Position)
	switch {
	case !ok && replies.Position > m.follower.answered:
		m.claims[replies.Position] = append(m.claims[replies.Position], claim{replies.Hash, writer})
	case ok && mine != replies.Hash:
		m.fail(faults.Diverged, "at position %d: writer %s has replies with the hash %s, here it is %s; "+
			"keep all files", replies.Position, writer, replies.Hash, mine)
	}
}

// answered compares with what writers had of the replies up to a position, which came now.
func (m *comparator) answered(position uint64) {
	waiting := m.claims[position]
	delete(m.claims, position)
	for _, it := range waiting {
		m.compareReplies(entries.Claim{Position: position, Hash: it.hash}, it.writer)
	}
}
