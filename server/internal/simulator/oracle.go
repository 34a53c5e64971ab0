package simulator

import (
	"sort"

	"telovamish.org/server/internal/entries"
	"telovamish.org/server/internal/frames"
	"telovamish.org/tbclient"
)

// aheadMax is how far a moment may be ahead when the log takes it: by --ahead, and by how late an answer
// counts.
const aheadMax = (10 + 30) * second

// history is what the one log has: its entries, those of a writer in the order of its numbers, once each.
type history struct {
	entries []entries.Entry
	since   []int64
	logs    []entries.Hash // up to each position
	replies []entries.Hash
	replyOf map[string][]string // of the requests that were executed, by their bytes
}

func (w *world) history() *history {
	h := &history{replyOf: map[string][]string{}, logs: make([]entries.Hash, 1), replies: make([]entries.Hash, 1)}
	last := map[entries.Writer]uint64{}
	server, commit := w.newServer(), uint64(0)
	for _, it := range w.engine.history {
		entry, err := entries.ParseTrusted(it.data)
		if err != nil || entry.Number != last[entry.Writer]+1 {
			continue
		}
		last[entry.Writer] = entry.Number
		h.entries, h.since = append(h.entries, entry), append(h.since, it.since)
		h.logs = append(h.logs, h.logs[len(h.logs)-1].Next(entry.Pairs))
		digest, at := h.replies[len(h.replies)-1], 0
		for _, reply := range server.Entry(entry.Pairs) {
			digest = digest.Next(reply)
			pair, end, _ := entries.NextPair(entry.Pairs, at)
			at = end
			if it := frames.Header(reply).Commit(); it > commit { // it was executed now
				commit = it
				h.replyOf[string(pair.Frame)] = append(h.replyOf[string(pair.Frame)], string(reply))
			}
		}
		h.replies = append(h.replies, digest)
	}
	return h
}

// judge judges what clients saw, and what machines have.
func (w *world) judge() {
	h := w.history()
	w.judgeCalls(h)
	w.judgeOrder()
	w.judgeLogs(h)
	w.judgeMoments(h)
	w.judgeNames(h)
}

// judgeCalls is that a call that returned is in the history once, with this reply; and that one that did
// not return is there at most once.
func (w *world) judgeCalls(h *history) {
	for _, of := range w.all {
		for _, it := range of.calls {
			replies := h.replyOf[string(it.frame)]
			isRegister := frames.Header(it.frame).Operation() == tbclient.OperationRegister
			w.see(isRegister || len(replies) <= 1, "a call of client %d was executed %d times", of.id, len(replies))
			if w.isAcknowledged(it) {
				w.see(has(replies, it.reply), "a call of client %d got a reply that is not of the history", of.id)
			}
		}
	}
}

// isAcknowledged reports whether a call got a reply that counts. One of a replica whose node lost an
// entry may be wrong after that: it ends within one entry of another writer.
func (w *world) isAcknowledged(it *call) bool {
	return it.isRight && it.reply != "" && frames.Header(it.reply).Status() == tbclient.StatusReply
}

func has(list []string, wanted string) bool {
	for _, it := range list {
		if it == wanted {
			return true
		}
	}
	return false
}

// judgeOrder is that a call that began after another one had returned is after it in the history.
func (w *world) judgeOrder() {
	var calls []*call
	for _, of := range w.all {
		for at, it := range of.calls {
			// a register again may get the first reply
			if w.isAcknowledged(it) && (at == 0 || frames.Header(it.frame).Number() > 0) {
				calls = append(calls, it)
			}
		}
	}
	byEnd := append([]*call{}, calls...)
	sort.SliceStable(calls, func(a, b int) bool { return calls[a].began < calls[b].began })
	sort.SliceStable(byEnd, func(a, b int) bool { return byEnd[a].ended < byEnd[b].ended })
	latest, at := uint64(0), 0
	for _, it := range calls {
		for ; at < len(byEnd) && byEnd[at].ended < it.began; at++ {
			if commit := frames.Header(byEnd[at].reply).Commit(); commit > latest {
				latest = commit
			}
		}
		commit := frames.Header(it.reply).Commit()
		w.see(commit > latest, "commit %d began after %d had returned", commit, latest)
	}
}

// judgeLogs is that each machine has taken the whole log, and that its server has replied to all of it.
func (w *world) judgeLogs(h *history) {
	for _, it := range w.machines {
		if !it.isUp || it.core == nil {
			continue
		}
		state := it.core.State()
		isWhole := state.Position == uint64(len(h.entries)) && state.Answered == state.Position
		w.see(isWhole, "%s has taken %d and answered %d of %d entries", it.name, state.Position, state.Answered,
			len(h.entries))
		if isWhole {
			w.see(state.Log == h.logs[state.Position], "%s has another log", it.name)
			w.see(state.Replies == h.replies[state.Position], "%s has other replies", it.name)
		}
		w.see(len(it.disk) == int(state.Position), "%s has a copy of %d entries, and %d are taken", it.name,
			len(it.disk), state.Position)
	}
}

// judgeMoments is that no entry had a moment that was far ahead when the log took it.
func (w *world) judgeMoments(h *history) {
	for at, it := range h.entries {
		moment, _ := entries.FirstMoment(it.Pairs)
		w.see(int64(moment) <= began+h.since[at]+aheadMax, "entry %d has a moment that is far ahead", at+1)
	}
}

// judgeNames is that no entry was appended under two names. A clock that was set back has one moment for
// long: then the same request may come again in an equal entry.
func (w *world) judgeNames(h *history) {
	if w.injected[clockJumps] || w.injected[clockStarts] {
		return
	}
	names := map[string]int{}
	for at, it := range h.entries {
		before, ok := names[string(it.Pairs)]
		w.see(!ok, "entries %d and %d have the same pairs", before, at+1)
		names[string(it.Pairs)] = at + 1
	}
}
