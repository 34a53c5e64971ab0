package replica

import (
	"strings"
	"testing"
	"time"

	"telovamish.org/server/internal/entries"
)

// logOf is what a node has: entries by their places.
type logOf []Item

// without is the log of a node that has lost the entry at a place.
func (l logOf) without(place int64) (left logOf) {
	for _, it := range l {
		if it.Place != place {
			left = append(left, it)
		}
	}
	return left
}

// nodesAnswer answers what is asked of nodes, each by what it has. It ends when nothing more is asked.
func (r *rig) nodesAnswer(trimmed TrimmedRead, nodes map[string]logOf) {
	r.Helper()
	for asked := 0; asked < 100; asked++ {
		var events []Event
		for _, it := range r.done {
			switch it := it.(type) {
			case *ReadTrimmed:
				events = append(events, &trimmed)
			case *ReadNode:
				for _, item := range nodes[it.Node] {
					if item.Place > it.After {
						events = append(events, &NodeRead{it.Ask, &Item{item.Place, item.Data, it.Node}})
					}
				}
				events = append(events, &NodeRead{Ask: it.Ask})
			}
		}
		if events == nil || r.core.IsOver() {
			return
		}
		done := []Action{}
		for _, it := range events {
			r.step(it)
			done = append(done, r.done...)
		}
		r.done = done
	}
	r.Fatal("it asks without an end")
}

// claimOf is what a writer has that took these entries.
func claimOf(taken ...[]byte) entries.Claim {
	it := entries.Claim{Position: uint64(len(taken))}
	for _, data := range taken {
		entry, err := entries.Parse(data)
		if err != nil {
			panic(err)
		}
		it.Hash = it.Hash.Next(entry.Pairs)
	}
	return it
}

func threeNodes(s *Settings) { s.Nodes = []string{"A", "B", "C"} }

// lossOf is a run in which node A, which is read, has lost an entry.
type lossOf struct {
	name    string
	log     logOf
	lost    int64    // the place of the entry that A has lost; 0 if none
	copied  int      // entries that the copy has, of those that A has
	trimmed [2]int64 // position and place
	line    string   // by which the replica ends, or
	taken   uint64   // what it has at the end
}

func losses() []lossOf {
	none := entries.Claim{}
	lost := entryOf(3, 1, none, none, frame(3, 1))
	begun := entryOf(5, 1, none, none, frame(7, 1))
	first := entryOf(2, 1, none, none, frame(4, 1))
	misled := entryOf(4, 1, claimOf(begun, first), none, frame(5, 1))
	after := entryOf(5, 2, claimOf(begun, lost, first), none, frame(6, 1))
	afterThree := entryOf(3, 2, claimOf(begun, lost, first), none, frame(6, 1))
	itself := entryOf(3, 2, claimOf(first), none, frame(6, 1))
	own := entryOf(3, 2, claimOf(first, lost), none, frame(6, 1))
	agrees := entryOf(3, 1, claimOf(first), none, frame(5, 1))
	next := entryOf(2, 2, claimOf(first, agrees), none, frame(6, 1))
	wrong := entryOf(3, 2, claimOf(first, agrees, first), none, frame(7, 1))
	rotten := "Rotten: B, C have another log up to position "
	return []lossOf{
		{name: "another replica has read the same node",
			log: logOf{{3, begun, ""}, {5, lost, ""}, {6, first, ""}, {7, misled, ""}, {8, after, ""}}, lost: 5,
			line: rotten + "3"},
		{name: "the copy lacks the entry", copied: 2, trimmed: [2]int64{1, 3},
			log: logOf{{3, begun, ""}, {5, lost, ""}, {6, first, ""}, {8, afterThree, ""}}, lost: 5, line: rotten + "2"},
		{name: "its writer has read the same node",
			log: logOf{{5, lost, ""}, {6, first, ""}, {8, itself, ""}}, lost: 5, line: rotten + "1"},
		{name: "one that is there twice comes after it",
			log: logOf{{5, first, ""}, {6, lost, ""}, {7, first, ""}, {8, own, ""}}, lost: 6, taken: 2},
		{name: "one that is there twice comes before it",
			log: logOf{{5, first, ""}, {6, first, ""}, {7, lost, ""}, {8, own, ""}}, lost: 7, taken: 2},
		{name: "one that is there twice is no other log",
			log: logOf{{5, first, ""}, {6, agrees, ""}, {7, first, ""}, {8, next, ""}, {9, wrong, ""}}, taken: 4},
	}
}

func TestALostEntry(t *testing.T) {
	for _, row := range losses() {
		t.Run(row.name, func(t *testing.T) {
			read := row.log.without(row.lost)
			r := newRig(t, func(s *Settings) {
				threeNodes(s)
				for _, it := range read[:row.copied] {
					entry, err := entries.Parse(it.Data)
					if err != nil {
						t.Fatal(err)
					}
					s.Taken.Count(it.Place, &entry)
				}
			})
			r.serveFrom(StartRead{TrimmedPosition: row.trimmed[0], TrimmedPlace: row.trimmed[1], Last: 9})
			for _, it := range read[row.copied:] {
				if it.Place > row.trimmed[1] {
					r.read(it.Place, it.Data)
				}
			}
			left := row.log.without(0)
			for row.trimmed[1] >= left[0].Place {
				left = left[1:]
			}
			r.nodesAnswer(TrimmedRead{Position: uint64(row.trimmed[0]), Place: row.trimmed[1]},
				map[string]logOf{"A": left.without(row.lost), "B": left, "C": left})
			if row.line != "" {
				r.ends(28, row.line)
			} else if r.core.IsOver() || r.core.State().Position != row.taken {
				t.Errorf("%d entries are taken: %s", r.core.State().Position, shown(r.done))
			}
		})
	}
}

// doubted has a replica that reads node A meet an entry whose writer has read one that A has lost.
func doubted(t *testing.T) (r *rig, whole logOf) {
	row := losses()[0]
	r = newRig(t, threeNodes)
	r.serve()
	for _, it := range row.log.without(row.lost) {
		r.read(it.Place, it.Data)
	}
	return r, row.log
}

func TestWhereTheLogBeginsIsAskedUntilItIsKnown(t *testing.T) {
	r, whole := doubted(t)
	r.nodesAnswer(TrimmedRead{Failed: Failure{FailedNoLog, "away"}}, nil)
	r.wait(time.Second / 5)
	did[*ReadTrimmed](r)
	r.nodesAnswer(TrimmedRead{}, map[string]logOf{"A": whole.without(5), "B": whole, "C": whole})
	r.ends(28, "Rotten: B, C have another log")
}

// waitsFor has the nodes asked for some seconds, or until the replica ends. It returns what was said.
func (r *rig) waitsFor(seconds int, nodes map[string]logOf) (said string) {
	r.Helper()
	for ; seconds > 0 && !r.core.IsOver(); seconds-- {
		r.wait(time.Second)
		r.nodesAnswer(TrimmedRead{}, nodes)
		for _, it := range r.done {
			if say, ok := it.(*Say); ok {
				said += say.Text
			}
		}
	}
	return said
}

func TestMostNodesAreWaitedFor(t *testing.T) {
	for name, row := range map[string]struct {
		late    []string
		returns bool
	}{
		"one answers":                      {[]string{"B", "C"}, true},
		"one of two is wrong":              {[]string{"C"}, true},
		"one answers, and stays alone":     {[]string{"B", "C"}, false},
		"one of two is wrong, and it ends": {[]string{"C"}, false},
	} {
		t.Run(name, func(t *testing.T) {
			r, whole := doubted(t)
			nodes := map[string]logOf{"A": whole.without(5), "B": whole, "C": whole}
			for _, it := range row.late {
				nodes[it] = nil
			}
			r.nodesAnswer(TrimmedRead{}, nodes)
			said := r.waitsFor(119, nodes)
			left := strings.Join(row.late, ", ")
			want := "waits for " + left + ", to compare the log of most nodes up to position 3"
			if r.core.IsOver() || r.core.State().Position != 3 || said != want {
				t.Fatalf("%d entries are taken: %q", r.core.State().Position, said)
			}
			if row.returns {
				nodes["B"], nodes["C"] = whole, whole
				r.waitsFor(1, nodes)
				r.ends(28, "Rotten: B, C have another log")
				return
			}
			r.waitsFor(2, nodes)
			r.ends(20, "NoLog: "+left+" did not answer in 120 s, and without most nodes nothing shows which log is right "+
				"up to position 3: start what does not answer, or take a peer's copy")
		})
	}
}

func TestATrimAmidASurveyIsNoOtherLog(t *testing.T) {
	r, whole := doubted(t)
	r.nodesAnswer(TrimmedRead{Position: 2, Place: 6}, map[string]logOf{"A": whole[3:], "B": whole[3:], "C": whole[3:]})
	if r.core.IsOver() {
		t.Fatal(shown(r.done)) // the marks of the copy are those of A
	}
	r, whole = doubted(t)
	r.step(&TrimmedRead{}) // and then it is trimmed up to the second entry
	left := map[string]logOf{"A": whole[2:], "B": whole[2:], "C": whole[2:]}
	r.nodesAnswer(TrimmedRead{Position: 1, Place: 3}, left)
	if r.core.IsOver() {
		t.Error(shown(r.done))
	}
}

func TestAnOwnEntryThatIsNotReadIsLookedForElsewhere(t *testing.T) {
	r := newRig(t, nil)
	r.serve()
	r.read(5, entryOf(2, 1, entries.Claim{}, entries.Claim{}, frame(4, 1)))
	r.step(&Frame{&Request{Frame: frame(7, 1)}})
	r.step(&Appended{Number: 1, Place: 7})
	r.wait(2100 * time.Millisecond)
	if read := did[*Read](r); read.After != 5 || !read.IsElsewhere {
		t.Errorf("%+v", read)
	}
}
