package replica

import (
	"encoding/json"
	"fmt"
	"strings"
	"testing"
	"time"

	"telovamish.org/server/internal/entries"
)

const wall = 1_700_000_000 * second // what the clock shows at first, since 1970

// rig is a core with what it did last, and a log of two nodes that the test plays.
type rig struct {
	*testing.T
	core *Core
	now  Instant
	done []Action
}

func writerOf(value byte) (writer entries.Writer) {
	writer[0] = value
	return writer
}

func newRig(t *testing.T, change func(*Settings)) *rig {
	settings := Settings{
		Name: "m1", Address: "m1:3001", Writer: writerOf(1), Server: "tbd", Taken: NewTaken(),
		Head: entries.Head{ClientsMax: 64, Profile: 1, ID: "7"}, Nodes: []string{"A", "B"},
		Patience: 10 * time.Second, Ahead: 60 * time.Second, IsAlone: true,
	}
	if change != nil {
		change(&settings)
	}
	r := &rig{T: t, core: New(settings), now: Instant{wall, second}}
	r.step(&Tick{})
	return r
}

func (r *rig) step(event Event) {
	r.done = append([]Action{}, r.core.Step(r.now, event)...)
	for at, it := range r.done {
		if answer, ok := it.(*Answer); ok {
			r.done[at] = &Answer{append([]Answered{}, answer.Answers...)}
		}
	}
}

// wait lets time go by.
func (r *rig) wait(pause time.Duration) {
	r.now.Wall, r.now.Running = r.now.Wall+int64(pause), r.now.Running+int64(pause)
	r.step(&Tick{})
}

// did is the first action of a type that was done last.
func did[T Action](r *rig) (found T) {
	r.Helper()
	for _, it := range r.done {
		if it, ok := it.(T); ok {
			return it
		}
	}
	r.Fatalf("%T is not in %s", found, shown(r.done))
	return found
}

func shown(actions []Action) string {
	var text []string
	for _, it := range actions {
		text = append(text, fmt.Sprintf("%T%+v", it, it))
	}
	return strings.Join(text, " ")
}

// ends is that it ended by this status, and a line that begins so.
func (r *rig) ends(status int, line string) {
	r.Helper()
	if end := did[*End](r); end.Status != status || !strings.HasPrefix(end.Line, line) {
		r.Errorf("%d %q, not %d %q", end.Status, end.Line, status, line)
	}
}

func (r *rig) begin() { r.step(&StartRead{Head: did[*ReadStart](r).Head}) }

// serve has it serve, alone.
func (r *rig) serve() {
	r.Helper()
	r.serveFrom(StartRead{})
	if !r.core.IsServing() {
		r.Fatal("it does not serve")
	}
}

// serveFrom has it begin with a log of its head.
func (r *rig) serveFrom(start StartRead) {
	r.Helper()
	start.Head = did[*ReadStart](r).Head
	r.step(&start)
	r.step(&ReportsRead{})
	r.step(&ReportWritten{true})
	r.step(&ReportRead{Name: "m1", Data: []byte(r.core.settings.Writer.String())})
	r.step(&ClockRead{})
	did[*StartServer](r)
	r.step(&ReportWritten{true})
	r.step(&ServerBegan{})
}

// frame is a lookup of nothing by a client.
func frame(client byte, number byte) []byte {
	data := make([]byte, 48)
	data[0], data[16], data[24], data[28] = client, 1, number, 131
	return data
}

// replyTo is a reply to a frame.
func replyTo(frame []byte, commit byte) []byte {
	data := append([]byte{}, frame...)
	data[36] = commit
	return data
}

// entry is the bytes of an entry of another writer, of one request.
func entryOf(writer byte, number uint64, log, replies entries.Claim, frames ...[]byte) []byte {
	it := entries.Entry{Writer: writerOf(writer), Number: number, Log: log, Replies: replies}
	for _, frame := range frames {
		it.Pairs = entries.AppendPair(it.Pairs, uint64(wall), frame)
	}
	return it.Append(nil)
}

func (r *rig) read(place int64, data []byte) {
	r.step(&EntryRead{Reading: r.core.reader.reading, Item: Item{Place: place, Data: data, Node: "A"}})
}

func TestARequestGoesItsWay(t *testing.T) {
	r := newRig(t, nil)
	r.serve()
	request := &Request{Frame: frame(7, 1)}
	r.step(&Frame{request})
	append := did[*Append](r)
	if append.Number != 1 || append.Writer != writerOf(1) {
		t.Errorf("%d of %s", append.Number, append.Writer)
	}
	r.step(&Appended{Number: 1, Place: 5})
	r.read(5, append.Data)
	if keep := did[*Keep](r); keep.Position != 1 || keep.Place != 5 {
		t.Errorf("%+v", keep)
	}
	feed := did[*Feed](r)
	reply := replyTo(request.Frame, 2)
	r.step(&ReplyCame{1, 0, reply})
	answers := did[*Answer](r).Answers
	if len(answers) != 1 || answers[0].Request != request || string(answers[0].Reply) != string(reply) {
		t.Errorf("%+v", answers)
	}
	r.step(&HashesCame{1, entries.Hash{}.Next(feed.Pairs), entries.Hash{}.Next(reply)})
	if state := r.core.State(); state.Position != 1 || state.Answered != 1 || r.core.Held() != 0 {
		t.Errorf("%+v, %d held", state, r.core.Held())
	}
}

func TestFaultsOfAStart(t *testing.T) {
	other := entries.Head{ClientsMax: 8, Profile: 1, ID: "7"}.Bytes()
	mine := entries.Head{ClientsMax: 64, Profile: 1, ID: "7"}.Bytes()
	another := entries.Head{ClientsMax: 64, Profile: 1, ID: "8"}.Bytes()
	for _, row := range []struct {
		name   string
		event  StartRead
		status int
		line   string
	}{
		{"no log", StartRead{Failed: Failure{FailedNoLog, "away"}}, 20, "NoLog: away"},
		{"a full log", StartRead{Failed: Failure{FailedFull, "quota"}}, 26, "LogFull: quota"},
		{"other rules", StartRead{Head: other}, 23, "OtherRules: the log has {"},
		{"no head", StartRead{Head: []byte("x")}, 23, "OtherRules: the log has x, and this replica {"},
		{"another log", StartRead{Head: mine, KeptHead: another, Folder: "F"}, 23, "OtherRules: the log has"},
		{"trimmed", StartRead{Head: mine, TrimmedPosition: 3, TrimmedPlace: 4, Last: 9}, 21,
			"Trimmed: the log begins after position 3, and the copy has 0: take a peer's, by copy-from"},
		{"a wrong trim", StartRead{Head: mine, TrimmedPosition: 3, Last: 9}, 25, "BadEntry: the log's `trimmed`"},
		{"a trim beyond the log", StartRead{Head: mine, TrimmedPosition: 3, TrimmedPlace: 4, Last: 3}, 25, "BadEntry"},
		{"a trim of less than nothing", StartRead{Head: mine, TrimmedPosition: -1}, 25, "BadEntry"},
	} {
		t.Run(row.name, func(t *testing.T) {
			r := newRig(t, nil)
			r.step(&row.event)
			r.ends(row.status, row.line)
		})
	}
}

// taken is a copy of one entry, at place 5.
func takenOne(data []byte) *Taken {
	it := NewTaken()
	entry, err := entries.Parse(data)
	if err != nil {
		panic(err)
	}
	it.Count(5, &entry)
	return it
}

func TestALogThatEndsBeforeTheCopy(t *testing.T) {
	r := newRig(t, func(s *Settings) { s.Taken = takenOne(entryOf(2, 1, entries.Claim{}, entries.Claim{}, frame(7, 1))) })
	r.step(&StartRead{Head: did[*ReadStart](r).Head, Last: 4})
	r.ends(22, "Diverged: the log ends at place 4, and the copy at 5; keep all files")
}

func TestFaultsOfEntriesThatAllNodesHave(t *testing.T) {
	none := entries.Claim{}
	bad := frame(7, 1)
	bad[28] = 77
	for _, row := range []struct {
		name   string
		data   []byte
		status int
		line   string
	}{
		{"a wrong frame", entryOf(2, 1, none, none, bad), 25,
			"BadEntry: the entry at 1: a pair of it is refused: UnknownOperation"},
		{"a number that is skipped", entryOf(2, 2, none, none, frame(7, 1)), 25,
			"BadEntry: the entry at 1: it has number 2 after 0 (if the engine was restored"},
		{"a moment beyond 2116", func() []byte {
			it := entries.Entry{Writer: writerOf(2), Number: 1}
			it.Pairs = entries.AppendPair(nil, entries.MomentMax+1, frame(7, 1))
			return it.Append(nil)
		}(), 25, "BadEntry: the entry at 1: a pair of it is refused: its moment is"},
		{"no entry", []byte("hello"), 25, "BadEntry: the entry at 1: it has no head of an entry"},
		{"more of the log than there is", entryOf(2, 1, entries.Claim{Position: 1}, none, frame(7, 1)), 22,
			"Diverged: the entry at 1: writer 0200"},
		{"other replies", entryOf(2, 1, none, entries.Claim{Hash: entries.Hash{1}}, frame(7, 1)), 22,
			"Diverged: at position 0: writer 0200"},
	} {
		t.Run(row.name, func(t *testing.T) {
			r := newRig(t, nil)
			r.serve()
			r.read(5, row.data)
			r.nodesHave(5, row.data, row.data)
			r.ends(row.status, row.line)
		})
	}
}

// nodesHave answers each question for the entry after a place; none if there are no bytes. It ends when
// nothing more is asked.
func (r *rig) nodesHave(place int64, node ...[]byte) {
	for asked := 0; asked < 20; asked++ {
		var event Event
		for _, it := range r.done {
			switch it := it.(type) {
			case *ReadTrimmed:
				event = &TrimmedRead{}
			case *ReadNode:
				event = &NodeRead{Ask: it.Ask}
				if data := node[it.Node[0]-'A']; data != nil && it.After < place {
					event = &NodeRead{it.Ask, &Item{place, data, it.Node}}
				}
			}
		}
		if event == nil {
			return
		}
		r.step(event)
	}
	r.Fatal("it asks without an end")
}

func TestAnEntryThatADiskChangedIsReadElsewhere(t *testing.T) {
	r := newRig(t, nil)
	r.serve()
	good := entryOf(2, 1, entries.Claim{}, entries.Claim{}, frame(7, 1))
	bad := append([]byte{}, good...)
	bad[100] ^= 1
	r.read(5, bad)
	for _, it := range r.done {
		if _, ok := it.(*Feed); ok {
			t.Fatal("it was shown")
		}
	}
	r.nodesHave(5, bad, good)
	if read := did[*Read](r); read.After != 5 || !read.IsElsewhere {
		t.Errorf("%+v", read)
	}
	if say := did[*Say](r); !strings.HasPrefix(say.Text, "A is rotten: the entry at 1: it does not have its SHA-256; B has") {
		t.Errorf("%q", say.Text)
	}
	if rotten := r.core.Rotten(); rotten["A"] != 1 || rotten["B"] != 0 || r.core.State().Position != 1 {
		t.Errorf("%v, %+v", rotten, r.core.State())
	}
}

func TestAnEntryThatIsRightAtNoNode(t *testing.T) {
	r := newRig(t, nil)
	r.serve()
	good := entryOf(2, 1, entries.Claim{}, entries.Claim{}, frame(7, 1))
	one, two := append([]byte{}, good...), append([]byte{}, good...)
	one[100] ^= 1
	two[101] ^= 1
	r.read(5, one)
	r.nodesHave(5, one, two)
	r.ends(28, "Rotten: the entry at 1: it does not have its SHA-256; it fits at none of A, B: take a peer's copy")
}

func TestAnEntryThatIsInTheLogTwice(t *testing.T) {
	r := newRig(t, nil)
	r.serve()
	data := entryOf(2, 1, entries.Claim{}, entries.Claim{}, frame(7, 1))
	r.read(5, data)
	r.read(6, data)
	if state := r.core.State(); state.Position != 1 || did[*Say](r).Kind != "twice" {
		t.Errorf("%+v", state)
	}
}

func TestAnAppendIsTriedAgainByItsName(t *testing.T) {
	r := newRig(t, nil)
	r.serve()
	r.step(&Frame{&Request{Frame: frame(7, 1)}})
	first := did[*Append](r)
	r.step(&AppendLost{1, Failure{FailedNoLog, "away"}})
	if say := did[*Say](r); say.Text != "NoLog: away" {
		t.Errorf("%q", say.Text)
	}
	r.wait(100 * time.Millisecond)
	if again := did[*Append](r); again.Number != first.Number || string(again.Data) != string(first.Data) {
		t.Errorf("%+v", again)
	}
}

func TestWaitingRequestsAreToldWhy(t *testing.T) {
	for _, row := range []struct {
		kind FailureKind
		wait time.Duration
		want string
	}{{FailedNoLog, 10500 * time.Millisecond, "NoLog"}, {FailedFull, 300 * time.Millisecond, "LogFull"}} {
		t.Run(row.want, func(t *testing.T) {
			r := newRig(t, nil)
			r.serve()
			r.step(&Frame{&Request{Frame: frame(7, 1)}})
			r.step(&AppendLost{1, Failure{row.kind, "so"}})
			r.wait(row.wait)
			if answers := did[*Answer](r).Answers; len(answers) != 1 || answers[0].Why != row.want {
				t.Errorf("%+v", answers)
			}
		})
	}
}

func TestACancelledRequestIsNotAppended(t *testing.T) {
	r := newRig(t, nil)
	r.begin() // no request is appended yet
	one, two := &Request{Frame: frame(7, 1)}, &Request{Frame: frame(8, 1)}
	r.step(&Frame{one})
	r.step(&Frame{two})
	r.step(&Cancelled{one})
	if r.core.Held() != 1 {
		t.Errorf("%d held", r.core.Held())
	}
}

func TestAServerThatRepliesOtherwise(t *testing.T) {
	none := entries.Claim{}
	for _, row := range []struct {
		name   string
		reply  func(frame []byte) []byte
		digest entries.Hash
		status int
		line   string
	}{
		{"to another request", func([]byte) []byte { return replyTo(frame(9, 1), 2) }, entries.Hash{}, 1,
			"tbd wrote what is no reply to the next pair"},
		{"by a reply with a fault", func(of []byte) []byte { return replyTo(of, 0) }, entries.Hash{}, 1,
			"tbd wrote what is no reply to the next pair"},
		{"with another hash", func(of []byte) []byte { return replyTo(of, 2) }, entries.Hash{1}, 22,
			"Diverged: tbd has another hash at position 1"},
	} {
		t.Run(row.name, func(t *testing.T) {
			r := newRig(t, nil)
			r.serve()
			r.read(5, entryOf(2, 1, none, none, frame(7, 1)))
			pairs := did[*Feed](r).Pairs
			r.step(&ReplyCame{1, 0, row.reply(frame(7, 1))})
			if !r.core.IsOver() {
				r.step(&HashesCame{1, entries.Hash{}.Next(pairs), row.digest})
			}
			r.ends(row.status, row.line)
		})
	}
}

func TestARestartedServerHasToReplyAsBefore(t *testing.T) {
	for commit, isSame := range map[byte]bool{2: true, 3: false} {
		t.Run(fmt.Sprint(isSame), func(t *testing.T) {
			r := newRig(t, nil)
			r.serve()
			r.read(5, entryOf(2, 1, entries.Claim{}, entries.Claim{}, frame(7, 1)))
			pairs := did[*Feed](r).Pairs
			log := entries.Hash{}.Next(pairs)
			reply := replyTo(frame(7, 1), 2)
			r.step(&ReplyCame{1, 0, reply})
			r.step(&HashesCame{1, log, entries.Hash{}.Next(reply)})
			r.step(&ServerLost{})
			r.step(&ServerBegan{})
			if at := did[*ReadCopy](r).Position; at != 1 || r.core.IsServing() {
				t.Errorf("position %d", at)
			}
			r.step(&CopyRead{1, [][]byte{pairs}})
			reply = replyTo(frame(7, 1), commit)
			r.step(&ReplyCame{1, 0, reply})
			r.step(&HashesCame{1, log, entries.Hash{}.Next(reply)})
			if isSame && !r.core.IsServing() {
				t.Error("it does not serve")
			} else if !isSame {
				r.ends(22, "Diverged: tbd answers the entry at 1 otherwise than before")
			}
		})
	}
}

func TestClocks(t *testing.T) {
	beyond := wall - second // of a right clock
	for _, row := range []struct {
		name   string
		others []int64 // what their clocks have beyond this one's, in seconds
		serves bool
	}{
		{"one that agrees", []int64{0}, true},
		{"one that is behind", []int64{-61}, false},
		{"one that is behind and one that agrees", []int64{-61, 0}, true},
		{"one that is ahead", []int64{61}, true},
		{"nobody", nil, false},
	} {
		t.Run(row.name, func(t *testing.T) {
			r := newRig(t, func(s *Settings) { s.IsAlone = false })
			r.begin()
			names := []string{"m1"}
			for at := range row.others {
				names = append(names, fmt.Sprintf("m%d", at+2))
			}
			r.step(&ReportsRead{Names: names})
			var mine said
			json.Unmarshal(did[*WriteReport](r).Data, &mine)
			r.step(&ReportWritten{true})
			r.step(&ReportRead{Name: "m1", Data: []byte(mine.Writer)})
			for at, ahead := range row.others {
				it := said{Clock: beyond + second + ahead*second, Heard: map[string]int64{"m1": mine.Hello}}
				data, _ := json.Marshal(it)
				r.step(&ReportRead{Name: names[at+1], Data: data})
			}
			if len(row.others) == 0 {
				r.step(&ClockRead{})
				r.step(&FullRead{})
			}
			if r.core.clock.isMet != row.serves {
				t.Errorf("%s", shown(r.done))
			}
			if row.serves {
				return
			}
			if say := did[*Say](r); !strings.Contains(say.Text, "ahead of the others'") && say.Text != "waits: "+unconfirmed {
				t.Errorf("%q", say.Text)
			}
		})
	}
}

func TestAWrongClockEndsAfterAWhile(t *testing.T) {
	late := entries.Entry{Writer: writerOf(2), Number: 1}
	late.Pairs = entries.AppendPair(nil, uint64(wall+61*second), frame(7, 1))
	r := newRig(t, func(s *Settings) { s.Taken = takenOne(late.Append(nil)) })
	r.step(&StartRead{Head: did[*ReadStart](r).Head, Last: 5})
	if say := did[*Say](r); !strings.HasPrefix(say.Text, "Ahead: the log's last moment is 61.000 s ahead") {
		t.Errorf("%q", say.Text)
	}
	r.now.Wall -= 200 * second // it is never set right
	for seconds := 0; seconds < 121 && !r.core.IsOver(); seconds++ {
		r.wait(time.Second)
	}
	r.ends(27, "Ahead: the log's last moment is")
}

func TestReportsOfOthers(t *testing.T) {
	mine := writerOf(1).String()
	for _, row := range []struct {
		name, from, data string
		status           int
		line             string
	}{
		{"one that diverged from this one", "m2", `{"fault": "Diverged: writer ` + mine + ` has .."}`, 22, "Diverged: m2 says: "},
		{"another of this name", "m1", `{"writer": "02"}`, 1, "another replica has the name m1"},
		{"no JSON", "m2", `{`, 0, ""},
		{"wrong fields", "m2", `{"heard": 3, "hello": [], "doubts": {}, "fault": 7, "clock": "x"}`, 0, ""},
	} {
		t.Run(row.name, func(t *testing.T) {
			r := newRig(t, nil)
			r.serve()
			r.step(&ReportRead{Name: row.from, Data: []byte(row.data)})
			if row.line != "" {
				r.ends(row.status, row.line)
			} else if r.core.IsOver() {
				t.Error(shown(r.done))
			}
		})
	}
}

func TestAHelloIsAnsweredOnce(t *testing.T) {
	r := newRig(t, nil)
	r.serve()
	r.step(&ReportRead{Name: "m2", Data: []byte(`{"hello": 5}`)})
	var it said
	if json.Unmarshal(did[*WriteReport](r).Data, &it); it.Heard["m2"] != 5 || it.Clock != r.now.Wall {
		t.Errorf("%+v", it)
	}
	r.step(&ReportWritten{true})
	r.step(&ReportRead{Name: "m2", Data: []byte(`{"hello": 5}`)})
	for _, it := range r.done {
		if _, ok := it.(*WriteReport); ok {
			t.Error("it is answered again")
		}
	}
}

func TestMomentsDoNotFollowAJump(t *testing.T) {
	r := newRig(t, nil)
	r.serve()
	before := r.now.Wall
	r.now.Wall += 3600 * second
	r.now.Running += second
	r.step(&Frame{&Request{Frame: frame(7, 1)}})
	entry, err := entries.Parse(did[*Append](r).Data)
	if moment, _ := entries.FirstMoment(entry.Pairs); err != nil || int64(moment) > before+2*second {
		t.Errorf("%d, %v", int64(moment)-before, err)
	}
}

func TestWhatWaitsIsAnsweredAtTheEnd(t *testing.T) {
	r := newRig(t, nil)
	r.serve()
	r.step(&Frame{&Request{Frame: frame(7, 1)}})
	r.step(&Frame{&Request{Frame: frame(8, 1)}})
	r.step(&ServerEnded{2, "tbd: Short"})
	if answers := did[*Answer](r).Answers; len(answers) != 2 || answers[0].Why != programEnded {
		t.Errorf("%+v", answers)
	}
	r.ends(2, "tbd: Short")
	if _, ok := r.done[len(r.done)-1].(*End); !ok {
		t.Errorf("an answer is after the end: %s", shown(r.done))
	}
}

func TestTheCopyIsSyncedAndReported(t *testing.T) {
	r := newRig(t, nil)
	r.serve()
	r.read(5, entryOf(2, 1, entries.Claim{}, entries.Claim{}, frame(7, 1)))
	r.wait(time.Second)
	did[*SyncCopy](r)
	r.step(&CopySynced{1, 5, 100})
	r.wait(10 * time.Second)
	var it said
	if json.Unmarshal(did[*WriteReport](r).Data, &it); it.Position != 1 || it.Place != 5 {
		t.Errorf("%+v", it)
	}
}
