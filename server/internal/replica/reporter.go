package replica

import (
	"encoding/json"
	"fmt"
	"sort"
	"strconv"
	"strings"

	"telovamish.org/server/internal/faults"
)

const reportEvery = 10 * second // after which a replica reports, if its position has changed

// reporter reports of this replica, when it is asked to, and now and then if something has changed. It
// reads what others report: their clocks, that they ask for this one's, that they doubt its log, and that
// they diverged from it.
type reporter struct {
	*Core
	isAsked   bool // a report is to be written
	isWriting bool
	at        int64
	reported  uint64 // the position that was reported
	hasBegun  bool
	sending   uint64
	place     int64            // of the last report that was read
	isHeard   bool             // an own report was read
	heard     map[string]int64 // the last hello of others, which are to be answered
}

func (r *reporter) init(c *Core) { r.Core, r.heard, r.at = c, map[string]int64{}, never }

// said is a report, as JSON. Names are sorted.
type said struct {
	Address  string           `json:"address"`
	Answered uint64           `json:"answered"`
	Clock    int64            `json:"clock"`
	Doubts   []string         `json:"doubts,omitempty"`
	Fault    string           `json:"fault,omitempty"`
	Heard    map[string]int64 `json:"heard"`
	Hello    int64            `json:"hello,omitempty"`
	Moment   uint64           `json:"moment"`
	Place    int64            `json:"place"`
	Position uint64           `json:"position"`
	Replies  string           `json:"replies"`
	Rotten   []string         `json:"rotten,omitempty"`
	Writer   string           `json:"writer"`
}

// text is what is reported now.
func (r *reporter) text(fault string) []byte {
	it := said{
		Address: r.settings.Address, Answered: r.follower.answered, Clock: r.now.Wall, Fault: fault,
		Heard: r.heard, Moment: r.taken.LastMoment, Place: r.copier.place, Position: r.copier.position,
		Replies: r.follower.digest.String(), Writer: r.settings.Writer.String(),
	}
	if !r.clock.isMet {
		it.Hello = r.clock.hello
	}
	for writer := range r.nodes.doubts {
		it.Doubts = append(it.Doubts, writer.String())
	}
	for node := range r.nodes.rotten {
		it.Rotten = append(it.Rotten, node)
	}
	sort.Strings(it.Doubts)
	sort.Strings(it.Rotten)
	data, err := json.Marshal(it)
	if err != nil {
		panic(err) // numbers and texts are JSON
	}
	return data
}

// ask has a report written soon.
func (r *reporter) ask() { r.isAsked = true }

func (e *ReportWritten) apply(c *Core) {
	r := &c.reporter
	r.isWriting = false
	if e.IsWritten {
		r.reported, r.hasBegun = r.sending, true
		c.copier.reportedBytes = c.copier.synced
	}
	r.at = c.now.Running + reportEvery
	c.clock.heard()
}

// due writes a report if it is time, and no other one is being written.
func (r *reporter) due(now int64) int64 {
	mayWrite := r.clock.phase == answering || r.clock.isMet
	if !mayWrite || r.isWriting {
		return never
	}
	isChanged := !r.hasBegun || r.reported != r.copier.position
	if r.isAsked || now >= r.at && isChanged {
		r.isAsked, r.isWriting = false, true
		r.sending = r.copier.position
		r.do(&WriteReport{r.text("")})
		return never
	}
	if now >= r.at {
		r.at = now + reportEvery
	}
	return r.at
}

// heardReport is a report of another replica, whose program may be another one: a field that is not what
// it is to be is none.
type heardReport struct {
	Clock, Doubts, Fault, Heard, Hello, Writer json.RawMessage
}

func textOf(field json.RawMessage) (text string) {
	if len(field) > 0 {
		json.Unmarshal(field, &text)
	}
	return text
}

func numberOf(field json.RawMessage) int64 {
	number, err := strconv.ParseInt(string(field), 10, 64)
	if err != nil {
		return 0
	}
	return number
}

func (e *ReportRead) apply(c *Core) {
	r := &c.reporter
	if e.Place != 0 && e.Place <= r.place {
		return
	}
	r.place = e.Place
	if e.Name == c.settings.Name {
		r.hearOwn(e.Data)
		return
	}
	var it heardReport
	if json.Unmarshal(e.Data, &it) != nil {
		return
	}
	r.hearClock(e.Name, &it)
	r.hearHello(e.Name, numberOf(it.Hello))
	r.hearDoubt(&it)
	if why := textOf(it.Fault); why != "" && strings.Contains(why, c.settings.Writer.String()) {
		c.fail(faults.Diverged, "%s says: %s", e.Name, why)
	}
	c.clock.heard()
}

// hearClock takes the clock of a replica that answers a hello of this one.
func (r *reporter) hearClock(name string, it *heardReport) {
	var heard map[string]json.RawMessage
	if len(it.Heard) > len("{}") {
		json.Unmarshal(it.Heard, &heard)
	}
	if hello := numberOf(heard[r.settings.Name]); hello != 0 {
		r.clock.hear(name, hello, numberOf(it.Clock))
	}
}

// hearHello has a hello answered, once: answers to those who ask too would be answered by them without an
// end.
func (r *reporter) hearHello(name string, hello int64) {
	if hello != 0 && hello != r.heard[name] && !r.has(AnswersNoHello) {
		r.heard[name] = hello
		r.ask()
	}
}

// hearDoubt has the log compared with that of the nodes if another replica doubts it, once for each.
func (r *reporter) hearDoubt(it *heardReport) {
	var doubts []string
	if len(it.Doubts) > 0 {
		json.Unmarshal(it.Doubts, &doubts)
	}
	for _, writer := range doubts {
		if writer == r.settings.Writer.String() {
			r.nodes.doubtBy(textOf(it.Writer))
		}
	}
}

// hearOwn ends the replica if another one reports by its name: what is trimmed goes by the names.
func (r *reporter) hearOwn(data []byte) {
	isMine := strings.Contains(string(data), r.settings.Writer.String())
	if r.isHeard && !isMine {
		r.end(1, fmt.Sprintf("another replica has the name %s", r.settings.Name), nil)
		return
	}
	r.isHeard = r.isHeard || isMine
	r.clock.heard()
}
