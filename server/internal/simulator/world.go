// Package simulator runs replicas in virtual time: their real core, with models of the engine, machines,
// clocks, servers and clients. A seed draws the machines, the schedule and the faults, and gives the same
// run each time. An oracle judges what clients saw. A seed that fails is shortened, and its run printed
// as a story.
package simulator

import (
	"fmt"
	"math/rand"
	"strings"
	"time"

	"telovamish.org/server/internal/entries"
	"telovamish.org/server/internal/faults"
	"telovamish.org/server/internal/replica"
)

const (
	quiet    = 20 * second  // without faults at the end, after each round of probes
	probes   = 2            // rounds: a node that lost the last entries is found by the entries after them
	stepsMax = 60_000       // jobs of a run: with more it does the same again and again
	longest  = 300 * second // after the last fault until all calls have returned
)

// Bug is a wrong part of the machines, which the oracle has to find.
type Bug int

// All bugs of machines.
const (
	NoBug            Bug = iota
	CutsTheCopyShort     // a start after a crash counts an entry less than the copy has
)

// Options are those of a run.
type Options struct {
	Bug       Bug
	NewServer func(clientsMax int) Server // of the model's, if there is none
}

// world is one run.
type world struct {
	schedule
	options    Options
	bug        Bug
	plan       plan
	engine     *engine
	machines   []*machine
	all        []*client
	clientsMax int
	wrong      []string
	injected   [faultKinds]bool
	logs       []entries.Hash // of the log up to each position, as far as machines have taken it
	places     []int64        // of the entry at each of these
	counted    int            // rows of the engine's history up to there
	numbers    map[entries.Writer]uint64
	isMisled   bool // a client got a reply of a machine whose node had lost an entry
	isQuiet    bool
	isOver     bool
	steps      int
}

// newWorld draws a run.
func newWorld(seed int64, options Options, story *strings.Builder) *world {
	w := &world{options: options, bug: options.Bug, logs: make([]entries.Hash, 1),
		places: make([]int64, 1), numbers: map[entries.Writer]uint64{}}
	w.drawn, w.story = rand.New(rand.NewSource(seed)), story
	w.clientsMax = [...]int{8, 8, 8, 3}[w.drawn.Intn(4)]
	w.engine = newEngine(&w.schedule, kind(w.drawn.Intn(2)), [...]int{3, 3, 5}[w.drawn.Intn(3)])
	w.engine.woken = func() {
		for _, it := range w.machines {
			it.wake(w.engine.nodes[it.first()].lag + w.most(2*milli))
		}
	}
	for count := w.between(3, 5); count > 0; count-- {
		w.machines = append(w.machines, &machine{world: w, number: len(w.machines),
			name: fmt.Sprintf("m%d", len(w.machines)+1), reported: -1, window: [...]int{0, 0, 600}[w.drawn.Intn(3)]})
	}
	w.plan = w.drawPlan()
	return w
}

// see counts what is wrong.
func (w *world) see(holds bool, format string, values ...any) {
	if !holds {
		line := fmt.Sprintf(format, values...)
		w.tell("WRONG: %s", line)
		w.wrong = append(w.wrong, fmt.Sprintf("%.3f s: %s", float64(w.now)/float64(second), line))
	}
}

func (w *world) newServer() Server {
	if w.options.NewServer != nil {
		return w.options.NewServer(w.clientsMax)
	}
	return NewLedger(w.clientsMax)
}

// serving is a machine that takes connections.
func (w *world) serving() *machine {
	var found []*machine
	for _, it := range w.machines {
		if it.isServing() {
			found = append(found, it)
		}
	}
	if len(found) == 0 {
		return nil
	}
	return found[w.drawn.Intn(len(found))]
}

// patienceOfCore is that of each replica.
const patienceOfCore = 5 * time.Second

// allowed are the faults that a machine may end by, each with what may cause it. One ends as Rotten only if
// what it took is not the log.
var allowed = map[faults.Name][]faultKind{
	faults.NoLog:   nil, // at its start, at any time
	faults.LogFull: {engineFull},
	faults.Ahead:   {clockJumps, clockStarts},
	faults.Rotten:  {nodeLoses},
	faults.Trimmed: {diskLost, diskRots},
	faults.Damaged: {diskRots},
}

// checkEnd is that a machine ends by itself only if a fault of the run is a cause for that.
func (w *world) checkEnd(m *machine, status int, line string) {
	if w.isOver {
		return
	}
	causes, ok := allowed[hasFault(line)]
	isCaused := ok && hasFault(line) == faults.NoLog
	for _, it := range causes {
		isCaused = isCaused || w.injected[it]
	}
	isCaused = isCaused && (hasFault(line) != faults.Rotten || m.differs > 0)
	w.see(isCaused && hasFault(line).Status() == status, "%s ended by status %d, %q", m.name, status, line)
}

// run runs until all calls have returned, and for a while without any.
func (w *world) run() {
	w.tell("%d replicas over %s with %d nodes, %d clients, %d sessions", len(w.machines), w.engine.kind,
		len(w.engine.nodes), len(w.plan.calls), w.clientsMax)
	for at, calls := range w.plan.calls {
		w.all = append(w.all, &client{world: w, number: at, id: uint64(1000 + at), left: calls})
	}
	for _, it := range w.machines {
		it := it
		w.after(w.most(second), it.start)
	}
	for _, it := range w.all {
		w.after(w.most(second), it.goOn)
	}
	for count := 0; count < w.plan.strangers; count++ {
		w.after(w.between(0, 5*second), w.annoy)
	}
	last := int64(0)
	for _, it := range w.plan.faults {
		it := it
		last = it.at
		w.after(it.at, func() { w.hurt(it) })
	}
	w.until(last + second)
	w.heal()
	w.waitFor(w.isAllDone)
	w.see(w.isAllDone() || w.isLostEverywhere(), "a client has no reply %d s after the last fault", longest/second)
	for round := 0; round < probes && len(w.wrong) == 0; round++ {
		w.waitFor(w.isAllServing)
		w.probe()
		w.until(w.now + quiet)
	}
	switch {
	case len(w.wrong) > 0:
		w.judgeOrder() // of what clients saw until then
	case !w.isLostEverywhere():
		w.finish()
	}
}

// isLostEverywhere reports whether no machine has the log's beginning: all that had the entry that a node
// lost are gone, so no peer's copy is right.
func (w *world) isLostEverywhere() bool {
	for _, it := range w.machines {
		if it.differs == 0 {
			return false
		}
	}
	return true
}

// logAt is the hash of the log up to a position.
func (w *world) logAt(position uint64) (entries.Hash, bool) {
	for ; uint64(len(w.logs)) <= position && w.counted < len(w.engine.history); w.counted++ {
		entry, err := entries.ParseTrusted(w.engine.history[w.counted].data)
		if err == nil && entry.Number == w.numbers[entry.Writer]+1 {
			w.numbers[entry.Writer] = entry.Number
			w.logs = append(w.logs, w.logs[len(w.logs)-1].Next(entry.Pairs))
			w.places = append(w.places, w.engine.history[w.counted].place)
		}
	}
	if uint64(len(w.logs)) <= position {
		return entries.Hash{}, false
	}
	return w.logs[position], true
}

// checkTaken is that a machine takes what the log has; if its node has lost an entry, until the entry of a
// writer which had read that one.
func (w *world) checkTaken(m *machine, it *replica.Keep) {
	if m.differs == 0 {
		log, ok := w.logAt(it.Position)
		if ok && log == m.core.State().Log {
			return
		}
		if !ok || !w.engine.isLost(w.places[it.Position]) {
			w.see(false, "%s takes what the log does not have at position %d", m.name, it.Position)
			return
		}
		m.tell("%s has another log from position %d on", m.name, it.Position)
		m.differs = it.Position
		return
	}
	entry, err := entries.ParseTrusted(it.Data)
	if err != nil || entry.Log.Position < m.differs {
		return
	}
	log, ok := w.logAt(entry.Log.Position)
	w.see(!ok || log != entry.Log.Hash, "%s has another log from position %d on, and takes entry %d of writer %.4s, "+
		"which has the right one", m.name, m.differs, entry.Number, entry.Writer)
}

func (w *world) until(end int64) {
	for w.step(end) {
		if w.steps++; w.steps == stepsMax {
			w.see(false, "the run does not come to rest")
			w.jobs = nil
		}
	}
}

// waitFor runs until something holds, for a while at most.
func (w *world) waitFor(holds func() bool) {
	for end := w.now + longest; w.now < end && !holds() && len(w.wrong) == 0; {
		w.until(w.now + second/4)
	}
}

// isAllServing reports whether each machine serves: only then is what a node lost found by the others.
func (w *world) isAllServing() bool {
	for _, it := range w.machines {
		if !it.isServing() {
			return w.isLostEverywhere()
		}
	}
	return true
}

func (w *world) isAllDone() bool {
	for _, it := range w.all {
		if !it.isDone {
			return false
		}
	}
	return true
}

// annoy sends a request of a client that has no session, and leaves.
func (w *world) annoy() {
	if m := w.serving(); m != nil {
		stranger := &client{world: w, id: 7, isDone: true}
		it := &call{client: stranger, isOver: true, frame: requestOf(7, 1, 1, 131, make([]byte, 16))}
		life, request := m.life, m.take(it)
		w.after(w.most(20*milli), func() {
			if m.life == life {
				m.cancel(request)
			}
		})
	}
}

// probe sends each machine a request of a client that has no session.
func (w *world) probe() {
	for _, it := range w.machines {
		if it.isServing() {
			it.take(&call{client: &client{world: w, id: 8}, isOver: true, frame: requestOf(8, 1, 1, 131, nil)})
			w.until(w.now + second)
		}
	}
}

// heal ends all faults.
func (w *world) heal() {
	w.tell("all faults end")
	w.isQuiet, w.engine.isQuiet, w.engine.rots = true, true, nil
	w.engine.awayUntil, w.engine.fullUntil, w.engine.electsUntil = 0, 0, 0
	for _, it := range w.engine.nodes {
		it.lag, it.stale = 0, 0
	}
	for _, it := range w.machines {
		it.isCut = 0
		if it.ahead != 0 {
			it.ahead = 0
			it.crash(second)
		}
	}
}

// finish judges the run, and ends it.
func (w *world) finish() {
	w.isOver = true
	for _, it := range w.machines {
		w.see(it.isUp && it.core != nil && it.core.IsServing(), "%s does not serve: %v", it.name, last(it.ends))
		if it.isUp && it.core != nil {
			w.see(it.core.Held() == 0, "%s keeps %d things of requests", it.name, it.core.Held())
			w.see(len(it.clients) == 0, "%s has not answered %d requests", it.name, len(it.clients))
			for name := range it.core.Rotten() {
				w.see(w.engine.isRotten(name), "%s calls node %s rotten, which is not", it.name, name)
			}
		}
	}
	w.judge()
}

func last(lines []string) string {
	if len(lines) == 0 {
		return ""
	}
	return lines[len(lines)-1]
}

// Run runs a seed, and returns what was wrong.
func Run(seed int64, options Options) []string {
	w := newWorld(seed, options, nil)
	w.run()
	return w.wrong
}
