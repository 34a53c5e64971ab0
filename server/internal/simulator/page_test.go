package simulator

import (
	"os"
	"regexp"
	"strconv"
	"strings"
	"testing"

	"telovamish.org/server/internal/entries"
	"telovamish.org/server/internal/faults"
)

// scenario is a run in which a machine ends by a fault of the table in docs/use/CLUSTER.md.
type scenario struct {
	faults  []aFault
	prepare func(w *world)        // what else goes wrong
	server  func(most int) Server // of the first process
}

// at is a fault at a time, in seconds.
func at(seconds int64, kind faultKind) aFault {
	return aFault{at: seconds * second, kind: kind, size: 1000, coin: true}
}

// foreign has somebody put bytes into the log that are no entry.
func foreign(w *world) {
	w.after(5*second, func() { w.engine.append(entryName{number: 1}, []byte("hello")) })
}

// otherRules has the log be one of 99 clients.
func otherRules(w *world) {
	w.engine.head = entries.Head{ClientsMax: 99, Profile: 1, ID: "m1"}.Bytes()
}

// byPage are the scenarios of the page's rows. One that only faults cause has nothing wrong: what the page
// has an operator do is done, and all goes on.
var byPage = map[faults.Name]scenario{
	faults.NoLog:      {faults: []aFault{at(2, engineAway), at(3, crashes), at(9, serverDies)}}, // faults end after the last one
	faults.Trimmed:    {faults: []aFault{at(15, logTrimmed), at(17, diskLost)}},
	faults.Diverged:   {server: func(most int) Server { return &silent{NewLedger(most), 0} }},
	faults.OtherRules: {prepare: otherRules},
	faults.Damaged:    {faults: []aFault{at(4, diskRots), {at: 5 * second, kind: crashes, who: -1}}},
	faults.BadEntry:   {prepare: foreign},
	faults.LogFull:    {faults: []aFault{at(0, engineFull)}},
	faults.Ahead:      {faults: []aFault{at(2, clockStarts), at(130, serverDies)}}, // it may be set right for 120 s
	faults.Rotten:     {faults: []aFault{at(2, nodeLoses), at(4, crashes)}},
}

// run runs a seed, and returns the lines of the machines that ended, and what was wrong.
func (s scenario) run(seed int64) (ends, wrong []string) {
	count := 0
	w := newWorld(seed, Options{NewServer: func(most int) Server {
		if count++; count == 1 && s.server != nil {
			return s.server(most)
		}
		return NewLedger(most)
	}}, nil)
	w.plan.faults = append([]aFault{}, s.faults...)
	for at, it := range w.plan.faults {
		if it.who < 0 {
			w.plan.faults[at].who = len(w.machines) - 1
		}
	}
	if s.prepare != nil {
		s.prepare(w)
	}
	w.run()
	for _, it := range w.machines {
		ends = append(ends, it.ends...)
	}
	return ends, w.wrong
}

// TestFaultsOfThePage has machines end by each fault that the page has, and by its status.
func TestFaultsOfThePage(t *testing.T) {
	page, err := os.ReadFile("../../../docs/use/CLUSTER.md")
	if err != nil {
		t.Fatal(err)
	}
	rows := regexp.MustCompile(`(?m)^\| (2\d) \| (\w+) \|`).FindAllStringSubmatch(string(page), -1)
	if len(rows) != len(byPage) {
		t.Errorf("the page has %d faults", len(rows))
	}
	for _, row := range rows {
		t.Run(row[2], func(t *testing.T) {
			name := faults.Name(row[2])
			it, ok := byPage[name]
			if !ok || strconv.Itoa(name.Status()) != row[1] {
				t.Fatalf("the page has status %s", row[1])
			}
			count := 0
			for seed := int64(0); seed < 20; seed++ {
				ends, wrong := it.run(seed)
				if it.faults != nil && len(wrong) > 0 {
					t.Errorf("seed %d: %v", seed, wrong)
				}
				count += strings.Count(strings.Join(ends, "\n")+"\n", row[2]+": ")
			}
			if count == 0 {
				t.Error("no machine ends by it")
			}
			t.Logf("%d machines ended by it", count)
		})
	}
}
