package simulator

import (
	"flag"
	"reflect"
	"strings"
	"testing"
)

var (
	seeds = flag.Int64("seeds", seedsOfCI, "how many seeds are run")
	first = flag.Int64("first", 0, "the first of them")
)

func TestSeeds(t *testing.T) {
	failed := RunMany(*first, *seeds, 2, Options{}, func(seed int64) bool {
		t.Error(Explain(seed, Options{}))
		return true
	})
	if failed > 0 {
		t.Errorf("%d of %d seeds failed", failed, *seeds)
	}
}

// told is the story of a seed.
func told(seed int64) string {
	var story strings.Builder
	newPlan := newWorld(seed, Options{}, nil).plan
	runPlan(seed, Options{}, newPlan, &story)
	return story.String()
}

func TestASeedGivesItsRunAgain(t *testing.T) {
	for seed := int64(0); seed < 100; seed++ {
		if one, two := told(seed), told(seed); one != two {
			t.Fatalf("seed %d: %s\n\n%s", seed, one, two)
		}
	}
}

func TestEachFaultIsDrawn(t *testing.T) {
	var drawn [faultKinds]bool
	engines, machines := map[kind]bool{}, map[int]bool{}
	for seed := int64(0); seed < 300; seed++ {
		w := newWorld(seed, Options{}, nil)
		engines[w.engine.kind], machines[len(w.machines)] = true, true
		for _, it := range w.plan.faults {
			drawn[it.kind] = true
		}
	}
	for kind, isDrawn := range drawn {
		if !isDrawn {
			t.Errorf("never: %s", faultNames[kind])
		}
	}
	if len(engines) != 2 || !reflect.DeepEqual(machines, map[int]bool{3: true, 4: true, 5: true}) {
		t.Errorf("%v, %v", engines, machines)
	}
}

// silent is a server that forgets every tenth reply's commit.
type silent struct {
	*Ledger
	count int
}

func (s *silent) Entry(pairs []byte) [][]byte {
	replies := s.Ledger.Entry(pairs)
	for at := range replies {
		if s.count++; s.count%10 == 0 && len(replies[at]) > 48 {
			replies[at] = append([]byte{}, replies[at]...)
			replies[at][48]++
		}
	}
	return replies
}

// TestAnotherServerMayBeGiven has one machine's server reply wrongly.
func TestAnotherServerMayBeGiven(t *testing.T) {
	wrong := 0
	for seed := int64(0); seed < 20; seed++ {
		same := Options{NewServer: func(most int) Server { return NewLedger(most) }}
		if found := Run(seed, same); len(found) > 0 {
			t.Errorf("seed %d: %v", seed, found)
		}
		count := 0
		wrong += len(Run(seed, Options{NewServer: func(most int) Server {
			if count++; count == 1 {
				return &silent{NewLedger(most), 0}
			}
			return NewLedger(most)
		}}))
	}
	if wrong == 0 {
		t.Error("a server that replies wrongly is not found")
	}
}

func TestAStoryIsShort(t *testing.T) {
	options := Options{Bug: CutsTheCopyShort}
	for seed := int64(0); seed < 3000; seed++ {
		before := newWorld(seed, options, nil).plan
		if len(Run(seed, options)) == 0 {
			continue
		}
		after := shorten(seed, options)
		if len(after.faults) > len(before.faults) || len(runPlan(seed, options, after, nil)) == 0 {
			t.Errorf("%v, %v", before, after)
		}
		if text := Explain(seed, options); !strings.Contains(text, "WRONG: ") || !strings.Contains(text, "crashes") {
			t.Error(text)
		}
		return
	}
	t.Error("no seed finds it")
}
