package simulator

import (
	"fmt"
	"runtime/debug"
	"strings"
	"sync"
	"sync/atomic"
)

// garbage is how much more than what is used may be there before it is collected: a run leaves little.
const garbage = 1000 // per cent

// RunMany runs seeds by some goroutines, and returns how many failed. Each that fails is passed on, in the
// order in which they end; no more are run after one for which that returns true.
func RunMany(first, count int64, jobs int, options Options, failed func(seed int64) bool) int64 {
	var (
		next    = first - 1
		wrong   int64
		mu      sync.Mutex
		working sync.WaitGroup
		isOver  int32
	)
	defer debug.SetGCPercent(debug.SetGCPercent(garbage))
	for ; jobs > 0; jobs-- {
		working.Add(1)
		go func() {
			defer working.Done()
			for atomic.LoadInt32(&isOver) == 0 {
				seed := atomic.AddInt64(&next, 1)
				if seed >= first+count {
					return
				}
				if len(Run(seed, options)) == 0 {
					continue
				}
				mu.Lock()
				wrong++
				if failed(seed) {
					atomic.StoreInt32(&isOver, 1)
				}
				mu.Unlock()
			}
		}()
	}
	working.Wait()
	return wrong
}

// triesMax is how many shorter plans are tried.
const triesMax = 300

// runPlan runs a seed by another plan than it draws.
func runPlan(seed int64, options Options, it plan, story *strings.Builder) []string {
	w := newWorld(seed, options, story)
	w.plan = it
	w.run()
	return w.wrong
}

// shorten is the least plan that was found with which a seed fails: with no fault, call or client that is
// not needed.
func shorten(seed int64, options Options) plan {
	it := newWorld(seed, options, nil).plan
	tries := triesMax
	fails := func(it plan) bool {
		tries--
		return tries >= 0 && len(runPlan(seed, options, it, nil)) > 0
	}
	for isShorter := true; isShorter; {
		isShorter = false
		for _, shorter := range it.shorter() {
			if fails(shorter) {
				it, isShorter = shorter, true
				break
			}
		}
	}
	return it
}

// shorter are plans that have a little less, those with much less first.
func (p plan) shorter() []plan {
	var found []plan
	if p.strangers > 0 {
		found = append(found, plan{p.calls, 0, p.faults})
	}
	for at := range p.faults {
		found = append(found, plan{p.calls, p.strangers, without(p.faults, at)})
	}
	for at := range p.calls {
		if len(p.calls) > 1 {
			found = append(found, plan{without(p.calls, at), p.strangers, p.faults})
		}
	}
	for at, count := range p.calls {
		for _, fewer := range []int{count / 2, count - 1} {
			if fewer > 0 {
				calls := append([]int{}, p.calls...)
				calls[at] = fewer
				found = append(found, plan{calls, p.strangers, p.faults})
			}
		}
	}
	return found
}

func without[T any](list []T, at int) []T {
	return append(append([]T{}, list[:at]...), list[at+1:]...)
}

// Explain tells the story of a seed that fails, after it was shortened.
func Explain(seed int64, options Options) string {
	it := shorten(seed, options)
	var story strings.Builder
	wrong := runPlan(seed, options, it, &story)
	var faults []string
	for _, it := range it.faults {
		faults = append(faults, it.String())
	}
	return fmt.Sprintf("seed %d fails with the calls %v of its clients and the faults [%s]: %s\n%s", seed,
		it.calls, strings.Join(faults, "; "), strings.Join(wrong, "; "), story.String())
}
