//go:build planted

package simulator

import (
	"flag"
	"strings"
	"testing"

	"telovamish.org/server/internal/replica"
)

var (
	within  = flag.Int64("within", 100_000, "the seeds within which a planted bug is found")
	stories = flag.Bool("stories", false, "tell the story of the seed that finds a bug")
)

// planted are wrong cores, each with what is wrong, the first seed that finds it, and how it is judged there.
var planted = map[string]struct {
	bug    replica.Bug
	seed   int64
	judged string
}{
	"an append is tried again under a new name":               {replica.RenamesARetry, 1, "another replica has the name"},
	"a reply goes to another pair of its entry":               {replica.AnswersThePairBefore, 2, "got a reply to another request"},
	"a place is never freed":                                  {replica.KeepsAPlace, 0, "things of requests"},
	"an entry that is there twice is taken twice":             {replica.TakesTwice, 35, "takes what the log does not have"},
	"a request is told done before the log has it":            {replica.AnswersBeforeTheLog, 1, "takes what the log does not have"},
	"what is answered before the log has it breaks the order": {replica.AnswersBeforeTheLog, 35, "had returned"},
	"an entry that a disk has changed is taken":               {replica.TakesAChangedEntry, 10, "takes what the log does not have"},
	"what waits stays when a replica ends":                    {replica.ForgetsAtTheEnd, 49, "got no answer"},
	"a replica alone goes by its own clock":                   {replica.GoesByItsOwnClock, 70, "a moment that is far ahead"},
	"an own entry is taken while one before it is read again": {replica.TakesAmidReading, 41, "takes what the log does not have"},
	"an entry is passed over when it was read late":           {replica.TakesLate, 0, "takes what the log does not have"},
	"moments follow a clock that is set ahead":                {replica.TrustsAJump, 1, "a moment that is far ahead"},
	"what an ended reading brings is taken":                   {replica.KeepsAnOldReader, 0, "has no reply"},
	"a number that is missing is no fault":                    {replica.SkipsAGap, 123, "which has the right one"},
	"what writers had is not compared":                        {replica.ComparesNothing, 49, "which has the right one"},
	"what the server had no room for is not given later":      {replica.FeedsNothingLate, 0, "does not serve"},
	"requests are told of an end that is none":                {replica.AnswersWhenTheServerIsLost, 10, "goes on, and tells a client of its end"},
	"a log that begins after the copy is read":                {replica.ReadsATrimmedLog, 1656, "more of the log than there is"},
	"a clock that is ahead of others is no fault":             {replica.GoesByAnAheadClock, 71, "a moment that is far ahead"},
	"no clock is sent to who asks":                            {replica.AnswersNoHello, 0, "has no reply"},
	"nodes are asked for entries that were trimmed":           {replica.SurveysWhatWasTrimmed, 3816, "things of requests"},
	"a restarted server is fed from where the old one ended":  {replica.FeedsFromTheEnd, 0, "gave its server entry"},
	"a request that was cancelled is answered":                {replica.KeepsTheCancelled, 1, "or one that was cancelled"},
	"an entry is not read elsewhere":                          {replica.LooksNowhereElse, 0, "fits at none of"},
}

func TestPlantedBugsOfChosenSeeds(t *testing.T) {
	defer func() { replica.Planted = replica.NoBug }()
	for name, row := range planted {
		replica.Planted = row.bug
		wrong := strings.Join(Run(row.seed, Options{}), "; ")
		replica.Planted = replica.NoBug
		if right := Run(row.seed, Options{}); !strings.Contains(wrong, row.judged) || len(right) > 0 {
			t.Errorf("%s: seed %d has %q with it, and %q without", name, row.seed, wrong, right)
		}
	}
}

func TestPlantedBugsAreFound(t *testing.T) {
	for name, row := range planted {
		t.Run(name, func(t *testing.T) { find(t, row.bug, Options{}) })
	}
}

func TestPlantedBugsOfMachinesAreFound(t *testing.T) {
	t.Run("a copy is cut one entry short", func(t *testing.T) { find(t, replica.NoBug, Options{Bug: CutsTheCopyShort}) })
}

// find looks for a seed that fails with a bug, again and again, and not without it.
func find(t *testing.T, bug replica.Bug, options Options) {
	defer func() { replica.Planted = replica.NoBug }()
	for next := int64(0); next < *within; next++ {
		found := int64(-1)
		replica.Planted = bug
		RunMany(next, *within-next, 2, options, func(seed int64) bool {
			if found < 0 || seed < found {
				found = seed
			}
			return true
		})
		if found < 0 {
			break
		}
		again := Run(found, options)
		story := ""
		if *stories {
			story = Explain(found, options)
		}
		replica.Planted = replica.NoBug
		if right := Run(found, Options{}); len(again) > 0 && len(right) == 0 {
			t.Logf("seed %d: %.150s%s", found, again[0], story)
			return
		}
		next = found
	}
	t.Fatalf("%d seeds do not find it", *within)
}
