package moments

import (
	"fmt"
	"math/rand"
	"reflect"
	"strings"
	"testing"
	"time"

	"telovamish.org/server/internal/report"
)

// times are what the two clocks show, in seconds.
type times struct{ wall, running float64 }

// given are the moments, in seconds, while the clocks show these times; and the lines that are printed.
func given(last float64, clocks ...times) ([]float64, []string) {
	var lines []string
	log := report.NewTo("tb_listen", false, func(line []byte) { lines = append(lines, string(line)) }, time.Now)
	at := 0
	nanos := func(seconds float64) int64 { return int64(seconds * 1e9) }
	it := NewBy(nanos(last), log,
		func() int64 { return nanos(clocks[at].wall) }, func() int64 { return nanos(clocks[at].running) })
	var found []float64
	for at = 1; at < len(clocks); at++ {
		found = append(found, float64(it.Next())/1e9)
	}
	return found, lines
}

func TestMoments(t *testing.T) {
	for _, row := range []struct {
		name   string
		last   float64
		clocks []times
		want   []float64
		lines  int
	}{
		{"they are the clock", 0, []times{{100, 5}, {101, 6}, {102, 7}}, []float64{101, 102}, 0},
		{"a clock that does not move", 0, []times{{100, 5}, {100, 5}, {100, 5}}, []float64{100, 100}, 0},
		{"an hour without a request is no jump", 0, []times{{100, 5}, {3700, 3605}}, []float64{3700}, 0},
		{"a clock that is set back", 0, []times{{100, 5}, {50, 6}, {101, 56.5}}, []float64{100, 101}, 0},
		{"and then far ahead", 0, []times{{100, 5}, {50, 6}, {5000, 7}}, []float64{100, 102.002}, 1},
		{"and stays back", 0, []times{{100, 5}, {50, 6}, {51, 7}, {52, 8}}, []float64{100, 100, 100}, 0},
		{"far ahead, said once", 0, []times{{100, 5}, {9000, 15}, {9001, 16}}, []float64{110.01, 111.011}, 1},
		{"set far back, said once", 0, []times{{9000, 5}, {5400, 6}, {5401, 7}, {5402, 8}},
			[]float64{9000, 9000, 9000}, 1},
		{"and there again", 0, []times{{9000, 5}, {5400, 6}, {9001, 3607}, {5402, 3608}},
			[]float64{9000, 9001, 9001}, 2},
		{"and back again, said twice", 0, []times{{100, 5}, {9000, 6}, {102, 7}, {9000, 8}},
			[]float64{101.001, 102, 103.001}, 2},
		{"a running clock that goes back", 0, []times{{100, 5}, {101, 4}, {102, 3}}, []float64{100, 100}, 0},
		{"a ledger that lies ahead", 105, []times{{100, 5}, {101, 6}, {106, 11}, {111, 16}},
			[]float64{105, 106, 111}, 0},
	} {
		got, lines := given(row.last, row.clocks...)
		if !reflect.DeepEqual(got, row.want) || len(lines) != row.lines {
			t.Errorf("%s: %v, not %v; %q", row.name, got, row.want, lines)
		}
	}
}

func TestAClockThatRunsALittleFast(t *testing.T) {
	var clocks []times
	var want []float64
	for i := 0; i < 20; i++ {
		clocks = append(clocks, times{100 + float64(i)*1.0005, 5 + float64(i)})
		want = append(want, float64(int64(clocks[i].wall*1e9))/1e9)
	}
	if got, lines := given(0, clocks...); !reflect.DeepEqual(got, want[1:]) || len(lines) > 0 {
		t.Errorf("%v, not %v; %q", got, want[1:], lines)
	}
}

func TestLineOfAClockThatIsAhead(t *testing.T) {
	_, lines := given(0, times{100, 5}, times{9000, 15})
	want := "tb_listen: the clock is 8889 s ahead of where it should be, and requests get moments without " +
		"that: if it is right now, start tb_listen again\n"
	if strings.Join(lines, "") != want {
		t.Errorf("%q", lines)
	}
}

func TestLineOfAClockThatIsSetBack(t *testing.T) {
	_, lines := given(0, times{9000, 5}, times{5401, 6})
	want := "tb_listen: the clock is 3600 s behind where it should be, and the ledger's time stands still until " +
		"the clock is there: holds expire late; set the clock right\n"
	if strings.Join(lines, "") != want {
		t.Errorf("%q", lines)
	}
}

func TestAThousandMomentsNeverFall(t *testing.T) {
	random := rand.New(rand.NewSource(1))
	wall, running := 1e6, 5.0
	var clocks []times
	for i := 0; i < 1000; i++ {
		step := []float64{0, 0.001, 1, 100}[random.Intn(4)]
		running += step
		wall += step + []float64{0, 0, 0, -1000, 1000, 0.3, -0.3}[random.Intn(7)]
		clocks = append(clocks, times{wall, running})
	}
	found, _ := given(0, clocks...)
	for at := 1; at < len(found); at++ {
		gone := clocks[at+1].running - clocks[0].running
		if found[at] < found[at-1] || found[at]-found[0] > 1.001*gone+1e-3 {
			t.Fatal(fmt.Sprint(at, found[at-1], found[at]))
		}
	}
}

func TestLag(t *testing.T) {
	clocks := []times{{100, 5}, {9000, 15}, {51, 6}, {100.5, 6}}
	at := 0
	it := NewBy(0, nil, func() int64 { return int64(clocks[at].wall * 1e9) },
		func() int64 { return int64(clocks[at].running * 1e9) })
	for i, want := range []time.Duration{0, 8890 * time.Second, -50 * time.Second, 0} {
		if at = i; it.Lag() != want {
			t.Error(i, it.Lag())
		}
	}
}
