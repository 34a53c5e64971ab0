// Package agreedtest tests engines of an agreed log: each of them passes the same cases.
package agreedtest

import (
	"bytes"
	"context"
	"errors"
	"fmt"
	"runtime"
	"sort"
	"strings"
	"sync"
	"testing"
	"time"

	"telovamish.org/server/internal/agreed"
)

// Wait is how long a test waits for what is to come.
const Wait = 5 * time.Minute

// Start makes a new log, and returns what opens it once more each time.
type Start func(t *testing.T) (open func() agreed.Log)

// TestLog runs all cases over an engine.
func TestLog(t *testing.T, start Start) {
	for name, test := range map[string]func(*testing.T, func() agreed.Log){
		"Head is made once":                testHead,
		"ChangeHead only changes its own":  testChangeHead,
		"Clock is right, if there is one":  testClock,
		"Last is after all entries":        testLast,
		"Append once by a name":            testAppend,
		"Append by many writers at once":   testManyWriters,
		"Append any length":                testLengths,
		"Read from each place":             testReadFrom,
		"Read goes on":                     testReadOn,
		"Read an own entry once":           testReadOwn,
		"Read returns what take returned":  testReadTake,
		"Read ends with its context":       testReadEnd,
		"Read what was trimmed":            testReadTrimmed,
		"LookElsewhere loses nothing":      testLookElsewhere,
		"Nodes are all, the read one last": testNodes,
		"Seen is what each node has":       testSeen,
		"Seen returns what take returned":  testSeenTake,
		"Report and Forget":                testReports,
		"Report comes to readers":          testReadReports,
		"Trim removes up to a place":       testTrim,
		"Trim twice":                       testTrimTwice,
		"Renew changes nothing":            testRenew,
		"Full is empty":                    testFull,
		"Close ends calls":                 testClose,
		"Each call ends with its context":  testContext,
	} {
		t.Run(name, func(t *testing.T) {
			NoLeak(t)
			test(t, start(t))
		})
	}
}

// NoLeak has a test fail if a goroutine of the packages below internal/agreed, or of gRPC, is left after
// it.
func NoLeak(t *testing.T) {
	before := goroutines()
	t.Cleanup(func() {
		until := time.Now().Add(Wait)
		for {
			left := goroutines()
			for it := range before {
				delete(left, it)
			}
			if len(left) == 0 {
				return
			}
			if time.Now().After(until) {
				for _, stack := range left {
					t.Errorf("a goroutine is left:\n%s", stack)
				}
				return
			}
			time.Sleep(10 * time.Millisecond)
		}
	})
}

// goroutines are the stacks of these packages, by the numbers of their goroutines.
func goroutines() map[string]string {
	data := make([]byte, 1<<22)
	found := map[string]string{}
	for _, stack := range strings.Split(string(data[:runtime.Stack(data, true)]), "\n\n") {
		number, rest, _ := strings.Cut(stack, " [")
		isOurs := strings.Contains(rest, "internal/agreed/") || strings.Contains(rest, "google.golang.org/grpc")
		if isOurs && !strings.Contains(rest, "agreedtest.goroutines") && !strings.Contains(rest, "testing.tRunner") {
			found[number] = stack
		}
	}
	return found
}

func within(t *testing.T) context.Context {
	ctx, cancel := context.WithTimeout(context.Background(), Wait)
	t.Cleanup(cancel)
	return ctx
}

func opened(t *testing.T, open func() agreed.Log) agreed.Log {
	t.Helper()
	it := open()
	t.Cleanup(func() { it.Close() })
	return it
}

func headed(t *testing.T, open func() agreed.Log) (context.Context, agreed.Log) {
	t.Helper()
	ctx, it := within(t), opened(t, open)
	if _, err := it.Head(ctx, []byte("head")); err != nil {
		t.Fatal(err)
	}
	return ctx, it
}

var a, b = bytes.Repeat([]byte("a"), 16), bytes.Repeat([]byte("b"), 16)

// entry is the bytes of an entry, as engines know them by their beginning.
func entry(number int) []byte { return []byte(fmt.Sprintf("TBENTRY2 %d", number)) }

func appended(ctx context.Context, t *testing.T, log agreed.Log, writer []byte, number int) agreed.Place {
	t.Helper()
	place, err := log.Append(ctx, writer, uint64(number), entry(number))
	if err != nil {
		t.Fatal(err)
	}
	return place
}

// filled appends entries from 1 on, and returns their places.
func filled(ctx context.Context, t *testing.T, log agreed.Log, count int) []agreed.Place {
	t.Helper()
	places := []agreed.Place{}
	for number := 1; number <= count; number++ {
		places = append(places, appended(ctx, t, log, a, number))
	}
	return places
}

var errEnough = errors.New("it is enough")

// read is the first entries after a place.
func read(ctx context.Context, t *testing.T, log agreed.Log, after agreed.Place, count int) []agreed.Item {
	t.Helper()
	found := []agreed.Item{}
	if count == 0 {
		return found
	}
	err := log.Read(ctx, after, func(it agreed.Item) error {
		if it.Report != "" {
			return nil
		}
		if found = append(found, it); len(found) == count {
			return errEnough
		}
		return nil
	})
	if err != errEnough {
		t.Fatalf("%v after %d of %d entries", err, len(found), count)
	}
	return found
}

func same(t *testing.T, what string, got, want any) {
	t.Helper()
	if fmt.Sprint(got) != fmt.Sprint(want) {
		t.Errorf("%s: got %v, want %v", what, got, want)
	}
}

func testHead(t *testing.T, open func() agreed.Log) {
	ctx, first, second := within(t), opened(t, open), opened(t, open)
	// a log in PostgreSQL has its tables only after a head was wanted
	got, err := first.Head(ctx, []byte("first"))
	same(t, "the first", []any{string(got), err}, []any{"first", nil})
	got, err = second.Head(ctx, []byte("second"))
	same(t, "the second", []any{string(got), err}, []any{"first", nil})
	got, err = second.Head(ctx, nil)
	same(t, "without a wish", []any{string(got), err}, []any{"first", nil})
}

func testChangeHead(t *testing.T, open func() agreed.Log) {
	ctx, log := headed(t, open)
	for _, c := range []struct{ before, after, want string }{
		{"other", "next", "head"},
		{"head", "next", "next"},
		{"head", "third", "next"},
	} {
		got, err := log.ChangeHead(ctx, []byte(c.before), []byte(c.after))
		same(t, c.before+" to "+c.after, []any{string(got), err}, []any{c.want, nil})
	}
	got, err := log.Head(ctx, []byte("head"))
	same(t, "the head", []any{string(got), err}, []any{"next", nil})
}

func testClock(t *testing.T, open func() agreed.Log) {
	ctx, log := headed(t, open)
	now, known, err := log.Clock(ctx)
	if err != nil {
		t.Fatal(err)
	}
	if far := time.Since(time.Unix(0, now)); known && (far > Wait || far < -Wait) {
		t.Errorf("the clock is %v behind", far)
	}
}

func testLast(t *testing.T, open func() agreed.Log) {
	ctx, log := headed(t, open)
	for number := 1; number <= 3; number++ {
		before, err := log.Last(ctx)
		if err != nil {
			t.Fatal(err)
		}
		place := appended(ctx, t, log, a, number)
		after, err := log.Last(ctx)
		if err != nil || !(before < place && place <= after) {
			t.Errorf("last %d, then an entry at %d, then last %d: %v", before, place, after, err)
		}
	}
}

func testAppend(t *testing.T, open func() agreed.Log) {
	ctx, log := headed(t, open)
	other := opened(t, open)
	places := filled(ctx, t, log, 3)
	for number := 1; number <= 3; number++ {
		same(t, "once more", appended(ctx, t, log, a, number), places[number-1])
		same(t, "elsewhere", appended(ctx, t, other, a, number), places[number-1])
	}
	by := appended(ctx, t, other, b, 1)
	if !(places[0] < places[1] && places[1] < places[2] && places[2] < by) {
		t.Errorf("the places do not grow: %v, %d", places, by)
	}
	found := read(ctx, t, log, 0, 4)
	for at, it := range found {
		same(t, "place", it.Place, append(places, by)[at])
		same(t, "data", string(it.Data), string(entry(at%3+1)))
	}
}

// testManyWriters has each writer append at the same time, by a log of its own and by one for all.
func testManyWriters(t *testing.T, open func() agreed.Log) {
	const writers, count = 4, 25
	ctx, shared := headed(t, open)
	var all sync.WaitGroup
	for at := 0; at < writers; at++ {
		log, writer := shared, bytes.Repeat([]byte{byte('a' + at)}, 16)
		if at%2 == 1 {
			log = opened(t, open)
		}
		all.Add(1)
		go func() {
			defer all.Done()
			for number := 1; number <= count; number++ {
				if _, err := log.Append(ctx, writer, uint64(number), append(entry(number), writer...)); err != nil {
					t.Error(err)
				}
			}
		}()
	}
	found := read(ctx, t, opened(t, open), 0, writers*count)
	all.Wait()
	last, next := agreed.Place(0), map[byte]int{}
	for _, it := range found {
		by := it.Data[len(it.Data)-1]
		next[by]++
		same(t, "data", string(it.Data[:len(it.Data)-16]), string(entry(next[by])))
		if it.Place <= last {
			t.Errorf("place %d comes after %d", it.Place, last)
		}
		last = it.Place
	}
}

func testLengths(t *testing.T, open func() agreed.Log) {
	ctx, log := headed(t, open)
	lengths := []int{8, 9, 200, 4095, 4096, 1<<20 + 200}
	for at, length := range lengths {
		data := append(entry(at), bytes.Repeat([]byte{byte(at), 0}, length)...)
		if _, err := log.Append(ctx, a, uint64(at+1), data[:length]); err != nil {
			t.Fatal(err)
		}
	}
	for at, it := range read(ctx, t, log, 0, len(lengths)) {
		data := append(entry(at), bytes.Repeat([]byte{byte(at), 0}, lengths[at])...)
		if !bytes.Equal(it.Data, data[:lengths[at]]) {
			t.Errorf("an entry of %d bytes has %d others", lengths[at], len(it.Data))
		}
	}
}

func testReadFrom(t *testing.T, open func() agreed.Log) {
	ctx, log := headed(t, open)
	places := filled(ctx, t, log, 5)
	for at := range append(places, 0) {
		after := agreed.Place(0)
		if at > 0 {
			after = places[at-1]
		}
		found := read(ctx, t, log, after, 5-at)
		for from, it := range found {
			same(t, fmt.Sprintf("after %d", after), it.Place, places[at+from])
		}
	}
}

func testReadOn(t *testing.T, open func() agreed.Log) {
	ctx, log := headed(t, open)
	reader := opened(t, open)
	came := make(chan agreed.Item)
	ended := make(chan error, 1)
	reading, end := context.WithCancel(ctx)
	defer end()
	go func() {
		ended <- reader.Read(reading, 0, func(it agreed.Item) error { came <- it; return nil })
	}()
	for number := 1; number <= 20; number++ {
		place := appended(ctx, t, log, a, number)
		it := agreed.Item{}
		select {
		case it = <-came:
		case <-ctx.Done():
			t.Fatalf("entry %d does not come", number)
		}
		same(t, "what came", []any{it.Place, string(it.Data)}, []any{place, string(entry(number))})
	}
	end()
	same(t, "its end", <-ended, context.Canceled)
}

// testReadOwn appends over the log that is read, also two entries at a time.
func testReadOwn(t *testing.T, open func() agreed.Log) {
	const count = 60
	ctx, log := headed(t, open)
	other := opened(t, open)
	found := make(chan []agreed.Item)
	go func() { found <- read(ctx, t, log, 0, 2*count) }()
	var all sync.WaitGroup
	for at, by := range [][]byte{a, b} {
		by, to := by, []agreed.Log{log, other}[at]
		all.Add(1)
		go func() {
			defer all.Done()
			for number := 1; number <= count; number++ {
				if _, err := to.Append(ctx, by, uint64(number), append(entry(number), by...)); err != nil {
					t.Error(err)
				}
			}
		}()
	}
	all.Wait()
	last, next := agreed.Place(0), map[byte]int{}
	for _, it := range <-found {
		by := it.Data[len(it.Data)-1]
		next[by]++
		same(t, "data", string(it.Data[:len(it.Data)-16]), string(entry(next[by])))
		if it.Place <= last {
			t.Errorf("place %d comes after %d", it.Place, last)
		}
		last = it.Place
	}
}

func testReadTake(t *testing.T, open func() agreed.Log) {
	ctx, log := headed(t, open)
	places := filled(ctx, t, log, 3)
	for count := 1; count <= 3; count++ {
		same(t, "the last one", read(ctx, t, log, 0, count)[count-1].Place, places[count-1])
	}
}

func testReadEnd(t *testing.T, open func() agreed.Log) {
	ctx, log := headed(t, open)
	appended(ctx, t, log, a, 1)
	reading, end := context.WithCancel(ctx)
	err := log.Read(reading, 0, func(agreed.Item) error { end(); return nil })
	same(t, "the end", err, context.Canceled)
	reading, end = context.WithTimeout(ctx, 50*time.Millisecond)
	defer end()
	err = log.Read(reading, 0, func(agreed.Item) error { return nil })
	same(t, "the end", err, context.DeadlineExceeded)
}

func testReadTrimmed(t *testing.T, open func() agreed.Log) {
	ctx, log := headed(t, open)
	places := filled(ctx, t, log, 5)
	if _, err := log.Trim(ctx, 3, places[2]); err != nil {
		t.Fatal(err)
	}
	for at := 0; at < 3; at++ {
		after := places[at] - 1
		err := log.Read(ctx, after, func(it agreed.Item) error { return fmt.Errorf("place %d comes", it.Place) })
		if !errors.Is(err, agreed.ErrGone) {
			t.Errorf("after %d: %v", after, err)
		}
	}
	for at, it := range read(ctx, t, log, places[2], 2) {
		same(t, "what is left", it.Place, places[3+at])
	}
}

func testLookElsewhere(t *testing.T, open func() agreed.Log) {
	const count = 30
	ctx, log := headed(t, open)
	found := make(chan []agreed.Item)
	go func() { found <- read(ctx, t, log, 0, count) }()
	places := []agreed.Place{}
	for number := 1; number <= count; number++ {
		places = append(places, appended(ctx, t, log, a, number))
		if number%5 == 0 {
			log.LookElsewhere()
		}
	}
	for at, it := range <-found {
		same(t, "place", it.Place, places[at])
	}
}

func testNodes(t *testing.T, open func() agreed.Log) {
	ctx, log := headed(t, open)
	appended(ctx, t, log, a, 1)
	node := read(ctx, t, log, 0, 1)[0].Node
	nodes := log.Nodes()
	same(t, "the one that is read from", nodes[len(nodes)-1], node)
	sorted := append([]string(nil), nodes...)
	sort.Strings(sorted)
	for range nodes {
		log.LookElsewhere()
		read(ctx, t, log, 0, 1)
		again := log.Nodes()
		sort.Strings(again)
		same(t, "all", again, sorted)
	}
}

func testSeen(t *testing.T, open func() agreed.Log) {
	ctx, log := headed(t, open)
	places := filled(ctx, t, log, 5)
	if err := log.Report(ctx, "r0", []byte("{}")); err != nil {
		t.Fatal(err)
	}
	for _, node := range log.Nodes() {
		for _, after := range []int{0, 1, 4, 5} {
			at, from := after, agreed.Place(0)
			if after > 0 {
				from = places[after-1]
			}
			// a standby may get an entry after it is acknowledged
			for until := time.Now().Add(Wait); ; {
				at = after
				err := log.Seen(ctx, node, from, func(it agreed.Item) error {
					same(t, node, []any{it.Place, it.Node, it.Report}, []any{places[at], node, ""})
					at++
					return nil
				})
				if err != nil {
					t.Error(err)
				}
				if at == 5 || time.Now().After(until) {
					break
				}
			}
			same(t, "the last one of "+node, at, 5)
		}
	}
}

func testSeenTake(t *testing.T, open func() agreed.Log) {
	ctx, log := headed(t, open)
	filled(ctx, t, log, 3)
	nodes, count := log.Nodes(), 0
	for until := time.Now().Add(Wait); count == 0 && time.Now().Before(until); {
		err := log.Seen(ctx, nodes[len(nodes)-1], 0, func(agreed.Item) error { count++; return errEnough })
		if count > 0 {
			same(t, "what it returns", err, errEnough)
		}
	}
	same(t, "calls", count, 1)
}

func testReports(t *testing.T, open func() agreed.Log) {
	ctx, log := headed(t, open)
	other := opened(t, open)
	for name, data := range map[string]string{"r0": "0", "r1": "1", "é/x": ""} {
		if err := log.Report(ctx, name, []byte(data)); err != nil {
			t.Fatal(err)
		}
	}
	if err := other.Report(ctx, "r1", []byte("2")); err != nil {
		t.Fatal(err)
	}
	found, err := log.Reports(ctx)
	same(t, "reports", []any{found, err}, []any{map[string][]byte{"r0": []byte("0"), "r1": []byte("2"), "é/x": {}}, nil})
	for _, name := range []string{"r1", "nobody"} {
		if err := other.Forget(ctx, name); err != nil {
			t.Fatal(err)
		}
	}
	found, err = log.Reports(ctx)
	same(t, "reports", []any{found, err}, []any{map[string][]byte{"r0": []byte("0"), "é/x": {}}, nil})
}

// testReadReports has a reader get what others report from then on, and its own.
func testReadReports(t *testing.T, open func() agreed.Log) {
	ctx, log := headed(t, open)
	reader := opened(t, open)
	reading, end := context.WithCancel(ctx)
	defer end()
	came, ended := make(chan string, 1000), make(chan error, 1)
	go func() {
		ended <- reader.Read(reading, 0, func(it agreed.Item) error {
			came <- fmt.Sprintf("%s%s", it.Report, it.Data)
			return nil
		})
	}()
	for at := 0; len(came) == 0; at++ { // what was reported before it reads may not come
		report(ctx, t, log, fmt.Sprint("before", at))
		agreed.Pause(ctx, 100*time.Millisecond)
	}
	for at, to := range []agreed.Log{log, reader, log} {
		data := fmt.Sprint(at)
		report(ctx, t, to, data)
		for {
			select {
			case it := <-came:
				if strings.HasPrefix(it, "rbefore") {
					continue
				}
				same(t, "what came", it, "r"+data)
			case <-ctx.Done():
				t.Fatalf("%s does not come", data)
			}
			break
		}
	}
	end()
	same(t, "its end", <-ended, context.Canceled)
}

func report(ctx context.Context, t *testing.T, log agreed.Log, data string) {
	t.Helper()
	if err := log.Report(ctx, "r", []byte(data)); err != nil {
		t.Fatal(err)
	}
}

func testTrim(t *testing.T, open func() agreed.Log) {
	ctx, log := headed(t, open)
	position, place, err := log.Trimmed(ctx)
	same(t, "before", []any{position, place, err}, []any{0, 0, nil})
	places := filled(ctx, t, log, 5)
	is, err := log.HasRemoved(ctx, places[2])
	same(t, "before", []any{is, err}, []any{false, nil})
	said, err := log.Trim(ctx, 3, places[2])
	if err != nil || len(said) == 0 {
		t.Fatal(said, err)
	}
	position, place, err = log.Trimmed(ctx)
	same(t, "after", []any{uint64(place) - position, place, err}, []any{uint64(places[2]) - position, places[2], nil})
	is, err = log.HasRemoved(ctx, places[2])
	same(t, "after", []any{is, err}, []any{true, nil})
	is, err = log.HasRemoved(ctx, places[3])
	same(t, "beyond it", []any{is, err}, []any{false, nil})
	last, err := log.Last(ctx)
	if err != nil || last < places[4] {
		t.Errorf("the last place is %d: %v", last, err)
	}
	if next := appended(ctx, t, log, a, 6); next <= places[4] {
		t.Errorf("the next entry is at %d", next)
	}
}

func testTrimTwice(t *testing.T, open func() agreed.Log) {
	ctx, log := headed(t, open)
	places := filled(ctx, t, log, 5)
	for _, count := range []int{2, 2, 4} {
		if _, err := log.Trim(ctx, uint64(count), places[count-1]); err != nil {
			t.Fatal(err)
		}
		is, err := log.HasRemoved(ctx, places[count-1])
		same(t, "after", []any{is, err}, []any{true, nil})
	}
	same(t, "what is left", read(ctx, t, log, places[3], 1)[0].Place, places[4])
}

func testRenew(t *testing.T, open func() agreed.Log) {
	ctx, log := headed(t, open)
	if err := log.Renew(); err != nil {
		t.Fatal(err)
	}
	same(t, "a read", read(ctx, t, log, appended(ctx, t, log, a, 1)-1, 1)[0].Data, entry(1))
}

func testFull(t *testing.T, open func() agreed.Log) {
	ctx, log := headed(t, open)
	why, err := log.Full(ctx)
	same(t, "why", []any{why, err}, []any{"", nil})
}

func testClose(t *testing.T, open func() agreed.Log) {
	ctx, log := headed(t, open)
	appended(ctx, t, log, a, 1)
	ended := make(chan error, 1)
	came := make(chan struct{}, 1)
	go func() {
		ended <- log.Read(ctx, 0, func(agreed.Item) error { came <- struct{}{}; return nil })
	}()
	<-came
	for i := 0; i < 2; i++ {
		if err := log.Close(); err != nil {
			t.Error(err)
		}
	}
	if err := <-ended; !errors.Is(err, agreed.ErrNoLog) {
		t.Errorf("a read ended with %v", err)
	}
	if _, err := log.Append(ctx, a, 2, entry(2)); !errors.Is(err, agreed.ErrNoLog) {
		t.Errorf("an append ended with %v", err)
	}
}

func testContext(t *testing.T, open func() agreed.Log) {
	ctx, log := headed(t, open)
	over, end := context.WithCancel(ctx)
	end()
	for name, call := range map[string]func() error{
		"Head":       func() error { _, err := log.Head(over, []byte("x")); return err },
		"ChangeHead": func() error { _, err := log.ChangeHead(over, []byte("head"), []byte("x")); return err },
		"Last":       func() error { _, err := log.Last(over); return err },
		"Append":     func() error { _, err := log.Append(over, a, 1, entry(1)); return err },
		"Report":     func() error { return log.Report(over, "r0", nil) },
		"Reports":    func() error { _, err := log.Reports(over); return err },
		"Forget":     func() error { return log.Forget(over, "r0") },
		"Trimmed":    func() error { _, _, err := log.Trimmed(over); return err },
		"Trim":       func() error { _, err := log.Trim(over, 1, 1); return err },
		"HasRemoved": func() error { _, err := log.HasRemoved(over, 1); return err },
	} {
		t.Run(name, func(t *testing.T) {
			if err := call(); !errors.Is(err, agreed.ErrNoLog) {
				t.Errorf("got %v", err)
			}
		})
	}
	same(t, "a call after that", appended(ctx, t, log, a, 2) > 0, true)
}
