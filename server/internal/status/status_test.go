package status

import (
	"bytes"
	"encoding/json"
	"net"
	"path/filepath"
	"strings"
	"testing"
	"time"

	"telovamish.org/server/internal/backend"
	"telovamish.org/server/internal/counts"
	"telovamish.org/server/internal/frames"
)

// fake is a backend that is ready or not, and knows its commits or not.
type fake struct {
	backend.Backend
	isServing, isKnown bool
}

func (f fake) IsServing() bool        { return f.isServing }
func (f fake) Commits() (int64, bool) { return 38, f.isKnown }
func (f fake) Lag() time.Duration     { return 1500 * time.Millisecond }

func numbersOf(of fake) *Numbers {
	it := &Numbers{Counts: counts.New(), Of: of}
	reply := make(frames.Header, frames.HeaderSize)
	reply[28] = 130
	it.Counts.Answered(reply, time.Millisecond)
	it.Counts.Taken.Store(5)
	it.Counts.Connections.Store(2)
	it.Counts.Closed("BadLength")
	return it
}

func TestALine(t *testing.T) {
	it := numbersOf(fake{isServing: true, isKnown: true})
	it.Counts.Begin()
	got := string(it.Line())
	want := `"connections": 2, "connections_taken": 5, "connections_closed_by_fault": {"BadLength": 1}, ` +
		`"requests": {"create_transfers": {"Reply": 1}}, "evictions": 0, "commits": 38, "syncs": 76, ` +
		`"file_bytes": null, "clock_lag_seconds": 1.5}` + "\n"
	if !strings.HasPrefix(got, `{"state": "ready", "seconds": 0.0, `) || !strings.HasSuffix(got, want) {
		t.Error(got)
	}
	if !json.Valid(it.Line()) {
		t.Error("is no JSON")
	}
}

func TestWhatIsNotKnown(t *testing.T) {
	got := string(numbersOf(fake{isServing: true}).Line())
	if !strings.HasPrefix(got, `{"state": "starting", `) || !strings.Contains(got, `"commits": null, "syncs": null,`) {
		t.Error(got)
	}
}

// serving is a status socket that writes a line.
func serving(t *testing.T, numbers *Numbers) string {
	t.Helper()
	path := filepath.Join(t.TempDir(), "status")
	place, err := net.Listen("unix", path)
	if err != nil {
		t.Fatal(err)
	}
	t.Cleanup(func() { place.Close() })
	go Serve(place, numbers)
	return path
}

func TestTheCommand(t *testing.T) {
	ready := numbersOf(fake{isServing: true, isKnown: true})
	ready.Counts.Begin()
	for _, row := range []struct {
		numbers *Numbers
		status  int
		word    string
	}{{ready, Ready, "ready"}, {numbersOf(fake{}), Starting, "starting"}} {
		path := serving(t, row.numbers)
		var page, faults bytes.Buffer
		if got := Command([]string{path}, &page, &faults); got != row.status || faults.Len() > 0 {
			t.Errorf("%d, %s", got, faults.String())
		}
		for _, line := range []string{"state        " + row.word + "\n", "requests     create_transfers: 1 Reply\n",
			"connections  2 now, 5 taken, 1 closed by BadLength\n", "clock        moments are 1.5 s behind it\n"} {
			if !strings.Contains(page.String(), line) {
				t.Errorf("%q is not in %q", line, page.String())
			}
		}
		page.Reset()
		if got := Command([]string{"--json", path}, &page, &faults); got != row.status || !json.Valid(page.Bytes()) {
			t.Errorf("%d, %s", got, page.String())
		}
	}
}

func TestWrongArguments(t *testing.T) {
	for _, arguments := range [][]string{{"a", "b"}, {"--again"}, {""}} {
		var page, faults bytes.Buffer
		if got := Command(arguments, &page, &faults); got != Unknown || !strings.Contains(faults.String(), "tb_listen: error: ") {
			t.Errorf("%q: %d, %s", arguments, got, faults.String())
		}
	}
	var page, faults bytes.Buffer
	none := filepath.Join(t.TempDir(), "none")
	want := "tb_listen: " + none + ": No such file or directory\n"
	if got := Command([]string{none}, &page, &faults); got != Unknown || faults.String() != want {
		t.Errorf("%d, %s", got, faults.String())
	}
	if Command([]string{"--help"}, &page, &faults) != Ready || !strings.HasPrefix(page.String(), "usage: tb-listen status") {
		t.Error(page.String())
	}
}

// FuzzParse reads any bytes as the line of a status socket: it is one that can be shown, or a fault.
func FuzzParse(f *testing.F) {
	it := numbersOf(fake{isServing: true, isKnown: true})
	f.Add(it.Line())
	f.Add([]byte(`{"state": "ready"}`))
	f.Add([]byte(`{"state": "well"}`))
	f.Add([]byte("[]\n"))
	f.Fuzz(func(t *testing.T, text []byte) {
		line, err := Parse(text)
		if err != nil {
			return
		}
		if shown := line.String(); !strings.HasPrefix(shown, "state        "+line.State+"\n") {
			t.Error(shown)
		}
	})
}

// overLog is a fake over an agreed log.
type overLog struct{ fake }

func (overLog) LogNumbers() backend.LogNumbers {
	return backend.LogNumbers{Position: 40, Answered: 39, First: 12, Ahead: 2 * time.Second, CopyPosition: 38,
		CopyBytes: 4096, Rotten: map[string]int{"m2:2379": 3, "m1:2379": 1}}
}

func TestALineOfAReplica(t *testing.T) {
	it := numbersOf(fake{isServing: true})
	it.Of = overLog{fake{isServing: true}}
	it.Counts.Begin()
	text := it.Line()
	want := `"clock_lag_seconds": 1.5, "log_position": 40, "log_answered": 39, "log_first": 12, ` +
		`"log_ahead_seconds": 2.0, "copy_position": 38, "copy_bytes": 4096, ` +
		`"rotten_entries": {"m1:2379": 1, "m2:2379": 3}}` + "\n"
	if !strings.HasSuffix(string(text), want) {
		t.Errorf("%s", text)
	}
	line, err := Parse(text)
	if err != nil {
		t.Fatal(err)
	}
	want = `log          position 40, answered up to 39, begins at 12, 2 s ahead of the clock
copy         position 38, 4096 bytes
rotten       m1:2379: 1 entries
rotten       m2:2379: 3 entries
`
	if got := line.String(); !strings.HasSuffix(got, want) {
		t.Errorf("%s", got)
	}
	if line, _ = Parse(numbersOf(fake{}).Line()); strings.Contains(line.String(), "copy") {
		t.Errorf("a listener has no copy: %s", line)
	}
}
