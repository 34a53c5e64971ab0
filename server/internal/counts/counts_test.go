package counts

import (
	"os"
	"path/filepath"
	"reflect"
	"strings"
	"testing"
	"time"

	"telovamish.org/server/internal/frames"
)

func reply(operation, status byte) frames.Header {
	h := make(frames.Header, frames.HeaderSize)
	h[28], h[29] = operation, status
	return h
}

func TestCounts(t *testing.T) {
	c := New()
	for _, it := range []struct {
		operation, status byte
		took              time.Duration
	}{{2, 0, 400 * time.Microsecond}, {130, 0, time.Millisecond}, {130, 4, 6 * time.Second}, {130, 0, 3 * time.Millisecond}} {
		c.Answered(reply(it.operation, it.status), it.took)
	}
	want := []OfOperation{
		{"register", []Named{{"Reply", 1}}},
		{"create_transfers", []Named{{"Reply", 2}, {"Older", 1}}},
	}
	if got := c.Requests(); !reflect.DeepEqual(got, want) || c.AnsweredInAll() != 4 {
		t.Error(got)
	}
	latencies, total := c.Latencies()
	if want := []int64{1, 1, 0, 1, 0, 0, 0, 0, 0, 0, 0, 0, 0, 1}; !reflect.DeepEqual(latencies, want) {
		t.Error(latencies)
	}
	if total != 6004400*time.Microsecond {
		t.Error(total)
	}
	c.Closed("Slow")
	c.Closed("Busy")
	c.Closed("Slow")
	if want := []Named{{"Busy", 1}, {"Slow", 2}}; !reflect.DeepEqual(c.ClosedByFault(), want) {
		t.Error(c.ClosedByFault())
	}
}

func id(number uint64) frames.Client { return frames.Client{Low: number} }

// TestWhoIsEvictedAfterAReplyThatWasLost has a server that was killed before it replied to commit 3, which
// is sent again later.
func TestWhoIsEvictedAfterAReplyThatWasLost(t *testing.T) {
	it := NewEvictions(2)
	for _, step := range []struct {
		client     uint64
		isRegister bool
		commit     uint64
		evicts     uint64
	}{{11, true, 1, 0}, {12, true, 2, 0}, {12, false, 4, 0}, {11, false, 3, 0}, {13, true, 5, 11}, {13, true, 5, 0}} {
		got, ok := it.Learn(id(step.client), step.isRegister, step.commit)
		if ok != (step.evicts != 0) || got != id(step.evicts) {
			t.Errorf("%+v: %v, %v", step, got, ok)
		}
	}
	if _, ok := NewEvictions(0).Learn(id(1), true, 1); ok {
		t.Error("how many there are is not known")
	}
}

func TestClientsMax(t *testing.T) {
	for words, want := range map[string]int{
		"tbs run 64": 64, "tbs run 64 2": 64, "tbd run ledger 32": 32, "tbd run ledger 32 2 --existing": 32,
		"sh run tbd run ledger 5": 5, "true": 0, "tbs run": 0, "tbd run ledger": 0, "tbd run ledger x": 0,
	} {
		if got := ClientsMaxOf(strings.Fields(words)); got != want {
			t.Errorf("%s: %d, not %d", words, got, want)
		}
	}
}

func TestSizeOf(t *testing.T) {
	file := filepath.Join(t.TempDir(), "it")
	if _, ok := SizeOf(file); ok {
		t.Error("there is none")
	}
	if _, ok := SizeOf(""); ok {
		t.Error("there is none")
	}
	os.WriteFile(file, make([]byte, 7), 0o600)
	if size, ok := SizeOf(file); size != 7 || !ok {
		t.Error(size, ok)
	}
}

func TestCutCopies(t *testing.T) {
	folder := t.TempDir()
	for _, name := range []string{"it", "it.cut-8-0a", "it.cut-9-0b", "it.cut", "another.cut-8-0a"} {
		os.WriteFile(filepath.Join(folder, name), nil, 0o600)
	}
	if count, ok := CutCopies(filepath.Join(folder, "it")); count != 2 || !ok {
		t.Error(count, ok)
	}
	if _, ok := CutCopies(filepath.Join(folder, "none", "it")); ok {
		t.Error("there is no folder")
	}
	if _, ok := CutCopies(""); ok {
		t.Error("there is no file")
	}
	before, _ := os.Getwd()
	defer os.Chdir(before)
	os.Chdir(folder)
	if count, ok := CutCopies("it"); count != 2 || !ok {
		t.Error(count, ok)
	}
}
