package report

import (
	"encoding/json"
	"errors"
	"os"
	"strings"
	"syscall"
	"testing"
	"time"
)

type lines []string

func (l *lines) write(line []byte) { *l = append(*l, string(line)) }

func TestLinesOfAKind(t *testing.T) {
	var said lines
	now := time.Unix(0, 0)
	it := NewTo("tb_listen", false, said.write, func() time.Time { return now })
	for i := 0; i < 500; i++ {
		it.SayOf("p", "a client was evicted", "evicted")
	}
	if len(said) != 10 || it.LeftOut() != 490 {
		t.Errorf("%d lines, %d left out", len(said), it.LeftOut())
	}
	if it.SayOf("p", "another line", ""); said[10] != "tb_listen: p: another line\n" {
		t.Error(said[10])
	}
	now = now.Add(time.Minute)
	it.SayOf("q", "a client was evicted", "evicted")
	if want := "tb_listen: q: a client was evicted (490 more were left out)\n"; said[11] != want {
		t.Error(said[11])
	}
	if it.LeftOut() != 0 {
		t.Error(it.LeftOut())
	}
}

// TestALongLineAsJSON has a line that is cut, and stays an object.
func TestALongLineAsJSON(t *testing.T) {
	for _, text := range []string{strings.Repeat("x", 9999), strings.Repeat("\U0001f600", 1999), strings.Repeat("\n", 5000)} {
		var said lines
		NewTo("tb_listen", true, said.write, time.Now).say(Warning, "somebody", text)
		var found object
		if err := json.Unmarshal([]byte(said[0]), &found); err != nil || len(said[0]) > lineMax {
			t.Fatal(err, len(said[0]))
		}
		if found.Text == "" || !strings.HasPrefix(text, found.Text) || found.Level != Warning || found.Peer != "somebody" {
			t.Error(found)
		}
	}
}

func TestALineAsJSON(t *testing.T) {
	var said lines
	at := time.Date(2026, 12, 1, 2, 3, 4, 5_000_000, time.UTC)
	NewTo("tb_listen", true, said.write, func() time.Time { return at }).Say(Info, "listens on %s", "x")
	want := `{"time":"2026-12-01T02:03:04.005+00:00","level":"info","program":"tb_listen","text":"listens on x"}` + "\n"
	if said[0] != want {
		t.Error(said[0])
	}
}

func TestALongLine(t *testing.T) {
	var said lines
	NewTo("p", false, said.write, time.Now).Say(Info, "%s", strings.Repeat("x", 5000))
	if len(said[0]) != textMax+1 {
		t.Error(len(said[0]))
	}
}

func TestQuoted(t *testing.T) {
	for text, want := range map[string]string{
		"":       "''",
		"a b":    "'a b'",
		"it's":   `"it's"`,
		`'"`:     `'\'"'`,
		"\u0663": "'\u0663'",
		"\n\x01": `'\n\x01'`,
		"\xff":   `'\xff'`,
		`a\b`:    `'a\\b'`,
	} {
		if got := Quoted(text); got != want {
			t.Errorf("%q: %s, not %s", text, got, want)
		}
	}
}

func TestWhy(t *testing.T) {
	_, err := os.Open("/no/such/file")
	for _, row := range []struct {
		err  error
		want string
	}{
		{err, "No such file or directory"},
		{syscall.EADDRINUSE, "Address already in use"},
		{syscall.EMFILE, "Too many open files"},
		{errors.New("what else"), "What else"},
	} {
		if got := Why(row.err); got != row.want {
			t.Errorf("%v: %q, not %q", row.err, got, row.want)
		}
	}
}
