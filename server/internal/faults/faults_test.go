package faults

import (
	"bytes"
	"testing"
)

func TestQuoted(t *testing.T) {
	for name, c := range map[string]struct{ value, want string }{
		"no text":   {"\xff\x00", `b'\xff\x00'`},
		"empty":     {"", `b''`},
		"quotes":    {"it's", `b"it's"`},
		"both":      {`'"`, `b'\'"'`},
		"backslash": {`\`, `b'\\'`},
		"white":     {"\t\r\n", `b'\t\r\n'`},
	} {
		t.Run(name, func(t *testing.T) {
			if got := Quoted([]byte(c.value)); got != c.want {
				t.Errorf("got %s, want %s", got, c.want)
			}
		})
	}
	if got := Quoted(bytes.Repeat([]byte("x"), 100)); len(got) != shownMax+3 {
		t.Errorf("a long value has %d bytes", len(got))
	}
}

func TestStatuses(t *testing.T) {
	seen := map[int]Name{}
	for name, status := range statuses {
		if other, ok := seen[status]; ok || status < 20 {
			t.Errorf("%s has the status %d, as %s", name, status, other)
		}
		seen[status] = name
	}
	it := WrongTrimmed([]byte("\xff"))
	if it.Status != 25 || it.Line != `BadEntry: the log's `+"`trimmed`"+` has b'\xff'` {
		t.Errorf("got %d, %s", it.Status, it.Line)
	}
}
