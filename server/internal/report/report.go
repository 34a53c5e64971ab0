// Package report prints the lines of a host on standard error: as text, or as objects of JSON. A line
// that standard error does not take at once is lost, so that no client waits for it.
package report

import (
	"encoding/json"
	"fmt"
	"os"
	"strings"
	"sync"
	"syscall"
	"time"
	"unicode/utf8"
	"unsafe"
)

// Level is how serious a line is.
type Level string

// All levels.
const (
	Info    Level = "info"
	Warning Level = "warning"
	Error   Level = "error"
)

const (
	lineMax   = 4096        // bytes of a line: what a pipe that has room takes at once
	textMax   = lineMax / 4 // characters of a line that is no object
	repeats   = 10          // lines of a kind in a minute
	minute    = time.Minute
	kindsMax  = 4096 // kinds of lines that are counted
	peerShort = 99   // characters of a peer in a line that was too long
)

// Log prints the lines of a program.
type Log struct {
	program string
	isJSON  bool
	write   func(line []byte)
	now     func() time.Time

	mu   sync.Mutex
	said map[kind]count
}

// kind is what lines have in common that are counted together.
type kind struct {
	level Level
	text  string
}

// count is how often lines of a kind came since a time.
type count struct {
	since time.Time
	lines int
}

// New prints lines of a program on standard error.
func New(program string, isJSON bool) *Log {
	return NewTo(program, isJSON, writeAtOnce, time.Now)
}

// NewTo prints lines by a function, at the times of a clock.
func NewTo(program string, isJSON bool, write func([]byte), now func() time.Time) *Log {
	return &Log{program: program, isJSON: isJSON, write: write, now: now, said: map[kind]count{}}
}

// Program is the name that lines begin with.
func (l *Log) Program() string { return l.program }

// Say prints a line.
func (l *Log) Say(level Level, format string, values ...any) {
	l.say(level, "", fmt.Sprintf(format, values...))
}

func (l *Log) say(level Level, peer, text string) {
	if l.isJSON {
		l.write(append(l.object(level, peer, text), '\n'))
		return
	}
	line := l.program + ": "
	if peer != "" {
		line += peer + ": "
	}
	l.write([]byte(first(line+text, textMax) + "\n"))
}

// SayOf prints a line about a peer, ten times in a minute at most for lines of a kind: those of its
// text if no kind is given. The next one has the number of those that were left out.
func (l *Log) SayOf(peer, text, ofKind string) {
	key := kind{Warning, ofKind}
	if ofKind == "" {
		key.text = text
	}
	now, leftOut := l.now(), 0
	l.mu.Lock()
	of, ok := l.said[key]
	if !ok {
		of.since = now
	}
	if now.Sub(of.since) >= minute {
		if of.lines > repeats {
			leftOut = of.lines - repeats
		}
		of = count{since: now}
	}
	if len(l.said) > kindsMax {
		l.said = map[kind]count{}
	}
	of.lines++
	l.said[key] = of
	l.mu.Unlock()
	if of.lines > repeats {
		return
	}
	if leftOut > 0 {
		text += fmt.Sprintf(" (%d more were left out)", leftOut)
	}
	l.say(Warning, peer, text)
}

// LeftOut is how many lines were left out after the last of their kind that was printed.
func (l *Log) LeftOut() int {
	l.mu.Lock()
	defer l.mu.Unlock()
	total := 0
	for _, of := range l.said {
		if of.lines > repeats {
			total += of.lines - repeats
		}
	}
	return total
}

type object struct {
	Time    string `json:"time"`
	Level   Level  `json:"level"`
	Program string `json:"program"`
	Peer    string `json:"peer,omitempty"`
	Text    string `json:"text"`
}

// object is a line as JSON. A text that is too long is cut.
func (l *Log) object(level Level, peer, text string) []byte {
	at := l.now().UTC().Format("2006-01-02T15:04:05.000") + "+00:00"
	for {
		line, err := json.Marshal(object{at, level, l.program, peer, text})
		if err == nil && len(line) < lineMax-1 {
			return line
		}
		peer, text = first(peer, peerShort), first(text, utf8.RuneCountInString(text)/2)
	}
}

// first is the first characters of a text.
func first(text string, most int) string {
	if len(text) <= most {
		return text
	}
	for at := range text {
		if most == 0 {
			return text[:at]
		}
		most--
	}
	return text
}

// writing is held from the look for room to the write.
var writing sync.Mutex

// writeAtOnce writes a line on standard error if that has room for it: a pipe that reports room has
// room for lineMax bytes.
func writeAtOnce(line []byte) {
	writing.Lock()
	defer writing.Unlock()
	poll := struct {
		file         int32
		want, events int16
	}{file: int32(os.Stderr.Fd()), want: 4} // POLLOUT
	found, _, _ := syscall.Syscall(syscall.SYS_POLL, uintptr(unsafe.Pointer(&poll)), 1, 0)
	if found == 1 && poll.events&4 != 0 {
		syscall.Write(int(poll.file), line)
	}
}

// Ended is why a program ends: its line, and its exit status.
type Ended struct {
	Line   string
	Status int
}

// Error is the line.
func (e *Ended) Error() string { return e.Line }

// End is an Ended with this line.
func End(status int, format string, values ...any) *Ended {
	return &Ended{Line: fmt.Sprintf(format, values...), Status: status}
}

// Why is a fault of the system in its own words, without the place where it happened.
func Why(err error) string {
	var number syscall.Errno
	for it := err; it != nil; {
		if found, ok := it.(syscall.Errno); ok {
			number = found
			break
		}
		wrapped, ok := it.(interface{ Unwrap() error })
		if !ok {
			break
		}
		it = wrapped.Unwrap()
	}
	text := err.Error()
	if number != 0 {
		text = number.Error()
	}
	return strings.ToUpper(text[:1]) + text[1:]
}

// Quoted is a text between quotes, as a message shows a wrong value.
func Quoted(text string) string {
	quote := "'"
	if strings.Contains(text, "'") && !strings.Contains(text, `"`) {
		quote = `"`
	}
	var shown strings.Builder
	shown.WriteString(quote)
	for at, char := range text {
		switch {
		case char == utf8.RuneError && text[at] != "\uFFFD"[0]:
			fmt.Fprintf(&shown, `\x%02x`, text[at])
		case string(char) == quote || char == '\\':
			shown.WriteString(`\` + string(char))
		case char == '\n':
			shown.WriteString(`\n`)
		case char == '\r':
			shown.WriteString(`\r`)
		case char == '\t':
			shown.WriteString(`\t`)
		case char < ' ' || char == 0x7f:
			fmt.Fprintf(&shown, `\x%02x`, char)
		default:
			shown.WriteRune(char)
		}
	}
	return shown.String() + quote
}
