// Package faults has the faults that end a replica, each with its exit status. None is a status of a
// server's.
package faults

import (
	"fmt"
	"strings"

	"telovamish.org/server/internal/report"
)

// Name is the name of a fault.
type Name string

// All faults.
const (
	NoLog      Name = "NoLog"
	Trimmed    Name = "Trimmed"
	Diverged   Name = "Diverged"
	OtherRules Name = "OtherRules"
	Damaged    Name = "Damaged"
	BadEntry   Name = "BadEntry"
	LogFull    Name = "LogFull"
	Ahead      Name = "Ahead"
	Rotten     Name = "Rotten"
)

var statuses = map[Name]int{
	NoLog:      20,
	Trimmed:    21,
	Diverged:   22,
	OtherRules: 23,
	Damaged:    24,
	BadEntry:   25,
	LogFull:    26,
	Ahead:      27,
	Rotten:     28,
}

// Status is the exit status of a fault.
func (n Name) Status() int { return statuses[n] }

// New is a fault that ends a replica: its line begins with its name.
func New(name Name, format string, values ...any) *report.Ended {
	return report.End(name.Status(), "%s: %s", name, fmt.Sprintf(format, values...))
}

const shownMax = 60 // bytes of a wrong value that a line shows

// WrongTrimmed is the fault of a log that does not report up to where it was trimmed.
func WrongTrimmed(value []byte) *report.Ended {
	return New(BadEntry, "the log's `trimmed` has %s", Quoted(value))
}

// Quoted is the first bytes of a wrong value, between quotes, as b'\xff{}'.
func Quoted(data []byte) string {
	if len(data) > shownMax {
		data = data[:shownMax]
	}
	quote := byte('\'')
	if strings.IndexByte(string(data), '\'') >= 0 && strings.IndexByte(string(data), '"') < 0 {
		quote = '"'
	}
	shown := []byte{'b', quote}
	for _, it := range data {
		switch {
		case it == quote || it == '\\':
			shown = append(shown, '\\', it)
		case it == '\n':
			shown = append(shown, `\n`...)
		case it == '\r':
			shown = append(shown, `\r`...)
		case it == '\t':
			shown = append(shown, `\t`...)
		case it < ' ' || it >= 0x7f:
			shown = append(shown, fmt.Sprintf(`\x%02x`, it)...)
		default:
			shown = append(shown, it)
		}
	}
	return string(append(shown, quote))
}
