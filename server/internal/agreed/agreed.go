// Package agreed has the log that replicas agree on: an ordered, durable list of entries, which an
// engine keeps on several machines. Its engines are subpackages.
package agreed

import (
	"bufio"
	"context"
	"errors"
	"io"
	"os"
	"strings"
	"time"
	"unicode/utf8"

	"telovamish.org/server/internal/report"
)

// Place is the engine's own number of an entry. It grows.
type Place int64

// Item is an entry as the log has it, or a replica's report.
type Item struct {
	Place  Place
	Data   []byte
	Node   string // the address that it was read from; "" if it was taken from an own append
	Report string // the replica's name, if it is no entry
}

// Why a call failed.
var (
	// ErrGone: what is to be read is in the log no more, because it was trimmed beyond that place.
	ErrGone = errors.New("the log was trimmed")
	// ErrFull: the engine takes no more, because its quota or its disk is full.
	ErrFull = errors.New("the log is full")
	// ErrNoLog: the engine is not reached, has no majority, or the outcome of a call is unknown.
	ErrNoLog = errors.New("the log is not reached")
)

// Error is why a call failed, in the engine's words. Its kind is ErrGone, ErrFull or ErrNoLog.
type Error struct {
	Kind error
	Text string
}

// Error is the text.
func (e *Error) Error() string { return e.Text }

// Unwrap is the kind.
func (e *Error) Unwrap() error { return e.Kind }

// Failed is an Error.
func Failed(kind error, text string) error { return &Error{kind, text} }

// Log is an agreed log. Each call tries every address of the engine; if none replies in time it returns
// ErrNoLog. A context that is done ends a call with ErrNoLog too, as its outcome is unknown, and
// Read with the context's error. What is not to be tried again, such as a user who may not read, is a
// report.Ended. All calls may be under way at the same time.
type Log interface {
	// Head is the head that the log has now. It is this one if there was none; if none is wanted, it
	// is empty then.
	Head(ctx context.Context, wanted []byte) ([]byte, error)
	// ChangeHead puts another head in the place of one. It returns the head that the log has then.
	ChangeHead(ctx context.Context, before, after []byte) ([]byte, error)
	// Clock is the engine's own clock, in nanoseconds since 1970, if it has one.
	Clock(ctx context.Context) (nanoseconds int64, known bool, err error)
	// Last is a place that no entry comes after yet.
	Last(ctx context.Context) (Place, error)
	// Append appends an entry once, however often it is called with this writer and number, and
	// returns its place.
	Append(ctx context.Context, writer []byte, number uint64, data []byte) (Place, error)
	// Read passes on what is written after a place, in order, without an end. It returns what take
	// returned if that is an error. One Read may be under way at a time.
	Read(ctx context.Context, after Place, take func(Item) error) error
	// LookElsewhere has reads go on at another address.
	LookElsewhere()
	// Nodes are the engine's addresses. The one that is read from comes last.
	Nodes() []string
	// Seen passes on the entries after a place, as one node has them by itself, until no more come
	// for a while. A node that does not reply has none.
	Seen(ctx context.Context, node string, after Place, take func(Item) error) error
	// Report keeps what a replica reports of itself.
	Report(ctx context.Context, name string, data []byte) error
	// Reports are what each listed replica reported last.
	Reports(ctx context.Context) (map[string][]byte, error)
	// Forget takes a replica off the list.
	Forget(ctx context.Context, name string) error
	// Trimmed is the position and the place up to which the log was trimmed; both are 0 if it was not.
	Trimmed(ctx context.Context) (position uint64, place Place, err error)
	// Trim removes the entries up to a place. It returns what was done, line by line.
	Trim(ctx context.Context, position uint64, place Place) ([]string, error)
	// HasRemoved reports whether no entry up to a place is left, as one is after a trim that was cut
	// short.
	HasRemoved(ctx context.Context, place Place) (bool, error)
	// Renew has new connections go by the files of TLS as they are now. If one is wrong, the old ones
	// stay in use.
	Renew() error
	// Full is why the engine takes no more, or "".
	Full(ctx context.Context) (string, error)
	// Close closes the connections, and ends all calls.
	Close() error
}

// Access is how an engine is spoken to: the files of TLS, and a user with the file of its password.
type Access struct {
	Authority    string // the certificates that the engine's is tested by: TLS is spoken
	Certificate  string
	Key          string
	User         string
	PasswordFile string
	Standbys     int // of PostgreSQL: those that have to have flushed what is read
}

// Password is the first line of the password's file, or "" if there is no file.
func (a *Access) Password() (string, error) {
	if a.PasswordFile == "" {
		return "", nil
	}
	file, err := os.Open(a.PasswordFile)
	if err != nil {
		return "", report.End(1, "%s: %s", a.PasswordFile, report.Why(err))
	}
	defer file.Close()
	line, err := bufio.NewReader(file).ReadString('\n')
	switch {
	case err != nil && err != io.EOF:
		return "", report.End(1, "%s: %s", a.PasswordFile, report.Why(err))
	case !utf8.ValidString(line):
		return "", report.End(1, "%s: is no text", a.PasswordFile)
	}
	return strings.TrimSuffix(strings.TrimSuffix(line, "\n"), "\r"), nil
}

// Pause waits, and reports false if the context is done before that.
func Pause(ctx context.Context, wait time.Duration) bool {
	timer := time.NewTimer(wait)
	defer timer.Stop()
	select {
	case <-ctx.Done():
		return false
	case <-timer.C:
		return true
	}
}
