package postgresql

import (
	"context"
	"crypto/tls"
	"errors"
	"fmt"
	"net"
	"strconv"
	"strings"
	"syscall"
	"time"

	"github.com/jackc/pgconn"
	"github.com/jackc/pgproto3/v2"

	"telovamish.org/server/internal/agreed"
	"telovamish.org/server/internal/report"
)

// States that PostgreSQL reports with an error.
const (
	diskFull        = "53100"
	undefinedTable  = "42P01"
	notPermitted    = "42501"
	dataCorrupted   = "XX001"
	indexCorrupted  = "XX002"
	internalError   = "XX000"
	binary          = 1
	connectTimeout  = 2    // seconds
	lockTimeout     = 4000 // milliseconds for which a call that is tried again waits, in the server, for others
	typeBytes       = 17
	typeInt8        = 20
	typeText        = 25
	warningSeverity = "WARNING"
)

// unknown is why it is not known what became of a statement.
type unknown struct{ text string }

func (u *unknown) Error() string { return u.text }

// connection is a connection to a server. One call uses it at a time.
type connection struct {
	place    string
	net      net.Conn
	frontend pgconn.Frontend
	prepared map[string]string // names of statements, by their texts
	buffer   []byte
}

// statement is a statement, with its values and their types.
type statement struct {
	text   string
	types  []uint32
	values [][]byte
}

func made(text string, values ...any) statement {
	it := statement{text: text}
	for _, value := range values {
		switch value := value.(type) {
		case int64:
			it.types, it.values = append(it.types, typeInt8), append(it.values, ofInt(value))
		case string:
			it.types, it.values = append(it.types, typeText), append(it.values, []byte(value))
		case []byte:
			if value == nil {
				value = []byte{}
			}
			it.types, it.values = append(it.types, typeBytes), append(it.values, value)
		}
	}
	return it
}

func ofInt(value int64) []byte {
	it := uint64(value)
	return []byte{byte(it >> 56), byte(it >> 48), byte(it >> 40), byte(it >> 32),
		byte(it >> 24), byte(it >> 16), byte(it >> 8), byte(it)}
}

// row is a row of a result, in bytes.
type row [][]byte

// int is a number of a row; 0 if it is null.
func (r row) int(at int) int64 {
	value := uint64(0)
	for _, it := range r[at] {
		value = value<<8 | uint64(it)
	}
	return int64(value)
}

// connect connects to one server. A primary is one that takes writes.
func connect(ctx context.Context, at agreed.Address, database string, access *agreed.Access, its *tls.Config,
	isPrimary bool) (*connection, error) {
	config, err := configOf(at, database, access, its, isPrimary)
	if err != nil {
		return nil, err
	}
	conn, err := pgconn.ConnectConfig(ctx, config)
	if err != nil {
		return nil, err
	}
	// from here on nothing is done in the background: a statement that is waited for no longer is not
	// cancelled, as PostgreSQL then shows what no standby has
	hijacked, err := conn.Hijack()
	if err != nil {
		return nil, err
	}
	return &connection{
		place:    at.String(),
		net:      hijacked.Conn,
		frontend: hijacked.Frontend,
		prepared: map[string]string{},
	}, nil
}

func configOf(at agreed.Address, database string, access *agreed.Access, its *tls.Config,
	isPrimary bool) (*pgconn.Config, error) {
	password, err := access.Password()
	if err != nil {
		return nil, err
	}
	words := []string{}
	add := func(name, value string) {
		if value != "" {
			value = strings.NewReplacer(`\`, `\\`, `'`, `\'`).Replace(value)
			words = append(words, fmt.Sprintf("%s='%s'", name, value))
		}
	}
	add("host", at.Host)
	add("port", strconv.Itoa(int(at.Port)))
	add("dbname", database)
	add("user", access.User)
	add("password", password)
	add("connect_timeout", strconv.Itoa(connectTimeout))
	if its != nil {
		add("sslmode", "disable") // by its own
	} else {
		add("sslcert", access.Certificate)
		add("sslkey", access.Key)
	}
	if isPrimary {
		add("target_session_attrs", "read-write")
	}
	config, err := pgconn.ParseConfig(strings.Join(words, " "))
	if err != nil {
		return nil, report.End(1, "%s: %s", at, whyOf(err))
	}
	config.RuntimeParams["options"] = fmt.Sprintf("-c synchronous_commit=on -c lock_timeout=%d", lockTimeout)
	if its != nil {
		config.TLSConfig = its.Clone()
		config.TLSConfig.ServerName = at.Host
		config.Fallbacks = nil
	}
	return config, nil
}

// close closes the connection.
func (c *connection) close() {
	if c != nil {
		c.net.Close()
	}
}

// run runs statements, which the server gets together, each of them a transaction. It returns the rows of
// each. It is unknown what became of them if the server warns: a wait for a standby was cancelled, and
// what was written may be lost with the primary.
func (c *connection) run(ctx context.Context, statements ...statement) ([][]row, error) {
	c.buffer = c.buffer[:0]
	for _, it := range statements {
		c.buffer = c.encode(c.buffer, it)
	}
	return c.exchange(ctx, len(statements))
}

// script runs statements without values, as one transaction.
func (c *connection) script(ctx context.Context, text string) error {
	c.buffer = (&pgproto3.Query{String: text}).Encode(c.buffer[:0])
	_, err := c.exchange(ctx, 1)
	return err
}

func (c *connection) encode(to []byte, it statement) []byte {
	name, ok := c.prepared[it.text]
	if !ok {
		name = fmt.Sprintf("s%d", len(c.prepared))
		c.prepared[it.text] = name
		to = (&pgproto3.Parse{Name: name, Query: it.text, ParameterOIDs: it.types}).Encode(to)
	}
	formats := make([]int16, len(it.values))
	for at := range formats {
		formats[at] = binary
	}
	to = (&pgproto3.Bind{
		PreparedStatement:    name,
		ParameterFormatCodes: formats,
		Parameters:           it.values,
		ResultFormatCodes:    []int16{binary},
	}).Encode(to)
	to = (&pgproto3.Execute{}).Encode(to)
	return (&pgproto3.Sync{}).Encode(to)
}

// exchange writes what is encoded, and reads the results of so many statements. The connection is of no
// more use after an error.
func (c *connection) exchange(ctx context.Context, count int) ([][]row, error) {
	stop := c.watch(ctx)
	defer stop()
	if _, err := c.net.Write(c.buffer); err != nil {
		return nil, preferred(ctx, err)
	}
	if cap(c.buffer) > 1<<16 {
		c.buffer = nil
	}
	results, warning := make([][]row, count), ""
	var fault error
	for at := 0; at < count; {
		it, err := c.frontend.Receive()
		if err != nil {
			return nil, preferred(ctx, err)
		}
		switch it := it.(type) {
		case *pgproto3.DataRow:
			results[at] = append(results[at], append(row(nil), it.Values...))
		case *pgproto3.ErrorResponse:
			if fault == nil {
				fault = pgconn.ErrorResponseToPgError(it)
			}
			if it.Severity == "FATAL" || it.SeverityUnlocalized == "FATAL" {
				return nil, fault
			}
		case *pgproto3.NoticeResponse:
			if it.SeverityUnlocalized == warningSeverity {
				warning = warningSeverity + ": " + it.Message
			}
		case *pgproto3.ReadyForQuery:
			at++
		}
	}
	if fault == nil && warning != "" {
		fault = &unknown{warning}
	}
	return results, fault
}

// watch has the connection fail once a context is done, until it is stopped.
func (c *connection) watch(ctx context.Context) (stop func()) {
	c.net.SetDeadline(time.Time{})
	done, ended := make(chan struct{}), make(chan struct{})
	go func() {
		defer report.Guard()
		defer close(ended)
		select {
		case <-ctx.Done():
			c.net.SetDeadline(time.Unix(1, 0))
		case <-done:
		}
	}()
	return func() {
		close(done)
		<-ended
	}
}

// preferred is the context's error if it caused this one.
func preferred(ctx context.Context, err error) error {
	if ctx.Err() != nil {
		return ctx.Err()
	}
	return err
}

// whyOf is what an error reports, in one line.
func whyOf(err error) string {
	var of *pgconn.PgError
	var number syscall.Errno
	text := ""
	switch {
	case errors.As(err, &of):
		text = of.Message
	case errors.Is(err, context.DeadlineExceeded):
		return fmt.Sprintf("no answer within %g s", try.Seconds())
	case errors.As(err, &number):
		text = report.Why(number)
	default:
		for inner := err; inner != nil; inner = errors.Unwrap(inner) {
			text = inner.Error()
		}
	}
	line, _, _ := strings.Cut(strings.TrimSpace(text), "\n")
	return line
}

// stateOf is the state that PostgreSQL reported with an error.
func stateOf(err error) string {
	var of *pgconn.PgError
	if errors.As(err, &of) {
		return of.Code
	}
	return ""
}

// isRotten reports whether an error is what a row is met with that a disk has changed.
func isRotten(err error) bool {
	state := stateOf(err)
	return state == dataCorrupted || state == indexCorrupted || state == internalError
}

// faultOf is what an error means, if the call is not to be tried again.
func faultOf(err error) error {
	var ended *report.Ended
	var failed *agreed.Error
	switch state := stateOf(err); {
	case state == diskFull:
		return agreed.Failed(agreed.ErrFull, whyOf(err))
	case state == undefinedTable, state == notPermitted:
		return report.End(1, "%s", whyOf(err))
	case errors.As(err, &ended), errors.As(err, &failed):
		return err
	}
	return nil
}
