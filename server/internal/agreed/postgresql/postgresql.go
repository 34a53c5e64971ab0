// Package postgresql has the agreed log in PostgreSQL, by its messages: a table whose primary key is the
// position.
//
// The tables NAME_log, NAME_keys and NAME_at are made if they are not there. What a primary shows may be
// lost with it: a row is visible whose standby has not written it yet, after a wait that was cancelled and
// after a restart. So what is read is taken only when the wanted number of standbys has flushed all that
// the primary had flushed by then. Which server is the primary is for a failover manager to decide.
package postgresql

import (
	"context"
	"crypto/tls"
	"errors"
	"fmt"
	"regexp"
	"strconv"
	"strings"
	"sync"
	"time"

	"telovamish.org/server/internal/agreed"
	"telovamish.org/server/internal/faults"
	"telovamish.org/server/internal/report"
	"telovamish.org/server/internal/tlsfiles"
)

const (
	try        = 3 * time.Second        // for which one answer is waited for
	all        = 10 * time.Second       // after which a call is not tried again
	again      = 100 * time.Millisecond // before it is
	removedMax = 250                    // entries that are removed at a time: more may take longer than one answer
)

// texts are the statements, over the tables of a name.
type texts struct {
	tables, haveTables                     string
	putHead, changeHead, key, keepKey      string
	last, least, append, flushed, isThere  string
	read, isFlushed, seen, clock           string
	report, reports, forget, remove, isOne string
}

func textsOf(name string) *texts {
	of := strings.NewReplacer("{log}", name+"_log", "{keys}", name+"_keys", "{at}", name+"_at").Replace
	left := "position BETWEEN $1 AND $2 AND position < (SELECT max(position) FROM {log})" // the next counts on the last
	return &texts{
		tables: of(`CREATE TABLE IF NOT EXISTS {log} (position bigint PRIMARY KEY, writer bytea NOT NULL,
    number bigint NOT NULL, entry bytea NOT NULL, UNIQUE (writer, number));
CREATE TABLE IF NOT EXISTS {keys} (key text PRIMARY KEY, value bytea NOT NULL);
CREATE TABLE IF NOT EXISTS {at} (name text PRIMARY KEY, value bytea NOT NULL);`),
		haveTables: of("SELECT FROM {log}, {keys}, {at} LIMIT 0"),
		putHead:    of("INSERT INTO {keys} VALUES ('head', $1) ON CONFLICT DO NOTHING"),
		changeHead: of("UPDATE {keys} SET value = $1 WHERE key = 'head' AND value = $2"),
		key:        of("SELECT value FROM {keys} WHERE key = $1"),
		keepKey: of("INSERT INTO {keys} VALUES ($1, $2) ON CONFLICT (key) DO UPDATE SET value = " +
			"excluded.value"),
		last:  of("SELECT coalesce(max(position), 0) FROM {log}"),
		least: of("SELECT min(position) FROM {log}"),
		append: of("INSERT INTO {log} SELECT coalesce(max(position), 0) + 1, $1, $2, $3 FROM {log} " +
			"ON CONFLICT DO NOTHING RETURNING position"),
		flushed: "SELECT count(*) FROM pg_stat_replication WHERE flush_lsn >= pg_current_wal_flush_lsn()",
		isThere: of("SELECT position FROM {log} WHERE writer = $1 AND number = $2"),
		// the snapshot is taken before the flush position is looked at, so all that is read lies below it
		read: of(fmt.Sprintf("SELECT position, entry, pg_current_wal_flush_lsn()::text FROM {log} "+
			"WHERE position > $1 ORDER BY position LIMIT %d", page)),
		isFlushed: "SELECT count(*) FROM pg_stat_replication WHERE flush_lsn >= $1::pg_lsn",
		seen: of(fmt.Sprintf("SELECT position, entry FROM {log} WHERE position > $1 ORDER BY position LIMIT %d",
			page)),
		clock: "SELECT (extract(epoch FROM clock_timestamp()) * 1000000000)::bigint",
		report: of("INSERT INTO {at} VALUES ($1, $2) ON CONFLICT (name) DO UPDATE SET value = " +
			"excluded.value"),
		reports: of("SELECT name, value FROM {at}"),
		forget:  of("DELETE FROM {at} WHERE name = $1"),
		remove:  of("DELETE FROM {log} WHERE " + left),
		isOne:   of("SELECT position FROM {log} WHERE " + left + " LIMIT 1"),
	}
}

func init() {
	agreed.Register("postgresql", 5432,
		func(addresses []agreed.Address, name string, access agreed.Access, log *report.Log) (agreed.Log, error) {
			return New(addresses, name, access, log)
		})
}

// Log is the log under a name, in a database.
type Log struct {
	addresses []agreed.Address
	database  string
	access    agreed.Access
	texts     *texts
	log       *report.Log
	appended  *agreed.Appended
	closed    chan struct{}
	turn      chan struct{} // taken by the call that uses writing
	writing   *connection

	mu       sync.Mutex
	isClosed bool
	cancels  map[int]func() // of what is under way
	next     int            // of these
	address  int            // which one is tried next
	tls      *tls.Config
	readAt   string        // the address that was read from last
	moved    chan struct{} // closed when reads are to go on elsewhere
}

var nameForm = regexp.MustCompile(`^[a-z][a-z0-9_]{0,40}$`)

// New is the log under DATABASE/NAME. It connects when it is called first. A file of TLS may be wrong.
func New(addresses []agreed.Address, name string, access agreed.Access, log *report.Log) (*Log, error) {
	database, table, _ := strings.Cut(name, "/")
	if !nameForm.MatchString(table) {
		return nil, report.End(1, "%s is no DATABASE/NAME: small letters, digits and _", report.Quoted(name))
	}
	it := &Log{
		addresses: addresses,
		database:  database,
		access:    access,
		texts:     textsOf(table),
		log:       log,
		appended:  agreed.NewAppended(),
		closed:    make(chan struct{}),
		turn:      make(chan struct{}, 1),
		cancels:   map[int]func(){},
		moved:     make(chan struct{}),
	}
	return it, it.Renew()
}

// Renew implements agreed.Log.
func (l *Log) Renew() error {
	if l.access.Authority == "" {
		return nil
	}
	its, err := tlsfiles.ReadOfClient(l.access.Authority, l.access.Certificate, l.access.Key)
	if err != nil {
		return err
	}
	l.mu.Lock()
	defer l.mu.Unlock()
	l.tls = its
	return nil
}

// within is a context for a part of a call, which ends when the log is closed.
func (l *Log) within(ctx context.Context, most time.Duration) (context.Context, func()) {
	ctx, cancel := context.WithTimeout(ctx, most)
	l.mu.Lock()
	defer l.mu.Unlock()
	if l.isClosed {
		cancel()
	}
	number := l.next
	l.next++
	l.cancels[number] = cancel
	return ctx, func() {
		cancel()
		l.mu.Lock()
		defer l.mu.Unlock()
		delete(l.cancels, number)
	}
}

// over is why nothing is called, if nothing is to be.
func (l *Log) over(ctx context.Context) error {
	select {
	case <-l.closed:
		return agreed.Failed(agreed.ErrNoLog, "the log is closed")
	case <-ctx.Done():
		return agreed.Failed(agreed.ErrNoLog, ctx.Err().Error())
	default:
		return nil
	}
}

// connected is a connection to the primary, from the last good address on. Each address is tried by
// itself.
func (l *Log) connected(ctx context.Context) (*connection, error) {
	whys := []string{}
	l.mu.Lock()
	first := l.address
	l.mu.Unlock()
	for step := range l.addresses {
		at := (first + step) % len(l.addresses)
		l.setAddress(at + 1) // if this is waited for no longer
		it, err := l.connect(ctx, l.addresses[at], true)
		if err == nil {
			l.setAddress(at)
			return it, nil
		}
		if fault := faultOf(err); fault != nil && stateOf(err) == "" {
			return nil, fault
		}
		if ctx.Err() != nil {
			return nil, ctx.Err()
		}
		whys = append(whys, l.addresses[at].String()+": connection failed: "+whyOf(err))
	}
	return nil, errors.New(strings.Join(whys, "; "))
}

func (l *Log) connect(ctx context.Context, at agreed.Address, isPrimary bool) (*connection, error) {
	l.mu.Lock()
	its := l.tls
	l.mu.Unlock()
	return connect(ctx, at, l.database, &l.access, its, isPrimary)
}

func (l *Log) setAddress(at int) {
	l.mu.Lock()
	defer l.mu.Unlock()
	l.address = at % len(l.addresses)
}

// call does a piece of work, over new connections until it succeeds.
func (l *Log) call(ctx context.Context, whole time.Duration, work func(context.Context, *connection) error) error {
	end := time.Now().Add(whole)
	for {
		if err := l.over(ctx); err != nil {
			return err
		}
		err := l.once(ctx, work)
		if err == nil {
			return nil
		}
		if fault := faultOf(err); fault != nil {
			return fault
		}
		if over := l.over(ctx); over != nil {
			return over
		}
		if !time.Now().Before(end) || !agreed.Pause(ctx, again) {
			return agreed.Failed(agreed.ErrNoLog, whyOf(err))
		}
	}
}

// once does a piece of work over the connection that is written over.
func (l *Log) once(ctx context.Context, work func(context.Context, *connection) error) error {
	waiting, cancel := l.within(ctx, all)
	defer cancel()
	select {
	case l.turn <- struct{}{}:
	case <-waiting.Done():
		return waiting.Err()
	}
	defer func() { <-l.turn }()
	if err := l.reach(ctx); err != nil {
		return err
	}
	working, cancel := l.within(ctx, try)
	defer cancel()
	err := work(working, l.writing)
	if err != nil {
		l.writing.close()
		l.writing = nil
		l.mu.Lock()
		l.address = (l.address + 1) % len(l.addresses) // another one may be the primary by now
		l.mu.Unlock()
	}
	return err
}

// reach connects, if there is no connection that is written over.
func (l *Log) reach(ctx context.Context) error {
	if l.writing != nil {
		return nil
	}
	connecting, cancel := l.within(ctx, try)
	defer cancel()
	it, err := l.connected(connecting)
	l.writing = it
	return err
}

// rows are those of one statement.
func (l *Log) rows(ctx context.Context, whole time.Duration, it statement) ([]row, error) {
	var found []row
	err := l.call(ctx, whole, func(ctx context.Context, at *connection) error {
		results, err := at.run(ctx, it)
		if err == nil {
			found = results[0]
		}
		return err
	})
	return found, err
}

// Head implements agreed.Log.
func (l *Log) Head(ctx context.Context, wanted []byte) ([]byte, error) {
	var head []byte
	err := l.call(ctx, all, func(ctx context.Context, at *connection) error {
		key := made(l.texts.key, "head")
		some := []statement{key}
		if wanted != nil {
			if err := l.makeTables(ctx, at); err != nil {
				return err
			}
			some = []statement{made(l.texts.putHead, wanted), key}
		}
		results, err := at.run(ctx, some...)
		if err == nil {
			head = valueIn(results[len(results)-1])
		}
		return err
	})
	return head, err
}

// makeTables makes the tables if one is not there: to ask for that takes the right to make some, also if
// all are there.
func (l *Log) makeTables(ctx context.Context, at *connection) error {
	_, err := at.run(ctx, made(l.texts.haveTables))
	if stateOf(err) != undefinedTable {
		return err
	}
	delete(at.prepared, l.texts.haveTables)
	return at.script(ctx, l.texts.tables)
}

// valueIn is the value of the first row, or nil.
func valueIn(rows []row) []byte {
	if len(rows) == 0 {
		return nil
	}
	return rows[0][0]
}

// ChangeHead implements agreed.Log.
func (l *Log) ChangeHead(ctx context.Context, before, after []byte) ([]byte, error) {
	var head []byte
	err := l.call(ctx, all, func(ctx context.Context, at *connection) error {
		results, err := at.run(ctx, made(l.texts.changeHead, after, before), made(l.texts.key, "head"))
		if err == nil {
			head = valueIn(results[1])
		}
		return err
	})
	return head, err
}

// Clock implements agreed.Log: that of the server whose clock is least, because one may be on this
// computer.
func (l *Log) Clock(ctx context.Context) (int64, bool, error) {
	least, known := int64(0), false
	for _, at := range l.addresses {
		l.asked(ctx, at, func(ctx context.Context, it *connection) error {
			within, cancel := l.within(ctx, all)
			defer cancel()
			results, err := it.run(within, made(l.texts.clock))
			if err == nil && len(results[0]) > 0 {
				if now := results[0][0].int(0); !known || now < least {
					least, known = now, true
				}
			}
			return err
		})
	}
	return least, known, nil
}

// Last implements agreed.Log.
func (l *Log) Last(ctx context.Context) (agreed.Place, error) {
	rows, err := l.rows(ctx, all, made(l.texts.last))
	if err != nil {
		return 0, err
	}
	_, place, err := l.Trimmed(ctx)
	if last := agreed.Place(rows[0].int(0)); last > place {
		place = last
	}
	return place, err
}

// Append implements agreed.Log.
func (l *Log) Append(ctx context.Context, writer []byte, number uint64, data []byte) (agreed.Place, error) {
	place := agreed.Place(0)
	err := l.call(ctx, try, func(ctx context.Context, at *connection) error {
		for ctx.Err() == nil {
			found, isFlushed, err := l.appendOver(ctx, at, writer, number, data)
			if err != nil {
				return err
			}
			if found != 0 {
				place = found
				if isFlushed {
					l.appended.Put(place, data)
				} else {
					l.appended.Wake()
				}
				return nil
			}
			results, err := at.run(ctx, made(l.texts.isThere, writer, int64(number)))
			if err != nil {
				return err
			}
			if len(results[0]) > 0 { // otherwise another writer took the position
				place = agreed.Place(results[0][0].int(0))
				return nil
			}
		}
		return ctx.Err()
	})
	return place, err
}

// appendOver is the place of an entry that is written now, 0 if it was not. It is asked along with that
// whether the standbys have flushed all that the primary has by then.
func (l *Log) appendOver(ctx context.Context, at *connection, writer []byte, number uint64,
	data []byte) (agreed.Place, bool, error) {
	results, err := at.run(ctx, made(l.texts.append, writer, int64(number), data), made(l.texts.flushed))
	if err != nil || len(results[0]) == 0 || len(results[1]) == 0 {
		return 0, false, err
	}
	isFlushed := results[1][0].int(0) >= int64(l.access.Standbys)
	return agreed.Place(results[0][0].int(0)), isFlushed, nil
}

// Report implements agreed.Log.
func (l *Log) Report(ctx context.Context, name string, data []byte) error {
	_, err := l.rows(ctx, try, made(l.texts.report, name, data))
	return err
}

// Reports implements agreed.Log.
func (l *Log) Reports(ctx context.Context) (map[string][]byte, error) {
	rows, err := l.rows(ctx, all, made(l.texts.reports))
	if err != nil {
		return nil, err
	}
	reports := map[string][]byte{}
	for _, it := range rows {
		reports[string(it[0])] = it[1]
	}
	return reports, nil
}

// Forget implements agreed.Log.
func (l *Log) Forget(ctx context.Context, name string) error {
	_, err := l.rows(ctx, all, made(l.texts.forget, name))
	return err
}

// Trimmed implements agreed.Log.
func (l *Log) Trimmed(ctx context.Context) (uint64, agreed.Place, error) {
	rows, err := l.rows(ctx, all, made(l.texts.key, "trimmed"))
	if err != nil || len(rows) == 0 {
		return 0, 0, err
	}
	place, err := strconv.ParseInt(strings.TrimSpace(string(rows[0][0])), 10, 64)
	if err != nil || place < 0 {
		return 0, 0, faults.WrongTrimmed(rows[0][0])
	}
	return uint64(place), agreed.Place(place), nil
}

// Trim implements agreed.Log. No entry is removed before `trimmed` reports it. One that is cut short
// leaves some.
func (l *Log) Trim(ctx context.Context, position uint64, place agreed.Place) ([]string, error) {
	_, err := l.rows(ctx, all, made(l.texts.keepKey, "trimmed", []byte(strconv.FormatInt(int64(place), 10))))
	if err != nil {
		return nil, err
	}
	least, err := l.rows(ctx, all, made(l.texts.least))
	if err != nil {
		return nil, err
	}
	first := int64(place)
	if least[0][0] != nil {
		first = least[0].int(0)
	}
	for ; first <= int64(place); first += removedMax {
		last := first + removedMax - 1
		if last > int64(place) {
			last = int64(place)
		}
		if _, err := l.rows(ctx, all, made(l.texts.remove, first, last)); err != nil {
			return nil, err
		}
	}
	return []string{fmt.Sprintf("entries up to position %d are removed; vacuum the table", position)}, nil
}

// HasRemoved implements agreed.Log.
func (l *Log) HasRemoved(ctx context.Context, place agreed.Place) (bool, error) {
	rows, err := l.rows(ctx, all, made(l.texts.isOne, int64(0), int64(place)))
	return len(rows) == 0, err
}

// Full implements agreed.Log.
func (l *Log) Full(context.Context) (string, error) { return "", nil }

// Close implements agreed.Log.
func (l *Log) Close() error {
	l.mu.Lock()
	if l.isClosed {
		l.mu.Unlock()
		return nil
	}
	l.isClosed = true
	close(l.closed)
	for _, cancel := range l.cancels {
		cancel()
	}
	l.mu.Unlock()
	l.turn <- struct{}{}
	l.writing.close()
	l.writing = nil
	<-l.turn
	return nil
}
