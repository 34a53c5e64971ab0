// Package conns takes connections of clients and serves each: a request, its reply, the next request.
// What a client may do wrong ends its own connection alone. Before that is closed the client gets the
// reason, as a line of fewer bytes than a frame has.
package conns

import (
	"sync"
	"sync/atomic"
	"time"

	"telovamish.org/server/internal/access"
	"telovamish.org/server/internal/backend"
	"telovamish.org/server/internal/config"
	"telovamish.org/server/internal/counts"
	"telovamish.org/server/internal/frames"
	"telovamish.org/server/internal/memory"
	"telovamish.org/server/internal/report"
	"telovamish.org/server/internal/shares"
	"telovamish.org/tbclient"
)

const (
	lineOf   = "tb_listen: "         // what a line to a client begins with
	lastRead = time.Second           // for which a client that gets a line may still send, so that it reads it
	look     = 50 * time.Millisecond // after which it is looked for connections that take too long
)

// Listener takes connections, and serves each.
type Listener struct {
	backend   backend.Backend
	config    *config.Config
	log       *report.Log
	counts    *counts.Counts
	evictions *counts.Evictions
	shares    *shares.Shares
	refusals  *shares.Refusals
	budget    *memory.Budget
	began     time.Time

	access atomic.Pointer[access.Access]
	why    atomic.Pointer[string] // why no more requests are taken

	mu       sync.Mutex
	open     map[*conn]struct{}
	served   int // those that are not closed by a line
	leaving  int // those that got a line, and may still send
	peers    map[access.Key]*peer
	agreeing []*conn // who agrees on TLS, from the first one on
	changed  *sync.Cond
}

// peer is what the open connections of one peer share.
type peer struct {
	backend.Peer
	connections int
}

// New is a listener that serves requests by a backend.
func New(
	of backend.Backend, c *config.Config, who *access.Access, log *report.Log, numbers *counts.Counts,
	evictions *counts.Evictions,
) *Listener {
	l := &Listener{
		backend:   of,
		config:    c,
		log:       log,
		counts:    numbers,
		evictions: evictions,
		budget:    memory.NewBudget(c.Memory),
		began:     time.Now(),
		open:      map[*conn]struct{}{},
		peers:     map[access.Key]*peer{},
	}
	l.changed = sync.NewCond(&l.mu)
	l.shares = shares.New(shares.Limits{
		Connections: c.ConnectionsPerPeer,
		Sessions:    c.SessionsPerRange,
		Requests:    c.RequestsPerSecond,
		Idle:        c.Idle,
	}, l.now)
	l.refusals = shares.NewRefusals(l.now)
	none := ""
	l.why.Store(&none)
	l.access.Store(who)
	return l
}

// now is the time since the listener began.
func (l *Listener) now() time.Duration { return time.Since(l.began) }

// SetAccess changes who may connect, and as which clients, from each next request on.
func (l *Listener) SetAccess(who *access.Access) { l.access.Store(who) }

// enter takes a connection. It reports whether it is served: there may be too many.
func (l *Listener) enter(c *conn) bool {
	l.counts.Taken.Add(1)
	l.counts.Connections.Add(1)
	l.mu.Lock()
	defer l.mu.Unlock()
	l.open[c] = struct{}{}
	if c.isServed = l.served < l.config.Connections; c.isServed {
		l.served++
	}
	return c.isServed
}

// isFull reports whether there are as many connections as may be.
func (l *Listener) isFull() bool {
	l.mu.Lock()
	defer l.mu.Unlock()
	return l.served >= l.config.Connections
}

// join counts a connection among those of its peer. It returns the name of why not, or nothing.
func (l *Listener) join(c *conn) string {
	if why := l.shares.Enter(c.peer.Share); why != "" {
		return why
	}
	c.hasShare = true
	l.mu.Lock()
	defer l.mu.Unlock()
	it, ok := l.peers[c.peer.Share]
	if !ok {
		it = &peer{}
		l.peers[c.peer.Share] = it
	}
	it.connections++
	c.request.Peer = &it.Peer
	return ""
}

// free leaves a connection's place to another one.
func (l *Listener) free(c *conn) {
	l.mu.Lock()
	if c.isServed {
		c.isServed = false
		l.served--
	}
	hasShare := c.hasShare
	if c.hasShare = false; hasShare {
		it := l.peers[c.peer.Share]
		if it.connections--; it.connections == 0 {
			delete(l.peers, c.peer.Share)
		}
	}
	l.mu.Unlock()
	if hasShare {
		l.shares.Leave(c.peer.Share)
	}
}

// isSaid reports whether the end of a connection is a fault to be printed: those of who is gone amid a
// frame, of the server and of the listener are not.
func isSaid(why string) bool {
	switch why {
	case "", "Short", "Starting", "Stopping", "ProgramEnded":
		return false
	}
	return true
}

// closes counts a connection that is closed for this reason.
func (l *Listener) closes(c *conn, why string) {
	l.free(c)
	if isSaid(why) {
		l.refusals.Add(shares.Long)
		l.countClosed(why, c.peer.Shown)
	}
}

func (l *Listener) countClosed(why, shown string) {
	l.counts.Closed(why)
	l.log.SayOf(shown, "a connection is closed: "+why, "")
}

// noTLS counts a connection that did not agree on TLS.
func (l *Listener) noTLS(shown, why string) {
	l.counts.Closed("TLS")
	l.log.SayOf(shown, "a connection is closed: TLS: "+why, "")
}

// mayLeave reports whether a client that gets a line may still send: not if too many do.
func (l *Listener) mayLeave() bool {
	l.mu.Lock()
	defer l.mu.Unlock()
	if l.leaving >= l.config.Connections {
		return false
	}
	l.leaving++
	return true
}

func (l *Listener) hasLeft() {
	l.mu.Lock()
	l.leaving--
	l.mu.Unlock()
}

// forget drops a connection that is gone.
func (l *Listener) forget(c *conn) {
	l.free(c)
	l.mu.Lock()
	defer l.mu.Unlock()
	if _, ok := l.open[c]; ok {
		delete(l.open, c)
		l.counts.Connections.Add(-1)
		l.changed.Broadcast()
	}
}

// count counts a reply, and follows the sessions.
func (l *Listener) count(c *conn, reply frames.Header, took time.Duration) {
	l.counts.Answered(reply, took)
	l.shares.Charge(c.peer.Share, len(reply))
	if reply.Status() != tbclient.StatusReply {
		return
	}
	client := reply.Client()
	l.shares.Use(c.peer.Share, client)
	isRegister := reply.Operation() == tbclient.OperationRegister
	if evicted, ok := l.evictions.Learn(client, isRegister, reply.Commit()); ok {
		l.counts.Evictions.Add(1)
		l.log.SayOf(c.peer.Shown, "client "+evicted.String()+" was evicted by client "+client.String()+
			": more clients come than there are places ("+itoa(l.evictions.Max())+")", "evicted")
	}
}

// Watch looks for connections that take too long, until done is closed. One look for all of them, twenty
// times a second, takes less than a timer for each request.
func (l *Listener) Watch(done <-chan struct{}) {
	defer report.Guard()
	ticker := time.NewTicker(look)
	defer ticker.Stop()
	for {
		select {
		case <-done:
			return
		case <-ticker.C:
		}
		now := l.now()
		for _, c := range l.some(func(c *conn) bool { return c.isLate(now) }) {
			c.late(now)
		}
		if l.budget.IsShort() {
			l.makeRoom(now)
		}
	}
}

func (l *Listener) some(which func(*conn) bool) []*conn {
	l.mu.Lock()
	defer l.mu.Unlock()
	var found []*conn
	for c := range l.open {
		if which(c) {
			found = append(found, c)
		}
	}
	return found
}

// makeRoom closes the connection that has sent or read nothing for longest, and at least a second, while
// it holds memory that others wait for.
func (l *Listener) makeRoom(now time.Duration) {
	var slowest *conn
	since := now - time.Second
	for _, c := range l.some(func(c *conn) bool { return c.holds.Load() > 0 }) {
		if moved := time.Duration(c.moved.Load()); moved < since && c.isMoving() {
			slowest, since = c, moved
		}
	}
	if slowest != nil {
		slowest.tooSlow()
	}
}

// Stop takes no more requests, and waits until those that were taken are answered.
func (l *Listener) Stop(why string) {
	l.why.Store(&why)
	for _, c := range l.some(func(*conn) bool { return true }) {
		c.stopAtRest(why)
	}
	l.untilNone(l.config.Slow)
}

// Leave waits until those that lost their server have got their line.
func (l *Listener) Leave() { l.untilNone(3 * lastRead) }

// untilNone waits until no connection is open, for so long at most.
func (l *Listener) untilNone(most time.Duration) {
	isLate := false
	timer := time.AfterFunc(most, func() {
		l.mu.Lock()
		isLate = true
		l.changed.Broadcast()
		l.mu.Unlock()
	})
	defer timer.Stop()
	l.mu.Lock()
	defer l.mu.Unlock()
	for len(l.open) > 0 && !isLate {
		l.changed.Wait()
	}
}
