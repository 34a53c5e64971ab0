// Package shares says what one peer may take of a host: connections, sessions, and requests in a
// second. A peer that takes more is refused by a name, and takes nothing of others'.
package shares

import (
	"container/list"
	"sync"
	"time"

	"telovamish.org/server/internal/access"
	"telovamish.org/server/internal/frames"
)

const (
	// Piece is how many bytes of a request, or of a reply, count as one request.
	Piece = 1 << 12
	// Call is how many requests a new connection counts as, and TLSCall one that agrees on TLS.
	Call, TLSCall = 8, 32

	burst    = time.Second // whose requests may come at once
	patience = time.Second // that a request waits for its turn
)

// Limits are what one peer may take; 0 is any number.
type Limits struct {
	Connections int           // at a time
	Sessions    int           // that were used within Idle
	Requests    int           // in a second
	Idle        time.Duration // after which a session does not count
}

// Shares is what each peer has taken.
type Shares struct {
	limits Limits
	now    func() time.Duration // since any time

	mu    sync.Mutex
	open  map[access.Key]int
	turns map[access.Key]*turns
	used  map[access.Key]*sessions
}

// New counts by a clock.
func New(limits Limits, now func() time.Duration) *Shares {
	return &Shares{
		limits: limits,
		now:    now,
		open:   map[access.Key]int{},
		turns:  map[access.Key]*turns{},
		used:   map[access.Key]*sessions{},
	}
}

// Enter takes a connection of a peer. It returns the name of why not, or nothing.
func (s *Shares) Enter(key access.Key) string {
	s.mu.Lock()
	defer s.mu.Unlock()
	if why := s.testConnections(key); why != "" {
		return why
	}
	s.open[key]++
	return ""
}

func (s *Shares) testConnections(key access.Key) string {
	if s.limits.Connections > 0 && s.open[key] >= s.limits.Connections {
		return "TooManyConnections"
	}
	return ""
}

// Leave gives a connection back that was taken.
func (s *Shares) Leave(key access.Key) {
	s.mu.Lock()
	defer s.mu.Unlock()
	if s.open[key]--; s.open[key] == 0 {
		delete(s.open, key)
	}
}

// Wait is how long a request of a peer, or the connection that it makes, waits for its turn, or the
// name of why it gets none.
func (s *Shares) Wait(key access.Key, length int) (time.Duration, string) {
	if s.limits.Requests == 0 {
		return 0, ""
	}
	s.mu.Lock()
	defer s.mu.Unlock()
	now := s.now()
	return s.turnsOf(key, now).wait(1+length/Piece, now)
}

// Charge counts a long reply to a request of a peer.
func (s *Shares) Charge(key access.Key, length int) {
	if s.limits.Requests == 0 || length < Piece {
		return
	}
	s.mu.Lock()
	defer s.mu.Unlock()
	now := s.now()
	s.turnsOf(key, now).charge(length/Piece, now)
}

// Call takes a turn for a connection that a peer makes. It returns the name of why not, or nothing.
func (s *Shares) Call(key access.Key, cost int) string {
	s.mu.Lock()
	defer s.mu.Unlock()
	if why := s.testConnections(key); why != "" || s.limits.Requests == 0 {
		return why
	}
	now := s.now()
	if cost > s.limits.Requests { // so that the first request of a connection finds its turn
		cost = s.limits.Requests
	}
	_, why := s.turnsOf(key, now).wait(cost, now)
	return why
}

func (s *Shares) turnsOf(key access.Key, now time.Duration) *turns {
	it, ok := s.turns[key]
	if !ok {
		s.forgetTurns(now)
		it = &turns{rate: s.limits.Requests}
		s.turns[key] = it
	}
	return it
}

// forgetTurns drops peers that may have as many requests at once as new ones.
func (s *Shares) forgetTurns(now time.Duration) {
	if len(s.turns) <= 2*len(s.open)+64 {
		return
	}
	for key, it := range s.turns {
		if it.due <= now {
			delete(s.turns, key)
		}
	}
}

// turns is when the next request of a peer has its turn: a number of them in a second, and as many at
// once after a second without any.
type turns struct {
	rate int
	due  time.Duration // by when what was taken has had its time
}

// wait takes a turn, and is how long that is to wait. If that is too long, no turn is taken.
func (t *turns) wait(cost int, now time.Duration) (time.Duration, string) {
	due := t.due
	if due < now {
		due = now
	}
	wait := due - now - burst
	if wait < 0 {
		wait = 0
	}
	if wait > patience {
		return 0, "TooManyRequests"
	}
	t.due = due + t.cost(cost)
	return wait, ""
}

// charge counts what was done already.
func (t *turns) charge(cost int, now time.Duration) {
	if t.due < now {
		t.due = now
	}
	t.due += t.cost(cost)
}

func (t *turns) cost(of int) time.Duration {
	return time.Duration(of) * time.Second / time.Duration(t.rate)
}

// sessions are the clients of a peer with a session, from the one that was used least lately on.
type sessions struct {
	order list.List // of session
	of    map[frames.Client]*list.Element
}

type session struct {
	client frames.Client
	used   time.Duration
}

// Register takes a client that registers. It returns the name of why not, or nothing.
func (s *Shares) Register(key access.Key, client frames.Client) string {
	if s.limits.Sessions == 0 {
		return ""
	}
	s.mu.Lock()
	defer s.mu.Unlock()
	now, used := s.now(), s.sessionsOf(key)
	for first := used.order.Front(); first != nil; first = used.order.Front() {
		it := first.Value.(session)
		if it.used > now-s.limits.Idle {
			break
		}
		used.order.Remove(first)
		delete(used.of, it.client)
	}
	if _, ok := used.of[client]; !ok && len(used.of) >= s.limits.Sessions {
		return "TooManySessions"
	}
	used.use(client, now)
	return ""
}

// Use counts that a client of a peer has used its session.
func (s *Shares) Use(key access.Key, client frames.Client) {
	if s.limits.Sessions == 0 {
		return
	}
	s.mu.Lock()
	defer s.mu.Unlock()
	s.sessionsOf(key).use(client, s.now())
}

func (s *Shares) sessionsOf(key access.Key) *sessions {
	it, ok := s.used[key]
	if !ok {
		it = &sessions{of: map[frames.Client]*list.Element{}}
		s.used[key] = it
	}
	return it
}

func (s *sessions) use(client frames.Client, now time.Duration) {
	if element, ok := s.of[client]; ok {
		element.Value = session{client, now}
		s.order.MoveToBack(element)
		return
	}
	s.of[client] = s.order.PushBack(session{client, now})
}
