package tbclient

import (
	"context"
	"errors"
	"fmt"
	"sync"
	"time"
)

const (
	// DefaultAttempts is how often a call sends its request, if no reply comes.
	DefaultAttempts = 5
	// DefaultPause is how long a session waits if the server said to come later.
	DefaultPause = 50 * time.Millisecond

	attemptsMax = 1<<31 - 1
	pauseMax    = time.Second // beyond which a pause is doubled no more
)

// SessionOption changes how a [Session] works.
type SessionOption func(*Session) error

// WithClient sets the client's id, which no other client has, and is not 0. Without it the client
// has a new id. A session that is resumed or loaded has the id that was saved.
func WithClient(id Uint128) SessionOption {
	return func(s *Session) error {
		if id.IsZero() {
			return invalid("client", "must not be 0")
		}
		if !s.client.IsZero() && s.client != id {
			return invalid("client", "must be that of the saved session, %v", s.client)
		}
		s.client = id
		return nil
	}
}

// WithAttempts sets how often a call sends its request, if no reply comes: DefaultAttempts if
// it is not given.
func WithAttempts(attempts int) SessionOption {
	return func(s *Session) error {
		if attempts < 1 || attempts > attemptsMax {
			return invalid("attempts", "must be 1 to 2^31 - 1, not %d", attempts)
		}
		s.attempts = attempts
		return nil
	}
}

// WithPause sets how long a session waits before it sends again if the server said to come later
// (Busy, NotYet). Each further pause of a call is twice as long, up to a second, or to this one if
// that is longer. It is DefaultPause if it is not given, and 0 is no pause.
func WithPause(pause time.Duration) SessionOption {
	return func(s *Session) error {
		if pause < 0 {
			return invalid("pause", "must be 0 at least, not %v", pause)
		}
		s.pause = pause
		return nil
	}
}

// Session is the session of a client: it numbers its requests, has one in flight at a time, and keeps
// the bytes of a request until its reply is there. Goroutines may share it: their calls go one after
// another.
type Session struct {
	transport Transport
	client    Uint128
	attempts  int
	pause     time.Duration

	turn   chan struct{} // holds a value while a call sends
	saving sync.Mutex    // so that no older state is saved over a newer one

	mu      sync.Mutex // of what follows
	session uint64
	number  uint32 // of the last request that was answered
	pending []byte // the frame in doubt, or nil. Its bytes never change
	refusal Status // how it was refused last, or StatusReply
}

// NewSession is a session that is not registered. It sends nothing: Prepare a [Registration], Save,
// and Retry. [Register] does it in one call.
func NewSession(transport Transport, options ...SessionOption) (*Session, error) {
	s, err := newSession(transport, Saved{}, options)
	if err == nil && s.client.IsZero() {
		s.client = ID()
	}
	return s, err
}

// Register registers a client, and returns its new session.
func Register(ctx context.Context, transport Transport, options ...SessionOption) (*Session, error) {
	s, err := NewSession(transport, options...)
	if err != nil {
		return nil, err
	}
	if _, err := s.ask(ctx, Registration{}); err != nil {
		return nil, err
	}
	return s, nil
}

// Resume is the session as it was when Saved was taken. If a request was in doubt, Retry it first.
func Resume(transport Transport, saved Saved, options ...SessionOption) (*Session, error) {
	if err := saved.test(); err != nil {
		return nil, err
	}
	return newSession(transport, saved, options)
}

// Load is the session that Save kept in a file. If a request was in doubt, Retry it first. A file
// that has no session is an [InvalidError]; one that is not there, or may not be read, is what the
// package os says.
func Load(transport Transport, path string, options ...SessionOption) (*Session, error) {
	saved, err := readSaved(path)
	if err != nil {
		return nil, err
	}
	return Resume(transport, saved, options...)
}

func newSession(transport Transport, saved Saved, options []SessionOption) (*Session, error) {
	if transport == nil {
		return nil, invalid("transport", "must not be nil")
	}
	s := &Session{
		transport: transport,
		client:    saved.Client,
		attempts:  DefaultAttempts,
		pause:     DefaultPause,
		turn:      make(chan struct{}, 1),
		session:   saved.Session,
		number:    saved.Number,
		pending:   append([]byte(nil), saved.Pending...), // nil if there are none
	}
	for _, option := range options {
		if err := option(s); err != nil {
			return nil, err
		}
	}
	return s, nil
}

// testMade refuses the zero value, whose calls would wait forever.
func (s *Session) testMade() error {
	if s.transport == nil {
		return invalid("session", "is none: NewSession, Register, Resume and Load make one")
	}
	return nil
}

// Client is the client's id.
func (s *Session) Client() Uint128 { return s.client }

// Saved is what outlives the client. Keep it between Prepare and Retry, and again after Retry.
func (s *Session) Saved() Saved {
	s.mu.Lock()
	defer s.mu.Unlock()
	pending := append([]byte(nil), s.pending...)
	return Saved{Client: s.client, Session: s.session, Number: s.number, Pending: pending}
}

// Save keeps Saved in a file, whole: after a crash the file has it as it is now or as it was before.
// If Save fails, the file is as it was before, or as it is now if only its folder could not be
// synced.
func (s *Session) Save(path string) error {
	if err := s.testMade(); err != nil {
		return err
	}
	if err := testPath(path); err != nil {
		return err
	}
	s.saving.Lock()
	defer s.saving.Unlock()
	data, err := s.Saved().MarshalJSON()
	if err != nil {
		return err
	}
	return writeWhole(path, data)
}

// InDoubt is the request that has no reply yet, and whether there is one. It is kept over refusals,
// because it may have been executed before: after an eviction create its records again, with the
// same ids, in a new session.
func (s *Session) InDoubt() (Asked, bool) {
	s.mu.Lock()
	pending := s.pending
	s.mu.Unlock()
	if pending == nil {
		return Asked{}, false
	}
	asked, err := decodeRequest(pending)
	return asked, err == nil
}

// CreateAccounts creates accounts, and returns those that were not created. It is Prepare and Retry
// in one call: if the ids are kept nowhere else, use those and Save.
func (s *Session) CreateAccounts(ctx context.Context, accounts []Account) (AccountResults, error) {
	answer, err := s.ask(ctx, CreateAccounts(accounts))
	return answer.AccountResults, err
}

// CreateTransfers makes transfers, and returns those that were not made. It is Prepare and Retry in
// one call: if the ids are kept nowhere else, use those and Save.
func (s *Session) CreateTransfers(ctx context.Context, transfers []Transfer) (TransferResults, error) {
	answer, err := s.ask(ctx, CreateTransfers(transfers))
	return answer.TransferResults, err
}

// LookupAccounts returns the accounts with these ids that exist, in the order of the ids. It takes a
// number: if the session is kept in a file, use Prepare, Save, Retry and Save.
func (s *Session) LookupAccounts(ctx context.Context, ids []Uint128) ([]Account, error) {
	answer, err := s.ask(ctx, LookupAccounts(ids))
	return answer.Accounts, err
}

// LookupTransfers returns the transfers with these ids that exist, in the order of the ids. It takes
// a number: if the session is kept in a file, use Prepare, Save, Retry and Save.
func (s *Session) LookupTransfers(ctx context.Context, ids []Uint128) ([]Transfer, error) {
	answer, err := s.ask(ctx, LookupTransfers(ids))
	return answer.Transfers, err
}

// ask prepares a request and sends it. If nothing was sent, it is as if it had not been called.
func (s *Session) ask(ctx context.Context, request Request) (Answer, error) {
	if err := s.begin(ctx); err != nil {
		return Answer{}, err
	}
	defer s.end()
	if err := s.Prepare(request); err != nil {
		return Answer{}, err
	}
	answer, err := s.send(ctx)
	if err != nil && !mayBeSent(err) {
		s.mu.Lock()
		s.pending = nil
		s.mu.Unlock()
	}
	return answer, err
}

// begin waits until no other call sends.
func (s *Session) begin(ctx context.Context) error {
	if err := s.testMade(); err != nil {
		return err
	}
	if err := testContext(ctx); err != nil {
		return err
	}
	select {
	case s.turn <- struct{}{}:
		return nil
	case <-ctx.Done():
		return &CancelledError{Err: ctx.Err()}
	}
}

func (s *Session) end() { <-s.turn }

// Prepare makes the next request, which is in doubt from then on, and sends nothing: Save, then
// Retry. Values that may not be there are an [InvalidError]; while another request is in doubt
// it is an ErrInDoubt.
func (s *Session) Prepare(request Request) error {
	if err := s.testMade(); err != nil {
		return err
	}
	if request == nil {
		return invalid("operation", "must be that of a request, not nil")
	}
	s.mu.Lock()
	defer s.mu.Unlock()
	if s.pending != nil {
		return s.doubt()
	}
	number := s.number + 1
	switch isRegister := request.Operation() == OperationRegister; {
	case isRegister && s.session != 0:
		return invalid("session", "is %d: it is registered already", s.session)
	case isRegister:
		number = 0
	case s.session == 0:
		return invalid("session", "is 0: register first")
	case s.number == numberMax:
		return invalid("number", "is 2^32 - 1, the last one: register a new client")
	}
	frame, err := encodeRequest(s.client, s.session, number, request)
	if err != nil {
		return err
	}
	s.pending, s.refusal = frame, StatusReply
	return nil
}

// doubt is an ErrInDoubt that says what to do.
func (s *Session) doubt() error {
	switch {
	case s.refusal == StatusReply:
		return fmt.Errorf("%w: Retry it", ErrInDoubt)
	case isEviction(s.refusal):
		return fmt.Errorf("%w, and the session has ended (%v): register a new client, and see InDoubt", ErrInDoubt, s.refusal)
	}
	return fmt.Errorf("%w, and was refused (%v): see InDoubt", ErrInDoubt, s.refusal)
}

// Retry sends the request in doubt, the same bytes each time, until its reply is there, as often as
// the session's attempts. It returns what the reply says. Whatever the error is, the request stays
// in doubt; with nothing in doubt it is an ErrNothingInDoubt.
func (s *Session) Retry(ctx context.Context) (Answer, error) {
	if err := s.begin(ctx); err != nil {
		return Answer{}, err
	}
	defer s.end()
	return s.send(ctx)
}

// send sends the request in doubt, up to `attempts` times. The caller has the turn.
func (s *Session) send(ctx context.Context) (Answer, error) {
	s.mu.Lock()
	frame := s.pending
	s.mu.Unlock()
	if frame == nil {
		return Answer{}, ErrNothingInDoubt
	}
	var last error // what became of the sending before
	pause := s.pause
	for attempt := 1; ; attempt++ {
		answer, err := s.exchange(ctx, frame)
		if err != nil && last != nil && !mayBeSent(err) {
			return Answer{}, notAgain(last, err)
		}
		if err == nil || attempt == s.attempts || !isLost(err) && !isLater(err) {
			return answer, err
		}
		last = err
		if !isLater(err) {
			continue
		}
		if !sleep(ctx, pause) {
			return Answer{}, &CancelledError{Sent: true, Err: ctx.Err()}
		}
		pause = doubled(pause, longest(s.pause, pauseMax))
	}
}

func longest(one, other time.Duration) time.Duration {
	if one > other {
		return one
	}
	return other
}

// isLater reports whether the server said to come later.
func isLater(err error) bool {
	var refused *RefusedError
	return errors.Is(err, ErrBusy) || errors.As(err, &refused) && refused.Status == StatusNotYet
}

func isLost(err error) bool {
	return errors.Is(err, ErrReplyLost)
}

// notAgain is the error of a call whose first sending had no reply, and whose next one sent nothing:
// the request may have been executed.
func notAgain(last, err error) error {
	var cancelled *CancelledError
	if errors.As(err, &cancelled) {
		return &CancelledError{Sent: true, Err: cancelled.Err}
	}
	return &LostError{Err: fmt.Errorf("%v; it was not sent again: %v", last, err)}
}

// exchange sends the frame once, and takes its reply.
func (s *Session) exchange(ctx context.Context, frame []byte) (Answer, error) {
	if err := ctx.Err(); err != nil {
		return Answer{}, &CancelledError{Err: err}
	}
	reply, err := s.transport.Exchange(ctx, frame)
	if err != nil {
		return Answer{}, err
	}
	header, answer, err := decodeReply(reply, frame)
	if err != nil {
		return Answer{}, err
	}
	return s.take(header, answer)
}

// take takes the reply to the request in doubt, which is in doubt no longer. A refusal leaves it in
// doubt, because it may have been executed before.
func (s *Session) take(header replyHeader, answer Answer) (Answer, error) {
	s.mu.Lock()
	defer s.mu.Unlock()
	if header.status != StatusReply {
		s.refusal = header.status
		return Answer{}, &RefusedError{Status: header.status, Session: header.session, Number: header.number}
	}
	s.session, s.number, s.pending = header.session, header.number, nil
	return answer, nil
}

// Close closes the transport. A request in doubt stays so.
func (s *Session) Close() error {
	if s.transport == nil {
		return nil
	}
	return s.transport.Close()
}
