package tbclient

import (
	"context"
	"errors"
	"fmt"
	"strings"
)

// kind is an error that others are compared with by errors.Is. It may be of a wider kind.
type kind struct {
	text  string
	wider error
}

func (k *kind) Error() string { return k.text }

func (k *kind) Unwrap() error { return k.wider }

// The kinds of errors, for errors.Is.
var (
	// ErrNotSent is the base of each error of a call that sent nothing.
	ErrNotSent error = &kind{text: "nothing was sent"}
	// ErrInvalid says that a value may not be there. See [InvalidError]. Nothing was sent.
	ErrInvalid error = &kind{"invalid value", ErrNotSent}
	// ErrInDoubt says that the last request has no reply yet: Retry it before another one is made,
	// or after an eviction register again. Nothing was sent.
	ErrInDoubt error = &kind{"the last request is in doubt", ErrNotSent}
	// ErrNothingInDoubt says that there is no request to be sent again.
	ErrNothingInDoubt error = &kind{"no request is in doubt", ErrNotSent}
	// ErrClosed says that the transport was closed, and stays so. Nothing was sent.
	ErrClosed error = &kind{"the transport was closed", ErrNotSent}
	// ErrCannotConnect says that no address could be connected to in time, or that TLS was not agreed
	// on. Nothing was sent.
	ErrCannotConnect error = &kind{"cannot connect", ErrNotSent}

	// ErrCannotStart says that tbd is not found, or does not start. Nothing was sent.
	ErrCannotStart error = &kind{"the program cannot start", ErrNotSent}
	// ErrClockJumped says that the ledger's last time is far ahead of this computer's clock. Nothing
	// was sent.
	ErrClockJumped error = &kind{"the clock has jumped", ErrNotSent}

	// ErrProgramEnded says that tbd ended by a fault. See [ProgramError].
	ErrProgramEnded error = &kind{text: "the program ended"}
	// ErrLocked is an ErrProgramEnded: the file is open in another process.
	ErrLocked error = &kind{"the file is locked", ErrProgramEnded}
	// ErrCancelled says that the caller's context ended the call. See [CancelledError].
	ErrCancelled error = &kind{text: "cancelled"}
	// ErrReplyLost says that no reply came: the request may have been executed or not. See
	// [LostError].
	ErrReplyLost error = &kind{text: "no reply came"}
	// ErrBusy is an ErrReplyLost: the server has too many connections, or this peer has its share,
	// and the server did not take the request.
	ErrBusy error = &kind{"the server is busy", ErrReplyLost}
	// ErrBadReply says that what came is no reply to the request that was sent: the server is not a
	// ledger server, or broken. What the request did is unknown.
	ErrBadReply error = &kind{text: "bad reply"}
	// ErrRefused says that the server refused the request now. See [RefusedError].
	ErrRefused error = &kind{text: "refused"}
	// ErrEvicted is an ErrRefused: the session has ended, and refuses its requests forever. The last
	// one may have been executed before that.
	ErrEvicted error = &kind{"the session has ended", ErrRefused}
	// ErrEventsFailed says that events of a batch were not accepted. See [EventsFailedError].
	ErrEventsFailed error = &kind{text: "events failed"}
)

// InvalidError is a value that is not allowed in its place. It is an ErrInvalid.
type InvalidError struct {
	Field   string // what holds it, as "transfers" or "saved.number"
	Problem string
}

func (i *InvalidError) Error() string { return i.Field + " " + i.Problem }

func (i *InvalidError) Unwrap() error { return ErrInvalid }

func invalid(field, format string, values ...any) error {
	return &InvalidError{Field: field, Problem: fmt.Sprintf(format, values...)}
}

// testContext refuses a context that is nil: its first use would panic, perhaps amid a request.
func testContext(ctx context.Context) error {
	if ctx == nil {
		return invalid("context", "is nil: context.Background is one that does not end")
	}
	return nil
}

// LostError is an ErrReplyLost, and an ErrBusy if the server told Busy, TooManyConnections,
// TooManySessions or TooManyRequests. The request stays in doubt: Retry sends the same bytes again.
type LostError struct {
	Told string // the name that the server told before it closed the connection, or ""
	Err  error  // what went wrong
}

func (l *LostError) Error() string { return fmt.Sprintf("%v: %v", l.Unwrap(), l.Err) }

// Unwrap is the kind. The cause is no part of the chain: one that says that nothing was sent is of
// only the last sending.
func (l *LostError) Unwrap() error {
	if toldLater[l.Told] {
		return ErrBusy
	}
	return ErrReplyLost
}

// RefusedError is a request that the server refused, and an ErrRefused. Nothing was changed now; the
// request may have been executed by an earlier sending, so it stays in doubt. If the session has
// ended (NoSession, SessionTooLow) it is an ErrEvicted too.
type RefusedError struct {
	Status  Status
	Session uint64
	Number  uint32
}

func (r *RefusedError) Error() string {
	return fmt.Sprintf("request %d of session %d is refused: %v", r.Number, r.Session, r.Status)
}

func (r *RefusedError) Unwrap() error {
	if isEviction(r.Status) {
		return ErrEvicted
	}
	return ErrRefused
}

func isEviction(status Status) bool {
	return status == StatusNoSession || status == StatusSessionTooLow
}

// CancelledError is a call that the caller's context ended. It is an ErrCancelled, what the context
// says (context.Canceled or context.DeadlineExceeded), and an ErrNotSent if Sent is false. If
// Sent is true the request is in doubt.
type CancelledError struct {
	Sent  bool  // whether this call may have sent the request
	Err   error // what the context says
	Cause error // of a [Client]: why no reply came so far, or nil
}

func (c *CancelledError) Error() string {
	if c.Cause != nil {
		return fmt.Sprintf("%v: %v, after %v", ErrCancelled, c.Err, c.Cause)
	}
	return fmt.Sprintf("%v: %v", ErrCancelled, c.Err)
}

func (c *CancelledError) Unwrap() error { return c.Err }

// Is reports whether the error is of a kind.
func (c *CancelledError) Is(target error) bool {
	return target == ErrCancelled || target == ErrNotSent && !c.Sent
}

// connectError is an ErrCannotConnect.
type connectError struct {
	cause   error
	isFinal bool // one side does not trust the other, at each address
}

func (c *connectError) Error() string { return fmt.Sprintf("%v: %v", ErrCannotConnect, c.cause) }

func (c *connectError) Unwrap() error { return ErrCannotConnect }

// ProgramError is the fault by which tbd ended. It is an ErrProgramEnded, and an ErrLocked if the file
// is open in another process. A request that was in flight may have been executed.
type ProgramError struct {
	Fault  string // its line, as "Full: .."
	Status int    // its exit status
	Owner  int    // the process that has the file open, or 0 if it is not known
}

func (p *ProgramError) Error() string {
	fault := p.Fault
	if fault == "" {
		fault = ErrProgramEnded.Error()
	}
	if p.Owner != 0 {
		return fmt.Sprintf("%s (status %d): process %d", fault, p.Status, p.Owner)
	}
	return fmt.Sprintf("%s (status %d)", fault, p.Status)
}

// Name is the fault's name, as Full, or "".
func (p *ProgramError) Name() string {
	name, _, _ := strings.Cut(p.Fault, ":")
	return name
}

func (p *ProgramError) Unwrap() error {
	if p.Name() == "Locked" {
		return ErrLocked
	}
	return ErrProgramEnded
}

// FailedEvent is an event of a batch that was not accepted.
type FailedEvent struct {
	Index  uint32
	Result fmt.Stringer // a CreateAccountResult or a CreateTransferResult
}

// EventsFailedError has the events of a batch that were not accepted. It is an ErrEventsFailed. The
// request has its reply: nothing is in doubt.
type EventsFailedError struct {
	Events []FailedEvent
}

const eventsShown = 10

func (e *EventsFailedError) Error() string {
	var shown []string
	for place, event := range e.Events {
		if place == eventsShown {
			shown = append(shown, fmt.Sprintf("and %d more", len(e.Events)-place))
			break
		}
		shown = append(shown, fmt.Sprintf("event %d: %v", event.Index, event.Result))
	}
	return strings.Join(shown, ", ")
}

func (e *EventsFailedError) Unwrap() error { return ErrEventsFailed }

// badReply is an ErrBadReply with these words.
func badReply(format string, values ...any) error {
	return fmt.Errorf("%w: %s", ErrBadReply, fmt.Sprintf(format, values...))
}

// mayBeSent reports whether a call that ended in this error may have sent its request.
func mayBeSent(err error) bool {
	return !errors.Is(err, ErrNotSent)
}
