package tbclient

import (
	"context"
	"errors"
	"fmt"
	"time"
)

// worker serves calls over a session of its own, which it registers when it needs one.
type worker struct {
	queue   *queue
	socket  carrier
	newID   func() Uint128
	session *Session
	absence patience // with a server that is not there

	trouble error // why no reply came of late. The queue's lock is needed for it
}

// carrier is the transport of a worker.
type carrier interface {
	Transport
	// connectNoMore makes each later connecting an ErrClosed.
	connectNoMore()
}

// patience is the time before each next sending. A first lost reply is followed at once.
type patience struct {
	pause   time.Duration
	isBegun bool
}

func (p *patience) next(why error) time.Duration {
	isAtOnce := !p.isBegun && !isLater(why)
	p.isBegun = true
	if isAtOnce {
		return 0
	}
	if p.pause == 0 {
		p.pause = DefaultPause
		return p.pause
	}
	p.pause = doubled(p.pause, pauseMax)
	return p.pause
}

func (w *worker) run() {
	defer w.queue.running.Done()
	defer w.socket.Close()
	for w.queue.wait() {
		if _, err := w.registered(); err == nil {
			w.serve(w.queue.take())
		} else if mayCome(err) {
			w.rest(w.absence.next(err), err)
		} else {
			w.session = nil
			w.queue.finish(w.queue.take(), nil, err)
		}
	}
}

// serve gives some calls their answers by one request.
func (w *worker) serve(batch []*call) {
	if len(batch) == 0 {
		return // another worker took them
	}
	asked := joint{operation: batch[0].operation}
	for _, one := range batch {
		asked.bodies = append(asked.bodies, one.body)
	}
	answer, isDoubtful, err := w.ask(asked, false)
	if err == nil && isDoubtful {
		answer, err = asked.settled(answer, w.lookUp)
	}
	switch {
	case err == nil:
		w.absence = patience{}
		w.queue.note(w, nil)
		w.queue.finish(batch, asked.split(answer), nil)
	case mayCome(err):
		w.leaveIfInDoubt()
		w.queue.giveBack(batch)
		w.rest(w.absence.next(err), err)
	default:
		w.leaveIfInDoubt()
		w.queue.finish(batch, nil, err)
	}
}

// leaveIfInDoubt gives a session up whose request would be sent in place of the next one.
func (w *worker) leaveIfInDoubt() {
	if w.session != nil && w.session.session != 0 && w.session.pending != nil {
		w.session = nil
	}
}

func (w *worker) lookUp(asked joint) (Answer, error) {
	answer, _, err := w.ask(asked, true)
	return answer, err
}

// ask is what the reply to a request says, and whether the request may have been executed before, in
// a session that has ended. An ErrNotSent says that it was never executed.
func (w *worker) ask(asked joint, isDoubtful bool) (Answer, bool, error) {
	var waits patience
	for isGone := false; ; { // whether a sending in this session may have been executed
		answer, err := w.once(asked)
		if err == nil {
			return answer, isDoubtful, nil
		}
		isOpen, pause := isGone || isDoubtful, &waits
		switch {
		case !mayBeSent(err) && !isOpen, isForbidden(err):
			return Answer{}, false, err
		case !mayBeSent(err) && !mayCome(err):
			return Answer{}, false, notAgain(ErrReplyLost, err)
		case !mayBeSent(err):
			pause = &w.absence
		case errors.Is(err, ErrEvicted):
			isDoubtful, isGone = isOpen, false
			w.session = nil
		case isLost(err):
			isGone = isGone || !errors.Is(err, ErrBusy)
		case !isLater(err):
			return Answer{}, false, err
		}
		if !w.rest(pause.next(err), err) {
			return Answer{}, false, &LostError{Err: fmt.Errorf("the Client was closed, after %v", err)}
		}
	}
}

// once sends a request once, or again if it is in doubt.
func (w *worker) once(asked joint) (Answer, error) {
	session, err := w.registered()
	if err != nil {
		return Answer{}, err
	}
	if session.pending == nil {
		return session.ask(context.Background(), asked)
	}
	return session.Retry(context.Background())
}

// registered is the session, registered.
func (w *worker) registered() (*Session, error) {
	if s := w.session; s != nil && s.number == numberMax && s.pending == nil {
		w.session = nil // it has no next number
	}
	if w.session == nil {
		session, err := NewSession(w.socket, WithClient(w.newID()), WithAttempts(1))
		if err == nil {
			err = session.Prepare(Registration{})
		}
		if err != nil {
			return nil, err
		}
		w.session = session
	}
	var waits patience
	for w.session.session == 0 {
		_, err := w.session.Retry(context.Background())
		switch {
		case err == nil:
		case isForbidden(err) || !isLost(err) && !isLater(err):
			return nil, err
		case !w.rest(waits.next(err), err):
			return nil, fmt.Errorf("%w: nothing of this call was sent", ErrClosed)
		}
	}
	return w.session, nil
}

// rest waits before the next sending, and reports whether the client goes on.
func (w *worker) rest(pause time.Duration, why error) bool {
	w.queue.note(w, why)
	timer := time.NewTimer(pause)
	defer timer.Stop()
	select {
	case <-w.queue.closed:
		return false
	case <-timer.C:
		return true
	}
}

// mayCome reports whether a server is not there, and may be later.
func mayCome(err error) bool {
	var fault *connectError
	return errors.As(err, &fault) && !fault.isFinal
}

// isForbidden reports whether the server does not let this client in.
func isForbidden(err error) bool {
	var lost *LostError
	return errors.As(err, &lost) && (lost.Told == toldNotAllowed || lost.Told == toldClientNotAllowed)
}
