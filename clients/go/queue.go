package tbclient

import (
	"fmt"
	"sync"
)

// call is what one caller asks for: its list as bytes, and the answer.
type call struct {
	operation Operation
	body      []byte
	count     int

	done   chan struct{} // closed when what follows is there
	answer Answer
	err    error

	isSent bool // of which the queue's lock is needed, as of isLeft
	isLeft bool // the caller waits no longer
}

// newCall encodes the list, so that the caller may change it afterwards.
func newCall(request Request) (*call, error) {
	count, operation := request.count(), request.Operation()
	if count > ItemsMax {
		return nil, invalid(request.named(), "must be at most %d, not %d", ItemsMax, count)
	}
	body := make([]byte, count*requestItemSize[operation])
	request.encode(body)
	return &call{operation: operation, body: body, count: count, done: make(chan struct{})}, nil
}

// isOpen reports whether the list ends in a chain that the next event would be joined to.
func (c *call) isOpen() bool {
	return isCreate(c.operation) && c.count > 0 && isLinked(c.body, c.count-1)
}

// queue has the calls that wait, in their order, and the workers that answer them.
type queue struct {
	mu      sync.Mutex // of what follows
	changed *sync.Cond
	waiting []*call
	workers []*worker
	idle    int
	isEnded bool

	closed  chan struct{} // closed when isEnded is set
	running sync.WaitGroup
}

func newQueue() *queue {
	q := &queue{closed: make(chan struct{})}
	q.changed = sync.NewCond(&q.mu)
	return q
}

// add puts a call at the end. If no worker is free, grow may start one.
func (q *queue) add(made *call, grow func() error) error {
	q.mu.Lock()
	defer q.mu.Unlock()
	if q.isEnded {
		return fmt.Errorf("%w: this Client", ErrClosed)
	}
	if q.idle <= len(q.waiting) {
		if err := grow(); err != nil && len(q.workers) == 0 {
			return err
		}
	}
	q.waiting = append(q.waiting, made)
	q.changed.Signal()
	return nil
}

// leave is the answer of a call whose context ended, or an error that says whether it may be sent.
func (q *queue) leave(made *call, why error) (Answer, error) {
	q.mu.Lock()
	defer q.mu.Unlock()
	select {
	case <-made.done: // at that moment
		return made.answer, made.err
	default:
	}
	made.isLeft = true
	for at, c := range q.waiting {
		if c == made {
			q.waiting = append(q.waiting[:at:at], q.waiting[at+1:]...)
			break
		}
	}
	return Answer{}, &CancelledError{Sent: made.isSent, Err: why, Cause: q.trouble()}
}

// trouble is why a worker has had no reply of late. The queue is locked.
func (q *queue) trouble() error {
	for _, w := range q.workers {
		if w.trouble != nil {
			return w.trouble
		}
	}
	return nil
}

// note keeps why a worker has no reply, or nil.
func (q *queue) note(w *worker, why error) {
	q.mu.Lock()
	defer q.mu.Unlock()
	w.trouble = why
}

// wait waits until there is a call, and reports whether the client goes on.
func (q *queue) wait() bool {
	q.mu.Lock()
	defer q.mu.Unlock()
	q.idle++
	for len(q.waiting) == 0 && !q.isEnded {
		q.changed.Wait()
	}
	q.idle--
	return !q.isEnded
}

// take is the next calls that one request can hold. A list is never cut, and no call is joined to
// one that ends in an open chain.
func (q *queue) take() []*call {
	q.mu.Lock()
	defer q.mu.Unlock()
	var batch []*call
	count := 0
	for len(q.waiting) > 0 {
		next := q.waiting[0]
		if len(batch) > 0 && !mayJoin(batch[len(batch)-1], next, count) {
			break
		}
		q.waiting[0] = nil
		q.waiting = q.waiting[1:]
		next.isSent = true // before it is: who leaves from now on is told so
		batch = append(batch, next)
		count += next.count
	}
	return batch
}

// mayJoin reports whether a call may follow another in a request that has this many items.
func mayJoin(last, next *call, count int) bool {
	return next.operation == last.operation && count+next.count <= ItemsMax && !last.isOpen()
}

// giveBack puts calls back of which nothing was sent, first in the queue.
func (q *queue) giveBack(batch []*call) {
	q.mu.Lock()
	defer q.mu.Unlock()
	var kept []*call
	for _, c := range batch {
		if c.isSent = false; !c.isLeft {
			kept = append(kept, c)
		}
	}
	q.waiting = append(kept, q.waiting...)
	if q.isEnded {
		q.dropWaiting()
	}
}

// finish gives calls their answers, or all of them an error.
func (q *queue) finish(batch []*call, answers []Answer, err error) {
	q.mu.Lock()
	defer q.mu.Unlock()
	for at, c := range batch {
		if err == nil {
			c.answer = answers[at]
		}
		c.err = err
		close(c.done)
	}
}

// dropWaiting ends the calls of which nothing was sent. The queue is locked.
func (q *queue) dropWaiting() {
	for _, c := range q.waiting {
		c.err = fmt.Errorf("%w: nothing of this call was sent", ErrClosed)
		close(c.done)
	}
	q.waiting = nil
}

// close ends the queue, and waits for its workers.
func (q *queue) close() {
	q.mu.Lock()
	if !q.isEnded {
		q.isEnded = true
		close(q.closed)
		q.dropWaiting()
		q.changed.Broadcast()
	}
	workers := q.workers
	q.mu.Unlock()
	for _, w := range workers {
		w.socket.connectNoMore()
	}
	q.running.Wait()
}
