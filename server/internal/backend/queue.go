package backend

import (
	"container/heap"
	"runtime"
	"sync"
	"time"

	"telovamish.org/server/internal/frames"
	"telovamish.org/server/internal/moments"
	"telovamish.org/server/internal/report"
)

const (
	// window is how many bytes of requests and their longest replies may be under way before requests
	// wait: with less than that, one more request goes. So the server has a long request next to the one
	// that it executes, and a request that comes waits for no more.
	window     = 1<<20 + 3<<16
	momentSize = 8           // bytes of a moment
	patience   = time.Second // that a request waits for a server that is started again

	programEnded = "ProgramEnded"
	starting     = "Starting"
)

// queue has the requests on their way: those that wait for room, and those that were passed on and
// wait for their replies, which come in the same order.
//
// Connections take turns for room by what their requests cost: their bytes, and those of the longest
// replies. Each request is due when its connection would have sent it, were all that send at a time
// equally fast, and the one that is due first goes first: so a short request goes before long ones, and
// one that sends more waits longer. The requests of a peer that has several waiting are due later by as
// much.
type queue struct {
	keeps bool // the server is started again, and a request waits no longer than patience for that

	mu      sync.Mutex
	moments *moments.Moments
	pipe    *outgoing // of the server's process, if there is one
	isReady bool      // it takes requests
	isOver  bool
	endedAs string
	away    time.Time // since when no server takes requests

	waiting byTurn
	came    uint64 // how many have waited
	now     uint64 // when the last request that was passed on would have begun, in bytes

	asked    ring
	inFlight int // bytes of requests that were passed on and not answered, and of their longest replies

	next, spare *group // what is to be written
	left        *group // what the pipe did not take
	moment      uint64 // of next
	isWriting   bool   // someone writes, or the goroutine of writeMore will
	isClosing   bool
	more        chan struct{} // wakes that goroutine
}

func newQueue(keeps bool) *queue {
	q := &queue{
		keeps:   keeps,
		endedAs: programEnded,
		away:    time.Now(),
		next:    &group{},
		more:    make(chan struct{}, 1),
	}
	go q.writeMore()
	return q
}

// submit takes a request.
func (q *queue) submit(r *Request) {
	header := frames.Header(r.Frame)
	r.asker, r.size = header.Asker(), momentSize+r.Size()
	r.cost = r.size + header.ReplyMax()
	q.mu.Lock()
	if why := q.refuses(); why != "" {
		q.mu.Unlock()
		r.Free()
		r.From.Answered(nil, why)
		return
	}
	if len(q.waiting) > 0 || !q.hasRoom() {
		r.Peer.waiting++
		r.start = later(q.now, r.finish)
		r.finish = r.start + uint64(r.cost)*uint64(r.Peer.waiting)
		q.came++
		r.came = q.came
		r.held = append(r.held[:0], r.Frame...) // its connection reads on where it lies
		r.Frame = r.held
		heap.Push(&q.waiting, r)
		q.mu.Unlock()
		return
	}
	r.start = later(q.now, r.finish)
	r.finish = r.start + uint64(r.cost)
	isFirst := q.asked.count == 0
	q.passOn(r)
	if !q.isWriting {
		q.isWriting = true
		q.write(isFirst)
	}
	q.mu.Unlock()
}

// refuses is the name of why no request is taken, or nothing.
func (q *queue) refuses() string {
	if q.isOver {
		return q.endedAs
	}
	if q.keeps && !q.isReady && time.Since(q.away) >= patience {
		return starting
	}
	return ""
}

func (q *queue) hasRoom() bool {
	return q.isReady && q.pipe != nil && !q.isClosing && q.inFlight < window
}

func later(a, b uint64) uint64 {
	if a > b {
		return a
	}
	return b
}

// passOn adds a request to those that are written next.
func (q *queue) passOn(r *Request) {
	if q.next.size == 0 {
		q.moment = q.moments.Next()
	}
	q.now = later(q.now, r.start)
	q.asked.push(r)
	q.inFlight += r.cost
	q.next.add(q.moment, r)
}

// passOnWaiting passes on those that wait, as far as there is room, and has them written.
func (q *queue) passOnWaiting() {
	for len(q.waiting) > 0 && q.hasRoom() {
		r := heap.Pop(&q.waiting).(*Request)
		r.Peer.waiting--
		q.passOn(r)
	}
	if q.next.size > 0 && !q.isWriting {
		q.isWriting = true
		q.wake()
	}
}

// cancel takes out a request that waits.
func (q *queue) cancel(r *Request) bool {
	q.mu.Lock()
	defer q.mu.Unlock()
	if r.place == 0 {
		return false
	}
	heap.Remove(&q.waiting, r.place-1)
	r.Peer.waiting--
	r.Free()
	return true
}

// write writes what is to be written, without waiting for the pipe: what that does not take is left to
// another goroutine. If the server has other requests, those that come at the same time go together.
func (q *queue) write(isFirst bool) {
	if !isFirst {
		q.mu.Unlock()
		runtime.Gosched()
		q.mu.Lock()
	}
	g, pipe := q.take(), q.pipe
	if g == nil {
		return
	}
	q.mu.Unlock()
	g.begin()
	hasLeft := pipe.try(g)
	q.mu.Lock()
	if hasLeft {
		q.putBack(g)
	} else {
		q.keepRest(g, pipe)
	}
	if q.left != nil || q.next.size > 0 {
		q.wake()
		return
	}
	q.finishWriting()
}

// writeMore writes what others left.
func (q *queue) writeMore() {
	defer report.Guard()
	for range q.more {
		q.mu.Lock()
		for q.left != nil || q.next.size > 0 {
			g, pipe := q.left, q.pipe
			if q.left = nil; g == nil {
				if g = q.take(); g == nil {
					break
				}
				g.begin()
			}
			q.mu.Unlock()
			pipe.whole(g)
			q.mu.Lock()
			q.putBack(g)
		}
		q.finishWriting()
		q.mu.Unlock()
	}
}

func (q *queue) wake() {
	select {
	case q.more <- struct{}{}:
	default:
	}
}

// take is what is to be written, or nil if that was lost with its process. What comes next goes into
// another group.
func (q *queue) take() *group {
	if q.pipe == nil || q.next.size == 0 {
		q.next.clear()
		q.isWriting = false
		return nil
	}
	g := q.next
	if q.next, q.spare = q.spare, nil; q.next == nil {
		q.next = &group{}
	}
	return g
}

// keepRest keeps what a pipe did not take. It is lost if the pipe's process has ended meanwhile: the next
// one must not get the rest of a request.
func (q *queue) keepRest(g *group, pipe *outgoing) {
	if q.pipe != pipe {
		q.putBack(g)
		return
	}
	q.left = g
}

// putBack has a group used again.
func (q *queue) putBack(g *group) {
	g.clear()
	q.spare = g
}

func (q *queue) finishWriting() {
	q.isWriting = false
	if q.isClosing && q.pipe != nil {
		q.pipe.file.Close()
	}
}

// begin has pairs written to a process.
func (q *queue) begin(pipe *outgoing, isReady, isClosed bool) {
	q.mu.Lock()
	defer q.mu.Unlock()
	q.pipe, q.isReady = pipe, isReady
	if isClosed {
		q.isClosing = true
		pipe.file.Close()
	}
	q.passOnWaiting()
}

// ready has requests passed on to the process, if it is still this one.
func (q *queue) ready(pipe *outgoing) bool {
	q.mu.Lock()
	defer q.mu.Unlock()
	if q.pipe != pipe {
		return false
	}
	q.isReady = true
	q.passOnWaiting()
	return true
}

// isServing reports whether requests are passed on.
func (q *queue) isServing() bool {
	q.mu.Lock()
	defer q.mu.Unlock()
	return q.isReady && !q.isOver
}

// close ends the server's input once all that was passed on has left.
func (q *queue) close() {
	q.mu.Lock()
	defer q.mu.Unlock()
	q.isClosing = true
	if !q.isWriting {
		q.finishWriting()
	}
}

// leave ends the pipe to a process. Requests wait for the next one from then on.
func (q *queue) leave() {
	q.mu.Lock()
	defer q.mu.Unlock()
	if q.pipe != nil {
		q.pipe.file.Close()
	}
	q.pipe, q.isReady, q.away = nil, false, time.Now()
	q.left = nil
	q.next.clear()
}

// lost answers those that were passed on to a process that has ended.
func (q *queue) lost(endedAs string) {
	q.mu.Lock()
	q.endedAs, q.away = endedAs, time.Now()
	q.inFlight = 0
	asked := q.asked.takeAll()
	q.mu.Unlock()
	answerAll(asked, endedAs)
	if q.keeps {
		time.AfterFunc(patience, q.expire)
	}
}

// expire answers those that wait for a server for too long.
func (q *queue) expire() {
	defer report.Guard()
	q.mu.Lock()
	var late []*Request
	if !q.isReady && !q.isOver && time.Since(q.away) >= patience {
		late = q.takeWaiting()
	}
	q.mu.Unlock()
	answerAll(late, starting)
}

// over answers all that wait: there is no server any more.
func (q *queue) over() {
	q.mu.Lock()
	q.isOver = true
	late, endedAs := q.takeWaiting(), q.endedAs
	q.mu.Unlock()
	answerAll(late, endedAs)
}

func (q *queue) takeWaiting() []*Request {
	late := append([]*Request(nil), q.waiting...)
	for _, r := range late {
		r.place = 0
		r.Peer.waiting--
		r.Free()
	}
	q.waiting = nil
	return late
}

func answerAll(requests []*Request, why string) {
	for _, r := range requests {
		r.From.Answered(nil, why)
	}
}

// byTurn is a heap of requests, from the one that is due first on.
type byTurn []*Request

func (b byTurn) Len() int { return len(b) }

// Less has the one go first that is due first, or that came first.
func (b byTurn) Less(i, j int) bool {
	if b[i].finish == b[j].finish {
		return b[i].came < b[j].came
	}
	return b[i].finish < b[j].finish
}

func (b byTurn) Swap(i, j int) {
	b[i], b[j] = b[j], b[i]
	b[i].place, b[j].place = i+1, j+1
}

func (b *byTurn) Push(it any) {
	r := it.(*Request)
	*b = append(*b, r)
	r.place = len(*b)
}

func (b *byTurn) Pop() any {
	last := len(*b) - 1
	r := (*b)[last]
	(*b)[last] = nil
	*b = (*b)[:last]
	r.place = 0
	return r
}

// ring is requests in the order in which they were passed on.
type ring struct {
	requests    []*Request // as many as a power of two
	head, count int
}

func (r *ring) push(it *Request) {
	if r.count == len(r.requests) {
		r.grow()
	}
	r.requests[(r.head+r.count)&(len(r.requests)-1)] = it
	r.count++
}

func (r *ring) grow() {
	size := 2 * len(r.requests)
	if size == 0 {
		size = 64
	}
	more := make([]*Request, size)
	for at := 0; at < r.count; at++ {
		more[at] = r.requests[(r.head+at)&(len(r.requests)-1)]
	}
	r.requests, r.head = more, 0
}

// first is the oldest one, or nil.
func (r *ring) first() *Request {
	if r.count == 0 {
		return nil
	}
	return r.requests[r.head]
}

func (r *ring) pop() *Request {
	it := r.requests[r.head]
	r.requests[r.head] = nil
	r.head = (r.head + 1) & (len(r.requests) - 1)
	r.count--
	return it
}

func (r *ring) takeAll() []*Request {
	all := make([]*Request, 0, r.count)
	for r.count > 0 {
		all = append(all, r.pop())
	}
	return all
}
