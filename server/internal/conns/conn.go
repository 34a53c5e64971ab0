package conns

import (
	"crypto/tls"
	"errors"
	"io"
	"math"
	"net"
	"strconv"
	"sync"
	"sync/atomic"
	"syscall"
	"time"

	"telovamish.org/server/internal/access"
	"telovamish.org/server/internal/backend"
	"telovamish.org/server/internal/frames"
	"telovamish.org/server/internal/memory"
	"telovamish.org/server/internal/report"
	"telovamish.org/tbclient"
)

// phase is what a connection is at.
type phase int

const (
	resting phase = iota // it waits for a request's header
	reading              // for its body
	asked                // for its reply
	writing              // the client is to read the reply
	leaving              // it is being closed
)

const (
	never    = math.MaxInt64
	ownBytes = 1 << 12 // of a connection: a request that is longer takes chunks
)

var past = time.Unix(1, 0)

func itoa(number int) string { return strconv.Itoa(number) }

// conn is a connection. Its goroutine reads requests; replies are written by the goroutine that brings
// them, without waiting: what the socket does not take at once is written by another one.
type conn struct {
	l    *Listener
	raw  net.Conn
	in   io.Reader // raw, or TLS over it
	tls  *tls.Conn
	uid  uint32
	peer access.Peer

	isServed, hasShare bool // under the listener's lock
	hasEnded           bool // the client sends no more
	out                output
	request            backend.Request
	began              time.Duration // when the request was whole

	due   atomic.Int64 // when it takes too long, by the listener's clock
	moved atomic.Int64 // when a long body or reply moved last
	holds atomic.Int64 // bytes of the budget

	mu        sync.Mutex
	phase     phase
	why       string // why it is to be closed
	isLost    bool   // no reply can be written
	isWaiting bool   // its goroutine waits to be woken
	wake      chan struct{}

	start, end int // of what came, and was not asked for
	own        [ownBytes]byte
}

func newConn(l *Listener, raw net.Conn, peer access.Peer, uid uint32) (*conn, error) {
	c := &conn{l: l, raw: raw, in: raw, peer: peer, uid: uid, wake: make(chan struct{}, 1)}
	c.due.Store(never)
	c.request.From = c
	system, err := raw.(syscall.Conn).SyscallConn()
	if err != nil {
		return nil, err
	}
	c.out.begin(raw, system)
	return c, nil
}

// enter takes the connection in. It returns the name of why it is closed, or nothing.
func (c *conn) enter() string {
	if !c.l.enter(c) {
		return "Busy"
	}
	if why := c.l.access.Load().Test(c.peer, c.uid); why != "" {
		return why
	}
	if why := c.l.join(c); why != "" {
		return why
	}
	return *c.l.why.Load() // Stop may have looked at the open connections before
}

// serve serves a connection that was taken in, until it is closed: at once if there is a reason for that.
func (c *conn) serve(why string) {
	defer c.l.forget(c)
	defer c.fails()
	if why == "" {
		why = c.run()
	}
	c.close(why)
}

// fails closes a connection in whose service this program has a fault: that is no fault of others.
func (c *conn) fails() {
	if fault := recover(); fault != nil {
		c.l.log.Say(report.Error, "a connection failed: %v", fault)
		c.raw.Close()
	}
}

// run serves requests, and returns why the connection is closed.
func (c *conn) run() string {
	c.due.Store(int64(c.l.now() + c.l.config.Idle))
	for {
		if why, isEnd := c.readHeader(); isEnd {
			return why
		}
		header := frames.Header(c.own[c.start : c.start+frames.HeaderSize])
		if why := c.test(header); why != "" {
			return why
		}
		if why, isEnd := c.readBody(header); isEnd {
			return why
		}
		if why := c.ask(); why != "" {
			return why
		}
	}
}

// readHeader reads the header of the next request, and waits until the reply to the one before has left.
func (c *conn) readHeader() (why string, isEnd bool) {
	if c.start > 0 {
		c.start, c.end = 0, copy(c.own[:], c.own[c.start:c.end])
	}
	if why, isEnd := c.fill(frames.HeaderSize); isEnd {
		return why, true
	}
	return c.untilAnswered()
}

// fill reads until so many bytes came.
func (c *conn) fill(need int) (why string, isEnd bool) {
	for c.end-c.start < need {
		n, err := c.in.Read(c.own[c.end:])
		c.end += n
		if n == 0 && err != nil {
			return c.ended(err)
		}
	}
	return "", false
}

// ended is why a connection is closed from which no more comes.
func (c *conn) ended(err error) (string, bool) {
	if err != io.EOF && !errors.Is(err, io.ErrUnexpectedEOF) {
		c.mu.Lock()
		defer c.mu.Unlock()
		if c.why == "" {
			c.isLost = true
		}
		return c.why, true
	}
	c.hasEnded = true
	if why, isEnd := c.untilAnswered(); isEnd {
		return why, true
	}
	if c.end > c.start || len(c.request.Rest) > 0 {
		return "Short", true
	}
	return "", true
}

// untilAnswered waits until the reply to the last request has left.
func (c *conn) untilAnswered() (why string, isEnd bool) {
	c.mu.Lock()
	defer c.mu.Unlock()
	for c.why == "" && !c.isLost && c.phase >= asked {
		c.isWaiting = true
		c.mu.Unlock()
		<-c.wake
		c.mu.Lock()
		c.isWaiting = false
	}
	return c.why, c.why != "" || c.isLost
}

// test is the name of what is wrong with a header, or why it is not allowed.
func (c *conn) test(header frames.Header) string {
	if why := *c.l.why.Load(); why != "" {
		return why
	}
	if fault := header.RequestFault(); fault != "" {
		return fault
	}
	if !c.l.counts.HasBegun() {
		return "Starting"
	}
	client := header.Client()
	if why := c.l.access.Load().TestClient(c.peer, client); why != "" {
		return why
	}
	if header.Operation() == tbclient.OperationRegister {
		return c.l.shares.Register(c.peer.Share, client)
	}
	return ""
}

// readBody reads the body of a request: a long one into chunks.
func (c *conn) readBody(header frames.Header) (why string, isEnd bool) {
	length, have := header.Length(), c.end-c.start
	if have >= length {
		c.request.Frame = c.own[c.start : c.start+length]
		return "", false
	}
	if !c.setPhase(reading, c.l.config.Slow) {
		return c.untilAnswered()
	}
	if length <= ownBytes {
		why, isEnd := c.fill(length)
		c.request.Frame = c.own[c.start : c.start+length]
		return why, isEnd
	}
	if why, isEnd := c.takeMemory(int64(length + header.ReplyMax())); isEnd {
		return why, true
	}
	c.request.Frame = c.own[c.start:c.end]
	return c.readChunks(length - have)
}

// readChunks reads so many bytes.
func (c *conn) readChunks(left int) (why string, isEnd bool) {
	for left > 0 {
		chunk := memory.Take()
		c.request.Rest = append(c.request.Rest, chunk)
		want := chunk[:]
		if left < len(want) {
			want = want[:left]
		}
		c.request.Last = len(want)
		for have := 0; have < len(want); {
			n, err := c.in.Read(want[have:])
			have += n
			if n == 0 && err != nil {
				return c.ended(err)
			}
			c.moved.Store(int64(c.l.now()))
		}
		left -= len(want)
	}
	return "", false
}

// takeMemory takes bytes of the budget for a long request and its reply. Who waits for that is not slow.
func (c *conn) takeMemory(bytes int64) (why string, isEnd bool) {
	c.due.Store(never)
	for !c.l.budget.Take(bytes, c.wake) {
		if why, isEnd := c.isToEnd(); isEnd {
			return why, true
		}
	}
	now := c.l.now()
	c.moved.Store(int64(now))
	c.holds.Store(bytes)
	c.due.Store(int64(now + c.l.config.Slow))
	return "", false
}

// giveMemory gives back what the request held.
func (c *conn) giveMemory() {
	if held := c.holds.Swap(0); held > 0 {
		c.l.budget.Give(held)
	}
}

func (c *conn) isToEnd() (string, bool) {
	c.mu.Lock()
	defer c.mu.Unlock()
	return c.why, c.why != "" || c.isLost
}

// setPhase begins a phase that may take so long, unless the connection is to be closed.
func (c *conn) setPhase(to phase, most time.Duration) bool {
	c.mu.Lock()
	defer c.mu.Unlock()
	if c.why != "" || c.isLost {
		return false
	}
	c.phase = to
	if most == 0 {
		c.due.Store(never)
	} else {
		c.due.Store(int64(c.l.now() + most))
	}
	return true
}

// ask passes the request on, in its turn.
func (c *conn) ask() string {
	if !c.setPhase(asked, 0) {
		why, _ := c.isToEnd()
		return why
	}
	c.began = c.l.now()
	wait, why := c.l.shares.Wait(c.peer.Share, c.request.Size())
	if why != "" {
		return why
	}
	if wait > 0 {
		time.Sleep(wait)
	}
	c.start += len(c.request.Frame)
	c.l.backend.Submit(&c.request)
	return ""
}

// Answered passes the reply on, or has the connection closed because there is no reply.
func (c *conn) Answered(reply []byte, why string) {
	defer c.fails()
	now := c.l.now()
	if reply != nil {
		c.l.count(c, reply, now-c.began)
	}
	c.mu.Lock()
	defer c.mu.Unlock()
	switch {
	case c.isLost || c.phase != asked:
	case reply == nil:
		c.phase = resting
		c.stop(why)
	default:
		c.passOn(reply, now)
	}
	if c.isWaiting {
		c.rouse()
	}
}

// passOn writes a reply, as far as the socket takes it.
func (c *conn) passOn(reply []byte, now time.Duration) {
	var err error
	if c.tls != nil {
		_, err = c.tls.Write(reply)
	} else {
		_, err = c.out.Write(reply)
	}
	switch {
	case err != nil:
		c.lose()
	case c.out.isLeft():
		c.phase = writing
		c.moved.Store(int64(now))
		c.due.Store(int64(now + c.l.config.Slow))
		go c.drain()
	default:
		c.rest(now)
	}
}

// rest has the connection go on with the next request.
func (c *conn) rest(now time.Duration) {
	c.phase = resting
	c.due.Store(int64(now + c.l.config.Idle))
	c.giveMemory()
	if why := *c.l.why.Load(); why != "" {
		c.stop(why)
	}
}

// drain writes what the socket did not take at once.
func (c *conn) drain() {
	defer c.fails()
	err := c.out.drain(func() { c.moved.Store(int64(c.l.now())) })
	c.mu.Lock()
	defer c.mu.Unlock()
	switch {
	case err != nil:
		c.lose()
	case c.phase == writing:
		c.rest(c.l.now())
	}
	if c.isWaiting {
		c.rouse()
	}
}

// lose has the connection closed without a line.
func (c *conn) lose() {
	c.isLost = true
	c.raw.SetReadDeadline(past)
	c.rouse()
}

// stop has the connection closed with a line.
func (c *conn) stop(why string) {
	if c.why == "" {
		c.why = why
	}
	c.raw.SetReadDeadline(past)
	c.rouse()
}

// rouse wakes the connection's goroutine, if it waits.
func (c *conn) rouse() {
	select {
	case c.wake <- struct{}{}:
	default:
	}
}

// stopAtRest closes a connection that waits for no reply.
func (c *conn) stopAtRest(why string) {
	c.mu.Lock()
	defer c.mu.Unlock()
	if c.phase < asked {
		c.stop(why)
	}
}

// isLate reports whether the connection takes too long.
func (c *conn) isLate(now time.Duration) bool { return c.due.Load() <= int64(now) }

// late closes a connection that takes too long.
func (c *conn) late(now time.Duration) {
	c.mu.Lock()
	isLate := c.isLate(now)
	if isLate {
		c.due.Store(never)
	}
	at := c.phase
	if isLate && at == resting {
		c.stop("Idle")
	}
	c.mu.Unlock()
	if isLate && at != resting {
		c.tooSlow()
	}
}

// isMoving reports whether the connection waits for its client to send or to read.
func (c *conn) isMoving() bool {
	c.mu.Lock()
	defer c.mu.Unlock()
	return c.phase == reading || c.phase == writing
}

// tooSlow closes a connection whose client sends or reads too slowly. After a part of a reply no line
// can be sent.
func (c *conn) tooSlow() {
	c.mu.Lock()
	defer c.mu.Unlock()
	switch c.phase {
	case reading:
		c.stop("Slow")
	case writing:
		c.isLost = true
		c.why = "Slow"
		c.raw.Close()
		c.rouse()
	}
}

// close closes the connection, with a line if there is something to say.
func (c *conn) close(why string) {
	c.mu.Lock()
	isLost := c.isLost || c.phase == writing
	wasAsked := c.phase == asked
	c.isLost, c.phase = true, leaving
	c.due.Store(never)
	c.mu.Unlock()
	if wasAsked {
		c.l.backend.Cancel(&c.request)
	} else {
		c.freeChunks()
	}
	c.giveMemory()
	c.l.closes(c, why)
	if why != "" && !isLost {
		c.tell(why)
	}
	c.raw.Close()
}

// freeChunks gives back what was read of a body.
func (c *conn) freeChunks() {
	for _, it := range c.request.Rest {
		memory.Free(it)
	}
	c.request.Rest = nil
}

// tell sends the line.
func (c *conn) tell(why string) {
	c.raw.SetDeadline(time.Now().Add(lastRead))
	line := []byte(lineOf + why + "\n")
	if c.tls != nil {
		c.out.waits.Store(true)
		c.tls.Write(line)
		c.tls.CloseWrite()
	} else {
		c.raw.Write(line)
	}
	c.linger()
}

// linger ends what is sent, and reads for a moment more, so that the client reads the end of it and is not
// cut off.
func (c *conn) linger() {
	if half, ok := c.raw.(interface{ CloseWrite() error }); ok {
		half.CloseWrite()
	}
	if c.hasEnded || !c.l.mayLeave() {
		return
	}
	defer c.l.hasLeft()
	c.raw.SetDeadline(time.Now().Add(lastRead))
	io.Copy(io.Discard, struct{ io.Reader }{c.raw})
}
