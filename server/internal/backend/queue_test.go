package backend

import (
	"encoding/binary"
	"io"
	"os"
	"reflect"
	"sync"
	"testing"
	"time"

	"telovamish.org/server/internal/frames"
	"telovamish.org/server/internal/memory"
	"telovamish.org/server/internal/moments"
	"telovamish.org/server/internal/process"
	"telovamish.org/server/internal/report"
)

// asker remembers what it is answered.
type asker struct {
	name string
	got  chan string // its name and the length of a reply, or why there is none
}

func (a *asker) Answered(reply []byte, why string) {
	if reply != nil {
		why = a.name
	}
	a.got <- why
}

// requestOf is a request with a body of so many bytes, of a create by a client.
func requestOf(client byte, body int, from Asker, peer *Peer) *Request {
	frame := make([]byte, frames.HeaderSize)
	frame[0], frame[16], frame[24], frame[28] = client, 1, 1, 130
	binary.LittleEndian.PutUint32(frame[32:], uint32(body))
	r := &Request{Frame: frame, From: from, Peer: peer}
	for body > 0 {
		r.Rest = append(r.Rest, memory.Take())
		r.Last = body
		if r.Last > memory.ChunkSize {
			r.Last = memory.ChunkSize
		}
		body -= r.Last
	}
	return r
}

// replyTo is a reply without a body to those requests.
func replyTo(client byte) []byte {
	reply := make([]byte, frames.HeaderSize)
	reply[0], reply[16], reply[24], reply[28], reply[36] = client, 1, 1, 130, 2
	return reply
}

// server is the other end of a queue's pipes, in a test.
type server struct {
	t       *testing.T
	in, out *os.File
	queue   *queue
	pipe    *outgoing
	isOver  chan bool // what readReplies returned
}

func serverOf(t *testing.T, q *queue) *server {
	t.Helper()
	in, theirIn, err := os.Pipe()
	if err != nil {
		t.Fatal(err)
	}
	theirOut, out, err := os.Pipe()
	if err != nil {
		t.Fatal(err)
	}
	process.Widen(theirIn)
	pipe, err := newOutgoing(theirIn)
	if err != nil {
		t.Fatal(err)
	}
	it := &server{t: t, in: in, out: out, queue: q, pipe: pipe, isOver: make(chan bool, 1)}
	t.Cleanup(func() {
		for _, file := range []*os.File{in, theirIn, theirOut, out} {
			file.Close()
		}
	})
	go func() { it.isOver <- q.readReplies(theirOut) }()
	q.begin(pipe, true, false)
	return it
}

// next is the client of the next request.
func (s *server) next() byte {
	s.t.Helper()
	head := make([]byte, momentSize+frames.HeaderSize)
	s.in.SetReadDeadline(time.Now().Add(10 * time.Second))
	if _, err := io.ReadFull(s.in, head); err != nil {
		s.t.Fatal(err)
	}
	header := frames.Header(head[momentSize:])
	if _, err := io.CopyN(io.Discard, s.in, int64(header.Length()-frames.HeaderSize)); err != nil {
		s.t.Fatal(err)
	}
	return head[momentSize]
}

func (s *server) reply(client byte) {
	s.t.Helper()
	if _, err := s.out.Write(replyTo(client)); err != nil {
		s.t.Fatal(err)
	}
}

func queueOf(keeps bool) *queue {
	q := newQueue(keeps)
	q.moments = moments.New(0, report.New("test", false))
	return q
}

func got(t *testing.T, from chan string) string {
	t.Helper()
	select {
	case it := <-from:
		return it
	case <-time.After(limit):
		t.Fatal("no answer")
		return ""
	}
}

func TestRepliesComeInOrder(t *testing.T) {
	q := queueOf(false)
	s := serverOf(t, q)
	answers := make(chan string, 9)
	for _, it := range []struct {
		client byte
		body   int
	}{{1, 0}, {2, 62_500 * 16}, {3, 16}} {
		q.submit(requestOf(it.client, it.body, &asker{string('a' + rune(it.client)), answers}, &Peer{}))
	}
	for _, client := range []byte{1, 2, 3} {
		if it := s.next(); it != client {
			t.Errorf("%d, not %d", it, client)
		}
	}
	for _, want := range []string{"b", "c", "d"} {
		s.reply(want[0] - 'a')
		if it := got(t, answers); it != want {
			t.Errorf("%q, not %q", it, want)
		}
	}
}

// batch is the length of a body that has the window to itself.
const batch = window

// TestTurns has what waits go on by turns: a short request before long ones, and a peer that has several
// waiting not before another one.
func TestTurns(t *testing.T) {
	for _, row := range []struct {
		name string
		come []string // peer and length of each that waits, S or L
		want string
	}{
		{"in the order in which they come", []string{"aS", "bS", "cS"}, "012"},
		{"a short one before long ones", []string{"aL", "bL", "cS"}, "201"},
		{"two peers in turn", []string{"aL", "aL", "aL", "bL"}, "0312"},
		{"short ones of one peer before long ones of it", []string{"aL", "aL", "aS", "aS"}, "2301"},
	} {
		q := queueOf(false)
		s := serverOf(t, q)
		answers := make(chan string, 99)
		q.submit(requestOf(100, batch, &asker{"first", answers}, &Peer{}))
		peers := map[byte]*Peer{}
		for at, it := range row.come {
			if peers[it[0]] == nil {
				peers[it[0]] = &Peer{}
			}
			length := 16
			if it[1] == 'L' {
				length = batch
			}
			q.submit(requestOf(byte(at+1), length, &asker{string('0' + rune(at)), answers}, peers[it[0]]))
		}
		found := ""
		for client := s.next(); ; client = s.next() {
			s.reply(client)
			if it := got(t, answers); it != "first" {
				found += it
			}
			if len(found) == len(row.want) {
				break
			}
		}
		if found != row.want {
			t.Errorf("%s: %s, not %s", row.name, found, row.want)
		}
	}
}

// TestAGreedyConnectionWaitsLonger has a connection that sent much wait for one that sent little.
func TestAGreedyConnectionWaitsLonger(t *testing.T) {
	q := queueOf(false)
	s := serverOf(t, q)
	answers := make(chan string, 9)
	greedy, modest := requestOf(1, batch, &asker{"greedy", answers}, &Peer{}), requestOf(2, batch/2, &asker{"modest", answers}, &Peer{})
	q.submit(greedy)
	again := requestOf(3, batch, &asker{"greedy", answers}, greedy.Peer)
	again.finish = greedy.finish
	q.submit(again)
	q.submit(modest)
	for _, client := range []byte{1, 2, 3} {
		if it := s.next(); it != client {
			t.Fatalf("%d, not %d", it, client)
		}
		s.reply(client)
		got(t, answers)
	}
}

// TestAShortOneThatComesLater goes before long ones that wait, though others of these have gone.
func TestAShortOneThatComesLater(t *testing.T) {
	q := queueOf(false)
	s := serverOf(t, q)
	answers := make(chan string, 99)
	for client := byte(1); client <= 6; client++ {
		q.submit(requestOf(client, batch, &asker{"long", answers}, &Peer{}))
	}
	for client := byte(1); client <= 3; client++ {
		s.reply(s.next())
		got(t, answers)
	}
	q.submit(requestOf(9, 0, &asker{"short", answers}, &Peer{}))
	s.reply(s.next()) // which was on its way
	got(t, answers)
	if it := s.next(); it != 9 {
		t.Errorf("%d", it)
	}
}

func TestARequestThatIsCancelled(t *testing.T) {
	q := queueOf(false)
	s := serverOf(t, q)
	answers := make(chan string, 9)
	first := requestOf(1, batch, &asker{"first", answers}, &Peer{})
	waits, other := requestOf(2, batch, &asker{"waits", answers}, &Peer{}), requestOf(3, 0, &asker{"other", answers}, &Peer{})
	q.submit(first)
	q.submit(waits)
	q.submit(other)
	if q.cancel(first) || !q.cancel(waits) || q.cancel(waits) {
		t.Error("only one that waits is cancelled, and once")
	}
	for _, client := range []byte{1, 3} {
		if it := s.next(); it != client {
			t.Fatalf("%d, not %d", it, client)
		}
		s.reply(client)
		got(t, answers)
	}
}

func TestWhatIsNoReply(t *testing.T) {
	for name, reply := range map[string][]byte{
		"another client's": replyTo(9),
		"zeros":            make([]byte, frames.HeaderSize),
		"with a fault":     append(append([]byte{}, replyTo(1)[:47]...), 1),
	} {
		q := queueOf(false)
		s := serverOf(t, q)
		q.submit(requestOf(1, 0, &asker{"a", make(chan string, 1)}, &Peer{}))
		s.next()
		if s.out.Write(reply); <-s.isOver {
			t.Errorf("%s: is a reply", name)
		}
	}
	s := serverOf(t, queueOf(false))
	if s.out.Write(replyTo(1)); <-s.isOver {
		t.Error("nobody asked")
	}
}

// TestAServerThatEnds answers those that were passed on, and keeps the others for the next one.
func TestAServerThatEnds(t *testing.T) {
	q := queueOf(true)
	serverOf(t, q)
	answers := make(chan string, 9)
	for client := byte(1); client < 3; client++ {
		q.submit(requestOf(client, batch, &asker{string('a' + rune(client)), answers}, &Peer{}))
	}
	q.leave()
	q.lost("Full")
	if it := got(t, answers); it != "Full" {
		t.Errorf("%q", it)
	}
	second := serverOf(t, q)
	if it := second.next(); it != 2 {
		t.Errorf("%d", it)
	}
	second.reply(2)
	if it := got(t, answers); it != "c" {
		t.Errorf("%q", it)
	}
	q.leave()
	q.lost("Full")
	q.over()
	q.submit(requestOf(1, 0, &asker{"a", answers}, &Peer{}))
	if it := got(t, answers); it != "Full" {
		t.Errorf("%q", it)
	}
}

// TestTheRestOfARequest does not go to the next process.
func TestTheRestOfARequest(t *testing.T) {
	q := queueOf(true)
	first := serverOf(t, q)
	g := &group{}
	g.add(1, requestOf(7, 0, &asker{}, &Peer{}))
	g.begin()
	g.wrote(10) // the pipe took so much, and then its process ended
	q.leave()
	second := serverOf(t, q)
	q.mu.Lock()
	q.isWriting = true
	q.keepRest(g, first.pipe)
	q.wake()
	q.mu.Unlock()
	answers := make(chan string, 1)
	q.submit(requestOf(1, 0, &asker{"a", answers}, &Peer{}))
	if it := second.next(); it != 1 {
		t.Errorf("%d", it)
	}
}

// TestWhoWaitsForAServer gets Starting after a second, and at once when that is over.
func TestWhoWaitsForAServer(t *testing.T) {
	q := queueOf(true)
	serverOf(t, q)
	q.leave()
	q.lost(programEnded)
	answers, began := make(chan string, 9), time.Now()
	q.submit(requestOf(1, 0, &asker{"a", answers}, &Peer{}))
	if it := got(t, answers); it != "Starting" || time.Since(began) < patience*9/10 {
		t.Errorf("%q after %v", it, time.Since(began))
	}
	q.submit(requestOf(1, 0, &asker{"a", answers}, &Peer{}))
	if it := got(t, answers); it != "Starting" {
		t.Errorf("%q", it)
	}
}

// TestTheEndOfTheInput comes when all that was passed on has left.
func TestTheEndOfTheInput(t *testing.T) {
	q := queueOf(false)
	s := serverOf(t, q)
	answers := make(chan string, 9)
	for client := byte(1); client < 4; client++ {
		q.submit(requestOf(client, window/4, &asker{"a", answers}, &Peer{}))
	}
	q.close()
	for client := byte(1); client < 4; client++ {
		if it := s.next(); it != client {
			t.Errorf("%d, not %d", it, client)
		}
	}
	if n, err := s.in.Read(make([]byte, 1)); n != 0 || err != io.EOF {
		t.Error(n, err)
	}
}

// TestManyAtOnce has each request answered, whatever comes at once.
func TestManyAtOnce(t *testing.T) {
	q := queueOf(false)
	s := serverOf(t, q)
	go func() {
		for range [64 * 50]struct{}{} {
			s.reply(s.next())
		}
	}()
	var all sync.WaitGroup
	for client := byte(1); client <= 64; client++ {
		all.Add(1)
		go func(client byte) {
			defer all.Done()
			mine := &asker{"a", make(chan string, 1)}
			for i := 0; i < 50; i++ {
				q.submit(requestOf(client, 16*(i%3)*(i%7)*2000, mine, &Peer{}))
				got(t, mine.got)
			}
		}(client)
	}
	all.Wait()
	q.mu.Lock()
	defer q.mu.Unlock()
	if q.inFlight != 0 || q.asked.count != 0 || len(q.waiting) != 0 {
		t.Error(q.inFlight, q.asked.count, len(q.waiting))
	}
}

func TestRing(t *testing.T) {
	var r ring
	var want, found []*Request
	for i := 0; i < 300; i++ {
		it := &Request{}
		r.push(it)
		want = append(want, it)
		if i%3 == 0 {
			found = append(found, r.pop())
		}
	}
	found = append(found, r.takeAll()...)
	if !reflect.DeepEqual(found, want) || r.first() != nil {
		t.Error("another order")
	}
}

type counting struct{ done chan struct{} }

func (c *counting) Answered([]byte, string) { c.done <- struct{}{} }

// exchanging is one request there and back, again and again.
func exchanging(t testing.TB) (exchange func()) {
	q := queueOf(false)
	in, theirIn, _ := os.Pipe()
	theirOut, out, _ := os.Pipe()
	pipe, _ := newOutgoing(theirIn)
	go q.readReplies(theirOut)
	q.begin(pipe, true, false)
	go func() {
		head, reply := make([]byte, momentSize+frames.HeaderSize), replyTo(1)
		for {
			if _, err := io.ReadFull(in, head); err != nil {
				return
			}
			out.Write(reply)
		}
	}()
	t.Cleanup(func() {
		theirIn.Close()
		out.Close()
	})
	from := &counting{make(chan struct{}, 1)}
	r := requestOf(1, 0, from, &Peer{})
	frame := r.Frame
	return func() {
		r.Frame = frame
		q.submit(r)
		<-from.done
	}
}

func TestARequestAllocatesNothing(t *testing.T) {
	if count := testing.AllocsPerRun(1000, exchanging(t)); count > 0 {
		t.Errorf("%v allocations", count)
	}
}

// BenchmarkRequest is one request at a time, there and back.
func BenchmarkRequest(b *testing.B) {
	exchange := exchanging(b)
	b.ReportAllocs()
	b.ResetTimer()
	for i := 0; i < b.N; i++ {
		exchange()
	}
}
