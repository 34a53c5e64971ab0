package conns

import (
	"bytes"
	"encoding/binary"
	"errors"
	"io"
	"net"
	"os"
	"path/filepath"
	"reflect"
	"sync"
	"syscall"
	"testing"
	"time"

	"telovamish.org/server/internal/access"
	"telovamish.org/server/internal/backend"
	"telovamish.org/server/internal/config"
	"telovamish.org/server/internal/counts"
	"telovamish.org/server/internal/frames"
	"telovamish.org/server/internal/memory"
	"telovamish.org/server/internal/report"
)

const (
	limit = 2 * time.Minute        // that something may take on a busy machine
	brief = 200 * time.Millisecond // that a test waits for a limit to pass
)

// until waits for what holds soon.
func until(t testing.TB, what string, holds func() bool) {
	t.Helper()
	for end := time.Now().Add(limit); !holds(); time.Sleep(time.Millisecond) {
		if time.Now().After(end) {
			t.Fatal("not in time: ", what)
		}
	}
}

// fake is a backend whose requests a test sees, and answers.
type fake struct {
	asked chan *backend.Request
	whole chan []byte // the bytes of each request, when all is read
}

func newFake() *fake {
	return &fake{asked: make(chan *backend.Request, 100), whole: make(chan []byte, 1000)}
}

func (f *fake) Run() error                   { return nil }
func (f *fake) Begun() <-chan struct{}       { return nil }
func (f *fake) IsServing() bool              { return true }
func (f *fake) Cancel(*backend.Request) bool { return false }
func (f *fake) Commits() (int64, bool)       { return 0, false }
func (f *fake) Lag() time.Duration           { return 0 }
func (f *fake) Renew() error                 { return nil }
func (f *fake) Stop()                        {}
func (f *fake) Close()                       {}
func (f *fake) Kill()                        {}

func (f *fake) Submit(r *backend.Request) {
	text := append([]byte(nil), r.Frame...)
	for at, chunk := range r.Rest {
		to := memory.ChunkSize
		if at == len(r.Rest)-1 {
			to = r.Last
		}
		text = append(text, chunk[:to]...)
		memory.Free(chunk)
	}
	r.Rest = r.Rest[:0]
	f.whole <- text
	f.asked <- r
}

// echoing is a backend that answers each request at once.
type echoing struct{ *fake }

func (e echoing) Submit(r *backend.Request) {
	e.fake.Submit(r)
	text := <-e.whole
	(<-e.asked).From.Answered(replyTo(text), "")
}

// replyTo is a reply without a body.
func replyTo(request []byte) []byte {
	reply := append([]byte(nil), request[:frames.HeaderSize]...)
	binary.LittleEndian.PutUint32(reply[32:], 0)
	session := binary.LittleEndian.Uint64(reply[16:])
	if reply[28] == 2 {
		session = 5
		binary.LittleEndian.PutUint64(reply[16:], session)
		binary.LittleEndian.PutUint64(reply[36:], session)
		return reply
	}
	binary.LittleEndian.PutUint64(reply[36:], session+1)
	return reply
}

// request is a request of client 1 with a body of zeros: a lookup of accounts.
func request(number uint32, body int) []byte {
	frame := make([]byte, frames.HeaderSize+body)
	frame[0], frame[16], frame[28] = 1, 5, 131
	binary.LittleEndian.PutUint32(frame[24:], number)
	binary.LittleEndian.PutUint32(frame[32:], uint32(body))
	return frame
}

// listening is a listener at a Unix socket.
func listening(t testing.TB, of backend.Backend, change func(*config.Config)) (*Listener, string) {
	t.Helper()
	c := &config.Config{Connections: 64, Idle: time.Minute, Slow: time.Minute}
	if change != nil {
		change(c)
	}
	who, err := access.New(nil, "")
	if err != nil {
		t.Fatal(err)
	}
	numbers := counts.New()
	numbers.Begin()
	log := report.NewTo("tb_listen", false, func([]byte) {}, time.Now)
	l := New(of, c, who, log, numbers, counts.NewEvictions(64))
	path := filepath.Join(t.TempDir(), "it")
	place, err := net.Listen("unix", path)
	if err != nil {
		t.Fatal(err)
	}
	done := make(chan struct{})
	go l.Watch(done)
	go l.Take(&Place{Listener: place, Shown: path})
	t.Cleanup(func() {
		place.Close()
		l.Stop("Stopping")
		close(done)
	})
	return l, path
}

func call(t testing.TB, path string) net.Conn {
	t.Helper()
	it, err := net.Dial("unix", path)
	if err != nil {
		t.Fatal(err)
	}
	it.SetDeadline(time.Now().Add(limit))
	t.Cleanup(func() { it.Close() })
	return it
}

func send(t testing.TB, to net.Conn, data []byte) {
	t.Helper()
	if _, err := to.Write(data); err != nil {
		t.Fatal(err)
	}
}

// rest is what comes until the connection is closed.
func rest(t testing.TB, from net.Conn) string {
	t.Helper()
	text, err := io.ReadAll(from)
	if err != nil && !errors.Is(err, syscall.ECONNRESET) {
		t.Fatal(err)
	}
	return string(text)
}

func TestRequestsInAnyPieces(t *testing.T) {
	for _, piece := range []int{1, 47, 48, 49, 4095, 4097, 65535, 65537, 1 << 20} {
		piece := piece
		of := newFake()
		_, path := listening(t, of, nil)
		it := call(t, path)
		var want [][]byte
		var stream []byte
		for number, body := range []int{0, 16, 4048, 4064, 65536, 8190 * 16, 16} {
			if piece == 1 && body > 5000 {
				continue
			}
			one := request(uint32(number+1), body)
			want, stream = append(want, one), append(stream, one...)
		}
		go func() {
			for at := 0; at < len(stream); at += piece {
				end := at + piece
				if end > len(stream) {
					end = len(stream)
				}
				it.Write(stream[at:end])
			}
		}()
		for _, one := range want {
			if got := <-of.whole; !bytes.Equal(got, one) {
				t.Fatalf("pieces of %d: %d bytes, not %d", piece, len(got), len(one))
			}
			(<-of.asked).From.Answered(replyTo(one), "")
			if _, err := io.ReadFull(it, make([]byte, frames.HeaderSize)); err != nil {
				t.Fatal(err)
			}
		}
	}
}

func TestWhatAClosedConnectionGets(t *testing.T) {
	wrong := request(1, 0)
	wrong[29] = 1
	for _, row := range []struct {
		name, want string
		sends      []byte
		ends       bool
		idle, slow time.Duration
	}{
		{"a fault", "tb_listen: Reserved\n", wrong, false, limit, limit},
		{"no end of a header", "tb_listen: Short\n", request(1, 0)[:47], true, limit, limit},
		{"no end of a body", "tb_listen: Short\n", request(1, 16)[:63], true, limit, limit},
		{"no end of a long body", "tb_listen: Short\n", request(1, 16000)[:9000], true, limit, limit},
		{"nothing", "", nil, true, limit, limit},
		{"a header that takes too long", "tb_listen: Idle\n", request(1, 0)[:1], false, brief, limit},
		{"a body that takes too long", "tb_listen: Slow\n", request(1, 16)[:63], false, limit, brief},
		{"a long body that takes too long", "tb_listen: Slow\n", request(1, 16000)[:9000], false, limit, brief},
	} {
		_, path := listening(t, newFake(), func(c *config.Config) { c.Idle, c.Slow = row.idle, row.slow })
		it := call(t, path)
		send(t, it, row.sends)
		if row.ends {
			it.(*net.UnixConn).CloseWrite()
		}
		if got := rest(t, it); got != row.want {
			t.Errorf("%s: %q, not %q", row.name, got, row.want)
		}
	}
}

func TestWhyThereIsNoReply(t *testing.T) {
	of := newFake()
	_, path := listening(t, of, nil)
	it := call(t, path)
	send(t, it, request(1, 0))
	(<-of.asked).From.Answered(nil, "Full")
	if got := rest(t, it); got != "tb_listen: Full\n" {
		t.Error(got)
	}
}

func TestMoreThanTheLimit(t *testing.T) {
	_, path := listening(t, echoing{newFake()}, func(c *config.Config) { c.Connections = 2 })
	for i := 0; i < 2; i++ {
		it := call(t, path)
		send(t, it, request(1, 0))
		if _, err := io.ReadFull(it, make([]byte, frames.HeaderSize)); err != nil {
			t.Fatal(err)
		}
	}
	for i := 0; i < 40; i++ {
		if got := rest(t, call(t, path)); got != "tb_listen: Busy\n" {
			t.Fatalf("call %d: %q", i, got)
		}
	}
}

// TestAStop answers what was taken, and closes the others.
func TestAStop(t *testing.T) {
	of := newFake()
	l, path := listening(t, of, nil)
	waits, rests := call(t, path), call(t, path)
	send(t, waits, request(1, 0))
	r := <-of.asked
	text := <-of.whole
	stopped := make(chan struct{})
	go func() { l.Stop("Stopping"); close(stopped) }()
	if got := rest(t, rests); got != "tb_listen: Stopping\n" {
		t.Error(got)
	}
	r.From.Answered(replyTo(text), "")
	if got := rest(t, waits); got != string(replyTo(text))+"tb_listen: Stopping\n" {
		t.Errorf("%q", got)
	}
	<-stopped
}

// TestAReplyThatIsReadSlowly comes whole, and the next request after it.
func TestAReplyThatIsReadSlowly(t *testing.T) {
	of := newFake()
	l, path := listening(t, of, nil)
	it := call(t, path)
	send(t, it, append(request(1, 8190*16), request(2, 0)...))
	text, long := <-of.whole, make([]byte, frames.RequestMax)
	copy(long, replyTo(text))
	for at := frames.HeaderSize; at < len(long); at++ {
		long[at] = byte(at >> 9)
	}
	(<-of.asked).From.Answered(long, "")
	got := make([]byte, len(long))
	for at := 0; at < len(got); at += 100_000 {
		end := at + 100_000
		if end > len(got) {
			end = len(got)
		}
		time.Sleep(5 * time.Millisecond)
		if _, err := io.ReadFull(it, got[at:end]); err != nil {
			t.Fatal(err)
		}
	}
	if !bytes.Equal(got, long) {
		t.Error("another reply")
	}
	second := <-of.whole
	(<-of.asked).From.Answered(replyTo(second), "")
	if _, err := io.ReadFull(it, got[:frames.HeaderSize]); err != nil || !bytes.Equal(got[:frames.HeaderSize], replyTo(second)) {
		t.Error(err)
	}
	if found := l.some(func(c *conn) bool { return c.holds.Load() != 0 }); found != nil {
		t.Error("memory is held")
	}
}

// TestWhoDoesNotRead is closed amid the reply, without a line.
func TestWhoDoesNotRead(t *testing.T) {
	of := newFake()
	l, path := listening(t, of, func(c *config.Config) { c.Slow = 5 * brief })
	it := call(t, path)
	send(t, it, request(1, 8190*16))
	long := make([]byte, frames.RequestMax)
	copy(long, replyTo(<-of.whole))
	(<-of.asked).From.Answered(long, "")
	want := []counts.Named{{Name: "Slow", Count: 1}}
	until(t, "it is closed", func() bool { return reflect.DeepEqual(l.counts.ClosedByFault(), want) })
	if got := rest(t, it); len(got) >= len(long) || bytes.Contains([]byte(got), []byte("tb_listen")) {
		t.Errorf("%d bytes", len(got))
	}
}

// TestMemoryIsShared has long requests wait for memory, and one that stalls make room.
func TestMemoryIsShared(t *testing.T) {
	one := int64(len(request(1, 8190*16)) + frames.RequestMax)
	l, path := listening(t, echoing{newFake()}, func(c *config.Config) { c.Memory = one })
	stalls, began := call(t, path), time.Now()
	send(t, stalls, request(1, 8190*16)[:100_000])
	until(t, "it has the memory", func() bool {
		return l.some(func(c *conn) bool { return c.holds.Load() != 0 }) != nil
	})
	it := call(t, path)
	send(t, it, request(1, 8190*16))
	if _, err := io.ReadFull(it, make([]byte, frames.HeaderSize)); err != nil {
		t.Fatal(err)
	}
	if waited := time.Since(began); waited < 700*time.Millisecond {
		t.Errorf("it waited %v", waited)
	}
	if got := rest(t, stalls); got != "tb_listen: Slow\n" {
		t.Error(got)
	}
	send(t, it, request(2, 16)) // a short one takes none
	if _, err := io.ReadFull(it, make([]byte, frames.HeaderSize)); err != nil {
		t.Fatal(err)
	}
}

// TestAPlaceIsFree when its client is gone, though its request waits for a reply.
func TestAPlaceIsFree(t *testing.T) {
	of := newFake()
	_, path := listening(t, of, func(c *config.Config) { c.Connections = 1 })
	gone := call(t, path)
	send(t, gone, append(request(1, 0), 1)) // bytes that are not read end it by a reset
	r := <-of.asked
	it := call(t, path)
	if got := rest(t, it); got != "tb_listen: Busy\n" {
		t.Fatal(got)
	}
	gone.Close()
	r.From.Answered(replyTo(<-of.whole), "")
	until(t, "a place is free", func() bool {
		it := call(t, path)
		it.Write(request(1, 0))
		select {
		case r := <-of.asked:
			r.From.Answered(replyTo(<-of.whole), "")
			return true
		case <-time.After(brief):
			return false
		}
	})
}

// FuzzStream sends any bytes in any pieces: what is asked for is what a reader by the rules would cut out.
func FuzzStream(f *testing.F) {
	two := append(request(1, 32), request(2, 0)...)
	f.Add(two, 1)
	f.Add(two[:90], 7)
	f.Add(append(request(1, 4064), request(2, 16)...), 1000)
	f.Add([]byte("GET / HTTP/1.1\r\nHost: localhost:3001\r\nAccept: */*\r\n\r\n"), 5)
	f.Fuzz(func(t *testing.T, stream []byte, piece int) {
		if piece < 1 || len(stream) > 1<<17 || len(stream)/piece > 1000 {
			return
		}
		of := newFake()
		_, path := listening(t, echoing{of}, nil)
		it := call(t, path)
		want := cut(stream)
		var all sync.WaitGroup
		all.Add(1)
		go func() {
			defer all.Done()
			for at := 0; at < len(stream); at += piece {
				end := at + piece
				if end > len(stream) {
					end = len(stream)
				}
				if _, err := it.Write(stream[at:end]); err != nil {
					return
				}
			}
			it.(*net.UnixConn).CloseWrite()
		}()
		got := rest(t, it)
		all.Wait()
		if got != want {
			t.Errorf("%q, not %q", got, want)
		}
	})
}

// cut is what a connection gets for a stream: a reply to each request, and why it is closed.
func cut(stream []byte) string {
	var out []byte
	for len(stream) >= frames.HeaderSize {
		header := frames.Header(stream[:frames.HeaderSize])
		if fault := header.RequestFault(); fault != "" {
			return string(out) + lineOf + fault + "\n"
		}
		if header.Length() > len(stream) {
			break
		}
		out = append(out, replyTo(stream)...)
		stream = stream[header.Length():]
	}
	if len(stream) > 0 {
		return string(out) + lineOf + "Short\n"
	}
	return string(out)
}

// exchanging is one request and its reply over a connection, again and again.
func exchanging(t testing.TB) (exchange func()) {
	_, path := listening(t, answering{newFake(), replyTo(request(1, 16))}, nil)
	it := call(t, path)
	it.SetDeadline(time.Time{})
	ask, reply := request(1, 16), make([]byte, frames.HeaderSize)
	return func() {
		it.Write(ask)
		if _, err := io.ReadFull(it, reply); err != nil {
			t.Fatal(err)
		}
	}
}

func TestARequestAllocatesNothing(t *testing.T) {
	if count := testing.AllocsPerRun(1000, exchanging(t)); count > 0 {
		t.Errorf("%v allocations", count)
	}
}

// BenchmarkConnection is one request at a time over a connection.
func BenchmarkConnection(b *testing.B) {
	exchange := exchanging(b)
	b.ReportAllocs()
	b.ResetTimer()
	for i := 0; i < b.N; i++ {
		exchange()
	}
}

// answering answers each request by the same reply.
type answering struct {
	*fake
	reply []byte
}

func (a answering) Submit(r *backend.Request) { r.From.Answered(a.reply, "") }

func TestMain(m *testing.M) {
	limit := syscall.Rlimit{Cur: 4096, Max: 4096}
	syscall.Setrlimit(syscall.RLIMIT_NOFILE, &limit)
	os.Exit(m.Run())
}

// failing is a backend with a fault.
type failing struct{ *fake }

func (failing) Submit(*backend.Request) { panic("a fault") }

// TestAFaultOfThisProgram ends the connection, and no other one.
func TestAFaultOfThisProgram(t *testing.T) {
	l, path := listening(t, failing{newFake()}, nil)
	for i := 0; i < 3; i++ {
		it := call(t, path)
		send(t, it, request(1, 0))
		if got := rest(t, it); got != "" {
			t.Error(got)
		}
	}
	until(t, "the places are free", func() bool { return l.counts.Connections.Load() == 0 })
}
