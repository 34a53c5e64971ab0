package follower

import (
	"bytes"
	"errors"
	"fmt"
	"io"
	"os"
	"runtime"
	"strings"
	"sync"
	"testing"
	"time"

	"telovamish.org/server/internal/entries"
	"telovamish.org/server/internal/frames"
	"telovamish.org/server/internal/report"
)

const limit = time.Minute // for which a test waits for what is to come

// TestMain is a server with a reply to each pair, if the environment asks for that: the commit is its
// number. What the variable has makes one thing wrong.
func TestMain(m *testing.M) {
	if wrong, ok := os.LookupEnv("STAND_IN"); ok {
		standIn(wrong)
		return
	}
	os.Exit(m.Run())
}

func standIn(wrong string) {
	if wrong == "ends" {
		fmt.Fprintln(os.Stderr, "tbd: Gap")
		os.Exit(2)
	}
	var log, its entries.Hash
	head, commit := make([]byte, entryHead), uint64(0)
	for at := uint64(0); ; {
		if _, err := io.ReadFull(os.Stdin, head[:1]); err != nil {
			return
		}
		if head[0] == questionKind {
			said := little.AppendUint64([]byte{questionKind}, at)
			os.Stdout.Write(append(append(said, log[:]...), its[:]...))
			if wrong == "kind" && at == 3 {
				os.Stdout.Write([]byte{7})
			}
			continue
		}
		io.ReadFull(os.Stdin, head[1:])
		pairs := make([]byte, little.Uint32(head[9:]))
		io.ReadFull(os.Stdin, pairs)
		at = little.Uint64(head[1:])
		if string(appendEntry(nil, at, pairs)[:entryHead]) != string(head) {
			os.Exit(3)
		}
		log = log.Next(pairs)
		for place, index := 0, uint32(0); place < len(pairs); index++ {
			pair, end, _ := entries.NextPair(pairs, place)
			commit++
			place = end
			reply := make([]byte, frames.HeaderSize)
			copy(reply, pair.Frame[:29])
			little.PutUint64(reply[16:], commit)
			little.PutUint64(reply[36:], commit)
			if wrong == "length" && at == 3 {
				little.PutUint32(reply[32:], 1<<31)
			}
			its = its.Next(reply)
			said := little.AppendUint64([]byte{entryKind}, at)
			os.Stdout.Write(append(little.AppendUint32(said, index), reply...))
		}
	}
}

// replica is what a follower is of in a test.
type replica struct {
	*Follower
	t      *testing.T
	ended  chan error
	said   *bytes.Buffer
	number uint64

	mu      sync.Mutex
	replied []string
	stands  uint64
	log     entries.Hash
	replies entries.Hash
	lost    int
	begun   int
	changed chan struct{}
}

func (r *replica) change(do func()) {
	r.mu.Lock()
	defer r.mu.Unlock()
	do()
	r.Read()
}

func (r *replica) Began() { r.change(func() { r.begun++; r.stands = 0 }) }

func (r *replica) Replied(position uint64, index uint32, reply []byte) {
	r.change(func() {
		r.replied = append(r.replied, fmt.Sprintf("%d.%d: %d", position, index, frames.Header(reply).Client().Low))
	})
}

func (r *replica) Stands(position uint64, log, replies entries.Hash) {
	r.change(func() { r.stands, r.log, r.replies = position, log, replies })
}

func (r *replica) Lost() { r.change(func() { r.lost++ }) }

func (r *replica) Read() {
	select {
	case r.changed <- struct{}{}:
	default:
	}
}

// until waits until something holds.
func (r *replica) until(what string, holds func() bool) {
	r.t.Helper()
	timer := time.NewTimer(limit)
	defer timer.Stop()
	for {
		r.mu.Lock()
		is := holds()
		r.mu.Unlock()
		if is {
			return
		}
		select {
		case <-r.changed:
		case err := <-r.ended:
			r.t.Fatalf("%s: it ended: %v", what, err)
		case <-timer.C:
			r.t.Fatalf("%s: not within %v", what, limit)
		}
	}
}

// began is a follower that runs.
func began(t *testing.T, words ...string) *replica {
	t.Helper()
	noLeak(t)
	if len(words) == 0 {
		words = []string{os.Args[0], "follow", "64"}
	}
	r := &replica{t: t, ended: make(chan error, 1), said: &bytes.Buffer{}, changed: make(chan struct{}, 1)}
	log := report.NewTo("test", false, func(line []byte) { r.change(func() { r.said.Write(line) }) }, time.Now)
	r.Follower = New(words, 5*time.Second, r, log)
	go func() { r.ended <- r.Run() }()
	t.Cleanup(func() {
		r.Stop()
		r.Kill()
	})
	return r
}

// noLeak has a test fail if a goroutine of this package is left after it.
func noLeak(t *testing.T) {
	t.Cleanup(func() {
		data, left := make([]byte, 1<<20), ""
		for until := time.Now().Add(limit); time.Now().Before(until); time.Sleep(10 * time.Millisecond) {
			left = ""
			for _, it := range strings.Split(string(data[:runtime.Stack(data, true)]), "\n\n") {
				isOurs := strings.Contains(it, "internal/follower.") || strings.Contains(it, "internal/process.")
				if isOurs && !strings.Contains(it, "testing.tRunner") && !strings.Contains(it, "follower.TestMain") {
					left = it
				}
			}
			if left == "" {
				return
			}
		}
		t.Errorf("a goroutine is left:\n%s", left)
	})
}

// register is a pair of a register.
func register(client byte) []byte {
	frame := make([]byte, frames.HeaderSize)
	frame[0], frame[28] = client, 2
	return entries.AppendPair(nil, uint64(client), frame)
}

// give gives the next entry.
func (r *replica) give(pairs ...[]byte) {
	r.number++
	r.Give(r.number, bytes.Join(pairs, nil))
}

// running waits for a process.
func (r *replica) running() *replica {
	r.t.Helper()
	r.until("the start", func() bool { return r.begun == 1 })
	return r
}

func (r *replica) end() error {
	r.t.Helper()
	select {
	case err := <-r.ended:
		return err
	case <-time.After(limit):
		r.t.Fatal("it does not end")
		return nil
	}
}

func ends(err error) string {
	var ended *report.Ended
	if errors.As(err, &ended) {
		return fmt.Sprintf("%d %s", ended.Status, ended.Line)
	}
	return fmt.Sprint(err)
}

func same(t *testing.T, what string, got, want any) {
	t.Helper()
	if fmt.Sprint(got) != fmt.Sprint(want) {
		t.Errorf("%s: got %v, want %v", what, got, want)
	}
}

// TestReplies has several pairs, one and none in an entry.
func TestReplies(t *testing.T) {
	t.Setenv("STAND_IN", "")
	r := began(t).running()
	r.give(register(1), register(2))
	r.give(register(3))
	r.give()
	r.until("the hashes", func() bool { return r.stands == 3 })
	same(t, "replies", r.replied, []string{"1.0: 1", "1.1: 2", "2.0: 3"})
	log := entries.Hash{}.Next(append(register(1), register(2)...)).Next(register(3)).Next(nil)
	same(t, "the log's hash", r.log, log)
	r.Close()
	same(t, "the end", r.end(), nil)
	r.give(register(4))
	same(t, "lost", r.lost, 0)
}

// TestMany has more entries than the pipe holds.
func TestMany(t *testing.T) {
	t.Setenv("STAND_IN", "")
	r := began(t).running()
	const count = 20_000
	for number := 1; number <= count; number++ {
		r.give(register(byte(number%200+1)), register(byte(number%200+2)))
	}
	r.until("the hashes", func() bool { return r.stands == count })
	for at, it := range r.replied {
		number := at/2 + 1
		if want := fmt.Sprintf("%d.%d: %d", number, at%2, number%200+1+at%2); it != want {
			t.Fatalf("reply %d is %s, not %s", at, it, want)
		}
	}
	same(t, "replies", len(r.replied), 2*count)
	r.Close()
	same(t, "the end", r.end(), nil)
}

// TestClose has all that was given be answered.
func TestClose(t *testing.T) {
	t.Setenv("STAND_IN", "")
	r := began(t).running()
	for number := 1; number <= 100; number++ {
		r.give(register(byte(number)))
	}
	r.Close()
	same(t, "the end", r.end(), nil)
	same(t, "replies", []any{len(r.replied), r.stands}, []any{100, 100})
}

// TestKilled has another process be given all again.
func TestKilled(t *testing.T) {
	t.Setenv("STAND_IN", "")
	r := began(t).running()
	for life := 1; life <= 2; life++ {
		r.until("a process", func() bool { return r.begun == life })
		r.number = 0
		for number := 1; number <= 3; number++ {
			r.give(register(byte(number)))
		}
		r.until("the hashes", func() bool { return r.stands == 3 })
		if life == 1 {
			r.Kill()
		}
	}
	same(t, "replies", []any{len(r.replied), r.lost}, []any{6, 1})
	r.Close()
	same(t, "the end", r.end(), nil)
	if want := "ended by SIGKILL, and is started again in 0.1 s"; !strings.Contains(r.said.String(), want) {
		t.Errorf("it said %s", r.said)
	}
}

// TestWrong has the process write what is nothing.
func TestWrong(t *testing.T) {
	for wrong, want := range map[string]string{
		"kind":   "1 %s wrote what has no place in the log",
		"length": "1 %s wrote what is no reply to the next pair",
	} {
		t.Run(wrong, func(t *testing.T) {
			t.Setenv("STAND_IN", wrong)
			r := began(t).running()
			for number := 1; number <= 4; number++ {
				r.give(register(byte(number)))
			}
			same(t, "the end", ends(r.end()), fmt.Sprintf(want, os.Args[0]))
			if r.stands > 3 {
				t.Errorf("it stands at %d", r.stands)
			}
		})
	}
}

// TestEnds has the command end, not start, and take no more.
func TestEnds(t *testing.T) {
	t.Setenv("STAND_IN", "ends")
	for name, c := range map[string]struct {
		words []string
		want  string
	}{
		"status":  {nil, "2 tbd: Gap"},
		"none":    {[]string{"/none/tbd", "follow", "64"}, "1 /none/tbd does not start: No such file or directory"},
		"garbage": {[]string{"sh", "-c", "echo garbage; sleep 60"}, "1 sh wrote what has no place in the log"},
		"silent":  {[]string{"sh", "-c", "exit 7"}, "7 sh ended with status 7"},
		"zero":    {[]string{"sh", "-c", "exit 0"}, "1 sh ended with status 0"},
		"closed":  {[]string{"sh", "-c", "exec <&- >&- ; echo last words >&2; exit 5"}, "5 last words"},
	} {
		t.Run(name, func(t *testing.T) { same(t, "the end", ends(began(t, c.words...).end()), c.want) })
	}
}

// TestStop has a command that a signal ended not be started again.
func TestStop(t *testing.T) {
	t.Setenv("STAND_IN", "")
	r := began(t)
	r.until("the start", func() bool { return r.begun == 1 })
	r.Stop()
	r.Stop()
	r.Kill()
	same(t, "the end", ends(r.end()), fmt.Sprintf("1 %s ended by SIGKILL", os.Args[0]))
}

// TestGrandchild has a process leave one behind that holds its pipes.
func TestGrandchild(t *testing.T) {
	r := began(t, "sh", "-c", "sleep 600 & kill -9 $$")
	r.until("it is started again", func() bool { return r.begun == 2 })
	r.Stop()
	r.Kill()
	r.end()
}
