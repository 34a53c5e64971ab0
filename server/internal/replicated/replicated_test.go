package replicated

import (
	"context"
	"errors"
	"fmt"
	"io"
	"os"
	"path/filepath"
	"runtime"
	"strings"
	"sync"
	"testing"
	"time"

	"telovamish.org/server/internal/agreed"
	"telovamish.org/server/internal/agreed/inmemory"
	"telovamish.org/server/internal/backend"
	"telovamish.org/server/internal/entries"
	"telovamish.org/server/internal/frames"
	"telovamish.org/server/internal/replica"
	"telovamish.org/server/internal/report"
)

const limit = time.Minute // for which a test waits for what is to come

// TestMain is a server with a reply to each pair, as `tbd follow` has it, if the environment asks for that.
func TestMain(m *testing.M) {
	if _, ok := os.LookupEnv("STAND_IN"); ok {
		standIn()
		return
	}
	os.Exit(m.Run())
}

func standIn() {
	var log, its entries.Hash
	little := func(to []byte, number uint64) []byte {
		for at := 0; at < 8; at++ {
			to = append(to, byte(number>>(8*at)))
		}
		return to
	}
	number := func(data []byte) (it uint64) {
		for at := 7; at >= 0; at-- {
			it = it<<8 | uint64(data[at])
		}
		return it
	}
	head, commit, at := make([]byte, 17), uint64(0), uint64(0)
	for {
		if _, err := io.ReadFull(os.Stdin, head[:1]); err != nil {
			return
		}
		if head[0] == 2 {
			os.Stdout.Write(append(append(little([]byte{2}, at), log[:]...), its[:]...))
			continue
		}
		io.ReadFull(os.Stdin, head[1:])
		at = number(head[1:])
		pairs := make([]byte, number(append(head[9:13:13], 0, 0, 0, 0)))
		io.ReadFull(os.Stdin, pairs)
		log = log.Next(pairs)
		for place, index := 0, byte(0); place < len(pairs); index++ {
			pair, end, _ := entries.NextPair(pairs, place)
			commit, place = commit+1, end
			reply := append(little(append([]byte(nil), pair.Frame[:16]...), commit), pair.Frame[24:29]...)
			reply = append(little(append(reply, make([]byte, 7)...), commit), 0, 0, 0, 0)
			its = its.Next(reply)
			os.Stdout.Write(append(append(little([]byte{1}, at), index, 0, 0, 0), reply...))
		}
	}
}

// machine is a replica in a test.
type machine struct {
	*Backend
	t     *testing.T
	copy  *Copy
	ended chan error
}

// began is a replica that runs over an engine.
func began(t *testing.T, engine *inmemory.Engine, folder, name string) *machine {
	t.Helper()
	t.Setenv("STAND_IN", "")
	its, err := OpenCopy(folder)
	if err != nil {
		t.Fatal(err)
	}
	log := engine.Open()
	words := []string{os.Args[0], "follow", "64"}
	head, err := entries.HeadOf(words)
	if err != nil {
		t.Fatal(err)
	}
	head.ID = name
	s := replica.Settings{Name: name, Head: head, Server: words[0], Patience: 5 * time.Second, Ahead: time.Minute, IsAlone: true}
	copy(s.Writer[:], fmt.Sprintf("%s%d", name, time.Now().UnixNano()))
	m := &machine{t: t, copy: its, ended: make(chan error, 1)}
	m.Backend = New(s, words, 5*time.Second, log, its, report.NewTo("test", false, func([]byte) {}, time.Now))
	go func() {
		err := m.Run()
		log.Close()
		its.Close()
		m.ended <- err
	}()
	return m
}

// end closes the replica, and returns why it ended.
func (m *machine) end() error {
	m.t.Helper()
	m.Stop()
	m.Close()
	select {
	case err := <-m.ended:
		return err
	case <-time.After(limit):
		m.t.Fatal("it does not end")
		return nil
	}
}

func (m *machine) serves() *machine {
	m.t.Helper()
	select {
	case <-m.Begun():
	case err := <-m.ended:
		m.t.Fatalf("it ended: %v", err)
	case <-time.After(limit):
		m.t.Fatal("it does not serve")
	}
	return m
}

// asker is a client with one request.
type asker struct{ reply chan string }

func (a *asker) Answered(reply []byte, why string) {
	if reply != nil {
		why = fmt.Sprint(frames.Header(reply).Commit())
	}
	a.reply <- why
}

// ask sends the register of a client.
func (m *machine) ask(client byte) *asker {
	frame := make([]byte, frames.HeaderSize)
	frame[0], frame[28] = client, 2
	it := &asker{make(chan string, 1)}
	m.Submit(&backend.Request{Frame: frame, From: it})
	return it
}

func (a *asker) came(t *testing.T) string {
	t.Helper()
	select {
	case it := <-a.reply:
		return it
	case <-time.After(limit):
		t.Fatal("no reply comes")
		return ""
	}
}

func same(t *testing.T, what string, got, want any) {
	t.Helper()
	if fmt.Sprint(got) != fmt.Sprint(want) {
		t.Errorf("%s: got %v, want %v", what, got, want)
	}
}

// noLeak has a test fail if a goroutine of this package is left after it.
func noLeak(t *testing.T) {
	t.Cleanup(func() {
		data, left := make([]byte, 1<<20), ""
		for until := time.Now().Add(limit); time.Now().Before(until); time.Sleep(10 * time.Millisecond) {
			left = ""
			for _, it := range strings.Split(string(data[:runtime.Stack(data, true)]), "\n\n") {
				if strings.Contains(it, "server/internal/") && !strings.Contains(it, "testing.tRunner") &&
					!strings.Contains(it, "replicated.TestMain") {
					left = it
				}
			}
			if left == "" {
				return
			}
		}
		t.Errorf("a goroutine is left:\n%s", left)
	})
}

func TestRequests(t *testing.T) {
	noLeak(t)
	engine, folder := inmemory.New("n0", "n1", "n2"), t.TempDir()
	m := began(t, engine, filepath.Join(folder, "r0"), "r0").serves()
	same(t, "the first", m.ask(1).came(t), "1")
	some := []*asker{}
	for client := byte(2); client <= 50; client++ {
		some = append(some, m.ask(client))
	}
	for at, it := range some {
		same(t, "a reply", it.came(t), at+2)
	}
	same(t, "it serves", m.IsServing(), true)
	its := m.LogNumbers()
	for end := time.Now().Add(time.Minute); its.Answered != its.Position && time.Now().Before(end); its = m.LogNumbers() {
		time.Sleep(time.Millisecond) // the last entry's answer is counted after its reply is sent
	}
	isOdd := its.Position < 2 || its.Position > 50 || its.Answered != its.Position || its.First != 1 ||
		its.CopyPosition > its.Position || its.CopyBytes < 50*48 || len(its.Rotten) != 0
	if isOdd {
		t.Errorf("%+v", its)
	}
	same(t, "the end", m.end(), nil)
	same(t, "a late one", m.ask(60).came(t), programEnded)
	again := began(t, engine, filepath.Join(folder, "r0"), "r0").serves()
	same(t, "after a start", again.ask(70).came(t), "51")
	same(t, "the end", again.end(), nil)
}

// TestTwo has two replicas reply in one order.
func TestTwo(t *testing.T) {
	noLeak(t)
	engine, folder := inmemory.New("n0", "n1", "n2"), t.TempDir()
	all := []*machine{began(t, engine, filepath.Join(folder, "r0"), "r0"), began(t, engine, filepath.Join(folder, "r1"), "r1")}
	seen, mine := map[string]bool{}, sync.Mutex{}
	var clients sync.WaitGroup
	for at, it := range all {
		it.serves()
		for client := 1; client <= 20; client++ {
			clients.Add(1)
			go func(it *machine, client byte) {
				defer clients.Done()
				commit := it.ask(client).came(t)
				mine.Lock()
				defer mine.Unlock()
				if seen[commit] {
					t.Errorf("commit %s came twice", commit)
				}
				seen[commit] = true
			}(it, byte(100*at+client))
		}
	}
	clients.Wait()
	same(t, "replies", len(seen), 40)
	for _, it := range all {
		same(t, "the end", it.end(), nil)
	}
}

// TestServerIsKilled has connections wait for another process.
func TestServerIsKilled(t *testing.T) {
	noLeak(t)
	m := began(t, inmemory.New("n0"), filepath.Join(t.TempDir(), "r0"), "r0").serves()
	for client := byte(1); client <= 3; client++ {
		m.ask(client).came(t)
	}
	m.server.Kill()
	same(t, "after a kill", m.ask(4).came(t), "4")
	same(t, "the end", m.end(), nil)
}

// TestRot has a node have an entry otherwise, and one that has lost it.
func TestRot(t *testing.T) {
	for name, data := range map[string][]byte{"changed": []byte("TBENTRY2 it"), "lost": nil} {
		t.Run(name, func(t *testing.T) {
			noLeak(t)
			engine, folder := inmemory.New("n0", "n1", "n2"), t.TempDir()
			m := began(t, engine, filepath.Join(folder, "r0"), "r0").serves()
			for client := byte(1); client <= 3; client++ {
				m.ask(client).came(t)
			}
			same(t, "the end", m.end(), nil)
			place, enough := agreed.Place(0), errors.New("enough")
			reading := engine.Open()
			count := 0
			reading.Seen(contextOf(t), "n0", 0, func(it agreed.Item) error {
				if count++; count == 2 {
					place = it.Place
					return enough
				}
				return nil
			})
			engine.Rot("n0", place, data)
			other := began(t, engine, filepath.Join(folder, "r1"), "r1").serves()
			same(t, "a reply", other.ask(9).came(t), "4")
			same(t, "the end", other.end(), nil)
		})
	}
}

func contextOf(t *testing.T) context.Context {
	ctx, end := context.WithTimeout(context.Background(), limit)
	t.Cleanup(end)
	return ctx
}

// TestFaults has the log be away, and the command be of other rules.
func TestFaults(t *testing.T) {
	noLeak(t)
	engine := inmemory.New("n0")
	engine.Fail(agreed.Failed(agreed.ErrNoLog, "it is away"))
	m := began(t, engine, filepath.Join(t.TempDir(), "r0"), "r0")
	err := <-m.ended
	var ended *report.Ended
	if !errors.As(err, &ended) || ended.Status != 20 || ended.Line != "NoLog: it is away" {
		t.Errorf("got %v", err)
	}
	other := inmemory.New("n0")
	if _, err := other.Open().Head(contextOf(t), []byte(`{"format": 9}`)); err != nil {
		t.Fatal(err)
	}
	m = began(t, other, filepath.Join(t.TempDir(), "r0"), "r0")
	if err := <-m.ended; !errors.As(err, &ended) || ended.Status != 23 {
		t.Errorf("got %v", err)
	}
}

// TestCancel has nobody wait for a request any more.
func TestCancel(t *testing.T) {
	noLeak(t)
	engine := inmemory.New("n0")
	m := began(t, engine, filepath.Join(t.TempDir(), "r0"), "r0").serves()
	engine.Fail(agreed.Failed(agreed.ErrNoLog, "it is away"))
	frame := make([]byte, frames.HeaderSize)
	frame[0], frame[28] = 1, 2
	it := &asker{make(chan string, 1)}
	request := &backend.Request{Frame: frame, From: it}
	m.Submit(request)
	same(t, "it waited", m.Cancel(request), true)
	same(t, "once more", m.Cancel(request), false)
	same(t, "another one", m.ask(2).came(t), "NoLog")
	engine.Fail(nil)
	if got := m.ask(3).came(t); got == "NoLog" {
		t.Errorf("got %s", got)
	}
	same(t, "the end", m.end(), nil)
	same(t, "what came", len(it.reply), 0)
}
