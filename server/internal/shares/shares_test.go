package shares

import (
	"reflect"
	"strconv"
	"testing"
	"time"

	"telovamish.org/server/internal/access"
	"telovamish.org/server/internal/frames"
)

type clock struct{ at time.Duration }

func (c *clock) now() time.Duration { return c.at }

func key(name string) access.Key { return access.Key{Kind: access.User, Name: name} }

func client(number uint64) frames.Client { return frames.Client{Low: number} }

func begun(limits Limits) (*Shares, *clock) {
	at := &clock{1000 * time.Second}
	if limits.Idle == 0 {
		limits.Idle = 300 * time.Second
	}
	return New(limits, at.now), at
}

func TestConnections(t *testing.T) {
	it, _ := begun(Limits{Connections: 2})
	for _, step := range []struct {
		peer, want string
		leaves     bool
	}{
		{peer: "a"}, {peer: "a"}, {peer: "b"}, {peer: "a", want: "TooManyConnections"}, {peer: "b"},
		{peer: "a", leaves: true}, {peer: "a"},
		{peer: "a", leaves: true}, {peer: "a", leaves: true}, {peer: "b", leaves: true}, {peer: "b", leaves: true},
	} {
		if step.leaves {
			it.Leave(key(step.peer))
		} else if got := it.Enter(key(step.peer)); got != step.want {
			t.Errorf("%+v: %q", step, got)
		}
	}
	if len(it.open) != 0 {
		t.Error(it.open)
	}
}

// TestSessions counts those that were used within the time. Who sends a register again has one.
func TestSessions(t *testing.T) {
	it, at := begun(Limits{Sessions: 2})
	register := func(peer string, of uint64, want string) {
		t.Helper()
		if got := it.Register(key(peer), client(of)); got != want {
			t.Errorf("client %d: %q, not %q", of, got, want)
		}
	}
	for _, of := range []uint64{1, 2, 1, 2} {
		register("a", of, "")
	}
	register("a", 3, "TooManySessions")
	register("b", 3, "")
	at.at += 299 * time.Second
	it.Use(key("a"), client(1))
	register("a", 3, "TooManySessions")
	at.at += time.Second
	register("a", 3, "")
	register("a", 2, "TooManySessions")
	var left []frames.Client
	for element := it.used[key("a")].order.Front(); element != nil; element = element.Next() {
		left = append(left, element.Value.(session).client)
	}
	if want := []frames.Client{client(1), client(3)}; !reflect.DeepEqual(left, want) {
		t.Error(left)
	}
}

// TestRequests has a second's requests at once, a second's more that wait, and ten in each second.
func TestRequests(t *testing.T) {
	it, at := begun(Limits{Requests: 10})
	for i := 0; i < 20; i++ {
		want := time.Duration(0)
		if i > 10 {
			want = time.Duration(i-10) * time.Second / 10
		}
		if wait, why := it.Wait(key("a"), 100); wait != want || why != "" {
			t.Errorf("request %d: %v, %q", i, wait, why)
		}
	}
	at.at -= 50 * time.Millisecond
	if _, why := it.Wait(key("a"), 100); why != "TooManyRequests" {
		t.Error(why)
	}
	if wait, why := it.Wait(key("b"), 100); wait != 0 || why != "" {
		t.Error("another peer", wait, why)
	}
	taken := 0
	for i := 0; i < 100; i++ {
		at.at += 10 * time.Millisecond
		if _, why := it.Wait(key("a"), 100); why == "" {
			taken++
		}
	}
	if taken < 9 || taken > 11 {
		t.Errorf("%d in a second", taken)
	}
}

// TestCalls has a connection take turns, as requests do, and no turn if the peer has its number.
func TestCalls(t *testing.T) {
	it, _ := begun(Limits{Connections: 1, Requests: 8})
	for i := 0; i < 5; i++ {
		if why := it.Call(key("a"), 4); why != "" {
			t.Error(i, why)
		}
	}
	if why := it.Call(key("a"), 4); why != "TooManyRequests" {
		t.Error(why)
	}
	if why := it.Call(key("b"), 4); why != "" {
		t.Error(why)
	}
	it.Enter(key("b"))
	if why := it.Call(key("b"), 4); why != "TooManyConnections" {
		t.Error(why)
	}
}

func TestCallsOfASlowPeer(t *testing.T) {
	it, _ := begun(Limits{Requests: 1})
	it.Call(key("a"), 8)
	for _, want := range []time.Duration{0, time.Second} {
		if wait, why := it.Wait(key("a"), 100); wait != want || why != "" {
			t.Error(wait, why)
		}
	}
}

func TestLongReplies(t *testing.T) {
	it, _ := begun(Limits{Requests: 100})
	it.Charge(key("a"), 48)
	if len(it.turns) != 0 {
		t.Error("a short reply counts")
	}
	it.Charge(key("a"), 128*Piece)
	if wait, _ := it.Wait(key("a"), 100); wait != 280*time.Millisecond {
		t.Error(wait)
	}
}

// TestLongRequests has one that counts as 65, also if a second has fewer.
func TestLongRequests(t *testing.T) {
	it := &turns{rate: 10}
	if wait, why := it.wait(65, 1000*time.Second); wait != 0 || why != "" {
		t.Error(wait, why)
	}
	if _, why := it.wait(1, 1004400*time.Millisecond); why != "TooManyRequests" {
		t.Error(why)
	}
	if wait, why := it.wait(1, 1005*time.Second); wait != 500*time.Millisecond || why != "" {
		t.Error(wait, why)
	}
}

func TestPeersThatAreGone(t *testing.T) {
	it, at := begun(Limits{Requests: 1})
	for i := 0; i < 10000; i++ {
		at.at += 100 * time.Millisecond
		it.Wait(key(strconv.Itoa(i)), 100)
	}
	if len(it.turns) >= 100 {
		t.Error(len(it.turns))
	}
}

func TestRefusals(t *testing.T) {
	at := &clock{1000 * time.Second}
	it := NewRefusals(at.now)
	for i := 0; i < whole; i++ {
		if it.AreMany() {
			t.Error("many after", i)
		}
		it.Add(Long)
	}
	if !it.AreMany() {
		t.Error("not many")
	}
	for i := 0; i < most-whole*Long; i++ {
		if it.Wait() != 0 {
			t.Error("a wait after", i)
		}
		it.Add(1)
	}
	if it.Wait() != Moment {
		t.Error(it.Wait())
	}
	at.at += Moment / 2
	if it.Wait() != Moment/2 {
		t.Error(it.Wait())
	}
	at.at += Moment
	if it.AreMany() || it.Wait() != 0 {
		t.Error("the moment is over")
	}
	if it.Add(1); it.count != 1 {
		t.Error(it.count)
	}
}
