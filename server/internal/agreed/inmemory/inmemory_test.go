package inmemory_test

import (
	"context"
	"errors"
	"testing"
	"time"

	"telovamish.org/server/internal/agreed"
	"telovamish.org/server/internal/agreed/agreedtest"
	"telovamish.org/server/internal/agreed/inmemory"
)

func TestLog(t *testing.T) {
	agreedtest.TestLog(t, func(*testing.T) func() agreed.Log {
		engine := inmemory.New("n0", "n1", "n2")
		engine.SetClock(func() int64 { return time.Now().UnixNano() })
		return func() agreed.Log { return engine.Open() }
	})
}

func seen(t *testing.T, log agreed.Log, node string) string {
	t.Helper()
	found := ""
	if err := log.Seen(context.Background(), node, 0, func(it agreed.Item) error {
		found += string(it.Data)
		return nil
	}); err != nil {
		t.Fatal(err)
	}
	return found
}

func TestNodesThatRot(t *testing.T) {
	engine := inmemory.New("n0", "n1", "n2")
	log := engine.Open()
	for number, data := range []string{"a", "b", "c"} {
		if _, err := log.Append(context.Background(), []byte("w"), uint64(number+1), []byte(data)); err != nil {
			t.Fatal(err)
		}
	}
	engine.Rot("n0", 2, []byte("x"))
	engine.Rot("n1", 2, nil)
	engine.Put([]byte("d"))
	for node, want := range map[string]string{"n0": "axcd", "n1": "acd", "n2": "abcd"} {
		if got := seen(t, log, node); got != want {
			t.Errorf("%s has %s, want %s", node, got, want)
		}
	}
	engine.SetAway("n2", true)
	if got := seen(t, log, "n2"); got != "" {
		t.Errorf("n2 is away and has %s", got)
	}
}

func TestCallsThatFail(t *testing.T) {
	engine := inmemory.New("n0")
	log, ctx := engine.Open(), context.Background()
	engine.Fill("no room")
	if err := log.Report(ctx, "r0", nil); !errors.Is(err, agreed.ErrFull) || err.Error() != "no room" {
		t.Errorf("got %v", err)
	}
	if _, err := log.Head(ctx, []byte("x")); !errors.Is(err, agreed.ErrFull) {
		t.Errorf("got %v", err)
	}
	if why, err := log.Full(ctx); why != "no room" || err != nil {
		t.Errorf("got %s, %v", why, err)
	}
	engine.Fail(agreed.Failed(agreed.ErrNoLog, "away"))
	if _, err := log.Full(ctx); !errors.Is(err, agreed.ErrNoLog) {
		t.Errorf("got %v", err)
	}
	if _, known, _ := log.Clock(ctx); known {
		t.Error("there is a clock")
	}
}
