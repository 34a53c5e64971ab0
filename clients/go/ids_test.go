package tbclient_test

import (
	"bytes"
	"errors"
	"io"
	"sync"
	"testing"
	"testing/iotest"
	"time"

	tb "telovamish.org/tbclient"
)

func TestIDsRiseWhereTheClockIsSetBack(t *testing.T) {
	times := []int64{1000, 1000, 999, -5, 1001}
	drawn := bytes.NewReader(append(bytes.Repeat([]byte{0xff}, 10), make([]byte, 10)...))
	at := -1
	ids := tb.NewIDs(func() time.Time { at++; return time.UnixMilli(times[at]) }, drawn)
	for _, want := range []tb.Uint128{
		{Hi: 1000<<16 | 0xffff, Lo: 1<<64 - 1},
		{Hi: 1001 << 16, Lo: 0}, // the random bits overflow into the millisecond
		{Hi: 1001 << 16, Lo: 1},
		{Hi: 1001 << 16, Lo: 2},
		{Hi: 1001 << 16, Lo: 3},
	} {
		if id := ids.Next(); id != want {
			t.Errorf("an id is %+v, not %+v", id, want)
		}
	}
}

func TestIDsOfGoroutinesDiffer(t *testing.T) {
	var all sync.WaitGroup
	found := make([][]tb.Uint128, 8)
	for at := range found {
		all.Add(1)
		go func(at int) {
			defer all.Done()
			for len(found[at]) < 1000 {
				found[at] = append(found[at], tb.ID())
			}
		}(at)
	}
	all.Wait()
	seen := map[tb.Uint128]bool{}
	for _, ids := range found {
		for at, id := range ids {
			if seen[id] || id.IsZero() || id == tb.AmountMax || at > 0 && id.Cmp(ids[at-1]) <= 0 {
				t.Fatalf("id %v, behind %d others", id, at)
			}
			seen[id] = true
		}
	}
}

func TestIDsPanicWithoutRandomBytes(t *testing.T) {
	for _, random := range []io.Reader{iotest.ErrReader(errors.New("none")), bytes.NewReader(make([]byte, 9))} {
		func() {
			defer func() {
				if recover() == nil {
					t.Error("an id was made of no random bytes")
				}
			}()
			tb.NewIDs(time.Now, random).Next()
		}()
	}
}
