package memory

import (
	"testing"
	"time"
)

// taking takes bytes in a goroutine, and reports how that ended.
func taking(b *Budget, bytes int64, cancel chan struct{}) chan bool {
	took := make(chan bool, 1)
	before := b.length()
	go func() { took <- b.Take(bytes, cancel) }()
	for b.length() == before && len(took) == 0 {
		time.Sleep(time.Millisecond)
	}
	return took
}

func (b *Budget) length() int {
	b.mu.Lock()
	defer b.mu.Unlock()
	return len(b.waiting)
}

func TestABudget(t *testing.T) {
	b, none := NewBudget(100), make(chan struct{})
	if !b.Take(60, none) || !b.Take(40, none) || b.IsShort() {
		t.Fatal("there are 100")
	}
	first, second, third := taking(b, 50, none), taking(b, 10, none), taking(b, 10, none)
	if !b.IsShort() || len(first)+len(second)+len(third) > 0 {
		t.Error("none is free")
	}
	b.Give(40) // the first one wants more, and the others wait for it
	if len(first)+len(second) > 0 {
		t.Error("one goes before another")
	}
	b.Give(60)
	if !<-first || !<-second || !<-third || b.IsShort() {
		t.Error("100 are free")
	}
}

func TestOneThatWaitsNoLonger(t *testing.T) {
	b, cancel := NewBudget(100), make(chan struct{}, 1)
	b.Take(100, nil)
	first, second := taking(b, 60, cancel), taking(b, 40, nil)
	b.Give(50)
	cancel <- struct{}{}
	if <-first {
		t.Error("it was cancelled")
	}
	if !<-second {
		t.Error("40 are free")
	}
}

// TestOneThatWantsMoreThanThereAre gets all.
func TestOneThatWantsMoreThanThereAre(t *testing.T) {
	b := NewBudget(100)
	b.Take(1, nil)
	took := taking(b, 500, nil)
	if b.Give(1); !<-took {
		t.Error("all are free")
	}
	b.Give(500)
	if !b.Take(100, nil) {
		t.Error("all are free again")
	}
}

func TestNoBudget(t *testing.T) {
	b := NewBudget(0)
	if !b.Take(1<<60, nil) || !b.Take(1<<60, nil) || b.IsShort() {
		t.Error("there is a limit")
	}
	b.Give(1 << 60)
}

func TestChunks(t *testing.T) {
	if it := Take(); len(it) != ChunkSize {
		t.Error(len(it))
	} else {
		Free(it)
	}
}
