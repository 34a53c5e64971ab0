package process

import (
	"time"

	"telovamish.org/server/internal/report"
)

// Task is what a goroutine does, and its result once that is done.
type Task[T any] struct {
	Result T
	Done   chan struct{}
}

// Goes does something in a goroutine.
func Goes[T any](do func() T) *Task[T] {
	it := &Task[T]{Done: make(chan struct{})}
	go func() {
		defer report.Guard()
		it.Result = do()
		close(it.Done)
	}()
	return it
}

// Within reports whether a channel is closed within a time.
func Within(it <-chan struct{}, wait time.Duration) bool {
	select {
	case <-it:
		return true
	default:
	}
	if wait <= 0 {
		return false
	}
	timer := time.NewTimer(wait)
	defer timer.Stop()
	select {
	case <-it:
		return true
	case <-timer.C:
		return false
	}
}
