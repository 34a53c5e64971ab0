//go:build !linux

package tbclient

import "time"

var begun = time.Now()

// runningClock is nanoseconds by a clock that nobody sets.
func runningClock() int64 { return int64(time.Since(begun)) }
