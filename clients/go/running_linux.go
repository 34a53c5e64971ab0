package tbclient

import (
	"syscall"
	"unsafe"
)

const bootTime = 7 // a clock that counts while the computer sleeps

// runningClock is nanoseconds by a clock that nobody sets.
func runningClock() int64 {
	var at syscall.Timespec
	syscall.RawSyscall(syscall.SYS_CLOCK_GETTIME, bootTime, uintptr(unsafe.Pointer(&at)), 0)
	return at.Nano()
}
