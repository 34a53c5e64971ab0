package process

import (
	"os"
	"strings"
	"sync/atomic"
	"syscall"
	"unsafe"
)

const (
	tailMax     = 4096    // bytes of what a command said last that are kept
	setPipeSize = 1031    // F_SETPIPE_SZ of Linux
	pipeSize    = 1 << 20 // bytes that a pipe may hold: a long request whole
	fionread    = 0x541b  // of Linux: bytes that are in a pipe
)

// Widen has a pipe hold a long request whole, if the system allows that.
func Widen(pipe *os.File) {
	if raw, err := pipe.SyscallConn(); err == nil {
		raw.Control(func(file uintptr) {
			syscall.Syscall(syscall.SYS_FCNTL, file, setPipeSize, pipeSize)
		})
	}
}

// Incoming is the reading end of a pipe, which counts what was written into it.
type Incoming struct {
	*os.File
	count atomic.Int64 // bytes that were read
}

// Read reads from the pipe.
func (i *Incoming) Read(data []byte) (int, error) {
	n, err := i.File.Read(data)
	i.count.Add(int64(n))
	return n, err
}

// Written is how many bytes were written into the pipe: those that were read, and those in it.
func (i *Incoming) Written() int64 {
	held, count := int32(0), i.count.Load()
	if raw, err := i.File.SyscallConn(); err == nil {
		raw.Control(func(file uintptr) {
			syscall.Syscall(syscall.SYS_IOCTL, file, fionread, uintptr(unsafe.Pointer(&held)))
		})
	}
	return count + int64(held)
}

// Tail is the last lines of the pipe, once it has ended, without those that are news, if isNews is not nil.
func (i *Incoming) Tail(isNews func(line string) bool) string {
	data := make([]byte, tailMax)
	kept, rest := "", ""
	for {
		n, err := i.Read(data)
		lines := strings.Split(rest+strings.ToValidUTF8(string(data[:n]), "\uFFFD"), "\n")
		for _, line := range lines[:len(lines)-1] {
			if isNews == nil || !isNews(line) {
				kept = lastOf(kept + line + "\n")
			}
		}
		if rest = lastOf(lines[len(lines)-1]); n == 0 && err != nil {
			return lastOf(kept + rest)
		}
	}
}

func lastOf(text string) string {
	if len(text) > tailMax {
		return text[len(text)-tailMax:]
	}
	return text
}

// LastLine is the last line of what a program said.
func LastLine(said string) string {
	lines := strings.Split(strings.TrimSpace(said), "\n")
	return strings.TrimSuffix(lines[len(lines)-1], "\r")
}
