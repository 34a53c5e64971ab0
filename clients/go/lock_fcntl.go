//go:build aix || (solaris && !illumos)

package tbclient

import (
	"os"
	"syscall"
)

// lock takes the lock of a file, here only against other processes: these systems have no flock. A
// file system without such locks does without.
func lock(file *os.File) {
	whole := syscall.Flock_t{Type: syscall.F_WRLCK}
	for syscall.FcntlFlock(file.Fd(), syscall.F_SETLKW, &whole) == syscall.EINTR {
	}
}
