//go:build unix && !aix && (!solaris || illumos)

package tbclient

import (
	"os"
	"syscall"
)

// lock takes the lock of a file. A file system without such locks does without.
func lock(file *os.File) {
	for syscall.Flock(int(file.Fd()), syscall.LOCK_EX) == syscall.EINTR {
	}
}
