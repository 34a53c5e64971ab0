//go:build unix

package tbclient

import (
	"io"
	"net"
	"syscall"
)

// probe reads what came already, without waiting: errNothingYet if that is nothing.
func probe(conn net.Conn, data []byte) (count int, err error) {
	raw, err := conn.(syscall.Conn).SyscallConn()
	if err != nil {
		return 0, err
	}
	fault := raw.Control(func(fd uintptr) { // all sockets of the package net are non-blocking
		for count, err = syscall.Read(int(fd), data); err == syscall.EINTR; {
			count, err = syscall.Read(int(fd), data)
		}
	})
	switch {
	case fault != nil:
		return 0, fault
	case err == syscall.EAGAIN:
		return 0, errNothingYet
	case err != nil:
		return 0, err
	case count == 0:
		return 0, io.EOF
	}
	return count, nil
}
