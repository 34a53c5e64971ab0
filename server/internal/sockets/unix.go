// Package sockets makes the sockets that a host listens on.
package sockets

import (
	"errors"
	"net"
	"os"
	"path/filepath"
	"strings"
	"syscall"
	"time"

	"telovamish.org/server/internal/report"
)

const (
	pathMax = 107             // bytes of the path of a Unix socket
	held    = 2 * time.Second // for which a folder that another holds is waited for
)

// Unix is a socket at a path.
type Unix struct {
	*net.UnixListener
	path string
	mine os.FileInfo
}

// ListenUnix listens at a path, which only its owner may use, or everyone if it is shared. A socket there
// on which nobody listens any more gives way.
func ListenUnix(path string, isShared bool) (*Unix, error) {
	it, err := listenUnix(path, isShared)
	var ended *report.Ended
	if err != nil && !errors.As(err, &ended) {
		return nil, report.End(1, "%s: %s", path, report.Why(err))
	}
	return it, err
}

func listenUnix(path string, isShared bool) (*Unix, error) {
	if len(path) > pathMax {
		return nil, report.End(1, "%s: AF_UNIX path too long", path)
	}
	mask := 0o177
	if isShared {
		mask = 0o111
	}
	defer syscall.Umask(syscall.Umask(mask))
	folder, err := holdFolder(path)
	if err != nil {
		return nil, err
	}
	defer folder.Close()
	if err := giveWay(path); err != nil {
		return nil, err
	}
	it, err := net.ListenUnix("unix", &net.UnixAddr{Name: nameOf(path), Net: "unix"})
	if err != nil {
		return nil, err
	}
	it.SetUnlinkOnClose(false)
	mine, err := os.Stat(path)
	if err != nil {
		it.Close()
		return nil, err
	}
	return &Unix{it, path, mine}, nil
}

// nameOf is a path as package net takes it: a name that begins with @ is that of a file too.
func nameOf(path string) string {
	if strings.HasPrefix(path, "@") {
		return "./" + path
	}
	return path
}

// giveWay removes a socket on which nobody listens any more.
func giveWay(path string) error {
	found, err := os.Stat(path)
	if err != nil || found.Mode()&os.ModeSocket == 0 {
		if _, err := os.Lstat(path); err == nil {
			return report.End(1, "%s is there already, and is no socket", path)
		}
		return nil
	}
	switch err := call(path); err {
	case nil, syscall.EAGAIN:
		return report.End(1, "%s is in use", path)
	case syscall.ECONNREFUSED:
		return os.Remove(path)
	default:
		return err // as a socket of another kind, or another's
	}
}

// call connects to a socket, and hangs up.
func call(path string) error {
	it, err := syscall.Socket(syscall.AF_UNIX, syscall.SOCK_STREAM|syscall.SOCK_NONBLOCK|syscall.SOCK_CLOEXEC, 0)
	if err != nil {
		return err
	}
	defer syscall.Close(it)
	return syscall.Connect(it, &syscall.SockaddrUnix{Name: nameOf(path)})
}

// holdFolder holds the folder of a path, so that listeners look for a socket there, make it and remove it
// one after another. It goes on without that if a file system has no such locks, or another holds it for
// long: whoever may read the folder can.
func holdFolder(path string) (*os.File, error) {
	folder, err := os.OpenFile(filepath.Dir(path), os.O_RDONLY|syscall.O_DIRECTORY, 0)
	if err != nil {
		return nil, err
	}
	for end := time.Now().Add(held); time.Now().Before(end); time.Sleep(10 * time.Millisecond) {
		if err := syscall.Flock(int(folder.Fd()), syscall.LOCK_EX|syscall.LOCK_NB); err != syscall.EWOULDBLOCK {
			break
		}
	}
	return folder, nil
}

// Remove closes the socket and removes its file, if another one is not there by now.
func (u *Unix) Remove() {
	u.Close()
	folder, err := holdFolder(u.path)
	if err != nil {
		return
	}
	defer folder.Close()
	if found, err := os.Lstat(u.path); err == nil && os.SameFile(u.mine, found) {
		os.Remove(u.path)
	}
}
