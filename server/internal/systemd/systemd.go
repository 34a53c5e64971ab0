// Package systemd has what systemd gives a host: sockets that it listens on already, and a place to
// report its state.
package systemd

import (
	"net"
	"os"
	"strconv"
	"strings"
	"syscall"

	"telovamish.org/server/internal/report"
)

const first = 3 // the first file that is passed to a process

// Sockets are those that are passed to this process, if some are.
func Sockets() ([]net.Listener, error) {
	if os.Getenv("LISTEN_PID") != strconv.Itoa(os.Getpid()) {
		return nil, nil
	}
	text := os.Getenv("LISTEN_FDS")
	os.Unsetenv("LISTEN_FDS")
	os.Unsetenv("LISTEN_PID")
	if text == "" {
		return nil, nil
	}
	count, err := strconv.ParseUint(text, 10, 16)
	if err != nil || len(text) > 3 {
		return nil, report.End(2, "LISTEN_FDS is no number of sockets: %s", text)
	}
	var found []net.Listener
	for at := 0; at < int(count); at++ {
		it, err := socket(first + at)
		if err != nil {
			return nil, err
		}
		found = append(found, it)
	}
	return found, nil
}

// socket is a file that was passed, as a socket that takes connections.
func socket(file int) (net.Listener, error) {
	syscall.CloseOnExec(file)
	kind, err := syscall.GetsockoptInt(file, syscall.SOL_SOCKET, syscall.SO_TYPE)
	accepts := 0
	if err == nil {
		accepts, err = syscall.GetsockoptInt(file, syscall.SOL_SOCKET, syscall.SO_ACCEPTCONN)
	}
	if err == nil && kind == syscall.SOCK_STREAM && accepts != 0 {
		it := os.NewFile(uintptr(file), "socket")
		if found, err := net.FileListener(it); err == nil {
			it.Close()
			if unix, ok := found.(*net.UnixListener); ok {
				unix.SetUnlinkOnClose(false)
			}
			return found, nil
		}
	}
	return nil, report.End(2, "file %d, which was passed, is no socket that takes connections", file)
}

// Notify reports a state, as READY=1, if systemd waits for it.
func Notify(state string) {
	place := os.Getenv("NOTIFY_SOCKET")
	if place == "" {
		return
	}
	if !strings.HasPrefix(place, "@") && !strings.HasPrefix(place, "/") {
		place = "./" + place
	}
	it, err := net.DialUnix("unixgram", nil, &net.UnixAddr{Name: place, Net: "unixgram"})
	if err != nil {
		return
	}
	defer it.Close()
	it.Write([]byte(state))
}
