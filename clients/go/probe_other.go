//go:build !unix

package tbclient

import (
	"errors"
	"net"
	"os"
	"time"
)

// probe reads what came already, or within a millisecond: errNothingYet if that is nothing.
func probe(conn net.Conn, data []byte) (int, error) {
	conn.SetReadDeadline(time.Now().Add(time.Millisecond))
	defer conn.SetReadDeadline(time.Time{})
	count, err := conn.Read(data)
	if errors.Is(err, os.ErrDeadlineExceeded) {
		return 0, errNothingYet
	}
	return count, err
}
