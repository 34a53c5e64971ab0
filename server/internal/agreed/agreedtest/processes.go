package agreedtest

import (
	"net"
	"testing"
	"time"
)

// FreePorts are ports of the loopback interface that nobody listens at.
func FreePorts(t *testing.T, count int) []uint16 {
	t.Helper()
	ports := []uint16{}
	for range make([]struct{}, count) {
		it, err := net.Listen("tcp", "127.0.0.1:0")
		if err != nil {
			t.Fatal(err)
		}
		defer it.Close()
		ports = append(ports, uint16(it.Addr().(*net.TCPAddr).Port))
	}
	return ports
}

// Until waits until something holds.
func Until(t *testing.T, what string, holds func() bool) {
	t.Helper()
	for until := time.Now().Add(Wait); !holds(); time.Sleep(20 * time.Millisecond) {
		if time.Now().After(until) {
			t.Fatalf("%s: not within %v", what, Wait)
		}
	}
}
