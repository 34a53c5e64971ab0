package conns

import (
	"net"
	"sync"
	"testing"

	"telovamish.org/server/internal/config"
)

// closing is a connection that reports that it was closed.
type closing struct {
	net.Conn
	closed chan struct{}
}

func (c *closing) Close() error { close(c.closed); return nil }

// TestWhoAgreesForLongest ends when others come: one for each, also if they come at once.
func TestWhoAgreesForLongest(t *testing.T) {
	l, _ := listening(t, newFake(), func(c *config.Config) { c.Connections = 3 })
	some := make([]*conn, 5)
	for at := range some {
		some[at] = &conn{l: l, raw: &closing{closed: make(chan struct{})}}
	}
	for _, it := range some[:3] {
		l.agrees(it)
	}
	var both sync.WaitGroup
	for _, it := range some[3:] {
		both.Add(1)
		go func(it *conn) { defer both.Done(); l.agrees(it) }(it)
	}
	both.Wait()
	for at, it := range some {
		select {
		case <-it.raw.(*closing).closed:
			if at > 1 {
				t.Errorf("%d was closed", at)
			}
		default:
			if at <= 1 {
				t.Errorf("%d was not closed", at)
			}
		}
		if got, want := l.hasAgreed(it), at > 1; got != want {
			t.Errorf("%d has agreed: %v", at, got)
		}
	}
}
