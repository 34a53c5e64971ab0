package conns

import (
	"context"
	"crypto/tls"
	"errors"
	"io"
	"net"
	"net/netip"
	"sync/atomic"
	"syscall"
	"time"

	"telovamish.org/server/internal/access"
	"telovamish.org/server/internal/report"
	"telovamish.org/server/internal/shares"
	"telovamish.org/server/internal/tlsfiles"
)

const (
	acceptAgain = 500 * time.Millisecond // before a connection is taken again for which there was no file
	agreement   = 10 * time.Second       // that a connection may take to agree on TLS
)

// Place is a socket that is listened on, how it is shown, and the TLS of new connections.
type Place struct {
	net.Listener
	Shown string
	TLS   atomic.Pointer[tls.Config]
}

// Take takes connections at a place, until that is closed. If there is no file for one more, those that
// call wait until there is.
func (l *Listener) Take(at *Place) {
	defer report.Guard()
	isSaid := false
	for {
		raw, err := at.Accept()
		switch {
		case errors.Is(err, net.ErrClosed):
			return
		case err != nil:
			if !isSaid {
				l.log.Say(report.Warning, "no more connections are taken for now: %s", report.Why(err))
			}
			isSaid = true
			time.Sleep(acceptAgain)
			continue
		}
		isSaid = false
		l.takeOne(raw, at.TLS.Load())
		if wait := l.refusals.Wait(); wait > 0 { // many that call at once hold up nobody
			time.Sleep(wait)
		}
	}
}

// takeOne takes a connection, or refuses it at once.
func (l *Listener) takeOne(raw net.Conn, config *tls.Config) {
	peer, uid, err := callerOf(raw)
	if err != nil {
		raw.Close() // it was gone before it was taken
		return
	}
	if why := l.refuses(peer, config != nil); why != "" {
		if config != nil {
			why = ""
		}
		refuse(raw, why)
		return
	}
	c, err := newConn(l, raw, peer, uid)
	if err != nil {
		raw.Close()
		return
	}
	if config == nil {
		go c.serve(c.enter()) // in the order in which they come
		return
	}
	l.agrees(c)
	go c.agree(config)
}

// callerOf is who makes a connection, as far as that is known before TLS is agreed on.
func callerOf(raw net.Conn) (access.Peer, uint32, error) {
	if unix, ok := raw.(*net.UnixConn); ok {
		uid, err := userOf(unix)
		return access.OfUser(uid), uid, err
	}
	address, err := addressOf(raw)
	return access.OfAddress(address, ""), 0, err
}

// addressOf is where a connection over TCP comes from.
func addressOf(raw net.Conn) (netip.AddrPort, error) {
	if address, ok := raw.RemoteAddr().(*net.TCPAddr); ok {
		return address.AddrPort(), nil
	}
	return netip.AddrPort{}, net.ErrClosed
}

// userOf is who is at the other end of a Unix socket.
func userOf(it *net.UnixConn) (uint32, error) {
	system, err := it.SyscallConn()
	if err != nil {
		return 0, err
	}
	var found *syscall.Ucred
	var fault error
	err = system.Control(func(file uintptr) {
		found, fault = syscall.GetsockoptUcred(int(file), syscall.SOL_SOCKET, syscall.SO_PEERCRED)
	})
	if err == nil {
		err = fault
	}
	if err != nil {
		return 0, err
	}
	return found.Uid, nil
}

// refuses is why a new connection is refused at once, or nothing. Those who come again and again, though
// their peer has its share, take no more time than that.
func (l *Listener) refuses(peer access.Peer, isTLS bool) string {
	cost := shares.Call
	if isTLS {
		cost = shares.TLSCall
	}
	why := l.shares.Call(peer.Share, cost)
	if why == "" && l.isFull() {
		why = "Busy"
	}
	if why == "" || !l.refusals.AreMany() {
		return ""
	}
	l.counts.Taken.Add(1)
	l.refusals.Add(1)
	l.countClosed(why, peer.Shown)
	return why
}

// refuse sends a client the reason, if there is something to say, and closes its connection.
func refuse(raw net.Conn, why string) {
	defer raw.Close()
	system, err := raw.(syscall.Conn).SyscallConn()
	if err != nil || why == "" {
		return
	}
	system.Control(func(file uintptr) {
		syscall.Write(int(file), []byte(lineOf+why+"\n"))
		var sent [1 << 12]byte // is read, so that the client is not cut off
		syscall.Read(int(file), sent[:])
	})
}

// agrees counts a connection among those that agree on TLS. The one that agrees for longest ends if there
// are too many: that takes a moment, except for those that stall.
func (l *Listener) agrees(c *conn) {
	l.mu.Lock()
	defer l.mu.Unlock()
	if len(l.agreeing) >= l.config.Connections {
		oldest := l.agreeing[0]
		l.agreeing = l.agreeing[1:]
		oldest.raw.Close()
		l.noTLS(oldest.peer.Shown, "others came while it agreed")
	}
	l.agreeing = append(l.agreeing, c)
}

// hasAgreed takes a connection out of those. It reports whether it still was one.
func (l *Listener) hasAgreed(c *conn) bool {
	l.mu.Lock()
	defer l.mu.Unlock()
	for at, it := range l.agreeing {
		if it == c {
			l.agreeing = append(l.agreeing[:at], l.agreeing[at+1:]...)
			return true
		}
	}
	return false
}

// overTLS is what TLS is over.
type overTLS struct {
	net.Conn
	out *output
}

func (o overTLS) Write(data []byte) (int, error) { return o.out.Write(data) }

// agree agrees on TLS, and serves the connection then.
func (c *conn) agree(config *tls.Config) {
	defer c.fails()
	c.tls = tls.Server(overTLS{c.raw, &c.out}, config)
	c.in = c.tls
	c.out.waits.Store(true)
	ctx, cancel := context.WithTimeout(context.Background(), agreement)
	err := c.tls.HandshakeContext(ctx)
	if err == nil {
		err = tlsfiles.Verify(c.tls, config)
	}
	isLate := ctx.Err() != nil
	cancel()
	if !c.l.hasAgreed(c) { // it was closed for others
		c.raw.Close()
		return
	}
	if err != nil {
		c.refuseTLS(err, isLate)
		return
	}
	c.out.waits.Store(false)
	if its := c.tls.ConnectionState().PeerCertificates; len(its) > 0 {
		address, _ := addressOf(c.raw)
		c.peer = access.OfAddress(address, its[0].Subject.CommonName)
	}
	c.serve(c.enter())
}

// refuseTLS closes a connection that did not agree. Its client gets an alert that says why.
func (c *conn) refuseTLS(err error, isLate bool) {
	defer c.raw.Close()
	var system *net.OpError
	switch {
	case isLate:
		c.l.noTLS(c.peer.Shown, "no agreement within 10 s")
	case errors.As(err, &system) && system.Op != "remote error", isGone(err):
	default:
		c.l.noTLS(c.peer.Shown, tlsfiles.Why(err))
		c.linger()
	}
}

// isGone reports whether a client hung up.
func isGone(err error) bool {
	return errors.Is(err, io.EOF) || errors.Is(err, net.ErrClosed)
}
