package tbclient

import (
	"bytes"
	"context"
	"crypto/tls"
	"crypto/x509"
	"errors"
	"fmt"
	"io"
	"net"
	"os"
	"strconv"
	"strings"
	"sync"
	"time"
)

// Transport carries frames between a session and a server. Goroutines may share one.
type Transport interface {
	// Exchange sends the frame of a request, and returns the frame of its reply. An error that is no
	// ErrNotSent leaves it open whether the request was executed; a [LostError] lets the session send
	// the same bytes again.
	Exchange(ctx context.Context, frame []byte) ([]byte, error)
	// Close closes it. Each Exchange afterwards is an ErrClosed.
	Close() error
}

// Address is the place at which a server listens: see [Unix] and [TCP].
type Address struct {
	network, name, host string
}

// Unix is the address of a Unix socket.
func Unix(path string) Address {
	return Address{network: "unix", name: path}
}

// TCP is the address of a host, by name or number, and a port.
func TCP(host string, port int) Address {
	return Address{network: "tcp", name: net.JoinHostPort(host, strconv.Itoa(port)), host: host}
}

// String is the path, or the host and the port.
func (a Address) String() string { return a.name }

// dialed is the address for the package net, which takes a path that begins with @ for an abstract
// socket: another one than the file.
func (a Address) dialed() string {
	if a.network == "unix" && strings.HasPrefix(a.name, "@") {
		return "./" + a.name
	}
	return a.name
}

func (a Address) test(field string) error {
	switch {
	case a.network == "":
		return invalid(field, "is no address: Unix and TCP make one")
	case a.network == "unix" && (a.name == "" || strings.Contains(a.name, "\x00")):
		return invalid(field, "is no path")
	case a.network == "tcp" && a.host == "":
		return invalid(field, "has no host")
	}
	_, port, err := net.SplitHostPort(a.name)
	if a.network == "tcp" && err != nil {
		return invalid(field, "has no name or number of a host: %.40q", a.host) // as "[::1]"
	}
	if number, _ := strconv.Atoi(port); a.network == "tcp" && (number < 1 || number > 65535) {
		return invalid(field, "must have a port from 1 to 65535")
	}
	return nil
}

// DefaultTimeout is how long one sending may take.
const DefaultTimeout = 5 * time.Second

const (
	firstPause = 20 * time.Millisecond // before the addresses are called again; doubled each time
	lastPause  = 500 * time.Millisecond

	toldStarting         = "Starting"
	toldNotAllowed       = "NotAllowed"
	toldClientNotAllowed = "ClientNotAllowed"
)

// toldLater are the names by which a server says to come later: there are too many connections, or
// the peer has its share.
var toldLater = map[string]bool{
	"Busy": true, "TooManyConnections": true, "TooManySessions": true, "TooManyRequests": true,
}

// toldMark begins what a server says before it closes a connection: a line that is shorter than a
// header.
var toldMark = []byte("tb_listen: ")

// SocketOption changes how a [Socket] works.
type SocketOption func(*Socket) error

// WithTimeout sets how long one sending may take, from the connecting to the reply's last byte. It
// is DefaultTimeout if it is not given. A call of a session may send several times: its context
// is the limit of the whole call.
func WithTimeout(timeout time.Duration) SocketOption {
	return func(s *Socket) error {
		if timeout <= 0 {
			return invalid("timeout", "must be above 0, not %v", timeout)
		}
		s.timeout = timeout
		return nil
	}
}

// WithTLS makes each connection go over TLS. If the configuration has no ServerName, the
// certificate has to be of the host of the address. All addresses have to be of TCP.
func WithTLS(config *tls.Config) SocketOption {
	return func(s *Socket) error {
		if config == nil {
			return invalid("tls", "must be a configuration, not nil")
		}
		s.tls = config.Clone()
		return nil
	}
}

// Socket is a Transport over a connection to a server that listens.
//
// It connects when a request is to be sent, and keeps the connection. An exchange that does not end
// in its reply closes it, so that a late reply is never taken for another one. The next exchange
// then connects to the next address, if there are several, after the last to the first.
//
// Goroutines and sessions may share a Socket: their exchanges go one after another.
type Socket struct {
	addresses []Address
	timeout   time.Duration
	tls       *tls.Config

	turn  chan struct{} // holds a value while an exchange goes on
	at    int           // the address of the connection, or of the next one
	cause error         // why no reply came to this exchange so far

	closed chan struct{} // is closed with the Socket
	ending chan struct{} // is closed if no connection is to be made any more
	mu     sync.Mutex    // of what follows
	conn   *connection
	done   bool
}

var _ Transport = (*Socket)(nil)

// NewSocket is a Socket to a server at these addresses, which all have to serve one ledger. It
// connects nothing yet.
func NewSocket(addresses []Address, options ...SocketOption) (*Socket, error) {
	if len(addresses) == 0 {
		return nil, invalid("address", "must have one address at least")
	}
	s := &Socket{
		addresses: append([]Address(nil), addresses...),
		timeout:   DefaultTimeout,
		turn:      make(chan struct{}, 1),
		closed:    make(chan struct{}),
		ending:    make(chan struct{}),
	}
	for _, option := range options {
		if err := option(s); err != nil {
			return nil, err
		}
	}
	for at, address := range s.addresses {
		if err := address.test(fmt.Sprintf("address[%d]", at)); err != nil {
			return nil, err
		}
		if s.tls != nil && address.network != "tcp" {
			return nil, invalid("tls", "is for a host and a port, and address[%d] is %v", at, address)
		}
	}
	return s, nil
}

// Close closes the connection. An exchange that goes on ends with an error; each later one is an
// ErrClosed.
func (s *Socket) Close() error {
	s.mu.Lock()
	defer s.mu.Unlock()
	if !s.done && s.closed != nil {
		s.done = true
		close(s.closed)
	}
	conn := s.conn
	s.conn = nil
	if conn != nil {
		conn.Close()
	}
	return nil
}

// Exchange sends the frame of a request, and returns the frame of its reply.
func (s *Socket) Exchange(ctx context.Context, frame []byte) ([]byte, error) {
	if s.closed == nil {
		return nil, invalid("transport", "is none: NewSocket makes one")
	}
	if err := testContext(ctx); err != nil {
		return nil, err
	}
	asked, err := decodeRequestHeader(frame) // at a wrong one the server would close the connection
	if err != nil {
		return nil, err
	}
	select {
	case <-s.closed: // first, because select takes any of those that are ready
		return nil, ErrClosed
	default:
	}
	select {
	case s.turn <- struct{}{}:
		defer func() { <-s.turn }()
	case <-s.closed:
		return nil, ErrClosed
	case <-ctx.Done():
		return nil, &CancelledError{Err: ctx.Err()}
	}
	within, cancel := context.WithTimeout(ctx, s.timeout)
	defer cancel()
	s.cause = nil
	refusing := make(map[Address]bool)
	for pause := firstPause; ; pause = doubled(pause, lastPause) {
		reply, err := s.once(ctx, within, frame, asked)
		var fault *notTakenError
		if !errors.As(err, &fault) {
			return reply, err
		}
		s.keepCause(err)
		if fault.isRefusal {
			refusing[fault.address] = true
		}
		isFinal := s.areAll(refusing)
		if !isFinal && sleep(within, pause) {
			continue
		}
		if ctx.Err() != nil {
			return nil, &CancelledError{Err: ctx.Err()}
		}
		return nil, s.notConnected(isFinal)
	}
}

// keepCause keeps why no reply came. The end of the time says less than a fault before it.
func (s *Socket) keepCause(err error) {
	if s.cause == nil || !errors.Is(err, context.DeadlineExceeded) {
		s.cause = err
	}
}

func (s *Socket) notConnected(isFinal bool) error {
	return &connectError{s.cause, isFinal}
}

// areAll reports whether these are all addresses.
func (s *Socket) areAll(some map[Address]bool) bool {
	for _, address := range s.addresses {
		if !some[address] {
			return false
		}
	}
	return true
}

// notTakenError says that a server did not take a request: it reads its ledger, or refuses this
// client by TLS.
type notTakenError struct {
	address   Address
	isRefusal bool
	err       error
}

func (n *notTakenError) Error() string { return fmt.Sprintf("%v: %v", n.address, n.err) }

// once sends the frame once, and returns the frame of its reply.
func (s *Socket) once(ctx, within context.Context, frame []byte, asked requestHeader) ([]byte, error) {
	conn, err := s.connected(within)
	switch {
	case err == nil:
	case ctx.Err() != nil:
		return nil, &CancelledError{Err: ctx.Err()}
	case s.isClosed() || s.isEnding():
		return nil, ErrClosed
	default:
		return nil, err
	}
	reply, err := conn.exchange(within, frame, asked)
	if err == nil {
		return reply, nil
	}
	address := s.addresses[s.at]
	s.lose(conn)
	isRefused := !conn.isUsed && isRefusal(err)
	if isRefused || isStarting(err) {
		return nil, &notTakenError{address, isRefused, err}
	}
	return nil, s.failed(ctx, within, err)
}

func isStarting(err error) bool {
	var lost *LostError
	return errors.As(err, &lost) && lost.Told == toldStarting
}

// failed is the error of an exchange that did not end in its reply.
func (s *Socket) failed(ctx, within context.Context, err error) error {
	var lost *LostError
	switch {
	case errors.Is(err, ErrBadReply), errors.As(err, &lost):
		return err
	case ctx.Err() != nil:
		return &CancelledError{Sent: true, Err: ctx.Err()}
	case s.isClosed():
		return &LostError{Err: errors.New("the Socket was closed meanwhile")}
	case within.Err() != nil, errors.Is(err, os.ErrDeadlineExceeded):
		if s.cause != nil {
			return &LostError{Err: fmt.Errorf("none within %v, after %v", s.timeout, s.cause)}
		}
		return &LostError{Err: fmt.Errorf("none within %v", s.timeout)}
	}
	return &LostError{Err: fmt.Errorf("the connection broke: %w", err)}
}

func (s *Socket) isClosed() bool { return isEnded(s.closed) }

func (s *Socket) isEnding() bool { return isEnded(s.ending) }

func isEnded(done chan struct{}) bool {
	select {
	case <-done:
		return true
	default:
		return false
	}
}

// connectNoMore makes each later connecting an ErrClosed. An exchange that goes on ends in its time.
func (s *Socket) connectNoMore() {
	s.mu.Lock()
	defer s.mu.Unlock()
	if !s.isEnding() {
		close(s.ending)
	}
}

// connected is the connection: a new one if it has no connection, or if the server left it.
func (s *Socket) connected(ctx context.Context) (*connection, error) {
	s.mu.Lock()
	conn := s.conn
	s.mu.Unlock()
	if conn != nil && conn.isLeft() {
		s.lose(conn)
		conn = nil
	}
	ctx, cancel := context.WithCancel(ctx)
	defer cancel()
	if conn == nil {
		go func() { // who closes the Socket ends the calls too
			select {
			case <-s.closed:
				cancel()
			case <-s.ending:
				cancel()
			case <-ctx.Done():
			}
		}()
	}
	for pause := firstPause; conn == nil; pause = doubled(pause, lastPause) {
		var areDistrust bool
		conn, areDistrust = s.callEach(ctx)
		if conn == nil && (areDistrust || !sleep(ctx, pause)) {
			return nil, s.notConnected(areDistrust)
		}
	}
	return conn, s.keep(conn)
}

// keep makes this the connection, or closes it if the Socket was closed.
func (s *Socket) keep(conn *connection) error {
	s.mu.Lock()
	defer s.mu.Unlock()
	if s.done {
		conn.Close()
		return ErrClosed
	}
	s.conn = conn
	return nil
}

// callEach calls the addresses in turn, from the present one on, until one replies. Each gets a
// share of the time that is left. If none replies, it reports whether at each one side does not
// trust the other.
func (s *Socket) callEach(ctx context.Context) (conn *connection, areDistrust bool) {
	areDistrust = true
	for left := len(s.addresses); left > 0; left-- {
		deadline, _ := ctx.Deadline()
		share, cancel := context.WithTimeout(ctx, time.Until(deadline)/time.Duration(left))
		address := s.addresses[s.at]
		conn, err := dial(share, address, s.tls)
		cancel()
		if err == nil {
			return conn, false
		}
		s.keepCause(fmt.Errorf("%v: %w", address, err))
		areDistrust = areDistrust && (isCertificate(err) || isRefusal(err))
		s.next()
	}
	return nil, areDistrust
}

func (s *Socket) next() {
	s.at = (s.at + 1) % len(s.addresses)
}

// lose closes a connection. The next one goes to the next address.
func (s *Socket) lose(conn *connection) {
	s.mu.Lock()
	s.conn = nil
	s.mu.Unlock()
	conn.Close()
	s.next()
}

// isCertificate reports whether the server's certificate is not one to be trusted: calling again
// does not help.
func isCertificate(err error) bool {
	var (
		authority x509.UnknownAuthorityError
		host      x509.HostnameError
		other     x509.CertificateInvalidError
	)
	return errors.As(err, &authority) || errors.As(err, &host) || errors.As(err, &other)
}

// isRefusal reports whether the server refuses this client by an alert of TLS: it does not take its
// certificate, or requires one. In TLS 1.3 the alert comes when the client has agreed, and may have
// sent a request, which the server does not read. The package tls names alerts only by their text.
func isRefusal(err error) bool {
	var remote *net.OpError
	if !errors.As(err, &remote) || remote.Op != "remote error" {
		return false
	}
	alert := remote.Err.Error()
	return strings.Contains(alert, "certificate") || strings.HasSuffix(alert, "access denied") ||
		strings.HasSuffix(alert, "handshake failure") // in TLS 1.2 if it requires a certificate
}

func doubled(pause, most time.Duration) time.Duration {
	if 2*pause < most {
		return 2 * pause
	}
	return most
}

// sleep waits, and reports whether the context did not end meanwhile.
func sleep(ctx context.Context, pause time.Duration) bool {
	timer := time.NewTimer(pause)
	defer timer.Stop()
	select {
	case <-timer.C:
		return true
	case <-ctx.Done():
		return false
	}
}

// connection is a connection to a server. One exchange at a time uses it.
type connection struct {
	net.Conn
	plain  *plainConn // below TLS, or the same
	isUsed bool       // a reply came over it
}

// dial makes a connection.
func dial(ctx context.Context, address Address, config *tls.Config) (*connection, error) {
	var dialer net.Dialer
	made, err := dialer.DialContext(ctx, address.network, address.dialed())
	if err != nil {
		return nil, err
	}
	plain := &plainConn{Conn: made}
	if config == nil {
		return &connection{Conn: plain, plain: plain}, nil
	}
	if config.ServerName == "" {
		config = config.Clone()
		config.ServerName = address.host
	}
	over := tls.Client(plain, config)
	if err := over.HandshakeContext(ctx); err != nil {
		made.Close()
		return nil, fmt.Errorf("TLS: %w", err)
	}
	return &connection{Conn: over, plain: plain}, nil
}

// Close closes the connection at once: TLS would wait for its last words to be sent.
func (c *connection) Close() error {
	return c.plain.Conn.Close()
}

// isLeft reports whether the server closed the connection, or said something: it says nothing before
// it is asked.
func (c *connection) isLeft() bool {
	c.plain.isProbed = true
	defer func() { c.plain.isProbed = false }()
	var data [1]byte
	_, err := c.Read(data[:])
	return !errors.Is(err, errNothingYet)
}

// exchange sends a request and reads its reply, until the context ends.
func (c *connection) exchange(ctx context.Context, frame []byte, asked requestHeader) ([]byte, error) {
	defer c.until(ctx)()
	if _, err := c.Write(frame); err != nil {
		var said [headerSize]byte // what the server said before it closed the connection
		count, why := io.ReadFull(c, said[:])
		if isRefusal(why) {
			err = why
		}
		return nil, told(said[:count], err)
	}
	var header [headerSize]byte
	if count, err := io.ReadFull(c, header[:]); err != nil {
		return nil, told(header[:count], err)
	}
	c.isUsed = true
	reply, err := decodeReplyHeader(header[:])
	if err != nil {
		return nil, err
	}
	if err := reply.answers(asked); err != nil {
		return nil, err
	}
	whole := make([]byte, headerSize+reply.length)
	copy(whole, header[:])
	_, err = io.ReadFull(c, whole[headerSize:])
	return whole, err
}

// until ends reads and writes if the context ends. What it returns is called after the last of
// them.
func (c *connection) until(ctx context.Context) func() {
	c.plain.SetDeadline(time.Time{})
	finished, ended := make(chan struct{}), make(chan struct{})
	go func() {
		defer close(ended)
		select {
		case <-ctx.Done():
			c.plain.SetDeadline(time.Unix(1, 0))
		case <-finished:
		}
	}()
	return func() {
		close(finished)
		<-ended
	}
}

// told is a LostError with the name that the server told before it closed the connection, or the
// other error if it reported no name.
func told(said []byte, err error) error {
	if !bytes.HasPrefix(said, toldMark) {
		return err
	}
	name := strings.Map(printable, strings.TrimSpace(string(said[len(toldMark):])))
	return &LostError{Told: name, Err: fmt.Errorf("the server closed the connection: %s", name)}
}

// printable is a character, or ? in place of one that a terminal may obey.
func printable(r rune) rune {
	if r < ' ' || r > '~' {
		return '?'
	}
	return r
}

// errNothingYet says that a connection that is probed has nothing to be read. TLS takes it for a
// read that may be tried again.
var errNothingYet net.Error = nothingYet{}

type nothingYet struct{}

func (nothingYet) Error() string   { return "nothing to be read yet" }
func (nothingYet) Timeout() bool   { return true }
func (nothingYet) Temporary() bool { return true }

// plainConn is a connection whose Read does not wait while it is probed.
type plainConn struct {
	net.Conn
	isProbed bool
}

func (p *plainConn) Read(data []byte) (int, error) {
	if p.isProbed {
		return probe(p.Conn, data)
	}
	return p.Conn.Read(data)
}
