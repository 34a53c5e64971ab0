package tbclient_test

import (
	"bytes"
	"context"
	"crypto/tls"
	"encoding/json"
	"errors"
	"io"
	"net"
	"os"
	"path/filepath"
	"strings"
	"sync"
	"testing"
	"time"

	tb "telovamish.org/tbclient"
)

var background = context.Background()

func newSocket(t testing.TB, l *ledger, options ...tb.SocketOption) *tb.Socket {
	t.Helper()
	socket, err := tb.NewSocket([]tb.Address{tb.Unix(l.path)}, options...)
	if err != nil {
		t.Fatal(err)
	}
	t.Cleanup(func() { socket.Close() })
	return socket
}

// begun is a ledger with two accounts, and a session.
func begun(t testing.TB, options ...tb.SessionOption) (*ledger, *tb.Session) {
	t.Helper()
	server := newLedger(t, t.TempDir())
	session, err := tb.Register(background, newSocket(t, server), options...)
	if err != nil {
		t.Fatal(err)
	}
	results, err := session.CreateAccounts(background, []tb.Account{
		{ID: tb.ToUint128(1), Ledger: 700, Code: 10},
		{ID: tb.ToUint128(2), Ledger: 700, Code: 10},
	})
	if err != nil || results.Err() != nil {
		t.Fatal(err, results)
	}
	return server, session
}

func sale(amount uint64) tb.Transfer {
	return tb.Transfer{
		ID: tb.ID(), DebitAccountID: tb.ToUint128(1), CreditAccountID: tb.ToUint128(2),
		Amount: tb.ToUint128(amount), Ledger: 700, Code: 10,
	}
}

func credited(t testing.TB, session *tb.Session) tb.Uint128 {
	t.Helper()
	accounts, err := session.LookupAccounts(background, []tb.Uint128{tb.ToUint128(2)})
	if err != nil || len(accounts) != 1 {
		t.Fatal(accounts, err)
	}
	return accounts[0].CreditsPosted
}

func TestMoneyMovesOnceOverLostReplies(t *testing.T) {
	server, session := begun(t, tb.WithAttempts(3))
	server.loses(2)
	if results, err := session.CreateTransfers(background, []tb.Transfer{sale(100)}); err != nil || len(results) != 0 {
		t.Fatal(results, err)
	}
	server.loses(3)
	_, err := session.CreateTransfers(background, []tb.Transfer{sale(10)})
	if !errors.Is(err, tb.ErrReplyLost) || errors.Is(err, tb.ErrNotSent) {
		t.Fatal(err)
	}
	if err := session.Prepare(tb.LookupAccounts{}); !errors.Is(err, tb.ErrInDoubt) {
		t.Fatal(err)
	}
	if answer, err := session.Retry(background); err != nil || answer.Err() != nil {
		t.Fatal(answer, err)
	}
	if sum := credited(t, session); sum != tb.ToUint128(110) {
		t.Errorf("credited %v", sum)
	}
}

func TestCancelledCallLeavesItsRequestInDoubt(t *testing.T) {
	server, session := begun(t)
	release := server.holds(130)
	ctx, cancel := context.WithTimeout(background, time.Second)
	defer cancel()
	_, err := session.CreateTransfers(ctx, []tb.Transfer{sale(100)})
	if !errors.Is(err, context.DeadlineExceeded) || !errors.Is(err, tb.ErrCancelled) || errors.Is(err, tb.ErrNotSent) {
		t.Fatal(err)
	}
	_, sent := server.came()
	release()
	if pending := session.Saved().Pending; !bytes.Equal(pending, sent) {
		t.Fatalf("%x was sent, and %x is in doubt", sent, pending)
	}
	if _, err := session.Retry(background); err != nil {
		t.Fatal(err)
	}
	if sum := credited(t, session); sum != tb.ToUint128(100) {
		t.Errorf("credited %v", sum)
	}
}

func TestCancelledBeforeSendingTakesNoNumber(t *testing.T) {
	server, session := begun(t)
	before, _ := server.came()
	ctx, cancel := context.WithCancel(background)
	cancel()
	_, err := session.CreateTransfers(ctx, []tb.Transfer{sale(100)})
	if !errors.Is(err, context.Canceled) || !errors.Is(err, tb.ErrNotSent) {
		t.Fatal(err)
	}
	if after, _ := server.came(); after != before {
		t.Fatalf("%d requests came", after-before)
	}
	if _, isThere := session.InDoubt(); isThere {
		t.Fatal("a request that was never sent is in doubt")
	}
	credited(t, session)
}

func TestSavedDoesNotWaitForACall(t *testing.T) {
	server, session := begun(t)
	release, ended := server.holds(130), make(chan error)
	go func() {
		_, err := session.CreateTransfers(background, []tb.Transfer{sale(100)})
		ended <- err
	}()
	for len(session.Saved().Pending) == 0 {
		time.Sleep(time.Millisecond)
	}
	if err := session.Prepare(tb.Registration{}); !errors.Is(err, tb.ErrInDoubt) {
		t.Error(err)
	}
	ctx, cancel := context.WithTimeout(background, 20*time.Millisecond)
	defer cancel()
	if _, err := session.LookupAccounts(ctx, nil); !errors.Is(err, tb.ErrNotSent) || !errors.Is(err, tb.ErrCancelled) {
		t.Errorf("who waits for another call is answered %v", err)
	}
	release()
	if err := <-ended; err != nil {
		t.Error(err)
	}
}

func TestGoroutinesShareASession(t *testing.T) {
	_, session := begun(t)
	path := filepath.Join(t.TempDir(), "session.json")
	var all sync.WaitGroup
	for at := 0; at < 8; at++ {
		all.Add(1)
		go func() {
			defer all.Done()
			for count := 0; count < 10; count++ {
				if _, err := session.CreateTransfers(background, []tb.Transfer{sale(1)}); err != nil {
					t.Error(err)
				}
				if err := session.Save(path); err != nil {
					t.Error(err)
				}
			}
		}()
	}
	all.Wait()
	if sum := credited(t, session); sum != tb.ToUint128(80) {
		t.Errorf("credited %v", sum)
	}
	data, err := os.ReadFile(path)
	var saved tb.Saved
	if err != nil || json.Unmarshal(data, &saved) != nil || saved.Number != 81 {
		t.Errorf("the file has %s, %v", data, err) // 1 of the accounts, and 80
	}
}

func TestCloseEndsWhatGoesOn(t *testing.T) {
	server := newLedger(t, t.TempDir())
	socket := newSocket(t, server)
	session, err := tb.Register(background, socket, tb.WithAttempts(1))
	if err != nil {
		t.Fatal(err)
	}
	defer server.holds(131)()
	ended := make(chan error)
	go func() {
		_, err := session.LookupAccounts(background, nil)
		ended <- err
	}()
	for came := 0; came < 2; came, _ = server.came() {
		time.Sleep(time.Millisecond)
	}
	socket.Close()
	if err := <-ended; !errors.Is(err, tb.ErrReplyLost) || errors.Is(err, tb.ErrNotSent) {
		t.Error(err)
	}
	if _, err := session.Retry(background); !errors.Is(err, tb.ErrClosed) {
		t.Error(err)
	}
}

func TestCloseEndsAConnecting(t *testing.T) {
	socket, err := tb.NewSocket([]tb.Address{tb.Unix(filepath.Join(t.TempDir(), "none"))}, tb.WithTimeout(time.Minute))
	if err != nil {
		t.Fatal(err)
	}
	time.AfterFunc(50*time.Millisecond, func() { socket.Close() })
	if _, err := tb.Register(background, socket); !errors.Is(err, tb.ErrClosed) {
		t.Error(err)
	}
}

func TestAPathThatBeginsWithAtIsAFile(t *testing.T) {
	inNewFolder(t)
	server := beginLedger("./@ledger.sock")
	t.Cleanup(server.end)
	address := tb.Unix("@ledger.sock")
	socket, err := tb.NewSocket([]tb.Address{address}, tb.WithTimeout(time.Second))
	if err != nil || address.String() != "@ledger.sock" {
		t.Fatal(address, err)
	}
	defer socket.Close()
	if _, err := tb.Register(background, socket); err != nil {
		t.Error(err)
	}
}

// A server that speaks no TLS closes the first connection, and does nothing with the next one.
func TestCannotConnectTellsWhy(t *testing.T) {
	listener, err := net.Listen("tcp", "127.0.0.1:0")
	if err != nil {
		t.Fatal(err)
	}
	defer listener.Close()
	go func() {
		if conn, err := listener.Accept(); err == nil {
			conn.Close()
		}
	}()
	address := tb.TCP("127.0.0.1", listener.Addr().(*net.TCPAddr).Port)
	socket, err := tb.NewSocket([]tb.Address{address}, tb.WithTLS(&tls.Config{}), tb.WithTimeout(time.Second))
	if err != nil {
		t.Fatal(err)
	}
	defer socket.Close()
	_, err = tb.Register(background, socket)
	if !errors.Is(err, tb.ErrCannotConnect) || strings.Contains(err.Error(), "deadline") {
		t.Error(err)
	}
}

// telling is a socket to a server that sends this to the first client that connects, and is silent
// then.
func telling(t *testing.T, text string, options ...tb.SocketOption) *tb.Socket {
	path := filepath.Join(t.TempDir(), "ledger.sock")
	listener, err := net.Listen("unix", path)
	if err != nil {
		t.Fatal(err)
	}
	t.Cleanup(func() { listener.Close() })
	go func() {
		if conn, err := listener.Accept(); err == nil {
			io.WriteString(conn, "tb_listen: "+text+"\n")
			conn.Close()
		}
	}()
	socket, err := tb.NewSocket([]tb.Address{tb.Unix(path)}, options...)
	if err != nil {
		t.Fatal(err)
	}
	t.Cleanup(func() { socket.Close() })
	return socket
}

func TestTheEndOfTheTimeTellsWhatWasBefore(t *testing.T) {
	socket := telling(t, "Starting", tb.WithTimeout(time.Second))
	_, err := tb.Register(background, socket, tb.WithAttempts(1))
	if !errors.Is(err, tb.ErrReplyLost) || !strings.HasSuffix(err.Error(), "Starting") {
		t.Error(err)
	}
}

func TestWhatAServerTellsIsShownWithoutControlCharacters(t *testing.T) {
	socket := telling(t, "\x1b[2J\x9bIdle")
	_, err := tb.Register(background, socket, tb.WithAttempts(1))
	var lost *tb.LostError
	if !errors.As(err, &lost) || lost.Told != "?[2J?Idle" || !strings.HasSuffix(err.Error(), lost.Told) {
		t.Errorf("%q", err)
	}
}

func TestCannotConnect(t *testing.T) {
	path := filepath.Join(t.TempDir(), "none")
	socket, err := tb.NewSocket([]tb.Address{tb.Unix(path), tb.TCP("127.0.0.1", 1)}, tb.WithTimeout(30*time.Millisecond))
	if err != nil {
		t.Fatal(err)
	}
	if _, err := tb.Register(background, socket); !errors.Is(err, tb.ErrCannotConnect) {
		t.Error(err)
	}
}

func TestOptionsAreTested(t *testing.T) {
	server := newLedger(t, t.TempDir())
	socket := newSocket(t, server)
	saved := tb.Saved{Client: tb.ToUint128(7), Session: 1}
	last, err := tb.Resume(socket, tb.Saved{Client: tb.ToUint128(7), Session: 1, Number: 1<<32 - 1})
	if err != nil {
		t.Fatal(err)
	}
	for name, make := range map[string]func() error{
		"client":     func() error { return second(tb.NewSession(socket, tb.WithClient(tb.Uint128{}))) },
		"attempts":   func() error { return second(tb.NewSession(socket, tb.WithAttempts(0))) },
		"pause":      func() error { return second(tb.NewSession(socket, tb.WithPause(-1))) },
		"transport":  func() error { return second(tb.NewSession(nil)) },
		"operation":  func() error { session, _ := tb.NewSession(socket); return session.Prepare(nil) },
		"session":    func() error { session, _ := tb.NewSession(socket); return session.Prepare(tb.LookupAccounts{}) },
		"number":     func() error { return last.Prepare(tb.LookupAccounts{}) },
		"timeout":    func() error { return socketOf(tb.Unix("a"), tb.WithTimeout(0)) },
		"tls":        func() error { return socketOf(tb.TCP("a", 1), tb.WithTLS(nil)) },
		"address[0]": func() error { return socketOf(tb.TCP("a", 65536)) },
	} {
		var fault *tb.InvalidError
		if err := make(); !errors.As(err, &fault) || fault.Field != name {
			t.Errorf("a wrong %s is answered %v", name, err)
		}
	}
	if err := last.Prepare(tb.Registration{}); !errors.Is(err, tb.ErrInvalid) {
		t.Error("it is registered twice: ", err)
	}
	if _, err := tb.Resume(socket, tb.Saved{Session: 1}); !errors.Is(err, tb.ErrInvalid) {
		t.Error("a session of client 0: ", err)
	}
	if err := socketOf(tb.Unix("a"), tb.WithTLS(&tls.Config{})); !errors.Is(err, tb.ErrInvalid) {
		t.Error("TLS over a path: ", err)
	}
	for _, address := range []tb.Address{{}, tb.Unix(""), tb.Unix("a\x00b"), tb.TCP("", 1), tb.TCP("a", 0), tb.TCP("a", -1)} {
		if err := socketOf(address); !errors.Is(err, tb.ErrInvalid) {
			t.Errorf("%#v is answered %v", address, err)
		}
	}
	for _, host := range []string{"[::1]", "a]"} { // what is wrong is not the port
		if err := socketOf(tb.TCP(host, 3001)); !errors.Is(err, tb.ErrInvalid) || !strings.Contains(err.Error(), "host") {
			t.Errorf("%s is answered %v", host, err)
		}
	}
	if _, err := tb.Resume(socket, saved, tb.WithClient(tb.ToUint128(8))); !errors.Is(err, tb.ErrInvalid) {
		t.Error(err)
	}
}

func TestZeroValuesAreRefused(t *testing.T) {
	ctx, cancel := context.WithTimeout(background, 5*time.Second)
	defer cancel()
	var session tb.Session
	var socket tb.Socket
	for name, call := range map[string]func() error{
		"CreateTransfers": func() error { _, err := session.CreateTransfers(ctx, []tb.Transfer{sale(1)}); return err },
		"Retry":           func() error { _, err := session.Retry(ctx); return err },
		"Prepare":         func() error { return session.Prepare(tb.Registration{}) },
		"Save":            func() error { return session.Save(filepath.Join(t.TempDir(), "session.json")) },
		"Register":        func() error { return second(tb.Register(ctx, &socket)) },
	} {
		if err := call(); !errors.Is(err, tb.ErrInvalid) {
			t.Errorf("%s is answered %v", name, err)
		}
	}
	if err := session.Close(); err != nil {
		t.Error(err)
	}
	if err := socket.Close(); err != nil {
		t.Error(err)
	}
}

func second(_ *tb.Session, err error) error { return err }

func socketOf(address tb.Address, options ...tb.SocketOption) error {
	_, err := tb.NewSocket([]tb.Address{address}, options...)
	return err
}

// scripted is a Transport that replies with what it has.
type scripted func(frame []byte) ([]byte, error)

func (s scripted) Exchange(_ context.Context, frame []byte) ([]byte, error) { return s(frame) }

func (s scripted) Close() error { return nil }

func TestATransportOfOnesOwn(t *testing.T) {
	saved := tb.Saved{Client: tb.ToUint128(7), Session: 1}
	wrong := errors.New("no server")
	for _, row := range []struct {
		reply   func(frame []byte) []byte
		err     error
		is      error
		inDoubt bool
	}{
		{err: wrong, is: wrong, inDoubt: true},
		{err: tb.ErrClosed, is: tb.ErrClosed},
		{is: tb.ErrBadReply, inDoubt: true, reply: func([]byte) []byte { return nil }},
		{is: tb.ErrBadReply, inDoubt: true, reply: func(frame []byte) []byte { return framed(frame, 1, 0, 9, nil)[:47] }},
		{is: tb.ErrBadReply, inDoubt: true, reply: func(frame []byte) []byte { return append(framed(frame, 1, 0, 9, nil), 0) }},
		{is: tb.ErrBadReply, inDoubt: true, reply: func(frame []byte) []byte { return framed(frame, 2, 0, 9, nil) }},
		{is: tb.ErrRefused, inDoubt: true, reply: func(frame []byte) []byte { return framed(frame, 1, 5, 0, nil) }},
		{reply: func(frame []byte) []byte { return framed(frame, 1, 0, 9, nil) }},
	} {
		session, err := tb.Resume(scripted(func(frame []byte) ([]byte, error) {
			if row.err != nil {
				return nil, row.err
			}
			return row.reply(frame), nil
		}), saved)
		if err != nil {
			t.Fatal(err)
		}
		_, err = session.LookupAccounts(background, nil)
		if !errors.Is(err, row.is) {
			t.Errorf("%v, not %v", err, row.is)
		}
		if _, inDoubt := session.InDoubt(); inDoubt != row.inDoubt {
			t.Errorf("after %v: whether it is in doubt", err)
		}
	}
}

// A nil context is refused by each call that takes one: it panicked.
func TestNilContexts(t *testing.T) {
	server, session := begun(t)
	socket := newSocket(t, server)
	client, err := tb.NewClient(tb.ToUint128(0), []string{server.path})
	if err != nil {
		t.Fatal(err)
	}
	t.Cleanup(func() { client.Close() })
	var none context.Context
	ids := []tb.Uint128{tb.ToUint128(1)}
	for name, call := range map[string]func() error{
		"Register":          func() error { _, err := tb.Register(none, socket); return err },
		"Session":           func() error { _, err := session.LookupAccounts(none, ids); return err },
		"Session.Retry":     func() error { _, err := session.Retry(none); return err },
		"Client":            func() error { _, err := client.CreateTransfers(none, []tb.Transfer{sale(1)}); return err },
		"Socket.Exchange":   func() error { _, err := socket.Exchange(none, nil); return err },
		"Open, of no file":  func() error { _, err := tb.Open(none, filepath.Join(t.TempDir(), "ledger.tbk")); return err },
		"Open, of a folder": func() error { _, err := tb.Open(none, t.TempDir()); return err },
	} {
		t.Run(name, func(t *testing.T) {
			err := call()
			var wrong *tb.InvalidError
			if !errors.As(err, &wrong) || wrong.Field != "context" {
				t.Error(err)
			}
		})
	}
	if found := credited(t, session); found != tb.ToUint128(0) {
		t.Error("money moved", found)
	}
}
