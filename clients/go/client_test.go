package tbclient_test

import (
	"context"
	"encoding/binary"
	"errors"
	"path/filepath"
	"strings"
	"sync"
	"testing"
	"time"

	tb "telovamish.org/tbclient"
)

// shared is a ledger with two accounts, and a client of it.
func shared(t testing.TB, options ...tb.ClientOption) (*ledger, *tb.Client) {
	t.Helper()
	server := newLedger(t, t.TempDir())
	client, err := tb.NewClient(tb.ToUint128(0), []string{server.path}, options...)
	if err != nil {
		t.Fatal(err)
	}
	t.Cleanup(client.Close)
	results, err := client.CreateAccounts(background, []tb.Account{
		{ID: tb.ToUint128(1), Ledger: 700, Code: 10},
		{ID: tb.ToUint128(2), Ledger: 700, Code: 10},
	})
	if err != nil || results.Err() != nil {
		t.Fatal(err, results)
	}
	return server, client
}

// total is what was credited to account 2.
func total(t testing.TB, client *tb.Client) tb.Uint128 {
	t.Helper()
	accounts, err := client.LookupAccounts(background, []tb.Uint128{tb.ToUint128(2)})
	if err != nil || len(accounts) != 1 {
		t.Fatal(accounts, err)
	}
	return accounts[0].CreditsPosted
}

// items is how many records the last request of the ledger has, and how many requests came.
func items(l *ledger) (requests, records int) {
	count, frame := l.came()
	return count, len(frame[48:]) / 128
}

func TestCallsThatWaitGoOutAsOneRequest(t *testing.T) {
	server, client := shared(t)
	before, _ := server.came()
	again := sale(1)
	if _, err := client.CreateTransfers(background, []tb.Transfer{again}); err != nil {
		t.Fatal(err)
	}
	release := server.holds(130)
	var all sync.WaitGroup
	call := func(transfers ...tb.Transfer) {
		all.Add(1)
		go func() {
			defer all.Done()
			results, err := client.CreateTransfers(background, transfers)
			if err != nil {
				t.Error(err)
			}
			for _, row := range results { // `again` is the second of each list
				if row.Index != 1 || row.Result != tb.TransferExists || len(results) != 1 {
					t.Error(results)
				}
			}
			if len(results) != len(transfers)-1 {
				t.Error(results, len(transfers))
			}
		}()
	}
	call(sale(1))
	waitUntil(t, func() bool { count, _ := server.came(); return count == before+2 })
	for at := 0; at < 20; at++ {
		call(sale(1), again)
	}
	waitUntil(t, func() bool { return tb.Waiting(client) == 20 })
	release()
	all.Wait()
	requests, records := items(server)
	if requests != before+3 || records != 40 {
		t.Fatal(requests-before, records)
	}
	if sum := total(t, client); sum != tb.ToUint128(22) {
		t.Fatal(sum)
	}
}

func TestOneThatLeavesStopsNoOther(t *testing.T) {
	server, client := shared(t)
	const callers, calls = 24, 100
	var all sync.WaitGroup
	for caller := 0; caller < callers; caller++ {
		all.Add(1)
		go func() {
			defer all.Done()
			for number := 0; number < calls; number++ {
				results, err := client.CreateTransfers(background, []tb.Transfer{sale(1)})
				if err != nil || len(results) != 0 {
					t.Error(results, err)
				}
			}
		}()
	}
	for number := 0; number < 30; number++ {
		ctx, cancel := context.WithTimeout(background, time.Duration(number)*10*time.Microsecond)
		_, err := client.CreateTransfers(ctx, []tb.Transfer{{ID: tb.ID(), DebitAccountID: tb.ToUint128(1), CreditAccountID: tb.ToUint128(2)}})
		if err != nil && !errors.Is(err, tb.ErrCancelled) {
			t.Error(err)
		}
		cancel()
		if number%5 == 0 {
			server.loses(1)
		}
	}
	all.Wait()
	if sum := total(t, client); sum != tb.ToUint128(callers*calls) {
		t.Fatal(sum)
	}
}

func TestOneThatLeavesBeforeItIsSentIsNotExecuted(t *testing.T) {
	server, client := shared(t)
	release := server.holds(130)
	before, _ := server.came()
	done := make(chan error, 2)
	go func() {
		_, err := client.CreateTransfers(background, []tb.Transfer{sale(1)})
		done <- err
	}()
	waitUntil(t, func() bool { count, _ := server.came(); return count == before+1 })
	ctx, cancel := context.WithCancel(background)
	go func() {
		_, err := client.CreateTransfers(ctx, []tb.Transfer{sale(10)})
		done <- err
	}()
	waitUntil(t, func() bool { return tb.Waiting(client) == 1 })
	cancel()
	if err := <-done; !errors.Is(err, tb.ErrCancelled) || !errors.Is(err, tb.ErrNotSent) {
		t.Fatal(err)
	}
	release()
	if err := <-done; err != nil {
		t.Fatal(err)
	}
	if sum := total(t, client); sum != tb.ToUint128(1) {
		t.Fatal(sum)
	}
}

func TestEvictedWhileInDoubt(t *testing.T) {
	server, client := shared(t)
	server.loses(1)
	release := server.holds(130)
	before, _ := server.came()
	done := make(chan tb.TransferResults, 1)
	go func() {
		results, err := client.CreateTransfers(background, []tb.Transfer{sale(5)})
		if err != nil {
			t.Error(err)
		}
		done <- results
	}()
	waitUntil(t, func() bool { count, _ := server.came(); return count == before+1 })
	server.evict()
	release()
	if results := <-done; len(results) != 1 || results[0].Result != tb.TransferExists {
		t.Fatal(results)
	}
	if sum := total(t, client); sum != tb.ToUint128(5) {
		t.Fatal(sum)
	}
	if _, frame := server.came(); binary.LittleEndian.Uint32(frame[24:]) != 2 {
		t.Fatal("the new session does not count from 1")
	}
}

func TestAServerThatIsNotThereForAWhile(t *testing.T) {
	folder := t.TempDir()
	client, err := tb.NewClient(tb.ToUint128(0), []string{filepath.Join(folder, "ledger.sock")},
		tb.WithSocket(tb.WithTimeout(50*time.Millisecond)))
	if err != nil {
		t.Fatal(err)
	}
	defer client.Close()
	ctx, cancel := context.WithTimeout(background, 500*time.Millisecond)
	defer cancel()
	_, err = client.LookupAccounts(ctx, []tb.Uint128{tb.ToUint128(1)})
	if !errors.Is(err, tb.ErrNotSent) || !errors.Is(err, context.DeadlineExceeded) || !strings.Contains(err.Error(), "cannot connect") {
		t.Fatal(err)
	}
	begun := make(chan error, 1)
	go func() {
		_, err := client.LookupAccounts(background, []tb.Uint128{tb.ToUint128(1)})
		begun <- err
	}()
	newLedger(t, folder)
	if err := <-begun; err != nil {
		t.Fatal(err)
	}
}

func TestTheEndOfAClient(t *testing.T) {
	server, client := shared(t)
	release := server.holds(130)
	before, _ := server.came()
	sent, waiting := make(chan error, 1), make(chan error, 1)
	go func() {
		_, err := client.CreateTransfers(background, []tb.Transfer{sale(1)})
		sent <- err
	}()
	waitUntil(t, func() bool { count, _ := server.came(); return count == before+1 })
	go func() {
		_, err := client.CreateTransfers(background, []tb.Transfer{sale(1)})
		waiting <- err
	}()
	waitUntil(t, func() bool { return tb.Waiting(client) == 1 })
	closed := make(chan struct{})
	go func() {
		defer close(closed)
		client.Close()
	}()
	if err := <-waiting; !errors.Is(err, tb.ErrClosed) || !errors.Is(err, tb.ErrNotSent) {
		t.Fatal(err)
	}
	release()
	if err := <-sent; err != nil {
		t.Fatal(err)
	}
	<-closed
	if _, err := client.CreateTransfers(background, nil); !errors.Is(err, tb.ErrClosed) {
		t.Fatal(err)
	}
	client.Close()
}

func TestTheEndWhileNoServerIsThere(t *testing.T) {
	client, err := tb.NewClient(tb.ToUint128(0), []string{filepath.Join(t.TempDir(), "none.sock")})
	if err != nil {
		t.Fatal(err)
	}
	done := make(chan error, 1)
	go func() {
		_, err := client.LookupAccounts(background, []tb.Uint128{tb.ToUint128(1)})
		done <- err
	}()
	waitUntil(t, func() bool { return tb.Waiting(client) == 1 })
	began := time.Now()
	client.Close()
	if err := <-done; !errors.Is(err, tb.ErrClosed) {
		t.Fatal(err)
	}
	if took := time.Since(began); took > tb.DefaultTimeout-time.Second {
		t.Fatal(took)
	}
}

func TestAddressesOfAClient(t *testing.T) {
	for _, text := range []string{"", " ", "host:", ":x", "a:70000", "1:0", "a:1:2", "3000,", "[::1]:x"} {
		if _, err := tb.NewClient(tb.ToUint128(0), []string{text}); !errors.Is(err, tb.ErrInvalid) {
			t.Errorf("%q: %v", text, err)
		}
	}
	for _, text := range []string{"3000", "127.0.0.1", "localhost:3000", "[::1]:3000", "[::1]", "a/b", "3000, 3001", ":3000"} {
		if _, err := tb.NewClient(tb.ToUint128(0), []string{text}); err != nil {
			t.Errorf("%q: %v", text, err)
		}
	}
	if _, err := tb.NewClient(tb.ToUint128(0), nil); !errors.Is(err, tb.ErrInvalid) {
		t.Error(err)
	}
}

func TestOptionsOfAClient(t *testing.T) {
	for _, option := range []tb.ClientOption{
		tb.WithSessions(0), tb.WithSessions(65), tb.WithSocket(tb.WithTimeout(0)),
	} {
		if _, err := tb.NewClient(tb.ToUint128(0), []string{"3000"}, option); !errors.Is(err, tb.ErrInvalid) {
			t.Error(err)
		}
	}
	var none tb.Client
	if _, err := none.LookupAccounts(background, nil); !errors.Is(err, tb.ErrInvalid) {
		t.Error(err)
	}
	server, client := shared(t, tb.WithClientRange(7))
	if _, frame := server.came(); binary.LittleEndian.Uint64(frame[8:]) != 7 {
		t.Errorf("%x", frame[:16])
	}
	many := make([]tb.Account, tb.ItemsMax+1)
	if _, err := client.CreateAccounts(background, many); !errors.Is(err, tb.ErrInvalid) {
		t.Error(err)
	}
}

func TestSessionsAtOnce(t *testing.T) {
	server, client := shared(t, tb.WithSessions(4))
	release := server.holds(130)
	begun, _ := server.came()
	var all sync.WaitGroup
	for at := 0; at < 4; at++ {
		all.Add(1)
		go func() {
			defer all.Done()
			if _, err := client.CreateTransfers(background, []tb.Transfer{sale(1)}); err != nil {
				t.Error(err)
			}
		}()
		wanted := begun + 1 + 2*at // each session but the first is registered too
		waitUntil(t, func() bool { count, _ := server.came(); return count == wanted })
	}
	release()
	all.Wait()
	if sum := total(t, client); sum != tb.ToUint128(4) {
		t.Fatal(sum)
	}
}
