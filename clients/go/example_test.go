package tbclient_test

import (
	"context"
	"crypto/tls"
	"crypto/x509"
	"encoding/json"
	"errors"
	"fmt"
	"log"
	"math/big"
	"os"
	"path/filepath"
	"time"

	tb "telovamish.org/tbclient"
)

// exampleLedger is a server at a Unix socket in a new folder.
func exampleLedger() (socket *tb.Socket, server *ledger, folder string) {
	folder, err := os.MkdirTemp("", "tbclient")
	check(err)
	server = beginLedger(filepath.Join(folder, "ledger.sock"))
	socket, err = tb.NewSocket([]tb.Address{tb.Unix(server.path)})
	check(err)
	return socket, server, folder
}

func check(err error) {
	if err != nil {
		log.Fatal(err)
	}
}

// twoAccounts registers a client, and creates accounts 1 and 2.
func twoAccounts(ctx context.Context, socket *tb.Socket) *tb.Session {
	session, err := tb.Register(ctx, socket)
	check(err)
	results, err := session.CreateAccounts(ctx, []tb.Account{
		{ID: tb.ToUint128(1), Ledger: 700, Code: 10},
		{ID: tb.ToUint128(2), Ledger: 700, Code: 10},
	})
	check(err)
	check(results.Err())
	return session
}

// Money moves by a request that is saved before it is sent.
func Example() {
	socket, server, folder := exampleLedger()
	defer os.RemoveAll(folder)
	defer server.end()
	defer socket.Close()
	ctx, path := context.Background(), filepath.Join(folder, "session.json")

	session := twoAccounts(ctx, socket)
	sale := tb.Transfer{
		ID:              tb.ID(),
		DebitAccountID:  tb.ToUint128(1),
		CreditAccountID: tb.ToUint128(2),
		Amount:          tb.ToUint128(100),
		Ledger:          700,
		Code:            10,
	}
	check(session.Prepare(tb.CreateTransfers{sale})) // sends nothing
	check(session.Save(path))
	answer, err := session.Retry(ctx) // the same bytes until the reply is there
	check(err)
	check(answer.Err())
	check(session.Save(path))

	accounts, err := session.LookupAccounts(ctx, []tb.Uint128{tb.ToUint128(2)})
	check(err)
	fmt.Println(accounts[0].CreditsPosted)
	// Output: 100
}

// After a crash the session goes on from its file, with the same bytes first.
func ExampleLoad() {
	socket, server, folder := exampleLedger()
	defer os.RemoveAll(folder)
	defer server.end()
	defer socket.Close()
	ctx, path := context.Background(), filepath.Join(folder, "session.json")
	session := twoAccounts(ctx, socket)
	check(session.Prepare(tb.CreateTransfers{sale(100)}))
	check(session.Save(path))
	_, err := session.Retry(ctx)
	check(err)
	// The process is killed here, before it saved that the reply came.

	session, err = tb.Load(socket, path)
	check(err)
	if asked, inDoubt := session.InDoubt(); inDoubt {
		fmt.Println(asked.Request.Operation(), "is sent again")
		answer, err := session.Retry(ctx)
		check(err)
		check(answer.Err())
		check(session.Save(path))
	}
	accounts, err := session.LookupAccounts(ctx, []tb.Uint128{tb.ToUint128(2)})
	check(err)
	fmt.Println(accounts[0].CreditsPosted)
	// Output:
	// create_transfers is sent again
	// 100
}

// A session that has ended leaves its last request in doubt. A new client creates the same records
// with the same ids, and exists says that it was done before.
func ExampleSession_InDoubt() {
	socket, server, folder := exampleLedger()
	defer os.RemoveAll(folder)
	defer server.end()
	defer socket.Close()
	ctx := context.Background()
	session := twoAccounts(ctx, socket)
	server.evict() // for example because many others registered

	_, err := session.CreateTransfers(ctx, []tb.Transfer{sale(100)})
	if errors.Is(err, tb.ErrEvicted) {
		fmt.Println(err)
		asked, _ := session.InDoubt()
		session, err = tb.Register(ctx, socket)
		check(err)
		results, err := session.CreateTransfers(ctx, asked.Request.(tb.CreateTransfers))
		check(err)
		check(results.Except(tb.TransferExists).Err())
	}
	accounts, err := session.LookupAccounts(ctx, []tb.Uint128{tb.ToUint128(2)})
	check(err)
	fmt.Println(accounts[0].CreditsPosted)
	// Output:
	// request 2 of session 1 is refused: NoSession
	// 100
}

// A context is the limit of a call. Whether the request may have been sent is what ErrNotSent says.
func ExampleSession_Retry() {
	socket, server, folder := exampleLedger()
	defer os.RemoveAll(folder)
	defer server.end()
	defer socket.Close()
	session := twoAccounts(context.Background(), socket)
	release := server.holds(130) // the server takes its time

	ctx, cancel := context.WithTimeout(context.Background(), time.Second)
	defer cancel()
	check(session.Prepare(tb.CreateTransfers{sale(100)}))
	_, err := session.Retry(ctx)
	fmt.Println(errors.Is(err, context.DeadlineExceeded), errors.Is(err, tb.ErrNotSent))

	release()
	_, err = session.Retry(context.Background()) // the same bytes
	fmt.Println(err)
	// Output:
	// true false
	// <nil>
}

// Saved goes into a database in place of a file.
func ExampleResume() {
	socket, server, folder := exampleLedger()
	defer os.RemoveAll(folder)
	defer server.end()
	defer socket.Close()
	session, err := tb.NewSession(socket, tb.WithClient(tb.ToUint128(7)))
	check(err)
	check(session.Prepare(tb.Registration{}))
	row, err := json.Marshal(session.Saved())
	check(err)
	fmt.Println(string(row))

	var saved tb.Saved
	check(json.Unmarshal(row, &saved))
	session, err = tb.Resume(socket, saved)
	check(err)
	answer, err := session.Retry(context.Background())
	check(err)
	fmt.Println("session", answer.Session)
	// Output:
	// {"client":7,"session":0,"number":0,"pending":"070000000000000000000000000000000000000000000000000000000200000000000000000000000000000000000000"}
	// session 1
}

// Amounts are exact integers: the smallest unit of the money, counted.
func ExampleBigIntToUint128() {
	cents, _ := new(big.Int).SetString("36893488147419103232", 10)
	amount, err := tb.BigIntToUint128(cents)
	fmt.Println(amount, amount.BigInt().Cmp(cents), err)
	_, err = tb.BigIntToUint128(big.NewInt(-1))
	fmt.Println(err)
	// Output:
	// 36893488147419103232 0 <nil>
	// Uint128 must be 0 at least, and is negative
}

// Results are of events that were not accepted.
func ExampleResults() {
	results := tb.TransferResults{
		{Index: 0, Result: tb.TransferExists},
		{Index: 3, Result: tb.TransferExceedsCredits},
	}
	fmt.Println(results.Err())
	fmt.Println(results.Except(tb.TransferExists).Err())
	// Output:
	// event 0: exists, event 3: exceeds_credits
	// event 3: exceeds_credits
}

// TLS is that of the package crypto/tls.
func ExampleWithTLS() {
	authority, err := os.ReadFile("ca.pem")
	check(err)
	config := &tls.Config{RootCAs: x509.NewCertPool()}
	config.RootCAs.AppendCertsFromPEM(authority)
	socket, err := tb.NewSocket([]tb.Address{tb.TCP("ledger.example", 3001)}, tb.WithTLS(config))
	check(err)
	defer socket.Close()
}

func ExampleID() {
	first, second := tb.ID(), tb.ID()
	fmt.Println(second.Cmp(first))
	// Output: 1
}

func ExampleTransferFlags_String() {
	fmt.Println(tb.TransferLinked | tb.TransferPending)
	// Output: linked|pending
}
