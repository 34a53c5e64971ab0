// Wallet is a wallet over a ledger in a file: two customers, a deposit, a hold captured in part, a
// refund.
//
//	wallet [FILE]
//
// Run it as often as you like, and kill it or its tbd at any moment: each step moves money once.
package main

import (
	"context"
	"fmt"
	"log"
	"math/big"
	"os"

	tb "telovamish.org/tbclient"
)

const (
	eur                   = 978    // the ledger: amounts are in cents of EUR
	customer, cash        = 10, 30 // what an account is
	deposit, sale, refund = 1, 5, 9
)

var anna, ben, bank = tb.ToUint128(1), tb.ToUint128(2), tb.ToUint128(3)

var accounts = []tb.Account{
	{ID: anna, Ledger: eur, Code: customer, Flags: tb.AccountDebitsMustNotExceedCredits},
	{ID: ben, Ledger: eur, Code: customer, Flags: tb.AccountDebitsMustNotExceedCredits},
	{ID: bank, Ledger: eur, Code: cash},
}

// steps are what happens, each with an id of its own, which a program stores with its order.
var steps = []struct {
	what     string
	transfer tb.Transfer
}{
	{"Anna pays in 100.00", tb.Transfer{ID: tb.ToUint128(101), DebitAccountID: bank, CreditAccountID: anna,
		Amount: tb.ToUint128(10000), Ledger: eur, Code: deposit}},
	{"Ben's shop holds 60.00", tb.Transfer{ID: tb.ToUint128(102), DebitAccountID: anna, CreditAccountID: ben,
		Amount: tb.ToUint128(6000), Ledger: eur, Code: sale, Flags: tb.TransferPending, Timeout: 3600}},
	{"the order costs 45.00", tb.Transfer{ID: tb.ToUint128(103), PendingID: tb.ToUint128(102),
		Amount: tb.ToUint128(4500), Ledger: eur, Code: sale, Flags: tb.TransferPostPendingTransfer}},
	{"Ben gives 5.00 back", tb.Transfer{ID: tb.ToUint128(104), DebitAccountID: ben, CreditAccountID: anna,
		Amount: tb.ToUint128(500), Ledger: eur, Code: refund}},
	{"Anna wants to send 75.00", tb.Transfer{ID: tb.ToUint128(105), DebitAccountID: anna, CreditAccountID: ben,
		Amount: tb.ToUint128(7500), Ledger: eur, Code: sale}},
}

func main() {
	file := "wallet.tbk"
	if len(os.Args) > 1 {
		file = os.Args[1]
	}
	if err := run(context.Background(), file); err != nil {
		log.Fatal(err)
	}
}

// run does what is not done yet, and prints what each customer has.
func run(ctx context.Context, file string) error {
	ledger, err := tb.Open(ctx, file)
	if err != nil {
		return err
	}
	defer ledger.Close()
	if _, err := ledger.CreateAccounts(ctx, accounts); err != nil {
		return err
	}
	for _, step := range steps {
		results, err := ledger.CreateTransfers(ctx, []tb.Transfer{step.transfer})
		if err != nil {
			return err
		}
		said := "done"
		if len(results) > 0 {
			said = results[0].Result.String()
		}
		fmt.Printf("%s: %s\n", step.what, said)
	}
	found, err := ledger.LookupAccounts(ctx, []tb.Uint128{anna, ben})
	if err != nil {
		return err
	}
	for at, name := range []string{"Anna", "Ben"} {
		has := new(big.Int).Sub(found[at].CreditsPosted.BigInt(), found[at].DebitsPosted.BigInt())
		fmt.Printf("%s has %d.%02d\n", name, has.Int64()/100, has.Int64()%100)
	}
	return nil
}
