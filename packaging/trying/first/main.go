package main

import (
	"context"
	"fmt"

	tb "telovamish.org/tbclient"
)

func main() {
	ctx, one, two := context.Background(), tb.ToUint128(1), tb.ToUint128(2)
	ledger, err := tb.Open(ctx, "go.tbk")
	if err != nil {
		panic(err)
	}
	defer ledger.Close()
	ledger.CreateAccounts(ctx, []tb.Account{
		{ID: one, Ledger: 700, Code: 10}, {ID: two, Ledger: 700, Code: 10}})
	ledger.CreateTransfers(ctx, []tb.Transfer{{ID: tb.ToUint128(1001), DebitAccountID: one,
		CreditAccountID: two, Amount: tb.ToUint128(10), Ledger: 700, Code: 10}})
	found, err := ledger.LookupAccounts(ctx, []tb.Uint128{two})
	fmt.Println(found[0].CreditsPosted, err)
}
