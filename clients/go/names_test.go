package tbclient_test

import (
	"errors"
	"strings"
	"testing"

	tb "telovamish.org/tbclient"
)

func TestNames(t *testing.T) {
	for shown, value := range map[string]interface {
		String() string
		Known() bool
	}{
		"register":          tb.OperationRegister,
		"SessionTooLow":     tb.StatusSessionTooLow,
		"exists":            tb.TransferExists,
		"id_already_failed": tb.TransferIDAlreadyFailed,
		"reserved_field":    tb.AccountReservedField,
	} {
		if value.String() != shown || !value.Known() {
			t.Errorf("%v, not %s", value, shown)
		}
	}
	for _, it := range []interface {
		String() string
		Known() bool
	}{tb.CreateTransferResult(99), tb.CreateAccountResult(99), tb.Operation(99), tb.Status(99)} {
		if it.Known() || it.String() != "99" {
			t.Errorf("99 is %v", it)
		}
	}
	if flags := tb.TransferPending | 512; flags.String() != "pending|512" {
		t.Errorf("flags are %v", flags)
	}
	if flags := tb.AccountFlags(0); flags.String() != "0" {
		t.Errorf("no flags are %v", flags)
	}
}

func TestMostItems(t *testing.T) {
	server, session := begun(t)
	ids := make([]tb.Uint128, tb.ItemsMax+1)
	for at := range ids {
		ids[at] = tb.ToUint128(1)
	}
	var fault *tb.InvalidError
	if _, err := session.LookupAccounts(background, ids); !errors.As(err, &fault) || fault.Field != "ids" {
		t.Error(err)
	}
	if count, _ := server.came(); count != 2 { // a register and the accounts
		t.Errorf("%d requests came", count)
	}
	found, err := session.LookupAccounts(background, ids[1:])
	if err != nil || len(found) != tb.ItemsMax || found[0].Ledger != 700 {
		t.Errorf("%d accounts, %v", len(found), err)
	}
	transfers, err := session.LookupTransfers(background, ids[:1])
	if err != nil || len(transfers) != 0 {
		t.Errorf("%v, %v", transfers, err)
	}
	if err := session.Close(); err != nil {
		t.Error(err)
	}
	if _, err := session.LookupAccounts(background, nil); !errors.Is(err, tb.ErrClosed) || !strings.Contains(err.Error(), "closed") {
		t.Error(err)
	}
}
