package tbclient_test

import (
	"errors"
	"testing"

	tb "telovamish.org/tbclient"
)

func TestConnectTakesWhatNewClientTakes(t *testing.T) {
	server := newLedger(t, t.TempDir())
	for _, addresses := range []string{server.path, "./nobody.sock," + server.path} {
		client, err := tb.Connect(addresses)
		if err != nil {
			t.Fatal(err)
		}
		t.Cleanup(client.Close)
		if _, err := client.LookupAccounts(background, []tb.Uint128{tb.ToUint128(1)}); err != nil {
			t.Error(addresses, err)
		}
	}
	if _, err := tb.Connect(""); !errors.Is(err, tb.ErrInvalid) {
		t.Error(err)
	}
}
