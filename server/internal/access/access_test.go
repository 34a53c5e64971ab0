package access

import (
	"fmt"
	"net/netip"
	"os"
	"path/filepath"
	"strings"
	"syscall"
	"testing"

	"telovamish.org/server/internal/frames"
)

func TestWhoseAddressItIs(t *testing.T) {
	for host, want := range map[string]string{
		"10.1.2.3":             "10.1.2.3",
		"::ffff:10.1.2.3":      "10.1.2.3",
		"2001:db8:1:2:3:4:5:6": "2001:db8:1:2::",
		"fe80::1%eth0":         "fe80::",
	} {
		if got := Network(netip.MustParseAddr(host)); got != want {
			t.Errorf("%s: %s, not %s", host, got, want)
		}
	}
}

func written(t *testing.T, text string) string {
	t.Helper()
	file := filepath.Join(t.TempDir(), "clients")
	if err := os.WriteFile(file, []byte(text), 0o600); err != nil {
		t.Fatal(err)
	}
	return file
}

func TestFilesThatAreWrong(t *testing.T) {
	for text, want := range map[string]string{
		"certificate a":     "line 1: a line must be `certificate NAME NUMBER` or `user NAME NUMBER`",
		"person a 1":        "line 1: a line must be `certificate NAME NUMBER`",
		"certificate a x":   "line 1: 'x' is no number of 64 bits",
		"certificate a 0b1": "'0b1' is no number of 64 bits",
		"certificate a 0x":  "'0x' is no number of 64 bits",
		"certificate a -1":  "'-1' is no number of 64 bits",
		"certificate a " + "1844674407370" + "9551616": "is no number of 64 bits",
		"user nobody-there 1":                          "'nobody-there' is no user of this computer",
		"certificate a 1\ncertificate a 2":             "line 2: certificate a has a range already",
		"certificate a 1\ncertificate b 1":             "line 2: 1 is another one's range already",
		"\xff":                                         "is no text",
	} {
		_, err := New(nil, written(t, text))
		if err == nil || !strings.Contains(err.Error(), want) {
			t.Errorf("%q: %v, not %q", text, err, want)
		}
	}
	pipe := filepath.Join(t.TempDir(), "pipe")
	if err := syscall.Mkfifo(pipe, 0o600); err != nil {
		t.Fatal(err)
	}
	for _, place := range []string{pipe, "/dev/zero"} {
		if _, err := New(nil, place); err == nil || err.Error() != place+" is a pipe or a device, not a file" {
			t.Error(err)
		}
	}
	for _, place := range []string{filepath.Join(t.TempDir(), "none"), t.TempDir()} {
		if _, err := New(nil, place); err == nil || !strings.HasPrefix(err.Error(), place+": ") {
			t.Error(err)
		}
	}
}

func TestWhoMayUseWhichClients(t *testing.T) {
	text := "certificate payments 1  # the first\n\ncertificate billing 0x2\nuser 4242 3\n"
	it, err := New([]uint32{4242}, written(t, text))
	if err != nil {
		t.Fatal(err)
	}
	address := netip.MustParseAddrPort("127.0.0.1:5")
	payments, none := OfAddress(address, "payments"), OfAddress(address, "")
	for _, row := range []struct {
		peer   Peer
		uid    uint32
		upper  uint64
		enters string
		uses   string
	}{
		{payments, 0, 1, "", ""},
		{payments, 0, 2, "", "ClientNotAllowed"},
		{payments, 0, 0, "", "ClientNotAllowed"},
		{OfAddress(address, "billing"), 0, 2, "", ""},
		{OfAddress(address, "other"), 0, 1, "NotAllowed", "NotAllowed"},
		{none, 0, 1, "NotAllowed", "NotAllowed"},
		{OfUser(4242), 4242, 3, "", ""},
		{OfUser(4243), 4243, 3, "NotAllowed", "NotAllowed"},
		{OfUser(uint32(os.Geteuid())), uint32(os.Geteuid()), 3, "NotAllowed", "NotAllowed"},
	} {
		if got := it.Test(row.peer, row.uid); got != row.enters {
			t.Errorf("%+v: %q", row, got)
		}
		if got := it.TestClient(row.peer, frames.Client{Low: 7, High: row.upper}); got != row.uses {
			t.Errorf("%+v: %q", row, got)
		}
	}
	if payments.Shown != "127.0.0.1:5 (payments)" || none.Share != (Key{Address, "127.0.0.1"}) {
		t.Error(payments, none)
	}
}

func TestWithoutAFileAnyClientIsAllowed(t *testing.T) {
	it, err := New(nil, "")
	if err != nil {
		t.Fatal(err)
	}
	own := uint32(os.Geteuid())
	if it.Test(OfUser(own), own) != "" || it.TestClient(OfUser(own), frames.Client{Low: 1}) != "" {
		t.Error("the own user is not allowed")
	}
	if it.Test(OfUser(own+1), own+1) != "NotAllowed" {
		t.Error("another user is allowed")
	}
}

// TestALongFile has a time that grows with the lines, and not with their square.
func TestALongFile(t *testing.T) {
	var text strings.Builder
	for i := 0; i < 100_000; i++ {
		fmt.Fprintf(&text, "certificate c%d %d\n", i, i)
	}
	it, err := New(nil, written(t, text.String()))
	if err != nil || len(it.ranges) != 100_000 {
		t.Error(err)
	}
}
