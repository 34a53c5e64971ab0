package config

import (
	"errors"
	"fmt"
	"math"
	"net/netip"
	"os"
	"path/filepath"
	"reflect"
	"regexp"
	"strings"
	"testing"
	"time"

	"telovamish.org/server/internal/report"
)

// faultOfArguments is the last line of what is wrong with arguments.
func faultOfArguments(t *testing.T, arguments ...string) string {
	t.Helper()
	_, err := Listener.Parse(arguments)
	var usage *Usage
	if !errors.As(err, &usage) {
		t.Fatalf("%q: %v", arguments, err)
	}
	if !strings.HasPrefix(usage.Text, "usage: tb-listen [OPTIONS] -- COMMAND [WORD ..]\n") {
		t.Error(usage.Text)
	}
	lines := strings.Split(strings.TrimSuffix(usage.Text, "\n"), "\n")
	return strings.TrimPrefix(lines[len(lines)-1], "tb_listen: error: ")
}

func TestWrongArguments(t *testing.T) {
	for _, row := range []struct {
		given []string
		want  string
	}{
		{nil, "the following arguments are required: COMMAND"},
		{[]string{"--"}, "the following arguments are required: COMMAND"},
		{[]string{"--", ""}, "an empty word is no COMMAND"},
		{[]string{"--unix", "", "--", "true"}, "argument --unix: an empty word is no path"},
		{[]string{"--again", "--", "true"}, "unrecognized arguments: --again"},
		{[]string{"-x"}, "unrecognized arguments: -x"},
		{[]string{"--idl=5", "--", "true"}, "unrecognized arguments: --idl=5"},
		{[]string{"--idle", "5", "--idle", "5", "--", "true"}, "argument --idle: give it once"},
		{[]string{"--unix", "a", "--unix=b", "--", "true"}, "argument --unix: give it once"},
		{[]string{"--unix", "--", "true"}, "argument --unix: expected one argument"},
		{[]string{"--insecure=1", "--", "true"}, "argument --insecure: it takes no value"},
		{[]string{"--allow-uid", "no such user", "--", "true"},
			"argument --allow-uid: 'no such user' is no user of this computer"},
		{[]string{"--certificate", "a", "--", "true"}, "--certificate and --key need each other"},
		{[]string{"--client-ca", "a", "--", "true"}, "--client-ca needs --certificate and --key"},
		{[]string{"--unix", "a", "--certificate", "a", "--key", "b", "--", "true"},
			"--certificate is for TCP: --tcp HOST:PORT"},
		{[]string{"--tcp", "0.0.0.0:0", "--", "true"}, "0.0.0.0 is no loopback address: give --client-ca FILE, " +
			"so that only clients with a certificate get in, or --insecure"},
	} {
		if got := faultOfArguments(t, row.given...); got != row.want {
			t.Errorf("%q: %q, not %q", row.given, got, row.want)
		}
	}
}

func TestEachWrongValue(t *testing.T) {
	times := []string{"", "0", "-1", "0.0001", "1000001", "nan", "inf", "x", "0x1p4", "1_0"}
	numbers := []string{"", "0", "-1", "1.5", "65536", "ten", "\u0663", "0x10", strings.Repeat("9", 20)}
	places := []string{"", "3001", ":3001", "localhost", "localhost:", "localhost:x", "localhost:-1", "localhost:65536",
		"localhost:1.5", "::1:3001", "[]:3001", "[::1:3001", "::1]:3001", "a[b]:1", "a:\u0663"}
	for _, row := range []struct {
		options, values []string
		want            string
	}{
		{[]string{"tcp", "metrics"}, places, "is no HOST:PORT"},
		{[]string{"connections", "connections-per-peer", "sessions-per-range", "requests-per-second"}, numbers,
			"is no number from 1 to 65535"},
		{[]string{"idle", "slow"}, times, "is no number of seconds from 0.001 to 1000000"},
		{[]string{"ahead"}, []string{"", "-1", "-0.001", "10000000001", "nan", "inf", "x"},
			"is no number of seconds from 0 to 10000000000"},
		{[]string{"memory"}, []string{"", "0", "4194303", "x"}, "is no number from 4194304 to 1125899906842624"},
	} {
		for _, option := range row.options {
			for _, value := range row.values {
				want := fmt.Sprintf("argument --%s: %s %s", option, report.Quoted(value), row.want)
				if got := faultOfArguments(t, "--"+option+"="+value, "--", "true"); got != want {
					t.Errorf("%q, not %q", got, want)
				}
			}
		}
	}
}

func TestWithoutOptions(t *testing.T) {
	got, err := Listener.Parse([]string{"--", "true", "--idle", "x"})
	want := &Config{TCP: Place{"127.0.0.1", 3001}, Connections: 256, Idle: 300 * time.Second, Slow: 30 * time.Second,
		Command: []string{"true", "--idle", "x"}}
	if err != nil || !reflect.DeepEqual(got, want) {
		t.Errorf("%+v, %v", got, err)
	}
}

func TestEachRightValue(t *testing.T) {
	got, err := Listener.Parse(strings.Fields("--unix u --tcp [::1]:0 --connections 65535 --certificate c --key k --client-ca a " +
		"--insecure --allow-uid 7 --allow-uid=8 --clients f --connections-per-peer 1 --sessions-per-range 2 " +
		"--requests-per-second 3 --memory 4194304 --status s --metrics localhost:4 --idle 1e6 --slow 0.001 " +
		"--ahead 1e10 --log-json true"))
	want := &Config{Unix: "u", TCP: Place{"::1", 0}, Connections: 65535, Certificate: "c", Key: "k", ClientCA: "a",
		IsInsecure: true, Users: []uint32{7, 8}, Clients: "f", ConnectionsPerPeer: 1, SessionsPerRange: 2,
		RequestsPerSecond: 3, Memory: 4 << 20, Status: "s", Metrics: Place{"localhost", 4}, Idle: 1e6 * time.Second,
		Slow: time.Millisecond, Ahead: math.MaxInt64, IsJSON: true, Command: []string{"true"}}
	if err != nil || !reflect.DeepEqual(got, want) {
		t.Errorf("%+v, %v", got, err)
	}
}

func TestPages(t *testing.T) {
	_, err := Listener.Parse([]string{"--version"})
	var page *Page
	if !errors.As(err, &page) || page.Text != "tb-listen "+Version+"\n" {
		t.Error(err)
	}
	if _, err = Listener.Parse([]string{"--help"}); !errors.As(err, &page) {
		t.Fatal(err)
	}
	found := regexp.MustCompile(`(?m)^  --(\S+)`).FindAllStringSubmatch(page.Text, -1)
	if len(found) != len(options)+2 {
		t.Errorf("%d options are on the page", len(found))
	}
	for _, line := range strings.Split(page.Text, "\n") {
		if len(line) > 110 {
			t.Error(line)
		}
	}
}

func TestAddresses(t *testing.T) {
	for host, want := range map[string]string{
		"127.1": "127.0.0.1", "0": "0.0.0.0", "1.2.3": "1.2.0.3", "0x7f.1": "127.0.0.1", "2130706433": "127.0.0.1",
		"10.258": "10.0.1.2", "::1": "::1", "1.2.3.4": "1.2.3.4",
	} {
		if got, ok := AddressOf(host); !ok || got != netip.MustParseAddr(want) {
			t.Errorf("%s: %v", host, got)
		}
	}
	for _, host := range []string{"", "localhost", "1.2.3.4.5", "256.1", "1.2.3.256", "4294967296", "1..2", "1_0"} {
		if got, ok := AddressOf(host); ok {
			t.Errorf("%q: %v", host, got)
		}
	}
}

func TestWhichAddressesAreLoopback(t *testing.T) {
	for host, want := range map[string]bool{
		"127.0.0.1": true, "127.0.0.2": true, "127.1": true, "::1": true, "::ffff:127.0.0.1": true,
		"::ffff:7f00:2": true, "0.0.0.0": false, "0": false, "10.0.0.1": false, "::": false,
		"::ffff:0.0.0.0": false, "::ffff:10.0.0.1": false, "::127.0.0.1": false, "fe80::1%lo": false,
	} {
		if got := IsLoopback(host); got != want {
			t.Errorf("%s: %v", host, got)
		}
	}
	defer func(before func(string) ([]netip.Addr, error)) { lookup = before }(lookup)
	own, other := netip.MustParseAddr("127.0.0.1"), netip.MustParseAddr("10.0.0.1")
	for _, row := range []struct {
		found []netip.Addr
		err   error
		want  bool
	}{
		{[]netip.Addr{own}, nil, true}, {[]netip.Addr{own, other}, nil, false}, {nil, errors.New("none"), true},
	} {
		lookup = func(string) ([]netip.Addr, error) { return row.found, row.err }
		if got := IsLoopback("ledger.example"); got != row.want {
			t.Errorf("%v: %v", row.found, got)
		}
	}
}

func file(t *testing.T, text string) string {
	t.Helper()
	path := filepath.Join(t.TempDir(), "listen.toml")
	if err := os.WriteFile(path, []byte(text), 0o600); err != nil {
		t.Fatal(err)
	}
	return path
}

func TestAFile(t *testing.T) {
	path := file(t, `
unix = "ledger.sock"
connections = 64
allow-uid = [7, "8"]
idle = 12.5
slow = 3
insecure = true
log-json = false
command = ["tbd", "run", "ledger.journal", "64"]
`)
	got, err := Listener.Parse([]string{"--connections", "9", "--config", path})
	want := &Config{Unix: "ledger.sock", Connections: 9, Users: []uint32{7, 8}, Idle: 12500 * time.Millisecond,
		Slow: 3 * time.Second, IsInsecure: true, File: path, Command: []string{"tbd", "run", "ledger.journal", "64"}}
	if err != nil || !reflect.DeepEqual(got, want) {
		t.Errorf("%+v, %v", got, err)
	}
	if got, err = Listener.Parse([]string{"--config", path, "--", "tbs", "run", "64"}); err != nil || got.Command[0] != "tbs" {
		t.Errorf("%+v, %v", got, err)
	}
}

func TestFilesThatAreWrong(t *testing.T) {
	for text, want := range map[string]string{
		"idle = 5\nconections = 64\n":      ", line 2: no option is called 'conections'",
		"idle = 5\n[more]\nidle = 5\n":     ", line 2: no option is called 'more'",
		"config = \"other\"\n":             ", line 1: no option is called 'config'",
		"idle = 5\nidle = 6\n":             "idle is already defined",
		"idle = \n":                        ", line 1: ",
		"connections = 0\n":                ": connections: '0' is no number from 1 to 65535",
		"connections = true\n":             ": connections: it takes N, not true",
		"insecure = 1\n":                   ": insecure: it takes true or false, not 1",
		"insecure = \"true\"\n":            ": insecure: it takes true or false, not 'true'",
		"tcp = [\"a:1\"]\n":                ": tcp: it takes HOST:PORT, not a list",
		"[unix]\npath = \"a\"\n":           ": unix: it takes PATH, not a table",
		"idle = 2026-12-01\n":              ": idle: it takes SECONDS, not a time",
		"command = \"tbd run it 64\"\n":    ": command: it takes a list, as [",
		"command = [[\"tbd\"]]\n":          ": command: each part of it is a word, not a list",
		"allow-uid = [\"no such user\"]\n": ": allow-uid: 'no such user' is no user of this computer",
		"status = \"\"\n":                  ": status: an empty word is no path",
	} {
		path := file(t, text)
		_, err := Listener.Parse([]string{"--config", path})
		var ended *report.Ended
		if !errors.As(err, &ended) || ended.Status != 1 || !strings.HasPrefix(err.Error(), path) ||
			!strings.Contains(err.Error(), want) || strings.Contains(err.Error(), "\n") {
			t.Errorf("%q: %v, not %q", text, err, want)
		}
	}
	if _, err := Listener.Parse([]string{"--config", "/dev/zero"}); err == nil || err.Error() != "/dev/zero is a pipe or a device, not a file" {
		t.Error(err)
	}
	if got := faultOfArguments(t, "--config", file(t, "idle = 5\n")); got != "the following arguments are required: COMMAND" {
		t.Error(got)
	}
}

func TestEachOptionIsInTheFile(t *testing.T) {
	in := (&fileOptions{}).values()
	for at := range options {
		name := options[at].name
		if _, ok := in[name]; !ok && name != "config" {
			t.Error(name)
		}
		delete(in, name)
	}
	if len(in) > 0 {
		t.Error(in)
	}
}

// FuzzArguments takes any arguments: they are taken, or there is a page or a line that says what is wrong.
func FuzzArguments(f *testing.F) {
	f.Add("--unix\na\n--idle=5\n--\ntbd\nrun")
	f.Add("--tcp\n[::1]:0\ntrue")
	f.Add("--connections\n\u0663\n--")
	f.Fuzz(func(t *testing.T, text string) {
		arguments := strings.Split(text, "\n")
		for _, it := range arguments { // no name is looked up, and no file is read
			if strings.HasPrefix(it, "--tcp") || strings.HasPrefix(it, "--config") {
				return
			}
		}
		c, err := Listener.Parse(arguments)
		if err == nil && (len(c.Command) == 0 || c.Connections < 1 || c.Idle <= 0 || c.Slow <= 0 || c.Ahead < 0) {
			t.Errorf("%+v", c)
		}
		var usage *Usage
		if errors.As(err, &usage) && !strings.Contains(usage.Text, "tb_listen: error: ") {
			t.Error(usage.Text)
		}
	})
}

// FuzzFile reads any text as a file of options.
func FuzzFile(f *testing.F) {
	f.Add("idle = 5\nallow-uid = [1]\ncommand = [\"true\"]\n")
	f.Add("[idle]\nidle = 5")
	f.Add("connections = 9223372036854775808")
	f.Fuzz(func(t *testing.T, text string) {
		c := defaults()
		c.File = "listen.toml"
		err := c.takeFile([]byte(text), map[string]bool{})
		if err == nil && (c.Connections < 1 || c.Idle <= 0 || c.Slow <= 0 || c.Ahead < 0) {
			t.Errorf("%+v", c)
		}
		if err != nil && !strings.HasPrefix(err.Error(), "listen.toml") {
			t.Error(err)
		}
	})
}
