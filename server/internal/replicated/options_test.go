package replicated

import (
	"errors"
	"regexp"
	"strings"
	"testing"
	"time"

	_ "telovamish.org/server/internal/agreed/etcd"
	_ "telovamish.org/server/internal/agreed/postgresql"
	"telovamish.org/server/internal/config"
)

// line is the last line of what is wrong with arguments after a log and a copy.
func line(t *testing.T, arguments string) string {
	t.Helper()
	_, _, err := parse(strings.Fields(arguments))
	var usage *config.Usage
	if !errors.As(err, &usage) {
		t.Fatalf("%s: %v", arguments, err)
	}
	head := "usage: tb-replica [OPTIONS] --log LOG --copy FOLDER -- COMMAND [WORD ..]\ntb-replica: error: "
	if !strings.HasPrefix(usage.Text, head) {
		t.Error(usage.Text)
	}
	return strings.TrimSuffix(strings.TrimPrefix(usage.Text, head), "\n")
}

func TestWrongArguments(t *testing.T) {
	const log, rest = "--log etcd://m1/bank ", "--log etcd://m1/bank --copy F "
	for given, want := range map[string]string{
		"":                                    "the following arguments are required: --log, --copy, COMMAND",
		log + "-- tbd follow 64":              "the following arguments are required: --copy",
		"--copy F -- tbd follow 64":           "the following arguments are required: --log",
		rest:                                  "the following arguments are required: COMMAND",
		"--log redis://m1/bank --copy F tbd":  "argument --log: 'redis://m1/bank' is no etcd://HOST,../NAME or postgresql://HOST,../DATABASE/NAME",
		rest + log + "tbd follow 64":          "argument --log: give it once",
		rest + "--copy= tbd follow 64":        "argument --copy: an empty word is no path",
		rest + "--name= tbd follow 64":        "argument --name: '' is no name",
		rest + "--patience 0 tbd":             "argument --patience: '0' is no number of seconds from 0.001 to 1000000",
		rest + "--ahead=-1 tbd":               "argument --ahead: '-1' is no number of seconds from 0 to 10000000000",
		rest + "--standbys 65536 tbd":         "argument --standbys: '65536' is no number from 0 to 65535",
		rest + "--distrust 0A tbd":            "argument --distrust: '0A' is no writer: 32 digits, as `status` has them",
		rest + "--alone=1 tbd":                "argument --alone: it takes no value",
		rest + "--log-user= tbd":              "argument --log-user: it is empty",
		rest + "--log-ca= tbd":                "argument --log-ca: an empty word is no path",
		rest + "--config F tbd follow 64":     "unrecognized arguments: --config",
		rest + "--log-key k tbd follow 64":    "--log-certificate and --log-key need each other, and --log-ca",
		rest + "-- tbd run 64":                "COMMAND does not end in follow CLIENTS_MAX [PROFILE]",
		rest + "--tcp 0.0.0.0:0 tbd follow 1": "0.0.0.0 is no loopback address: give --client-ca FILE, so that only clients with a certificate get in, or --insecure",
	} {
		if got := line(t, given); got != want {
			t.Errorf("%q: %q, not %q", given, got, want)
		}
	}
}

func TestRightArguments(t *testing.T) {
	o, c, err := parse(strings.Fields("--log postgresql://m1,m2:5433/bank/ledger --copy F --name m1 --patience 2.5 " +
		"--ahead 3640 --alone --standbys 0 --log-ca a --log-certificate c --log-key k --log-user u --log-password-file p " +
		"--distrust 000102030405060708090a0b0c0d0e0f --distrust ffffffffffffffffffffffffffffffff --unix s --slow 7 " +
		"-- tbd follow 64 8"))
	if err != nil {
		t.Fatal(err)
	}
	if o.url != "postgresql://m1,m2:5433/bank/ledger" || o.copy != "F" || o.name != "m1" || !o.isAlone ||
		o.patience != 2500*time.Millisecond || o.ahead != 3640*time.Second || len(o.distrusted) != 2 ||
		o.distrusted[0][15] != 15 {
		t.Errorf("%+v", o)
	}
	if a := o.access; a.Authority != "a" || a.Certificate != "c" || a.Key != "k" || a.User != "u" ||
		a.PasswordFile != "p" || a.Standbys != 0 {
		t.Errorf("%+v", a)
	}
	if c.Unix != "s" || c.Slow != 7*time.Second || strings.Join(c.Command, " ") != "tbd follow 64 8" {
		t.Errorf("%+v", c)
	}
}

func TestPages(t *testing.T) {
	var page *config.Page
	if _, _, err := parse([]string{"--version"}); !errors.As(err, &page) || page.Text != "tb-replica "+config.Version+"\n" {
		t.Error(err)
	}
	if _, _, err := parse([]string{"--help"}); !errors.As(err, &page) {
		t.Fatal(err)
	}
	names := map[string]int{}
	for _, it := range regexp.MustCompile(`(?m)^  --(\S+)`).FindAllStringSubmatch(page.Text, -1) {
		names[it[1]]++
	}
	if names["config"] != 0 || names["ahead"] != 1 || names["log"] != 1 || names["unix"] != 1 || names["distrust"] != 1 {
		t.Error(names)
	}
	for _, line := range strings.Split(page.Text, "\n") {
		if len(line) > 110 {
			t.Error(line)
		}
	}
}
