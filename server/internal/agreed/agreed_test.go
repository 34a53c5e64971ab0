package agreed

import (
	"errors"
	"os"
	"path/filepath"
	"strings"
	"testing"

	"telovamish.org/server/internal/report"
)

func TestParse(t *testing.T) {
	none := func([]Address, string, Access, *report.Log) (Log, error) { return nil, errors.New("opened") }
	Register("etcd", 2379, none)
	Register("postgresql", 5432, none)
	for url, want := range map[string]string{
		"etcd://a,b:1,[::1]:2/x/y": "etcd a:2379 b:1 [::1]:2 x/y",
		"postgresql://a/d/t":       "postgresql a:5432 d/t",
		"etcd://a.:1/b":            "etcd a.:1 b",
	} {
		t.Run(url, func(t *testing.T) {
			it, err := Parse(url)
			if err != nil {
				t.Fatal(err)
			}
			got := it.Kind
			for _, address := range it.Addresses {
				got += " " + address.String()
			}
			if got += " " + it.Name; got != want {
				t.Errorf("got %s", got)
			}
		})
	}
	for _, url := range []string{"", "etcd://", "etcd:///x", "etcd://a", "http://a/b", "etcd://a:70000/b",
		"etcd://a,/b", "etcd://a..b/c", "etcd://" + strings.Repeat("a", 64) + "/b", "etcd://[a/b", "etcd://\xff/b",
		"etcd://a/b c", "etcd://a:/b", "etcd://a:-1/b"} {
		t.Run(url, func(t *testing.T) {
			if it, err := Parse(url); err == nil {
				t.Errorf("got %v", it)
			}
			_, err := Open(url, Access{}, nil)
			var ended *report.Ended
			if !errors.As(err, &ended) || ended.Status != 1 {
				t.Errorf("got %v", err)
			}
		})
	}
	if _, err := Open("etcd://a/b", Access{}, nil); err == nil || err.Error() != "opened" {
		t.Errorf("got %v", err)
	}
}

func TestPassword(t *testing.T) {
	path := filepath.Join(t.TempDir(), "password")
	it := Access{PasswordFile: path}
	_, err := it.Password()
	if err == nil || err.Error() != path+": No such file or directory" {
		t.Errorf("got %v", err)
	}
	for data, want := range map[string]string{
		"secret\nmore": "secret", "secret": "secret", "": "", "s \r\n": "s ", "\xff\n": path + ": is no text",
	} {
		if err := os.WriteFile(path, []byte(data), 0o600); err != nil {
			t.Fatal(err)
		}
		got, err := it.Password()
		if err != nil {
			got = err.Error()
		}
		if got != want {
			t.Errorf("%q is %q, want %q", data, got, want)
		}
	}
	if got, err := (&Access{}).Password(); got != "" || err != nil {
		t.Errorf("without a file: %q, %v", got, err)
	}
	it.PasswordFile = filepath.Dir(path)
	if _, err := it.Password(); err == nil || err.Error() != filepath.Dir(path)+": Is a directory" {
		t.Errorf("a folder: %v", err)
	}
}
