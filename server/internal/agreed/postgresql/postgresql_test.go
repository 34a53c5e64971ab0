package postgresql

import (
	"context"
	"strings"
	"testing"

	"telovamish.org/server/internal/agreed"
	"telovamish.org/server/internal/report"
)

func TestNew(t *testing.T) {
	places := []agreed.Address{{Host: "127.0.0.1", Port: 1}}
	for _, name := range []string{"bank", "d/", "d/Bank", "d/1", "d/a-b", "d/a/b", "d/" + strings.Repeat("a", 42)} {
		_, err := New(places, name, agreed.Access{}, nil)
		if err == nil || err.Error() != report.Quoted(name)+" is no DATABASE/NAME: small letters, digits and _" {
			t.Errorf("%s: %v", name, err)
		}
	}
	_, err := New(places, "d/bank", agreed.Access{Authority: "/none"}, nil)
	if err == nil || err.Error() != "/none: No such file or directory" {
		t.Errorf("got %v", err)
	}
	log, err := New(places, "d/bank", agreed.Access{PasswordFile: "/none"}, nil)
	if err != nil {
		t.Fatal(err)
	}
	defer log.Close()
	if _, err := log.Head(context.Background(), nil); err == nil || err.Error() != "/none: No such file or directory" {
		t.Errorf("got %v", err)
	}
}
