package tbclient_test

import (
	"encoding/json"
	"errors"
	"os"
	"path/filepath"
	"strings"
	"testing"
	"time"

	tb "telovamish.org/tbclient"
)

func TestSavedInJSON(t *testing.T) {
	wide := tb.Saved{Client: tb.AmountMax, Session: 1<<64 - 1, Number: 1<<32 - 1}
	for text, saved := range map[string]tb.Saved{
		`{"client":7,"session":1,"number":0,"pending":"00ff"}`:                                    {Client: tb.ToUint128(7), Session: 1, Pending: []byte{0, 255}},
		`{"client":` + most + `,"session":18446744073709551615,"number":4294967295,"pending":""}`: wide,
	} {
		data, err := json.Marshal(saved)
		if err != nil || string(data) != text {
			t.Errorf("%s, not %s, %v", data, text, err)
		}
		var back tb.Saved
		if err := json.Unmarshal(data, &back); err != nil || back.Client != saved.Client ||
			back.Session != saved.Session || back.Number != saved.Number || string(back.Pending) != string(saved.Pending) {
			t.Errorf("%s comes back as %+v, %v", data, back, err)
		}
	}
}

func TestSavedRefusals(t *testing.T) {
	for text, field := range map[string]string{
		`{"client":7,"session":1,"number":0,"pending":"","number":1}`: "saved",
		`[]`:                                    "saved",
		`null`:                                  "saved",
		`{"client":`:                            "saved",
		`{"client":7,"session":1,"number":0}`:   "saved.pending",
		`{"session":1,"number":0,"pending":""}`: "saved.client",
		`{"client":7,"session":1e0,"number":0,"pending":""}`:                                         "saved.session",
		`{"client":7,"session":1,"number":4294967296,"pending":""}`:                                  "saved.number",
		`{"client":7,"session":1,"number":-1,"pending":""}`:                                          "saved.number",
		`{"client":7,"session":1,"number":0,"pending":null}`:                                         "saved.pending",
		`{"client":7,"session":1,"number":0,"pending":"0"}`:                                          "saved.pending",
		`{"client":7,"session":1,"number":0,"pending":` + strings.Repeat("[", 99999) + `}`:           "saved",
		`{"client":7,"session":1,"number":0,"pending":"","more":` + strings.Repeat("[", 20000) + `}`: "saved",
	} {
		var saved tb.Saved
		var fault *tb.InvalidError
		if err := saved.UnmarshalJSON([]byte(text)); !errors.As(err, &fault) || fault.Field != field {
			t.Errorf("%.60s is answered %v", text, err)
		}
	}
}

func TestBytesInDoubtThatAreNotTheNextRequest(t *testing.T) {
	register := append(append([]byte{7}, make([]byte, 27)...), append([]byte{2}, make([]byte, 19)...)...)
	lookup := append([]byte(nil), register...)
	lookup[24], lookup[28] = 1, 131
	transport := scripted(func([]byte) ([]byte, error) { return nil, tb.ErrClosed })
	client := tb.ToUint128(7)
	for _, row := range []struct {
		saved tb.Saved
		isOne bool
	}{
		{tb.Saved{Client: client, Pending: register}, true},
		{tb.Saved{Client: client, Number: 5, Pending: register}, false},
		{tb.Saved{Client: client, Session: 1, Pending: register}, false},
		{tb.Saved{Client: client, Pending: lookup}, false}, // it is not registered
		{tb.Saved{Client: client, Session: 1, Pending: lookup}, false},
	} {
		var fault *tb.InvalidError
		_, err := tb.Resume(transport, row.saved)
		if (err == nil) != row.isOne || err != nil && (!errors.As(err, &fault) || fault.Field != "saved.pending") {
			t.Errorf("%+v is answered %v", row.saved, err)
		}
	}
}

// inNewFolder makes a new folder the present one, until the test ends.
func inNewFolder(t *testing.T) {
	t.Helper()
	before, err := os.Getwd()
	if err != nil {
		t.Fatal(err)
	}
	folder := t.TempDir()
	if err := os.Chdir(folder); err != nil {
		t.Fatal(err)
	}
	t.Cleanup(func() { os.Chdir(before) })
}

func TestEmptyPath(t *testing.T) {
	inNewFolder(t)
	if err := os.WriteFile(".new", []byte("another file"), 0o600); err != nil {
		t.Fatal(err)
	}
	socket, err := tb.NewSocket([]tb.Address{tb.Unix("none.sock")})
	if err != nil {
		t.Fatal(err)
	}
	session, err := tb.NewSession(socket)
	if err != nil {
		t.Fatal(err)
	}
	var fault *tb.InvalidError
	if err := session.Save(""); !errors.As(err, &fault) || fault.Field != "path" {
		t.Errorf("Save is answered %v", err)
	}
	if _, err := tb.Load(socket, ""); !errors.As(err, &fault) || fault.Field != "path" {
		t.Errorf("Load is answered %v", err)
	}
	if data, err := os.ReadFile(".new"); err != nil || string(data) != "another file" {
		t.Errorf("another file is %q, %v", data, err)
	}
}

// TestSavedOfManyDigits compares with a reading of the same text, which is as slow on a busy machine.
// The digits of a number that is too large are read once. A busy computer may stop one reading for
// longer than that takes, so the shortest of some counts.
func TestSavedOfManyDigits(t *testing.T) {
	text := []byte(`{"client":` + strings.Repeat("9", 4_000_000) + `,"session":1,"number":0,"pending":""}`)
	var took, once time.Duration
	for tries := 0; tries < 10 && (tries == 0 || took > 30*once); tries++ {
		begin := time.Now()
		json.Valid(text)
		once = time.Since(begin)
		var saved tb.Saved
		var fault *tb.InvalidError
		if err := saved.UnmarshalJSON(text); !errors.As(err, &fault) || fault.Field != "saved.client" {
			t.Fatal(err)
		}
		took = time.Since(begin) - once
	}
	if took > 30*once {
		t.Errorf("%v, where a reading took %v", took, once)
	}
}

func FuzzSaved(f *testing.F) {
	f.Add([]byte(`{"client": 7, "session": 1, "number": 0, "pending": "00"}`))
	f.Add([]byte(`{"client": 7, "client": 7}`))
	f.Add([]byte("{\"\xff\": 7, \"pending\": \"\\ud800\"}"))
	f.Fuzz(func(t *testing.T, data []byte) {
		var saved, back tb.Saved
		if err := saved.UnmarshalJSON(data); err != nil {
			if !errors.Is(err, tb.ErrInvalid) {
				t.Fatal(err)
			}
			return
		}
		text, err := saved.MarshalJSON()
		if err != nil || back.UnmarshalJSON(text) != nil || back.Client != saved.Client {
			t.Fatalf("%q comes back as %s, %v", data, text, err)
		}
	})
}

func TestSaveLeavesNothingElse(t *testing.T) {
	_, session := begun(t)
	folder := t.TempDir()
	path := filepath.Join(folder, "session.json")
	for count := 0; count < 3; count++ {
		if err := session.Save(path); err != nil {
			t.Fatal(err)
		}
	}
	// what a client that was killed left is taken
	if err := os.WriteFile(path+".new", []byte("{\"client\": 7, and much more than the new one has, so that it has to be cut off"), 0o600); err != nil {
		t.Fatal(err)
	}
	if err := session.Save(path); err != nil {
		t.Fatal(err)
	}
	found, err := os.ReadDir(folder)
	if err != nil || len(found) != 1 {
		t.Errorf("%v, %v", found, err)
	}
	if again, err := tb.Load(newSocket(t, newLedger(t, t.TempDir())), path); err != nil || again.Client() != session.Client() {
		t.Error(err)
	}
}
