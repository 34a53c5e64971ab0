//go:build unix

package tbclient_test

import (
	"errors"
	"os"
	"path/filepath"
	"syscall"
	"testing"

	tb "telovamish.org/tbclient"
)

func TestSaveRefusals(t *testing.T) {
	_, session := begun(t)
	folder := t.TempDir()
	if err := session.Save(filepath.Join(folder, "none", "session.json")); !errors.Is(err, os.ErrNotExist) {
		t.Error(err)
	}
	if err := session.Save(folder); !errors.Is(err, tb.ErrInvalid) {
		t.Error(err)
	}
	pipe := filepath.Join(folder, "pipe")
	if err := syscall.Mkfifo(pipe, 0o600); err != nil {
		t.Fatal(err)
	}
	if err := session.Save(pipe); !errors.Is(err, tb.ErrInvalid) {
		t.Error(err)
	}
	if _, err := tb.Load(newSocket(t, newLedger(t, t.TempDir())), pipe); !errors.Is(err, tb.ErrInvalid) {
		t.Error(err)
	}
	if err := os.Symlink(pipe, filepath.Join(folder, "session.json.new")); err != nil {
		t.Fatal(err)
	}
	if err := session.Save(filepath.Join(folder, "session.json")); err == nil {
		t.Error("a link was followed")
	}
}
