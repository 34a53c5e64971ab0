package sockets

import (
	"net"
	"os"
	"path/filepath"
	"strings"
	"syscall"
	"testing"
	"time"

	"telovamish.org/server/internal/config"
)

func TestASocketThatWasLeftGivesWay(t *testing.T) {
	path := filepath.Join(t.TempDir(), "it")
	left, err := net.Listen("unix", path)
	if err != nil {
		t.Fatal(err)
	}
	left.(*net.UnixListener).SetUnlinkOnClose(false)
	left.Close()
	it, err := ListenUnix(path, false)
	if err != nil {
		t.Fatal(err)
	}
	if found, err := os.Stat(path); err != nil || found.Mode().Perm() != 0o600 {
		t.Error(found.Mode(), err)
	}
	if _, err := ListenUnix(path, false); err == nil || err.Error() != path+" is in use" {
		t.Error(err)
	}
	it.Remove()
	if _, err := os.Lstat(path); !os.IsNotExist(err) {
		t.Error("it is left")
	}
}

func TestASharedSocket(t *testing.T) {
	path := filepath.Join(t.TempDir(), "it")
	it, err := ListenUnix(path, true)
	if err != nil {
		t.Fatal(err)
	}
	defer it.Remove()
	if found, err := os.Stat(path); err != nil || found.Mode().Perm() != 0o666 {
		t.Error(found.Mode(), err)
	}
}

// TestAnotherOnesSocket stays: it took the place meanwhile.
func TestAnotherOnesSocket(t *testing.T) {
	path := filepath.Join(t.TempDir(), "it")
	first, err := ListenUnix(path, false)
	if err != nil {
		t.Fatal(err)
	}
	os.Remove(path)
	second, err := ListenUnix(path, false)
	if err != nil {
		t.Fatal(err)
	}
	defer second.Remove()
	first.Remove()
	if _, err := os.Lstat(path); err != nil {
		t.Error(err)
	}
}

func TestWhereNoneCanBe(t *testing.T) {
	folder := t.TempDir()
	notes, letters, link := filepath.Join(folder, "notes"), filepath.Join(folder, "letters"), filepath.Join(folder, "link")
	os.WriteFile(notes, []byte("mine"), 0o600)
	os.Symlink("nothing", link)
	other, err := net.ListenUnixgram("unixgram", &net.UnixAddr{Name: letters, Net: "unixgram"})
	if err != nil {
		t.Fatal(err)
	}
	defer other.Close()
	for path, want := range map[string]string{
		filepath.Join(folder, "none", "it"): ": No such file or directory",
		notes:                               " is there already, and is no socket",
		folder:                              " is there already, and is no socket",
		link:                                " is there already, and is no socket",
		letters:                             ": Protocol wrong type for socket",
		strings.Repeat("x", 108):            ": AF_UNIX path too long",
	} {
		if _, err := ListenUnix(path, false); err == nil || err.Error() != path+want {
			t.Errorf("%v, not %s%s", err, path, want)
		}
	}
}

// TestAFolderThatAnotherHolds is waited for, and not without an end.
func TestAFolderThatAnotherHolds(t *testing.T) {
	folder := t.TempDir()
	held, err := os.Open(folder)
	if err != nil {
		t.Fatal(err)
	}
	defer held.Close()
	syscall.Flock(int(held.Fd()), syscall.LOCK_EX)
	began := time.Now()
	it, err := ListenUnix(filepath.Join(folder, "it"), false)
	if err != nil || time.Since(began) < time.Second {
		t.Error(err, time.Since(began))
	}
	syscall.Flock(int(held.Fd()), syscall.LOCK_UN)
	it.Remove()
}

func TestTCP(t *testing.T) {
	it, err := ListenTCP(config.Place{Host: "127.1", Port: 0})
	if err != nil {
		t.Fatal(err)
	}
	defer it.Close()
	port := uint16(it.Addr().(*net.TCPAddr).Port)
	used := config.Place{Host: "127.0.0.1", Port: port}
	if _, err := ListenTCP(used); err == nil || err.Error() != used.String()+": Address already in use" {
		t.Error(err)
	}
	long := config.Place{Host: strings.Repeat("x", 300), Port: 1}
	if _, err := ListenTCP(long); err == nil || err.Error() != long.String()+": is no name of a place" {
		t.Error(err)
	}
}
