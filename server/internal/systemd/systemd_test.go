package systemd

import (
	"net"
	"os"
	"path/filepath"
	"strconv"
	"testing"
	"time"
)

func TestNotify(t *testing.T) {
	place := filepath.Join(t.TempDir(), "notify")
	it, err := net.ListenUnixgram("unixgram", &net.UnixAddr{Name: place, Net: "unixgram"})
	if err != nil {
		t.Fatal(err)
	}
	defer it.Close()
	t.Setenv("NOTIFY_SOCKET", place)
	Notify("READY=1")
	data := make([]byte, 100)
	it.SetReadDeadline(time.Now().Add(10 * time.Second))
	if n, err := it.Read(data); err != nil || string(data[:n]) != "READY=1" {
		t.Error(string(data[:n]), err)
	}
	t.Setenv("NOTIFY_SOCKET", place+"none")
	Notify("READY=1") // nobody waits for it
}

func TestSocketsForAnotherProcess(t *testing.T) {
	t.Setenv("LISTEN_PID", strconv.Itoa(os.Getpid()+1))
	t.Setenv("LISTEN_FDS", "1")
	if got, err := Sockets(); got != nil || err != nil {
		t.Error(got, err)
	}
}

func TestANumberOfSockets(t *testing.T) {
	for _, text := range []string{"some", "-1", "1000", "1.5"} {
		t.Setenv("LISTEN_PID", strconv.Itoa(os.Getpid()))
		t.Setenv("LISTEN_FDS", text)
		if _, err := Sockets(); err == nil || err.Error() != "LISTEN_FDS is no number of sockets: "+text {
			t.Error(err)
		}
		if os.Getenv("LISTEN_FDS") != "" {
			t.Error("the server would get it")
		}
	}
}
