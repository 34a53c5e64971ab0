package conns

import (
	"bytes"
	"io"
	"math/rand"
	"net"
	"path/filepath"
	"syscall"
	"testing"
	"time"

	"telovamish.org/server/internal/memory"
)

// outputTo is an output over one end of a Unix socket, and the other end.
func outputTo(t *testing.T) (*output, net.Conn) {
	t.Helper()
	place, err := net.Listen("unix", filepath.Join(t.TempDir(), "it"))
	if err != nil {
		t.Fatal(err)
	}
	defer place.Close()
	other, err := net.Dial("unix", place.Addr().String())
	if err != nil {
		t.Fatal(err)
	}
	mine, err := place.Accept()
	if err != nil {
		t.Fatal(err)
	}
	t.Cleanup(func() { mine.Close(); other.Close() })
	system, err := mine.(syscall.Conn).SyscallConn()
	if err != nil {
		t.Fatal(err)
	}
	it := &output{}
	it.begin(mine, system)
	other.SetDeadline(time.Now().Add(time.Minute))
	return it, other
}

// TestWhatASocketDoesNotTake waits in chunks, and leaves in order when it is read, also what comes
// meanwhile.
func TestWhatASocketDoesNotTake(t *testing.T) {
	it, other := outputTo(t)
	data := make([]byte, 40*memory.ChunkSize)
	rand.New(rand.NewSource(1)).Read(data)
	half := len(data) / 2
	if n, err := it.Write(data[:half]); n != half || err != nil || !it.isLeft() {
		t.Fatalf("%d, %v, %v", n, err, it.isLeft())
	}
	it.Write(data[half:]) // after what waits
	drained, moves := make(chan error, 1), 0
	go func() { drained <- it.drain(func() { moves++ }) }()
	got := make([]byte, len(data))
	if _, err := io.ReadFull(other, got); err != nil || !bytes.Equal(got, data) {
		t.Errorf("%v, or other bytes", err)
	}
	if err := <-drained; err != nil || it.isLeft() || moves < 2 {
		t.Errorf("%v, %v, %d", err, it.isLeft(), moves)
	}
	if n, err := it.Write([]byte("more")); n != 4 || err != nil || it.isLeft() {
		t.Errorf("%d, %v, %v", n, err, it.isLeft())
	}
}

// TestASocketThatBreaks loses what waits, and says so.
func TestASocketThatBreaks(t *testing.T) {
	it, other := outputTo(t)
	it.Write(make([]byte, 40*memory.ChunkSize))
	other.Close()
	if err := it.drain(func() {}); err == nil || it.isLeft() {
		t.Errorf("%v, %v", err, it.isLeft())
	}
	if _, err := it.Write([]byte("more")); err == nil {
		t.Error("it takes more")
	}
}
