package backend

import (
	"os"
	"os/signal"
	"syscall"
	"testing"
	"time"
)

const limit = 2 * time.Minute // that something may take on a busy machine

func TestMain(m *testing.M) {
	signal.Ignore(syscall.SIGPIPE, syscall.SIGXFSZ) // as a host does
	os.Exit(m.Run())
}
