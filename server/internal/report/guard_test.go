package report

import (
	"os"
	"os/exec"
	"strings"
	"testing"
)

// TestGuard runs this test again, in a process that has a fault.
func TestGuard(t *testing.T) {
	if os.Getenv("HAS_FAULT") != "" {
		defer Guard()
		panic("none is there")
	}
	it := exec.Command(os.Args[0], "-test.run=^TestGuard$")
	it.Env = append(os.Environ(), "HAS_FAULT=1")
	said, _ := it.CombinedOutput()
	if it.ProcessState.ExitCode() != 1 || !strings.Contains(string(said), "a fault of this program: none is there\n") {
		t.Errorf("%d: %s", it.ProcessState.ExitCode(), said)
	}
}
