//go:build unix

package tbclient

import (
	"os/exec"
	"syscall"
)

// setApart starts a command in a session of its own: Ctrl-C at a terminal goes to all processes of
// that.
func setApart(command *exec.Cmd) {
	command.SysProcAttr = &syscall.SysProcAttr{Setsid: true}
}
