//go:build !unix

package tbclient

import "os/exec"

func setApart(*exec.Cmd) {}
