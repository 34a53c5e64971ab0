package process

import (
	"strconv"
	"syscall"
	"time"

	"telovamish.org/server/internal/report"
)

const steady = time.Minute // after which a command that ends is one that was well until then

// pauses are before a command is started again; the last one from then on.
var pauses = []time.Duration{100 * time.Millisecond, 500 * time.Millisecond, 2 * time.Second, 5 * time.Second}

// Restarts has the pauses before a command is started again.
type Restarts struct{ quick int }

// Next is the pause after a command that lived so long.
func (r *Restarts) Next(lived time.Duration) time.Duration {
	if lived > steady {
		r.quick = 0
	}
	pause := pauses[len(pauses)-1]
	if r.quick < len(pauses) {
		pause = pauses[r.quick]
	}
	r.quick++
	return pause
}

// Ended is how a command ended, as the end of the program that runs it, and whether a signal ended it.
func Ended(name string, status int, line string) (why *report.Ended, bySignal bool) {
	number := SignalOf(status)
	ended := status
	if number != 0 || status == 0 {
		ended = 1
	}
	if line != "" && number == 0 {
		return report.End(ended, "%s", line), false
	}
	how := name + " ended " + EndOf(status)
	if line != "" {
		how += " (" + line + ")"
	}
	return report.End(ended, "%s", how), number != 0
}

// SignalOf is the signal that ended a process, or what it started for that: a shell reports it by 128 and
// its number. 0 if no signal did.
func SignalOf(status int) syscall.Signal {
	switch {
	case status < 0:
		return syscall.Signal(-status)
	case status > 128 && status < 128+65:
		return syscall.Signal(status - 128)
	}
	return 0
}

// EndOf is how a process ended, in words.
func EndOf(status int) string {
	number := SignalOf(status)
	if number == 0 {
		return "with status " + strconv.Itoa(status)
	}
	if name := signalNames[number]; name != "" {
		return "by " + name
	}
	return "by signal " + strconv.Itoa(int(number))
}

var signalNames = map[syscall.Signal]string{
	syscall.SIGABRT: "SIGABRT", syscall.SIGALRM: "SIGALRM", syscall.SIGBUS: "SIGBUS",
	syscall.SIGCHLD: "SIGCHLD", syscall.SIGCONT: "SIGCONT", syscall.SIGFPE: "SIGFPE",
	syscall.SIGHUP: "SIGHUP", syscall.SIGILL: "SIGILL", syscall.SIGINT: "SIGINT",
	syscall.SIGIO: "SIGIO", syscall.SIGKILL: "SIGKILL", syscall.SIGPIPE: "SIGPIPE",
	syscall.SIGPROF: "SIGPROF", syscall.SIGPWR: "SIGPWR", syscall.SIGQUIT: "SIGQUIT",
	syscall.SIGSEGV: "SIGSEGV", syscall.SIGSTKFLT: "SIGSTKFLT", syscall.SIGSTOP: "SIGSTOP",
	syscall.SIGSYS: "SIGSYS", syscall.SIGTERM: "SIGTERM", syscall.SIGTRAP: "SIGTRAP",
	syscall.SIGTSTP: "SIGTSTP", syscall.SIGTTIN: "SIGTTIN", syscall.SIGTTOU: "SIGTTOU",
	syscall.SIGURG: "SIGURG", syscall.SIGUSR1: "SIGUSR1", syscall.SIGUSR2: "SIGUSR2",
	syscall.SIGVTALRM: "SIGVTALRM", syscall.SIGWINCH: "SIGWINCH", syscall.SIGXCPU: "SIGXCPU",
	syscall.SIGXFSZ: "SIGXFSZ",
}
