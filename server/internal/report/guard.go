package report

import (
	"fmt"
	"os"
	"runtime/debug"
)

// Guard ends the program with status 1 if the goroutine that defers it has a fault: the status that Go
// has for that is the one of wrong arguments, with which a service is not started again.
func Guard() {
	if fault := recover(); fault != nil {
		fmt.Fprintf(os.Stderr, "a fault of this program: %v\n%s", fault, debug.Stack())
		os.Exit(1)
	}
}
