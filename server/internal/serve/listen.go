package serve

import (
	"errors"
	"os"
	"syscall"

	"telovamish.org/server/internal/backend"
	"telovamish.org/server/internal/config"
	"telovamish.org/server/internal/counts"
	"telovamish.org/server/internal/report"
	"telovamish.org/server/internal/status"
)

// Listen is the program tb-listen. It returns the exit status.
func Listen(arguments []string) int {
	defer report.Guard()
	hasOutput := FillStandardFiles()
	signals := Signals()
	if len(arguments) > 0 && arguments[0] == "status" {
		return status.Main(arguments[1:])
	}
	c, err := config.Listener.Parse(arguments)
	log := report.New(config.Program, c.IsJSON)
	var page *config.Page
	var usage *config.Usage
	switch {
	case errors.As(err, &page):
		return Show(page.Text, hasOutput, log)
	case errors.As(err, &usage):
		os.Stderr.WriteString(usage.Text)
		return 2
	}
	if err == nil {
		child := backend.NewChild(c.Command, c.Slow, c.Ahead, log)
		its := Ledger{File: child.File(), ClientsMax: counts.ClientsMaxOf(c.Command)}
		err = Run(c, log, child, its, signals)
	}
	code, line := StatusOf(err)
	if line != "" {
		log.Say(report.Error, "%s", line)
	}
	return code
}

// Show prints a page on standard output.
func Show(text string, hasOutput bool, log *report.Log) int {
	if !hasOutput {
		log.Say(report.Error, "standard output is closed")
		return 1
	}
	if _, err := os.Stdout.WriteString(text); err != nil {
		log.Say(report.Error, "standard output: %s", report.Why(err))
		return 1
	}
	return 0
}

// FillStandardFiles opens the null device in place of standard files that are closed: otherwise what is
// opened next takes their numbers, and gets what is meant for them. It reports whether standard output
// was open.
func FillStandardFiles() bool {
	hasOutput := true
	for {
		file, err := syscall.Open(os.DevNull, syscall.O_RDWR, 0)
		if err != nil {
			return hasOutput
		}
		if file > 2 {
			syscall.Close(file)
			return hasOutput
		}
		hasOutput = hasOutput && file != 1
	}
}
