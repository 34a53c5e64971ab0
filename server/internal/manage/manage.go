// Package manage has the subcommands of tb-replica that look after a log and copies of it, and serve
// nothing: status, trim, restore, copy-from, script, hashes.
package manage

import (
	"context"
	"errors"
	"fmt"
	"io"
	"os"
	"os/signal"
	"syscall"

	"telovamish.org/server/internal/agreed"
	"telovamish.org/server/internal/config"
	"telovamish.org/server/internal/faults"
	"telovamish.org/server/internal/report"
)

// Program is the name that lines begin with.
const Program = "tb_replica"

const interrupted = 130 // the exit status after SIGINT

// Has reports whether there is a subcommand of this name.
func Has(name string) bool { return subcommands[name] != nil }

// Main runs a subcommand. It returns the exit status. hasOutput is that standard output is not closed.
func Main(name string, arguments []string, hasOutput bool) int {
	defer report.Guard()
	// a write to a pipe that nobody reads, or beyond `ulimit -f`, fails
	signal.Ignore(syscall.SIGPIPE, syscall.SIGXFSZ)
	ctx, stop := signal.NotifyContext(context.Background(), os.Interrupt)
	defer stop()
	log := report.New(Program, false)
	if !hasOutput {
		log.Say(report.Error, "standard output is closed")
		return 1
	}
	status := run(ctx, name, arguments, &output{to: os.Stdout}, log)
	if ctx.Err() != nil {
		return interrupted
	}
	return status
}

func run(ctx context.Context, name string, arguments []string, out *output, log *report.Log) int {
	g, err := subcommands[name].parse(arguments)
	if err == nil {
		err = do(ctx, name, g, out, log)
	}
	if err == nil {
		err = out.err
	}
	var page *config.Page
	var usage *config.Usage
	var ended *report.Ended
	switch {
	case err == nil:
		return 0
	case errors.As(err, &page):
		io.WriteString(out, page.Text)
		if out.err == nil {
			return 0
		}
		err = out.err
	case errors.As(err, &usage):
		os.Stderr.WriteString(usage.Text)
		return 2
	}
	if !errors.As(err, &ended) {
		ended = report.End(1, "%v", err)
	}
	if ctx.Err() == nil {
		log.Say(report.Error, "%s", ended.Line)
	}
	return ended.Status
}

func do(ctx context.Context, name string, g *given, out *output, log *report.Log) error {
	switch name {
	case "script":
		return script(g, out)
	case "copy-from":
		return copyFrom(g, out)
	case "hashes":
		return hashes(ctx, g, out)
	}
	its, err := agreed.Open(g.URL, g.Access, log)
	if err != nil {
		return err
	}
	defer its.Close()
	switch name {
	case "status":
		err = status(ctx, g, its, out)
	case "trim":
		err = trim(ctx, g, its, out)
	case "restore":
		err = restore(ctx, g, its, out)
	}
	switch {
	case errors.Is(err, agreed.ErrNoLog):
		return faults.New(faults.NoLog, "%v", err)
	case errors.Is(err, agreed.ErrFull):
		return faults.New(faults.LogFull, "%v", err)
	}
	return err
}

// output is standard output. What is lost is a fault, except if its reader is gone. No more is written
// then.
type output struct {
	to     io.Writer
	isGone bool
	err    error
}

// Write writes, until a write fails.
func (o *output) Write(data []byte) (int, error) {
	if o.err != nil || o.isGone {
		return len(data), nil
	}
	_, err := o.to.Write(data)
	switch {
	case errors.Is(err, syscall.EPIPE):
		o.isGone = true
	case err != nil:
		o.err = report.End(1, "standard output: %s", report.Why(err))
	}
	return len(data), nil
}

// tell prints a line.
func (o *output) tell(format string, values ...any) { fmt.Fprintf(o, format+"\n", values...) }

// isOver reports whether nothing more is written.
func (o *output) isOver() bool { return o.isGone || o.err != nil }
