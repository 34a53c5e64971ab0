package replicated

import (
	"crypto/rand"
	"encoding/hex"
	"errors"
	"os"
	"strings"

	"telovamish.org/server/internal/agreed"
	"telovamish.org/server/internal/config"
	"telovamish.org/server/internal/entries"
	"telovamish.org/server/internal/faults"
	"telovamish.org/server/internal/logcopy"
	"telovamish.org/server/internal/manage"
	"telovamish.org/server/internal/replica"
	"telovamish.org/server/internal/report"
	"telovamish.org/server/internal/serve"
)

// Main serves as a replica. It returns the exit status.
func Main(arguments []string, hasOutput bool) int {
	defer report.Guard()
	signals := serve.Signals()
	o, c, err := parse(arguments)
	var usage *config.Usage
	var page *config.Page
	switch {
	case errors.As(err, &usage):
		os.Stderr.WriteString(usage.Text)
		return 2
	case errors.As(err, &page):
		return serve.Show(page.Text, hasOutput, report.New(manage.Program, false))
	}
	lines := report.New(manage.Program, c.IsJSON)
	if err == nil {
		err = run(o, c, lines, signals)
	}
	code, line := serve.StatusOf(err)
	if line != "" {
		lines.Say(report.Error, "%s", line)
	}
	return code
}

func run(o *options, c *config.Config, lines *report.Log, signals <-chan os.Signal) error {
	head, err := entries.HeadOf(c.Command)
	if err != nil {
		return err
	}
	log, err := agreed.Open(o.url, o.access, lines)
	if err != nil {
		return err
	}
	defer log.Close()
	its, err := OpenCopy(o.copy)
	if err != nil {
		return err
	}
	defer its.Close()
	if its.CutOff() > 0 {
		lines.Say(report.Warning, "%d bytes that a crash left torn are cut off the copy", its.CutOff())
	}
	s := replica.Settings{Head: head, Server: c.Command[0], Patience: o.patience, Ahead: o.ahead, IsAlone: o.isAlone,
		Distrusted: o.distrusted, Address: c.Unix}
	if !c.TCP.IsZero() {
		s.Address = c.TCP.String()
	}
	if s.Name, err = nameOf(o); err != nil {
		return err
	}
	id := make([]byte, 16)
	for _, it := range [][]byte{id, s.Writer[:]} {
		if _, err := rand.Read(it); err != nil {
			return err
		}
	}
	s.Head.ID = hex.EncodeToString(id)
	return serve.Run(c, lines, New(s, c.Command, c.Slow, log, its, lines), serve.Ledger{}, signals)
}

// nameOf is the replica's name, as the copy's folder keeps it.
func nameOf(o *options) (string, error) {
	name := o.name
	if name == "" {
		host, _ := os.Hostname()
		some := make([]byte, 4)
		if _, err := rand.Read(some); err != nil {
			return "", err
		}
		name = host + "-" + hex.EncodeToString(some)
	}
	found, err := logcopy.Kept(o.copy, "name", []byte(name))
	if err == nil && strings.ToValidUTF8(string(found), "") != string(found) {
		err = report.End(1, "%s/name is no name: %s", o.copy, faults.Quoted(found))
	}
	return string(found), err
}

// endOf is the status and the line of why a server ended, if that is a fault.
func endOf(err error) (int, string, bool) {
	if err == nil {
		return 0, "", false
	}
	status, line := serve.StatusOf(err)
	return status, line, true
}
