package manage

import (
	"bufio"
	"context"
	"io"
	"time"

	"telovamish.org/server/internal/entries"
	"telovamish.org/server/internal/faults"
	"telovamish.org/server/internal/frames"
	"telovamish.org/server/internal/logcopy"
	"telovamish.org/server/internal/process"
	"telovamish.org/server/internal/report"
)

const lastWords = time.Second // for which a command may still end that closed its output

// asked is an entry that a server was given.
type asked struct {
	position uint64
	log      entries.Hash // up to there
	wanted   []frames.Asker
}

// hashes prints the hashes of the log and of the replies of a fresh server, up to a position.
func hashes(ctx context.Context, g *given, out *output) error {
	p, err := process.Start(g.Command, nil)
	if err != nil {
		return err
	}
	defer p.Close()
	defer p.Kill()
	said := make(chan string, 1)
	go func() { said <- p.Stderr.Tail(nil) }()
	ctx, cancel := context.WithCancel(ctx)
	defer cancel()
	given, failed := make(chan asked, 64), make(chan error, 1)
	go func() {
		failed <- give(ctx, g, p, given)
		close(given)
	}()
	position, log, replies, err := read(ctx, p, given, said)
	if err != nil {
		return err
	}
	if err := <-failed; err != nil {
		return err
	}
	if _, err := p.Stdout.Read(make([]byte, 1)); err != io.EOF {
		return errWrote
	}
	if status := p.Status(); status != 0 {
		line := process.LastLine(<-said)
		if line == "" {
			line = g.Command[0] + " ended " + process.EndOf(status)
		}
		return report.End(1, "%s", line)
	}
	if g.At != 0 && g.At != position {
		return report.End(1, "%s has no position %d: it ends at %d", g.Copy, g.At, position)
	}
	out.tell("position %d log %s replies %s", position, log, replies)
	return nil
}

// give writes the pairs of a copy to a server, up to the wanted position, and closes its input.
func give(ctx context.Context, g *given, p *process.Process, given chan<- asked) error {
	defer p.Stdin.Close()
	var log entries.Hash
	return logcopy.AllRecords(g.Copy, func(it logcopy.Record) error {
		pairs, err := pairsOf(it)
		if err != nil {
			return err
		}
		wanted, err := entries.AppendAskers(nil, pairs)
		if err != nil {
			return faults.New(faults.Damaged, "the entry at %d: %v", it.Position, err)
		}
		log = log.Next(pairs)
		select {
		case given <- asked{it.Position, log, wanted}:
		case <-ctx.Done():
			return logcopy.ErrEnough
		}
		if _, err := p.Stdin.Write(pairs); err != nil { // its reader sees why
			return logcopy.ErrEnough
		}
		if it.Position == g.At {
			return logcopy.ErrEnough
		}
		return nil
	})
}

var errWrote = report.End(1, "the command wrote what is no reply to the next pair")

// read reads the replies to all that a server is given.
func read(ctx context.Context, p *process.Process, given <-chan asked, said <-chan string) (position uint64,
	log, replies entries.Hash, err error) {
	from := bufio.NewReaderSize(p.Stdout, 1<<18)
	data := make([]byte, frames.HeaderSize)
	ended := make(chan struct{})
	defer close(ended)
	go func() { // an interrupt ends the wait for a reply
		select {
		case <-ctx.Done():
			p.Kill()
		case <-ended:
		}
	}()
	for it := range given {
		for _, wanted := range it.wanted {
			if data, err = reply(from, data, wanted); err != nil {
				if err != errWrote {
					err = endedWith(p, said)
				}
				return
			}
			replies = replies.Next(data)
		}
		position, log = it.position, it.log
	}
	return
}

// reply is the next reply, in the same bytes as the one before.
func reply(from io.Reader, data []byte, wanted frames.Asker) ([]byte, error) {
	data = data[:frames.HeaderSize]
	if _, err := io.ReadFull(from, data); err != nil {
		return data, err
	}
	header := frames.Header(data)
	if header.Asker() != wanted || header.ReplyFault() != "" {
		return data, errWrote
	}
	if length := header.Length(); length <= cap(data) {
		data = data[:length]
	} else {
		data = append(data, make([]byte, length-len(data))...)
	}
	_, err := io.ReadFull(from, data[frames.HeaderSize:])
	return data, err
}

// endedWith is why a command ended before it had answered all. It may have closed only its output.
func endedWith(p *process.Process, said <-chan string) error {
	select {
	case <-p.Exited:
	case <-time.After(lastWords):
	}
	p.Kill()
	<-p.Exited
	line := process.LastLine(<-said)
	if line == "" {
		line = "the command ended before it had answered all"
	}
	return report.End(1, "%s", line)
}
