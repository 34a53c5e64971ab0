package main

import (
	"io"
	"os"
	"os/exec"
	"time"
)

// A server is a ledger's process, which gets pairs of a moment and a request by its pipes.
type server struct {
	command *exec.Cmd
	in      io.WriteCloser
	out     io.Reader
}

func started(words []string) (*server, error) {
	it := &server{command: exec.Command(words[0], words[1:]...)}
	it.command.Stderr = os.Stderr
	var err error
	if it.in, err = it.command.StdinPipe(); err != nil {
		return nil, err
	}
	if it.out, err = it.command.StdoutPipe(); err != nil {
		return nil, err
	}
	return it, it.command.Start()
}

func (s *server) pid() int { return s.command.Process.Pid }

func (s *server) end() {
	s.in.Close()
	s.command.Wait()
}

// paired appends a request with its moment.
func paired(to, frame []byte) []byte {
	moment := make([]byte, 8)
	little.PutUint64(moment, uint64(time.Now().UnixNano()))
	return append(append(to, moment...), frame...)
}

// Write sends one request, and Read reads replies, so that a session can be opened.
func (s *server) Write(frame []byte) (int, error) {
	_, err := s.in.Write(paired(nil, frame))
	return len(frame), err
}

func (s *server) Read(to []byte) (int, error) { return s.out.Read(to) }

// loop has all workers' requests under way. Replies come in the order of requests, and those that
// are read together are followed by one write of the next requests.
func (s *server) loop(given options) loop {
	return func() (func(time.Time) error, []*worker, error) {
		workers := make([]*worker, given.workers)
		for at := range workers {
			own := &session{}
			if err := own.open(s, given.items); err != nil {
				return nil, nil, err
			}
			workers[at] = &worker{protocol: own}
		}
		return func(end time.Time) error { return s.run(workers, end) }, workers, nil
	}
}

func (s *server) run(workers []*worker, end time.Time) error {
	waiting := append([]*worker{}, workers...)
	pairs, data, count := []byte{}, make([]byte, 1<<16), 0
	for _, it := range waiting {
		pairs = paired(pairs, it.request())
		it.sent = time.Now()
	}
	for len(waiting) > 0 {
		if _, err := s.in.Write(pairs); err != nil {
			return err
		}
		n, err := s.out.Read(data[count:])
		if err != nil {
			return err
		}
		count += n
		pairs = pairs[:0]
		at := 0
		for ; len(waiting) > 0 && count-at >= header; at += header {
			it := waiting[0]
			if _, err := it.reply(data[at:count]); err != nil {
				return err
			}
			waiting = waiting[1:]
			now := time.Now()
			it.figures = append(it.figures, figure{it.sent, now.Sub(it.sent)})
			if now.Before(end) {
				it.sent, pairs, waiting = now, paired(pairs, it.request()), append(waiting, it)
			}
		}
		count = copy(data, data[at:count])
	}
	return nil
}
