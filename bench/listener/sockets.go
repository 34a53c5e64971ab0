package main

import (
	"crypto/tls"
	"errors"
	"fmt"
	"net"
	"os"
	"strings"
	"sync"
	"syscall"
	"time"
)

// A worker has one request under way, over one of its connections after another.
type worker struct {
	protocol
	connections []net.Conn
	descriptors []int // of its connections, if it is run by epoll
	turn        int
	data        []byte
	count       int
	sent        time.Time
	figures     []figure
	rest        time.Duration // after a reply
}

// dialed connects to an address, again if the queue of a Unix socket is full.
func dialed(address string) (net.Conn, error) {
	for end := time.Now().Add(10 * time.Second); ; {
		it, err := dial(address)
		if !errors.Is(err, syscall.EAGAIN) || time.Now().After(end) {
			return it, err
		}
		time.Sleep(time.Millisecond)
	}
}

func dial(address string) (net.Conn, error) {
	kind, place, _ := strings.Cut(address, ":")
	switch kind {
	case "tls":
		return tls.Dial("tcp", place, &tls.Config{InsecureSkipVerify: true})
	case "redis":
		return net.Dial("unix", place)
	default:
		return net.Dial(kind, place)
	}
}

// connected makes a load's workers, with their sessions and connections.
func connected(given options, address string) ([]*worker, error) {
	workers := make([]*worker, given.workers)
	for at := range workers {
		workers[at] = &worker{data: make([]byte, 4096), rest: duration(given.rest)}
	}
	for at := 0; at < given.connections; at++ {
		it, err := dialed(address)
		if err != nil {
			return nil, err
		}
		of := workers[at%given.workers]
		of.connections = append(of.connections, it)
	}
	for at, it := range workers {
		if strings.HasPrefix(address, "redis:") {
			it.protocol = &setter{worker: at}
			continue
		}
		own := &session{}
		if err := own.open(it.connections[0], given.items); err != nil {
			return nil, err
		}
		it.protocol = own
	}
	return workers, nil
}

// overSockets is a load over sockets: by one thread, or by a goroutine for each worker over TLS, for
// workers that rest, and for batches, which a thread would send one after another.
func overSockets(given options, address string) loop {
	return func() (func(time.Time) error, []*worker, error) {
		workers, err := connected(given, address)
		if err != nil {
			return nil, nil, err
		}
		if strings.HasPrefix(address, "tls:") || given.rest > 0 || given.items > 256 {
			return func(end time.Time) error { return byGoroutines(workers, end) }, workers, nil
		}
		for _, it := range workers {
			if err := it.describe(); err != nil {
				return nil, nil, err
			}
		}
		return func(end time.Time) error { return byEpoll(workers, end) }, workers, nil
	}
}

// describe takes the connections' descriptors, which do not block.
func (w *worker) describe() error {
	for _, it := range w.connections {
		file, err := it.(interface{ File() (*os.File, error) }).File()
		if err != nil {
			return err
		}
		descriptor, err := syscall.Dup(int(file.Fd()))
		if err != nil {
			return err
		}
		if err := syscall.SetNonblock(descriptor, true); err != nil {
			return err
		}
		w.descriptors = append(w.descriptors, descriptor)
		file.Close()
		it.Close()
	}
	return nil
}

// answered takes the reply that was read, if it is whole.
func (w *worker) answered() (bool, error) {
	length, err := w.reply(w.data[:w.count])
	if err != nil {
		return false, err
	}
	if length == 0 && strings.HasPrefix(string(w.data[:w.count]), "tb_listen") {
		return false, fmt.Errorf("%q", w.data[:w.count])
	}
	if length == 0 {
		return false, nil
	}
	w.figures = append(w.figures, figure{w.sent, time.Since(w.sent)})
	w.count = 0
	return true, nil
}

func byGoroutines(workers []*worker, end time.Time) error {
	var all sync.WaitGroup
	faults := make(chan error, len(workers))
	for _, it := range workers {
		all.Add(1)
		go func(it *worker) {
			defer all.Done()
			if err := it.run(end); err != nil {
				faults <- err
			}
		}(it)
	}
	all.Wait()
	close(faults)
	return <-faults
}

// run sends and reads until the end.
func (w *worker) run(end time.Time) error {
	for time.Now().Before(end) {
		over := w.connections[w.turn]
		w.turn = (w.turn + 1) % len(w.connections)
		frame := w.request()
		w.sent = time.Now()
		if _, err := over.Write(frame); err != nil {
			return err
		}
		for is := false; !is; {
			n, err := over.Read(w.data[w.count:])
			if err != nil {
				return err
			}
			w.count += n
			if is, err = w.answered(); err != nil {
				return err
			}
		}
		time.Sleep(w.rest)
	}
	return nil
}
