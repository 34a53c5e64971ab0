package main

import (
	"errors"
	"fmt"
	"runtime"
	"syscall"
	"time"
)

// send sends the next request over the next connection.
func (w *worker) send(at time.Time) error {
	over := w.descriptors[w.turn]
	w.turn = (w.turn + 1) % len(w.descriptors)
	frame := w.request()
	w.sent = at
	if n, err := syscall.Write(over, frame); n != len(frame) {
		return fmt.Errorf("%d bytes of %d were sent: %w", n, len(frame), err)
	}
	return nil
}

// receive reads from a connection. Whether the reply is whole.
func (w *worker) receive(over int) (bool, error) {
	n, err := syscall.Read(over, w.data[w.count:])
	if err != nil {
		return false, err
	}
	if n == 0 {
		return false, fmt.Errorf("a connection was closed after %q", w.data[:w.count])
	}
	w.count += n
	return w.answered()
}

// byEpoll runs all workers by one thread.
func byEpoll(workers []*worker, end time.Time) error {
	runtime.LockOSThread()
	poll, err := syscall.EpollCreate1(0)
	if err != nil {
		return err
	}
	of := map[int]*worker{}
	for _, it := range workers {
		for _, over := range it.descriptors {
			of[over] = it
			wanted := syscall.EpollEvent{Events: syscall.EPOLLIN, Fd: int32(over)}
			if err := syscall.EpollCtl(poll, syscall.EPOLL_CTL_ADD, over, &wanted); err != nil {
				return err
			}
		}
	}
	for _, it := range workers {
		if err := it.send(time.Now()); err != nil {
			return err
		}
	}
	return polled(poll, of, len(workers), end)
}

// polled answers replies with further requests until the end, and then waits for the last replies.
func polled(poll int, of map[int]*worker, left int, end time.Time) error {
	events := make([]syscall.EpollEvent, 128)
	for left > 0 {
		n, err := syscall.EpollWait(poll, events, -1)
		if err != nil && !errors.Is(err, syscall.EINTR) {
			return err
		}
		for at := 0; at < n; at++ {
			over := int(events[at].Fd)
			is, err := of[over].receive(over)
			if err != nil {
				return err
			}
			if !is {
				continue
			}
			now := time.Now()
			if now.After(end) {
				left--
			} else if err := of[over].send(now); err != nil {
				return err
			}
		}
	}
	return nil
}
