// Package serve runs a host: connections are taken until it is stopped or its server ends.
package serve

import (
	"errors"
	"fmt"
	"net"
	"net/netip"
	"os"
	"os/signal"
	"syscall"
	"time"

	"telovamish.org/server/internal/access"
	"telovamish.org/server/internal/backend"
	"telovamish.org/server/internal/config"
	"telovamish.org/server/internal/conns"
	"telovamish.org/server/internal/counts"
	"telovamish.org/server/internal/metrics"
	"telovamish.org/server/internal/report"
	"telovamish.org/server/internal/sockets"
	"telovamish.org/server/internal/status"
	"telovamish.org/server/internal/systemd"
	"telovamish.org/server/internal/tlsfiles"
)

// host is a host that runs.
type host struct {
	config   *config.Config
	log      *report.Log
	backend  backend.Backend
	numbers  *status.Numbers
	listener *conns.Listener
	places   []*conns.Place
	remove   []func() // what is removed at the end
	signals  <-chan os.Signal
}

// Ledger is what is known of the ledger that a backend serves.
type Ledger struct {
	File       string // or ""
	ClientsMax int    // sessions at most, or 0, if not all requests come through this host
}

// Run serves by a backend, until a signal comes or the backend ends. It returns why it ended, if that is
// not a signal.
func Run(c *config.Config, log *report.Log, of backend.Backend, its Ledger, signals <-chan os.Signal) error {
	h := &host{config: c, log: log, backend: of, signals: signals}
	defer func() {
		for _, it := range h.remove {
			it()
		}
	}()
	if err := makeRoom(c); err != nil {
		return err
	}
	if err := h.bind(); err != nil {
		return err
	}
	who, err := access.New(c.Users, c.Clients)
	if err != nil {
		return err
	}
	numbers := counts.New()
	h.numbers = &status.Numbers{Counts: numbers, Of: of, File: its.File}
	h.listener = conns.New(of, c, who, log, numbers, counts.NewEvictions(its.ClientsMax))
	if err := h.report(); err != nil {
		return err
	}
	return h.serve()
}

// makeRoom lets this process have as many open files as its connections may take: those that are served,
// those that get a line, and those that agree on TLS.
func makeRoom(c *config.Config) error {
	wanted := uint64(2*c.Connections + 64)
	if c.HasTLS() {
		wanted += uint64(c.Connections)
	}
	var limit syscall.Rlimit
	if err := syscall.Getrlimit(syscall.RLIMIT_NOFILE, &limit); err != nil || limit.Cur >= wanted {
		return nil
	}
	if limit.Max < wanted {
		return report.End(1, "--connections %d takes %d open files, and %d are allowed (ulimit -n)",
			c.Connections, wanted, limit.Max)
	}
	limit.Cur = wanted
	return syscall.Setrlimit(syscall.RLIMIT_NOFILE, &limit)
}

// bind makes the sockets that are listened on: those that were passed, if some were, otherwise those of
// the options.
func (h *host) bind() error {
	its, err := tlsfiles.Read(h.config)
	if err != nil {
		return err
	}
	passed, err := systemd.Sockets()
	if err != nil {
		return err
	}
	for _, it := range passed {
		if err := h.addPassed(it); err != nil {
			return err
		}
	}
	if passed == nil {
		if err := h.bindOptions(); err != nil {
			return err
		}
	}
	for _, it := range h.places {
		if _, ok := it.Addr().(*net.TCPAddr); ok && its != nil {
			it.TLS.Store(its)
		}
	}
	return nil
}

// addPassed takes a socket that was passed by who started this process, as systemd does. An address that
// is not loopback is held to the same rule as one of the options.
func (h *host) addPassed(it net.Listener) error {
	if _, ok := it.Addr().(*net.TCPAddr); !ok {
		h.places = append(h.places, &conns.Place{Listener: it, Shown: it.Addr().String()})
		return nil
	}
	return h.addTCP(it)
}

func (h *host) addTCP(it net.Listener) error {
	address, err := netip.ParseAddrPort(it.Addr().String())
	if err != nil {
		return err
	}
	shown := access.Shown(address)
	if !h.config.MayServe(address.Addr().String()) {
		return report.End(2, "%s is no loopback address: give --client-ca FILE", shown)
	}
	h.places = append(h.places, &conns.Place{Listener: it, Shown: shown})
	return nil
}

func (h *host) bindOptions() error {
	if h.config.Unix == "" && len(h.config.Users) > 0 {
		return report.End(2, "error: --allow-uid is for a Unix socket: --unix PATH")
	}
	if h.config.Unix != "" {
		it, err := sockets.ListenUnix(h.config.Unix, len(h.config.Users) > 0)
		if err != nil {
			return err
		}
		h.remove = append(h.remove, it.Remove)
		h.places = append(h.places, &conns.Place{Listener: it, Shown: h.config.Unix})
	}
	if h.config.TCP.IsZero() {
		return nil
	}
	it, err := sockets.ListenTCP(h.config.TCP)
	if err != nil {
		return err
	}
	return h.addTCP(it) // its name may have had no address before
}

// report serves the status socket and the page of metrics.
func (h *host) report() error {
	if !h.config.Metrics.IsZero() {
		it, err := sockets.ListenTCP(h.config.Metrics)
		if err != nil {
			return err
		}
		go metrics.Serve(it, h.numbers)
	}
	if h.config.Status == "" {
		return nil
	}
	it, err := sockets.ListenUnix(h.config.Status, false)
	if err != nil {
		return err
	}
	h.remove = append(h.remove, it.Remove)
	go status.Serve(it, h.numbers)
	return nil
}

// serve takes connections until a signal comes or the backend ends.
func (h *host) serve() error {
	running := make(chan error, 1)
	go func() { running <- h.backend.Run() }()
	watched := make(chan struct{})
	defer close(watched)
	go h.listener.Watch(watched)
	for _, it := range h.places {
		go h.listener.Take(it)
	}
	err, hasEnded := h.untilEnd(running)
	systemd.Notify("STOPPING=1")
	for _, it := range h.places {
		it.Close()
	}
	h.backend.Stop()
	why := "Stopping"
	if hasEnded {
		why = backend.FaultName(fmt.Sprint(err))
	}
	h.listener.Stop(why)
	h.backend.Close()
	isKilled := false
	if !hasEnded {
		err, isKilled = h.untilOver(running)
	}
	h.listener.Leave()
	if h.numbers.Counts.HasBegun() {
		h.log.Say(report.Info, "has stopped: %s; %s", why, h.done())
	}
	if isKilled {
		return report.End(1, "%s did not end, and was killed", h.config.Command[0])
	}
	return err
}

// untilEnd waits for a signal, or until the backend has ended.
func (h *host) untilEnd(running <-chan error) (err error, hasEnded bool) {
	begun := h.backend.Begun()
	for {
		select {
		case err := <-running:
			return err, true
		case <-begun:
			begun = nil
			h.begin()
		case it := <-h.signals:
			if it != syscall.SIGHUP {
				return nil, false
			}
			h.readAgain()
		}
	}
}

// begin reports where it listens, once requests are served. Until then each gets Starting.
func (h *host) begin() {
	h.numbers.Counts.Begin()
	for _, it := range h.places {
		h.log.Say(report.Info, "listens on %s", it.Shown)
	}
	systemd.Notify("READY=1")
}

// untilOver waits until the backend has ended. It reports whether it was killed, because it did not end.
func (h *host) untilOver(running <-chan error) (error, bool) {
	timer := time.NewTimer(h.config.Slow)
	defer timer.Stop()
	select {
	case err := <-running:
		return err, false
	case <-timer.C:
	}
	h.backend.Kill()
	return <-running, true
}

// done is what was done, in words.
func (h *host) done() string {
	its := h.numbers.Counts
	said := fmt.Sprintf("%d requests were answered on %d connections", its.AnsweredInAll(), its.Taken.Load())
	if lines := h.log.LeftOut(); lines > 0 {
		said += fmt.Sprintf(", and %d lines were left out", lines)
	}
	return said
}

// readAgain reads files again at a SIGHUP, and reports it. If one is wrong, all old ones stay.
func (h *host) readAgain() {
	if err := h.renew(); err != nil {
		h.log.Say(report.Error, "SIGHUP: %v; the old files stay in use", err)
		return
	}
	h.log.Say(report.Info, "SIGHUP: the files are read again, and new connections go by them")
}

func (h *host) renew() error {
	its, err := tlsfiles.Read(h.config)
	if err != nil {
		return err
	}
	who, err := access.New(h.config.Users, h.config.Clients)
	if err != nil {
		return err
	}
	if err := h.backend.Renew(); err != nil {
		return err
	}
	for _, it := range h.places {
		if it.TLS.Load() != nil {
			it.TLS.Store(its)
		}
	}
	h.listener.SetAccess(who)
	return nil
}

// Signals are those that end a host, or have it read files again.
func Signals() <-chan os.Signal {
	signals := make(chan os.Signal, 4)
	signal.Notify(signals, syscall.SIGTERM, syscall.SIGINT, syscall.SIGHUP)
	// a write to a pipe that nobody reads, or beyond `ulimit -f`, fails, here and in the command
	signal.Ignore(syscall.SIGPIPE, syscall.SIGXFSZ)
	return signals
}

// StatusOf is the exit status of why a host ended, and its line.
func StatusOf(err error) (int, string) {
	var ended *report.Ended
	switch {
	case err == nil:
		return 0, ""
	case errors.As(err, &ended):
		return ended.Status, ended.Line
	}
	return 1, err.Error()
}
