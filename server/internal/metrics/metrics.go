// Package metrics serves the counts of a host as a page for Prometheus.
package metrics

import (
	"fmt"
	"io"
	"log"
	"net"
	"net/http"
	"sort"
	"strconv"
	"strings"
	"sync"
	"time"

	"telovamish.org/server/internal/backend"
	"telovamish.org/server/internal/counts"
	"telovamish.org/server/internal/status"
)

const (
	stall   = 10 * time.Second // that a reader of the page may take to ask, and to read
	readers = 20               // of the page at a time
	form    = "text/plain; version=0.0.4; charset=utf-8"
)

// Serve serves the page at a socket, until that is closed.
func Serve(place net.Listener, numbers *status.Numbers) {
	server := &http.Server{
		ReadTimeout:    stall,
		WriteTimeout:   stall,
		IdleTimeout:    stall,
		MaxHeaderBytes: 1 << 14,
		ErrorLog:       log.New(io.Discard, "", 0),
		Handler: http.HandlerFunc(func(to http.ResponseWriter, _ *http.Request) {
			to.Header().Set("Content-Type", form)
			io.WriteString(to, Page(numbers))
		}),
	}
	server.Serve(&few{Listener: place})
}

// few is a socket of which a few connections are taken at a time. Others are closed.
type few struct {
	net.Listener
	mu   sync.Mutex
	open int
}

// Accept takes the next connection.
func (f *few) Accept() (net.Conn, error) {
	for {
		it, err := f.Listener.Accept()
		if err != nil {
			return nil, err
		}
		f.mu.Lock()
		isTaken := f.open < readers
		if isTaken {
			f.open++
		}
		f.mu.Unlock()
		if isTaken {
			return &one{Conn: it, of: f}, nil
		}
		it.Close()
	}
}

// one is a connection of those.
type one struct {
	net.Conn
	of   *few
	once sync.Once
}

// Close closes the connection.
func (o *one) Close() error {
	o.once.Do(func() {
		o.of.mu.Lock()
		o.of.open--
		o.of.mu.Unlock()
	})
	return o.Conn.Close()
}

// page is metrics in Prometheus' text form.
type page struct{ strings.Builder }

func (p *page) family(name, kind, help string) {
	fmt.Fprintf(p, "# HELP %s %s\n# TYPE %s %s\n", name, help, name, kind)
}

func (p *page) sample(name, labels string, value float64) {
	p.WriteString(name)
	if labels != "" {
		p.WriteString("{" + labels + "}")
	}
	p.WriteString(" " + number(value) + "\n")
}

func (p *page) one(name, kind, help string, value float64) {
	p.family(name, kind, help)
	p.sample(name, "", value)
}

// number is a number as Prometheus writes it: with a point.
func number(value float64) string {
	text := strconv.FormatFloat(value, 'g', -1, 64)
	if !strings.ContainsAny(text, ".eIN") {
		text += ".0"
	}
	return text
}

// Page is the page.
func Page(numbers *status.Numbers) string {
	var p page
	its := numbers.Counts
	p.family("tb_requests_total", "counter", "Requests that were answered")
	for _, of := range its.Requests() {
		for _, it := range of.ByStatus {
			p.sample("tb_requests_total", fmt.Sprintf(`operation="%s",status="%s"`, of.Name, it.Name), float64(it.Count))
		}
	}
	p.latencies(its)
	ready := 0.0
	if numbers.IsReady() {
		ready = 1
	}
	p.one("tb_ready", "gauge", "1 when requests are served", ready)
	p.one("tb_connections", "gauge", "Open connections", float64(its.Connections.Load()))
	p.one("tb_connections_taken_total", "counter", "Connections taken", float64(its.Taken.Load()))
	p.family("tb_connections_closed_total", "counter", "Connections closed by a fault")
	for _, it := range its.ClosedByFault() {
		p.sample("tb_connections_closed_total", fmt.Sprintf(`why="%s"`, it.Name), float64(it.Count))
	}
	p.one("tb_evictions_total", "counter", "Sessions evicted", float64(its.Evictions.Load()))
	if size, ok := counts.SizeOf(numbers.File); ok {
		p.one("tb_ledger_bytes", "gauge", "Size of the ledger's file", float64(size))
	}
	if count, ok := counts.CutCopies(numbers.File); ok {
		p.one("tb_cut_copies", "gauge", "Copies of torn bytes next to the ledger's file, of 16 at most", float64(count))
	}
	if commits, ok := numbers.Of.Commits(); ok {
		p.one("tb_commits_total", "counter", "Batches written to the file", float64(commits))
		p.one("tb_syncs_total", "counter", "Syncs of these", float64(counts.Syncs*commits))
	}
	p.one("tb_clock_lag_seconds", "gauge", "Seconds that moments lie behind the clock; below 0 if it was set back", numbers.Of.Lag().Seconds())
	if its, ok := numbers.Log(); ok {
		p.log(its)
	}
	return p.String()
}

// log is what a replica has of the agreed log.
func (p *page) log(its backend.LogNumbers) {
	p.one("tb_log_position", "gauge", "Position of the last entry that was read", float64(its.Position))
	p.one("tb_log_answered", "gauge", "Position up to which the server has answered", float64(its.Answered))
	p.one("tb_log_first", "gauge", "First entry that the log still has", float64(its.First))
	p.one("tb_log_ahead_seconds", "gauge", "Seconds that the log's last moment is ahead of the clock", its.Ahead.Seconds())
	p.one("tb_copy_position", "gauge", "Position up to which the copy is on the disk", float64(its.CopyPosition))
	p.one("tb_copy_bytes", "gauge", "Bytes of the copy", float64(its.CopyBytes))
	p.family("tb_rotten_entries_total", "counter", "Entries that a node has lost or changed")
	nodes := make([]string, 0, len(its.Rotten))
	for node := range its.Rotten {
		nodes = append(nodes, node)
	}
	sort.Strings(nodes)
	for _, node := range nodes {
		p.sample("tb_rotten_entries_total", fmt.Sprintf("node=%q", node), float64(its.Rotten[node]))
	}
}

// latencies is the histogram.
func (p *page) latencies(its *counts.Counts) {
	const name = "tb_request_seconds"
	p.family(name, "histogram", "From request to reply")
	found, total := its.Latencies()
	below := int64(0)
	for at, count := range found {
		below += count
		bound := "+Inf"
		if at < len(counts.Buckets) {
			bound = number(counts.Buckets[at].Seconds())
		}
		p.sample(name+"_bucket", fmt.Sprintf(`le="%s"`, bound), float64(below))
	}
	p.sample(name+"_count", "", float64(below))
	p.sample(name+"_sum", "", total.Seconds())
}
