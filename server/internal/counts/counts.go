// Package counts has what a host has done, as numbers, for the status socket and the page of metrics.
package counts

import (
	"os"
	"path/filepath"
	"sort"
	"strings"
	"sync"
	"sync/atomic"
	"time"

	"telovamish.org/server/internal/frames"
	"telovamish.org/tbclient"
)

// Syncs is how many syncs a commit has.
const Syncs = 2

// Buckets are upper bounds of the histogram of latencies.
var Buckets = [...]time.Duration{
	500 * time.Microsecond, time.Millisecond, 2500 * time.Microsecond, 5 * time.Millisecond,
	10 * time.Millisecond, 25 * time.Millisecond, 50 * time.Millisecond, 100 * time.Millisecond,
	250 * time.Millisecond, 500 * time.Millisecond, time.Second, 2500 * time.Millisecond, 5 * time.Second,
}

const statuses = 8

// Counts are those of one run of a host.
type Counts struct {
	began    time.Time
	hasBegun atomic.Bool

	requests  [256][statuses]atomic.Int64 // by operation and status
	latencies [len(Buckets) + 1]atomic.Int64
	nanos     atomic.Int64

	// Connections are open now, Taken were taken. Evictions are of sessions.
	Connections, Taken, Evictions atomic.Int64

	mu     sync.Mutex
	closed map[string]int64
}

// New are the counts of a run that begins.
func New() *Counts { return &Counts{began: time.Now(), closed: map[string]int64{}} }

// Begin counts that requests are served.
func (c *Counts) Begin() { c.hasBegun.Store(true) }

// HasBegun reports whether requests have been served.
func (c *Counts) HasBegun() bool { return c.hasBegun.Load() }

// Age is how long the host runs.
func (c *Counts) Age() time.Duration { return time.Since(c.began) }

// Answered counts a reply, and how long it took.
func (c *Counts) Answered(reply frames.Header, took time.Duration) {
	c.requests[reply.Operation()][reply.Status()%statuses].Add(1)
	at := 0
	for at < len(Buckets) && took > Buckets[at] {
		at++
	}
	c.latencies[at].Add(1)
	c.nanos.Add(int64(took))
}

// Closed counts a connection that was closed for a reason.
func (c *Counts) Closed(why string) {
	c.mu.Lock()
	c.closed[why]++
	c.mu.Unlock()
}

// Named is a count with the name of what was counted.
type Named struct {
	Name  string
	Count int64
}

// ClosedByFault are the connections that were closed, by the reason.
func (c *Counts) ClosedByFault() []Named {
	c.mu.Lock()
	defer c.mu.Unlock()
	all := make([]Named, 0, len(c.closed))
	for name, count := range c.closed {
		all = append(all, Named{name, count})
	}
	sort.Slice(all, func(i, j int) bool { return all[i].Name < all[j].Name })
	return all
}

// OfOperation is how many requests of an operation were answered, by their status.
type OfOperation struct {
	Name     string
	ByStatus []Named
}

// Requests are those that were answered.
func (c *Counts) Requests() []OfOperation {
	var all []OfOperation
	for operation := range c.requests {
		var found []Named
		for status := range c.requests[operation] {
			if count := c.requests[operation][status].Load(); count > 0 {
				found = append(found, Named{tbclient.Status(status).String(), count})
			}
		}
		if found != nil {
			all = append(all, OfOperation{tbclient.Operation(operation).String(), found})
		}
	}
	return all
}

// AnsweredInAll is how many requests were answered.
func (c *Counts) AnsweredInAll() int64 {
	total := int64(0)
	for _, of := range c.Requests() {
		for _, it := range of.ByStatus {
			total += it.Count
		}
	}
	return total
}

// Latencies are the counts of the buckets, and of what took longer, and the time of all.
func (c *Counts) Latencies() ([]int64, time.Duration) {
	found := make([]int64, len(c.latencies))
	for at := range c.latencies {
		found[at] = c.latencies[at].Load()
	}
	return found, time.Duration(c.nanos.Load())
}

// SizeOf is how many bytes a file has, if that is known.
func SizeOf(file string) (int64, bool) {
	if file == "" {
		return 0, false
	}
	found, err := os.Stat(file)
	if err != nil {
		return 0, false
	}
	return found.Size(), true
}

// CutCopies is how many copies of torn bytes that a start has cut off are next to a file, if that is
// known.
func CutCopies(file string) (int64, bool) {
	if file == "" {
		return 0, false
	}
	folder, name := filepath.Split(file)
	if folder == "" {
		folder = "."
	}
	entries, err := os.ReadDir(folder)
	if err != nil {
		return 0, false
	}
	count := int64(0)
	for _, it := range entries {
		if strings.HasPrefix(it.Name(), name+".cut-") {
			count++
		}
	}
	return count, true
}
