// Package status reports the state of a host and its counts as a line of JSON, on a Unix socket; and
// reads such a line there and prints it for people.
package status

import (
	"encoding/json"
	"errors"
	"math"
	"net"
	"strconv"
	"strings"
	"time"

	"telovamish.org/server/internal/backend"
	"telovamish.org/server/internal/counts"
)

const (
	patience = 10 * time.Second // that a reader of the line may take
	readers  = 64               // of the line at a time
)

// Numbers are what is reported.
type Numbers struct {
	Counts *counts.Counts
	Of     backend.Backend
	File   string // the ledger's, or ""
}

// IsReady reports whether requests are served.
func (n *Numbers) IsReady() bool { return n.Counts.HasBegun() && n.Of.IsServing() }

// Log are the numbers of the agreed log, if the backend is over one.
func (n *Numbers) Log() (backend.LogNumbers, bool) {
	if it, ok := n.Of.(backend.OverLog); ok {
		return it.LogNumbers(), true
	}
	return backend.LogNumbers{}, false
}

func addLog(line *object, its backend.LogNumbers) {
	whole := func(number uint64) string { return strconv.FormatUint(number, 10) }
	line.add("log_position", whole(its.Position))
	line.add("log_answered", whole(its.Answered))
	line.add("log_first", whole(its.First))
	line.add("log_ahead_seconds", seconds(its.Ahead))
	line.add("copy_position", whole(its.CopyPosition))
	line.add("copy_bytes", strconv.FormatInt(its.CopyBytes, 10))
	var rotten object
	for _, node := range sorted(its.Rotten) {
		rotten.add(node, strconv.Itoa(its.Rotten[node]))
	}
	line.add("rotten_entries", rotten.String())
}

// Line is all of them, as a line of JSON.
func (n *Numbers) Line() []byte {
	state := "starting"
	if n.IsReady() {
		state = "ready"
	}
	commits, syncs := "null", "null"
	if count, ok := n.Of.Commits(); ok {
		commits, syncs = strconv.FormatInt(count, 10), strconv.FormatInt(counts.Syncs*count, 10)
	}
	size := "null"
	if found, ok := counts.SizeOf(n.File); ok {
		size = strconv.FormatInt(found, 10)
	}
	whole := func(number int64) string { return strconv.FormatInt(number, 10) }
	var line object
	line.add("state", quoted(state))
	line.add("seconds", seconds(n.Counts.Age()))
	line.add("connections", whole(n.Counts.Connections.Load()))
	line.add("connections_taken", whole(n.Counts.Taken.Load()))
	line.add("connections_closed_by_fault", named(n.Counts.ClosedByFault()))
	line.add("requests", byOperation(n.Counts.Requests()))
	line.add("evictions", whole(n.Counts.Evictions.Load()))
	line.add("commits", commits)
	line.add("syncs", syncs)
	line.add("file_bytes", size)
	line.add("clock_lag_seconds", seconds(n.Of.Lag()))
	if its, ok := n.Log(); ok {
		addLog(&line, its)
	}
	return append([]byte(line.String()), '\n')
}

// object is an object of JSON, with a space after each mark as people read it best.
type object struct{ text strings.Builder }

func (o *object) add(name, value string) {
	if o.text.Len() > 0 {
		o.text.WriteString(", ")
	}
	o.text.WriteString(quoted(name) + ": " + value)
}

// String is the object's text.
func (o *object) String() string { return "{" + o.text.String() + "}" }

func quoted(text string) string {
	line, _ := json.Marshal(text)
	return string(line)
}

// seconds is a time in seconds, to a thousandth.
func seconds(it time.Duration) string {
	text := strconv.FormatFloat(math.Round(it.Seconds()*1000)/1000, 'f', -1, 64)
	if !strings.Contains(text, ".") {
		text += ".0"
	}
	return text
}

func named(all []counts.Named) string {
	var its object
	for _, it := range all {
		its.add(it.Name, strconv.FormatInt(it.Count, 10))
	}
	return its.String()
}

func byOperation(all []counts.OfOperation) string {
	var its object
	for _, it := range all {
		its.add(it.Name, named(it.ByStatus))
	}
	return its.String()
}

// Serve writes the line to each connection of a socket, until that is closed.
func Serve(place net.Listener, numbers *Numbers) {
	places := make(chan struct{}, readers)
	for {
		it, err := place.Accept()
		if err != nil {
			if errors.Is(err, net.ErrClosed) {
				return
			}
			time.Sleep(patience / 20)
			continue
		}
		places <- struct{}{}
		go func() {
			defer func() { <-places }()
			defer it.Close()
			it.SetDeadline(time.Now().Add(patience))
			it.Write(numbers.Line())
		}()
	}
}
