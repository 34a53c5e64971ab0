// Package backend has what a host serves requests with: a server as a child process (Child), which is
// started again if a signal ended it and it keeps its ledger in a file.
package backend

import (
	"time"

	"telovamish.org/server/internal/frames"
	"telovamish.org/server/internal/memory"
)

// Backend serves requests, in one order.
type Backend interface {
	// Run runs until the backend is closed, and returns why it ended otherwise.
	Run() error
	// Begun is closed once requests are served for the first time.
	Begun() <-chan struct{}
	// IsServing reports whether requests are served now.
	IsServing() bool
	// Submit passes a request on, now or when it has its turn. Its Asker gets the reply, or the reason
	// for no reply.
	Submit(request *Request)
	// Cancel has a request no longer wait for its turn. It reports whether it did: then the Asker gets
	// nothing.
	Cancel(request *Request) bool
	// Commits is how many commits the ledger's file has had, if that is known.
	Commits() (int64, bool)
	// Lag is how long the moments are behind the clock.
	Lag() time.Duration
	// Renew reads the backend's files of TLS again, and changes nothing if one is wrong.
	Renew() error
	// Stop has the backend not start again.
	Stop()
	// Close ends the backend, with all that was taken answered.
	Close()
	// Kill ends it at once.
	Kill()
}

// OverLog is a backend over an agreed log.
type OverLog interface {
	Backend
	// LogNumbers are those of the log, as this replica has it.
	LogNumbers() LogNumbers
}

// LogNumbers are those of an agreed log, as a replica has it.
type LogNumbers struct {
	Position     uint64         // of the last entry that was read
	Answered     uint64         // up to which the server has answered
	First        uint64         // the first entry that the log still has; 0 before that was read
	Ahead        time.Duration  // by which the log's last moment is ahead of the clock
	CopyPosition uint64         // up to which the copy is on the disk
	CopyBytes    int64          // of the copy
	Rotten       map[string]int // how many entries each node has lost or changed
}

// Asker is who waits for the reply to a request.
type Asker interface {
	// Answered takes the reply, whose bytes are another's afterwards. If it is nil, why is the name of
	// the reason.
	Answered(reply []byte, why string)
}

// Request is a request of a connection, which has one at a time: the next one is made in its place.
type Request struct {
	Frame []byte          // the header, and what of the body came with it: Submit copies it
	Rest  []*memory.Chunk // the rest of the body, which the backend frees
	Last  int             // bytes of the last chunk
	From  Asker
	Peer  *Peer

	asker  frames.Asker
	size   int    // bytes of the pair
	cost   int    // the same, with those of the longest reply
	start  uint64 // when the connection would have begun to send it, in bytes
	finish uint64 // when it is due; before it is submitted, when the connection's last one was
	came   uint64 // which one of those that waited it is
	place  int    // in the queue, from 1; 0 if it does not wait
	held   []byte // its frame, while it waits
}

// Peer is what the connections of one peer share.
type Peer struct {
	waiting int // requests
}

// Size is how many bytes the request has.
func (r *Request) Size() int {
	if len(r.Rest) == 0 {
		return len(r.Frame)
	}
	return len(r.Frame) + (len(r.Rest)-1)*memory.ChunkSize + r.Last
}

// Free gives the chunks of the body back.
func (r *Request) Free() {
	for at, chunk := range r.Rest {
		memory.Free(chunk)
		r.Rest[at] = nil
	}
	r.Rest = r.Rest[:0]
}
