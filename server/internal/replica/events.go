package replica

import (
	"telovamish.org/server/internal/entries"
)

// Event is what happened outside the core. Its types are in this file.
type Event interface{ apply(c *Core) }

// Frame is a request that came. Its bytes are not changed until it was answered or cancelled.
type Frame struct{ Request *Request }

// Cancelled is a request that nobody waits for any more. It is not appended, if it was not yet. The
// core does not know it afterwards.
type Cancelled struct{ Request *Request }

// StartRead is what was asked by ReadStart.
type StartRead struct {
	Head            []byte // that the log has
	KeptHead        []byte // that the copy's folder has; nil if there is none yet
	Folder          string
	TrimmedPosition int64
	TrimmedPlace    int64
	Last            int64
	Failed          Failure
}

// Failure is why a call of the log failed.
type Failure struct {
	Kind FailureKind
	Text string
}

// FailureKind is how a call of the log failed.
type FailureKind int

// All kinds.
const (
	NoFailure   FailureKind = iota
	FailedNoLog             // not reached, no majority, or the outcome is unknown
	FailedFull              // its quota or its disk is full
)

// Item is an entry as the log has it.
type Item struct {
	Place int64
	Data  []byte
	Node  string // that it was read from
}

// EntryRead is an entry that was read in order.
type EntryRead struct {
	Reading uint64 // that of the Read which it is of
	Item    Item
}

// ReadGone is that the log was trimmed beyond the place after which it was read.
type ReadGone struct {
	Reading uint64
	Text    string
}

// ReportRead is what a replica reports of itself. If reports have places in the log, those before one
// that was read are ignored.
type ReportRead struct {
	Name  string
	Data  []byte
	Place int64
}

// Appended is that an entry is in the log.
type Appended struct {
	Number uint64
	Place  int64
	IsNext bool // nothing lies between it and what was read
}

// AppendLost is that an append failed; the entry may be in the log nevertheless.
type AppendLost struct {
	Number uint64
	Why    Failure
}

// NodeRead is an entry that one node has, asked for by ReadNode. If there is none, no more come.
type NodeRead struct {
	Ask  uint64
	Item *Item
}

// TrimmedRead is up to where the log was trimmed, asked for by ReadTrimmed.
type TrimmedRead struct {
	Position uint64
	Place    int64
	Failed   Failure
}

// ServerBegan is that a server's process runs, which is given entries from the first one on.
type ServerBegan struct{}

// ServerLost is that it ended by a signal: another one is started.
type ServerLost struct{}

// ServerEnded is that it ended otherwise.
type ServerEnded struct {
	Status int
	Line   string
}

// ReplyCame is a reply of the server, with the place of its pair.
type ReplyCame struct {
	Position uint64
	Index    uint32
	Reply    []byte
}

// HashesCame is what the server has after an entry.
type HashesCame struct {
	Position     uint64
	Log, Replies entries.Hash
}

// CopyRead are entries of the copy, asked for by ReadCopy.
type CopyRead struct {
	Position uint64   // of the first one
	Pairs    [][]byte // of each
}

// CopySynced is that the copy is synced up to a position.
type CopySynced struct {
	Position uint64
	Place    int64
	End      int64
}

// Failed is that something ends this replica which is no fault of the log, such as a full disk.
type Failed struct {
	Status int
	Line   string
}

// ReportWritten is that a report was written, or was not.
type ReportWritten struct{ IsWritten bool }

// ReportsRead are the replicas that the log lists.
type ReportsRead struct {
	Names  []string
	Failed Failure
}

// ClockRead is the engine's clock, in nanoseconds since 1970, if it has one.
type ClockRead struct {
	Clock   int64
	IsKnown bool
}

// FullRead is why the engine takes no more, or "".
type FullRead struct{ Text string }

// Tick is that the time of SetTimer has come.
type Tick struct{}

// Stop ends the replica, with all that was taken answered.
type Stop struct{}
