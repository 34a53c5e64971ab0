package replica

import (
	"telovamish.org/server/internal/entries"
	"telovamish.org/server/internal/report"
)

// Action is what is to be done outside the core. Its types are in this file. Actions are done in their
// order.
type Action interface{ isAction() }

// ReadStart asks for the log's head, which becomes this one if there is none, for the copy's, and for
// where the log begins and ends: StartRead.
type ReadStart struct{ Head []byte }

// KeepHead keeps the log's head in the copy's folder: so a copy goes on only with its own log.
type KeepHead struct{ Head []byte }

// Read has the log read after a place: EntryRead, ReportRead, ReadGone. It is read nowhere else any
// more. If IsElsewhere, it is read at another address than before.
type Read struct {
	Reading     uint64
	After       int64
	IsElsewhere bool
}

// Append appends an entry by its name, once: Appended, AppendLost.
type Append struct {
	Writer entries.Writer
	Number uint64
	Data   []byte
}

// ReadNode asks for the entries after a place that one node has by itself: NodeRead.
type ReadNode struct {
	Ask   uint64
	Node  string
	After int64
}

// ReadTrimmed asks for the position and the place up to which the log was trimmed: TrimmedRead.
type ReadTrimmed struct{}

// StopNode ends a ReadNode.
type StopNode struct{ Ask uint64 }

// StartServer has the server's process run: ServerBegan. If a signal ends it, it is started again.
type StartServer struct{}

// Feed gives the server an entry, with a question for the hashes after it: ReplyCame, HashesCame.
type Feed struct {
	Position uint64
	Pairs    []byte
}

// ReadCopy asks for entries of the copy, from a position on: CopyRead.
type ReadCopy struct{ Position uint64 }

// Keep appends an entry to the copy.
type Keep struct {
	Position uint64
	Place    int64
	Data     []byte
}

// SyncCopy syncs all that was kept: CopySynced.
type SyncCopy struct{}

// WriteReport reports of this replica: ReportWritten.
type WriteReport struct{ Data []byte }

// ReadReports asks for the replicas that the log lists: ReportsRead.
type ReadReports struct{}

// ReadClock asks for the engine's clock: ClockRead.
type ReadClock struct{}

// ReadFull asks why the engine takes no more: FullRead.
type ReadFull struct{}

// Answer answers requests. The list is the core's again afterwards.
type Answer struct{ Answers []Answered }

// Answered is a request with its reply; if that is nil, with the name of the reason.
type Answered struct {
	Request *Request
	Reply   []byte
	Why     string
}

// Say prints a line. Those of a kind are printed ten times in a minute at most.
type Say struct {
	Level report.Level
	Text  string
	Kind  string
}

// SetTimer has a Tick come at a time of the clock that nobody sets, and not at the one before.
type SetTimer struct{ At int64 }

// End ends the replica. If there is a report, it is written first, as far as that takes little time.
type End struct {
	Status int
	Line   string // none if it was stopped
	Report []byte
}

func (*ReadStart) isAction()   {}
func (*KeepHead) isAction()    {}
func (*Read) isAction()        {}
func (*Append) isAction()      {}
func (*ReadNode) isAction()    {}
func (*ReadTrimmed) isAction() {}
func (*StopNode) isAction()    {}
func (*StartServer) isAction() {}
func (*Feed) isAction()        {}
func (*ReadCopy) isAction()    {}
func (*Keep) isAction()        {}
func (*SyncCopy) isAction()    {}
func (*WriteReport) isAction() {}
func (*ReadReports) isAction() {}
func (*ReadClock) isAction()   {}
func (*ReadFull) isAction()    {}
func (*Answer) isAction()      {}
func (*Say) isAction()         {}
func (*SetTimer) isAction()    {}
func (*End) isAction()         {}
