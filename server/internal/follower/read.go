package follower

import (
	"io"
	"sync"

	"telovamish.org/server/internal/entries"
	"telovamish.org/server/internal/frames"
	"telovamish.org/server/internal/report"
)

const (
	readSize   = 1 << 18 // bytes that are read at a time
	replyPlace = 13      // bytes of a reply before its frame: kind, position and index
	standing   = 9 + 2*entries.HashSize
)

// reader reads what one process writes.
type reader struct {
	handler Handler
	program string

	mu     sync.Mutex // held while the handler is called
	isOver bool       // what comes is of no use any more
}

// end has what comes be dropped.
func (r *reader) end() {
	r.mu.Lock()
	defer r.mu.Unlock()
	r.isOver = true
}

// read passes on what the process writes, until there is no more.
func (r *reader) read(from io.Reader) error {
	data, filled := make([]byte, readSize), 0
	for {
		n, err := from.Read(data[filled:])
		filled += n
		if n > 0 {
			taken, fault := r.take(data[:filled])
			if fault != nil {
				return fault
			}
			copy(data, data[taken:filled])
			filled -= taken
			if filled == len(data) { // a reply is longer
				data = append(data, make([]byte, len(data))...)
			}
		}
		if err != nil {
			return nil
		}
	}
}

// take takes what is whole. It returns where that ends.
func (r *reader) take(data []byte) (int, error) {
	r.mu.Lock()
	defer r.mu.Unlock()
	at := 0
	for !r.isOver {
		length, err := r.takeOne(data[at:])
		if err != nil {
			return at, err
		}
		if length == 0 {
			r.handler.Read()
			return at, nil
		}
		at += length
	}
	return len(data), nil
}

// takeOne takes what begins here. It returns its length, 0 if it is not whole.
func (r *reader) takeOne(data []byte) (int, error) {
	switch {
	case len(data) == 0:
		return 0, nil
	case data[0] == questionKind:
		return r.takeStanding(data), nil
	case data[0] != entryKind:
		return 0, report.End(1, "%s wrote what has no place in the log", r.program)
	case len(data) < replyPlace+frames.HeaderSize:
		return 0, nil
	}
	header := frames.Header(data[replyPlace:])
	length := header.Length()
	if length > frames.RequestMax {
		return 0, report.End(1, "%s wrote what is no reply to the next pair", r.program)
	}
	if len(data) < replyPlace+length {
		return 0, nil
	}
	reply := data[replyPlace : replyPlace+length : replyPlace+length]
	r.handler.Replied(little.Uint64(data[1:]), little.Uint32(data[9:]), reply)
	return replyPlace + length, nil
}

// takeStanding takes the hashes after an entry.
func (r *reader) takeStanding(data []byte) int {
	if len(data) < standing {
		return 0
	}
	var log, replies entries.Hash
	copy(log[:], data[9:])
	copy(replies[:], data[9+entries.HashSize:])
	r.handler.Stands(little.Uint64(data[1:]), log, replies)
	return standing
}
