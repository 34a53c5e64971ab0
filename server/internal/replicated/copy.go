package replicated

import (
	"sync"

	"telovamish.org/server/internal/agreed"
	"telovamish.org/server/internal/entries"
	"telovamish.org/server/internal/faults"
	"telovamish.org/server/internal/logcopy"
	"telovamish.org/server/internal/replica"
)

const (
	stride  = 1024    // positions from one whose place in the file is kept to the next
	readMax = 4 << 20 // bytes of pairs that are read at a time
)

// Copy is a replica's copy of the log, with what the core begins with.
type Copy struct {
	*logcopy.Copy
	taken *replica.Taken

	mu       sync.Mutex
	starts   []int64 // of the records of each position that is 1 and a multiple of stride
	position uint64  // that was read last
	end      int64   // of its record
}

// OpenCopy opens a copy, and reads what it has.
func OpenCopy(folder string) (*Copy, error) {
	its, err := logcopy.Open(folder)
	if err != nil {
		return nil, err
	}
	c := &Copy{Copy: its, taken: replica.NewTaken()}
	start := logcopy.Start
	err = its.Scan(func(it logcopy.Record, entry entries.Entry) error {
		c.started(it.Position, start)
		start = it.End
		c.taken.Count(int64(it.Place), &entry)
		return nil
	})
	if err != nil {
		its.Close()
		return nil, err
	}
	return c, nil
}

func (c *Copy) started(position uint64, at int64) {
	if position%stride == 1 {
		c.mu.Lock()
		defer c.mu.Unlock()
		c.starts = append(c.starts, at)
	}
}

// keep appends an entry.
func (c *Copy) keep(place agreed.Place, data []byte) error {
	before := c.Mark()
	c.started(before.Position+1, before.End)
	_, err := c.Append(place, data)
	return err
}

// read is the pairs of entries from a position on.
func (c *Copy) read(position uint64) ([][]byte, error) {
	c.mu.Lock()
	from := c.starts[(position-1)/stride]
	if c.position == position-1 && c.end > 0 {
		from = c.end
	}
	c.mu.Unlock()
	found, size := [][]byte(nil), 0
	err := c.Records(from, func(it logcopy.Record) error {
		if it.Position < position {
			return nil
		}
		entry, err := entries.ParseTrusted(it.Data)
		if err != nil {
			return faults.New(faults.Damaged, "the entry at %d: %v", it.Position, err)
		}
		found = append(found, append([]byte(nil), entry.Pairs...))
		c.mu.Lock()
		c.position, c.end = it.Position, it.End
		c.mu.Unlock()
		if size += len(entry.Pairs); size >= readMax {
			return logcopy.ErrEnough
		}
		return nil
	})
	return found, err
}
