// Package logcopy has a replica's copy of the log: a file of records, each an entry with its position.
//
// A record is its position u64, its place in the log u64, the entry's length u32, the CRC-32 of these
// three and of the entry u32, then the entry. The file `synced` has the length up to which the records
// were synced. What lies beyond that may be torn by a crash, and is cut off at the next start: the log
// still has it. A bad record before it is Damaged.
package logcopy

import (
	"encoding/binary"
	"errors"
	"hash/crc32"
	"io"
	"os"
	"path/filepath"
	"sync"
	"syscall"

	"telovamish.org/server/internal/agreed"
	"telovamish.org/server/internal/entries"
	"telovamish.org/server/internal/faults"
	"telovamish.org/server/internal/report"
)

const (
	magic  = "TBCOPY1\n"
	atSum  = 20        // of a record: after its position, place and length
	head   = atSum + 4 // bytes of a record before its entry
	chunk  = 1 << 22   // bytes that are read at a time
	held   = 1 << 21   // bytes that are kept for the next append
	synced = 8         // bytes of the file `synced`
)

// Start is where the first record begins.
const Start = int64(len(magic))

var little = binary.LittleEndian

// Record is an entry as the copy has it.
type Record struct {
	Position uint64
	Place    agreed.Place
	Data     []byte // of another record once the next one is read
	End      int64  // where the record ends
}

// Mark is the last record up to a place of the file, and where it ends.
type Mark struct {
	Position uint64
	Place    agreed.Place
	End      int64
}

// Copy is the log up to a position, in a folder that belongs to only one replica. One goroutine appends;
// others may read and sync meanwhile.
type Copy struct {
	folder, path string
	file         *os.File
	cutOff       int64
	buffer       []byte

	mu   sync.Mutex
	last Mark // of all records

	syncing sync.Mutex
	synced  Mark
	failed  error // why a sync failed
}

// Open makes a folder if it is not there, and takes it for this replica.
func Open(folder string) (*Copy, error) {
	c := &Copy{folder: folder, path: filepath.Join(folder, "log"), last: Mark{End: Start}}
	if err := makeFolder(folder); err != nil {
		return nil, failure(folder, err)
	}
	file, err := os.OpenFile(c.path, os.O_RDWR|os.O_CREATE, 0o600)
	if err != nil {
		return nil, failure(c.path, err)
	}
	if err := syscall.Flock(int(file.Fd()), syscall.LOCK_EX|syscall.LOCK_NB); err != nil {
		file.Close()
		if err == syscall.EWOULDBLOCK {
			return nil, report.End(1, "%s: is in use", c.path)
		}
		return nil, failure(c.path, err)
	}
	c.file = file
	return c, nil
}

func failure(path string, err error) error {
	var number syscall.Errno
	if errors.As(err, &number) {
		return report.End(1, "%s: %s", path, report.Why(err))
	}
	return err
}

// Scan passes on the records that are there, cuts off what a crash left torn, and syncs.
func (c *Copy) Scan(take func(Record, entries.Entry) error) error {
	length, err := c.begin()
	if err != nil {
		return failure(c.path, err)
	}
	err = recordsIn(c.file, Start, length, func(it Record) error {
		entry, err := c.checked(it)
		if err == nil && take != nil {
			err = take(it, entry)
		}
		if err == nil {
			c.last = Mark{it.Position, it.Place, it.End}
		}
		return err
	})
	if err == nil && c.last.End < length {
		err = c.cut(length)
	}
	if err != nil {
		return failure(c.path, err)
	}
	return c.Sync(c.last)
}

// begin is the length of the file, which begins as a copy does.
func (c *Copy) begin() (int64, error) {
	found, err := c.file.Stat()
	if err != nil {
		return 0, err
	}
	if found.Size() >= Start {
		return found.Size(), c.test(c.file)
	}
	if err := c.file.Truncate(0); err != nil {
		return 0, err
	}
	if _, err := c.file.WriteAt([]byte(magic), 0); err != nil {
		return 0, err
	}
	return Start, syncFolder(c.folder)
}

// test is a fault if a file does not begin as a copy does.
func (c *Copy) test(file *os.File) error {
	begin := make([]byte, Start)
	if _, err := file.ReadAt(begin, 0); err != nil && err != io.EOF {
		return err
	}
	if string(begin) != magic {
		return faults.New(faults.Damaged, "%s is no copy of a log", c.path)
	}
	return nil
}

// checked is the entry of the record that comes next.
func (c *Copy) checked(it Record) (entries.Entry, error) {
	if it.Position != c.last.Position+1 {
		return entries.Entry{}, faults.New(faults.Damaged, "position %d after %d", it.Position, c.last.Position)
	}
	entry, err := entries.ParseTrusted(it.Data)
	if err != nil {
		return entry, faults.New(faults.Damaged, "the entry at %d: %v", it.Position, err)
	}
	return entry, nil
}

// cut cuts off what is no record. It is a fault if that was synced.
func (c *Copy) cut(length int64) error {
	if c.last.End < SyncedOf(c.folder) {
		return faults.New(faults.Damaged, "the record after position %d, at byte %d of %s",
			c.last.Position, c.last.End, c.path)
	}
	c.cutOff = length - c.last.End
	return c.file.Truncate(c.last.End)
}

// CutOff is how many bytes a crash left torn.
func (c *Copy) CutOff() int64 { return c.cutOff }

// Folder is where the copy is.
func (c *Copy) Folder() string { return c.folder }

// Append appends the bytes of the next entry. They are synced later.
func (c *Copy) Append(place agreed.Place, data []byte) (Mark, error) {
	last := c.Mark()
	next := Mark{last.Position + 1, place, last.End + head + int64(len(data))}
	it := append(c.buffer[:0], make([]byte, head)...)
	little.PutUint64(it, next.Position)
	little.PutUint64(it[8:], uint64(place))
	little.PutUint32(it[16:], uint32(len(data)))
	it = append(it, data...)
	little.PutUint32(it[atSum:], sumOf(it))
	if c.buffer = it; cap(it) > held {
		c.buffer = nil
	}
	if _, err := c.file.WriteAt(it, last.End); err != nil {
		return last, failure(c.path, err)
	}
	c.mu.Lock()
	defer c.mu.Unlock()
	c.last = next
	return next, nil
}

// sumOf is the checksum of a record.
func sumOf(record []byte) uint32 {
	return crc32.Update(crc32.ChecksumIEEE(record[:atSum]), crc32.IEEETable, record[head:])
}

// Mark is the last record.
func (c *Copy) Mark() Mark {
	c.mu.Lock()
	defer c.mu.Unlock()
	return c.last
}

// Synced is the last record that is synced.
func (c *Copy) Synced() Mark {
	c.syncing.Lock()
	defer c.syncing.Unlock()
	return c.synced
}

// Sync syncs the records up to a mark. After one that failed each fails: the system may take for written
// what the disk does not hold.
func (c *Copy) Sync(to Mark) error {
	c.syncing.Lock()
	defer c.syncing.Unlock()
	if c.failed != nil {
		return c.failed
	}
	if err := c.file.Sync(); err != nil {
		c.failed = failure(c.path, err)
		return c.failed
	}
	path := filepath.Join(c.folder, "synced")
	if err := writeSynced(path, to.End); err != nil {
		c.failed = failure(path, err)
		return c.failed
	}
	c.synced = to
	return nil
}

func writeSynced(path string, end int64) error {
	file, err := os.OpenFile(path, os.O_WRONLY|os.O_CREATE, 0o666)
	if err != nil {
		return err
	}
	_, err = file.WriteAt(little.AppendUint64(nil, uint64(end)), 0)
	if other := file.Close(); err == nil {
		err = other
	}
	return err
}

// Records passes on the records from a place of the file on, up to the last one that was appended.
func (c *Copy) Records(from int64, take func(Record) error) error {
	end, at := c.Mark().End, from
	err := recordsIn(c.file, from, end, func(it Record) error {
		err := take(it)
		at = it.End
		return err
	})
	if err == nil && at < end {
		err = faults.New(faults.Damaged, "the record at byte %d of %s", at, c.path)
	}
	switch {
	case err == ErrEnough:
		return nil
	case err != nil:
		return failure(c.path, err)
	}
	return nil
}

// ErrEnough is returned by who takes no more records. No call returns it.
var ErrEnough = errors.New("it is enough")

// Close lets another replica have the folder. What a sync failed at is cut off: the log still has it.
func (c *Copy) Close() error {
	c.syncing.Lock()
	defer c.syncing.Unlock()
	if end := SyncedOf(c.folder); c.failed != nil && Start <= end && end < c.Mark().End {
		c.file.Truncate(end)
	}
	return c.file.Close()
}

// SyncedOf is the length up to which the records of a copy were synced. It is 0 if that is not known.
func SyncedOf(folder string) int64 {
	data, err := os.ReadFile(filepath.Join(folder, "synced"))
	if err != nil || len(data) != synced {
		return 0
	}
	return int64(little.Uint64(data))
}

// recordsIn passes on the records from a place of a file on, up to the first that is not right.
func recordsIn(file io.ReaderAt, from, end int64, take func(Record) error) error {
	data, position := make([]byte, chunk), uint64(0)
	for from < end {
		if end-from < int64(len(data)) {
			data = data[:end-from]
		}
		n, err := file.ReadAt(data, from)
		if err != nil && err != io.EOF {
			return err
		}
		at := 0
		for {
			it, ok := recordAt(data[at:n], from+int64(at))
			if !ok {
				break
			}
			if !isRight(data[at:]) || position != 0 && it.Position != position+1 {
				return nil
			}
			position = it.Position
			if err := take(it); err != nil {
				return err
			}
			at += head + len(it.Data)
		}
		if at == 0 {
			return nil // what is there is no record, or no whole one
		}
		from += int64(at)
	}
	return nil
}

// isRight reports whether the record that begins here has its checksum.
func isRight(data []byte) bool {
	return little.Uint32(data[atSum:]) == sumOf(data[:head+little.Uint32(data[16:])])
}

// recordAt is the record that begins here, and whether it is whole.
func recordAt(data []byte, from int64) (Record, bool) {
	if len(data) < head {
		return Record{}, false
	}
	end := head + int64(little.Uint32(data[16:]))
	if end > int64(len(data)) {
		return Record{}, false
	}
	return Record{
		Position: little.Uint64(data),
		Place:    agreed.Place(little.Uint64(data[8:])),
		Data:     data[head:end:end],
		End:      from + end,
	}, true
}
