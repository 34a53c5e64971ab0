package follower

import (
	"encoding/binary"
	"hash/crc32"

	"telovamish.org/server/internal/process"
)

// What is written to `tbd follow`, and what it writes.
const (
	entryKind    = 1
	questionKind = 2
	entryHead    = 17 // bytes of an entry before its pairs
)

var (
	little     = binary.LittleEndian
	castagnoli = crc32.MakeTable(crc32.Castagnoli)
)

// appendEntry appends what the process is written of an entry, with a question for the hashes after it.
func appendEntry(to []byte, position uint64, pairs []byte) []byte {
	at := len(to)
	to = append(to, entryKind)
	to = little.AppendUint64(to, position)
	to = little.AppendUint32(to, uint32(len(pairs)))
	sum := crc32.Update(crc32.Checksum(to[at+1:], castagnoli), castagnoli, pairs)
	to = append(little.AppendUint32(to, sum), pairs...)
	return append(to, questionKind)
}

// Give gives the process an entry, with a question for the hashes after it. It is dropped if no process
// runs: the next one begins with the first entry. It does not wait for the pipe.
func (f *Follower) Give(position uint64, pairs []byte) {
	f.mu.Lock()
	defer f.mu.Unlock()
	if f.process != nil && !f.isClosed {
		f.held = appendEntry(f.held, position, pairs)
		f.awake()
	}
}

// awake has the writer look.
func (f *Follower) awake() {
	select {
	case f.wake <- struct{}{}:
	default:
	}
}

// write writes what a process is given, until it is given no more or takes no more.
func (f *Follower) write(p *process.Process) {
	var spare []byte
	for {
		data, isOver := f.next(p, spare)
		spare = nil
		switch {
		case len(data) > 0:
			if _, err := p.Stdin.Write(data); err != nil {
				return
			}
			if cap(data) <= spareMax {
				spare = data[:0]
			}
		case isOver:
			p.Stdin.Close()
			<-p.Exited
			return
		default:
			select {
			case <-f.wake:
			case <-p.Exited:
				return
			}
		}
	}
}

// next is what is to be written next, and whether no more is.
func (f *Follower) next(p *process.Process, spare []byte) (data []byte, isOver bool) {
	f.mu.Lock()
	defer f.mu.Unlock()
	if f.process == p {
		data, f.held = f.held, spare
	}
	return data, f.isClosed || f.process != p
}
