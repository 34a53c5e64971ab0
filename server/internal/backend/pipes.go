package backend

import (
	"os"
	"syscall"
	"unsafe"

	"telovamish.org/server/internal/memory"
)

const partsMax = 1024 // of a writev

// group is pairs that are written together.
type group struct {
	small  []byte // moments, headers, and bodies that came with them
	parts  []part
	chunks []*memory.Chunk // which are freed when the group has left
	iov    []syscall.Iovec // all parts
	rest   []syscall.Iovec // those that have not left
	size   int             // bytes of all parts
}

// part is some bytes of small, or of a chunk.
type part struct {
	from, to int
	chunk    *memory.Chunk
}

// add adds a pair. The chunks of its body are the group's from then on.
func (g *group) add(moment uint64, r *Request) {
	from := len(g.small)
	g.small = append(g.small, byte(moment), byte(moment>>8), byte(moment>>16), byte(moment>>24),
		byte(moment>>32), byte(moment>>40), byte(moment>>48), byte(moment>>56))
	g.small = append(g.small, r.Frame...)
	if last := len(g.parts) - 1; last >= 0 && g.parts[last].chunk == nil {
		g.parts[last].to = len(g.small)
	} else {
		g.parts = append(g.parts, part{from: from, to: len(g.small)})
	}
	for at, chunk := range r.Rest {
		to := memory.ChunkSize
		if at == len(r.Rest)-1 {
			to = r.Last
		}
		g.parts = append(g.parts, part{to: to, chunk: chunk})
		g.chunks = append(g.chunks, chunk)
		r.Rest[at] = nil
	}
	r.Rest = r.Rest[:0]
	g.size += r.size
}

// begin lists what is to be written.
func (g *group) begin() {
	for _, it := range g.parts {
		var data []byte
		if it.chunk == nil {
			data = g.small[it.from:it.to]
		} else {
			data = it.chunk[:it.to]
		}
		iov := syscall.Iovec{Base: &data[0]}
		iov.SetLen(len(data))
		g.iov = append(g.iov, iov)
	}
	g.rest = g.iov
}

// wrote takes bytes that have left off the list.
func (g *group) wrote(count int) {
	for count > 0 {
		first := &g.rest[0]
		if uint64(count) < first.Len {
			first.Base = (*byte)(unsafe.Add(unsafe.Pointer(first.Base), count))
			first.Len -= uint64(count)
			return
		}
		count -= int(first.Len)
		g.rest = g.rest[1:]
	}
}

// clear empties the group, and frees its chunks.
func (g *group) clear() {
	for at, chunk := range g.chunks {
		memory.Free(chunk)
		g.chunks[at] = nil
	}
	if cap(g.small) > 1<<20 {
		g.small = nil
	}
	for at := range g.iov {
		g.iov[at].Base = nil
	}
	g.small, g.parts, g.chunks, g.size = g.small[:0], g.parts[:0], g.chunks[:0], 0
	g.iov, g.rest = g.iov[:0], nil
}

// outgoing is the writing end of a pipe.
type outgoing struct {
	file  *os.File
	raw   syscall.RawConn
	broke chan struct{} // closed when it takes no more
	group *group        // which is written
	err   error
	once  func(file uintptr) bool
	all   func(file uintptr) bool
}

func newOutgoing(file *os.File) (*outgoing, error) {
	raw, err := file.SyscallConn()
	if err != nil {
		return nil, err
	}
	o := &outgoing{file: file, raw: raw, broke: make(chan struct{})}
	o.once = func(file uintptr) bool { o.writev(file); return true }
	o.all = o.writev
	return o, nil
}

// try writes as much of a group as the pipe takes now, and reports whether that is all.
func (o *outgoing) try(g *group) bool { return o.write(g, o.once) }

// whole writes a group whole. It waits for the pipe.
func (o *outgoing) whole(g *group) { o.write(g, o.all) }

// write reports whether the group has left, or is lost.
func (o *outgoing) write(g *group, how func(uintptr) bool) bool {
	o.group, o.err = g, nil
	if err := o.raw.Write(how); err != nil {
		o.err = err
	}
	o.group = nil
	if o.err != nil {
		select {
		case <-o.broke:
		default:
			close(o.broke)
		}
		return true
	}
	return len(g.rest) == 0
}

// writev writes until all has left or failed, and reports false if the pipe takes no more now.
func (o *outgoing) writev(file uintptr) bool {
	for len(o.group.rest) > 0 {
		iov := o.group.rest
		if len(iov) > partsMax {
			iov = iov[:partsMax]
		}
		n, _, err := syscall.Syscall(syscall.SYS_WRITEV, file, uintptr(unsafe.Pointer(&iov[0])), uintptr(len(iov)))
		switch err {
		case 0:
			o.group.wrote(int(n))
		case syscall.EINTR:
		case syscall.EAGAIN:
			return false
		default:
			o.err = err
			return true
		}
	}
	return true
}
