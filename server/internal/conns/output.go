package conns

import (
	"net"
	"sync"
	"sync/atomic"
	"syscall"

	"telovamish.org/server/internal/memory"
)

// output is the sending side of a connection. What the socket does not take at once is kept in chunks.
type output struct {
	raw    net.Conn
	system syscall.RawConn
	once   func(file uintptr) bool
	waits  atomic.Bool // a write waits for the socket: while TLS is agreed on, and for a line

	mu   sync.Mutex
	data []byte // which is written
	err  error
	left []piece
}

// piece is what is left of a chunk.
type piece struct {
	chunk    *memory.Chunk
	from, to int
}

func (o *output) begin(raw net.Conn, system syscall.RawConn) {
	o.raw, o.system = raw, system
	o.once = o.writeOnce
}

// Write sends as much as the socket takes at once, and keeps the rest. TLS writes here.
func (o *output) Write(data []byte) (int, error) {
	if o.waits.Load() {
		return o.raw.Write(data)
	}
	o.mu.Lock()
	defer o.mu.Unlock()
	if len(o.left) == 0 {
		o.data, o.err = data, nil
		if err := o.system.Write(o.once); err != nil {
			o.err = err
		}
		rest := o.data
		if o.data = nil; o.err != nil {
			return len(data) - len(rest), o.err
		}
		o.keep(rest)
		return len(data), nil
	}
	o.keep(data)
	return len(data), nil
}

// writeOnce writes until the socket takes no more.
func (o *output) writeOnce(file uintptr) bool {
	for len(o.data) > 0 {
		n, err := syscall.Write(int(file), o.data)
		switch {
		case n > 0:
			o.data = o.data[n:]
		case err == syscall.EINTR:
		case err == syscall.EAGAIN:
			return true
		default:
			o.err = err
			return true
		}
	}
	return true
}

// keep keeps a copy of what is left.
func (o *output) keep(data []byte) {
	for len(data) > 0 {
		last := len(o.left) - 1
		if last < 0 || o.left[last].to == memory.ChunkSize {
			o.left = append(o.left, piece{chunk: memory.Take()})
			last++
		}
		n := copy(o.left[last].chunk[o.left[last].to:], data)
		o.left[last].to += n
		data = data[n:]
	}
}

// isLeft reports whether something waits for the socket.
func (o *output) isLeft() bool {
	o.mu.Lock()
	defer o.mu.Unlock()
	return len(o.left) > 0
}

// drain sends what is left. It waits for the socket, and reports each step.
func (o *output) drain(moves func()) error {
	var fault error
	for {
		o.mu.Lock()
		if fault != nil {
			o.drop()
		}
		if len(o.left) == 0 {
			o.left = nil
			o.mu.Unlock()
			return fault
		}
		first := o.left[0]
		o.left[0].from = first.to
		o.mu.Unlock()
		if first.from < first.to {
			_, fault = o.raw.Write(first.chunk[first.from:first.to])
			moves()
			continue
		}
		o.next()
	}
}

// next frees the first piece, if nothing came to it meanwhile.
func (o *output) next() {
	o.mu.Lock()
	defer o.mu.Unlock()
	if first := o.left[0]; first.from == first.to {
		memory.Free(first.chunk)
		o.left = o.left[1:]
	}
}

func (o *output) drop() {
	for _, it := range o.left {
		memory.Free(it.chunk)
	}
	o.left = nil
}
