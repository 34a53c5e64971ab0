package entries

import (
	"bytes"
	"compress/flate"
	"crypto/sha256"
	"fmt"
	"hash"
	"io"
	"sync"
)

// What takes long to make is made once, and used again.
var (
	hashers   = sync.Pool{New: func() any { return &hasher{Hash: sha256.New()} }}
	deflaters = sync.Pool{New: func() any { return &deflater{} }}
	inflaters = sync.Pool{New: func() any { return &inflater{} }}
)

// hasher hashes bytes that are not in one piece.
type hasher struct {
	hash.Hash
	sum Hash
}

func (h *hasher) take() Hash {
	h.Sum(h.sum[:0])
	return h.sum
}

// deflater appends what is written to it.
type deflater struct {
	writer *flate.Writer
	to     []byte
}

func (d *deflater) Write(data []byte) (int, error) {
	d.to = append(d.to, data...)
	return len(data), nil
}

// deflate appends bytes as RFC 1951 has them.
func deflate(to, data []byte) []byte {
	it := deflaters.Get().(*deflater)
	defer deflaters.Put(it)
	it.to = to
	if it.writer == nil {
		it.writer, _ = flate.NewWriter(it, flate.BestSpeed) // no level is wrong but an unknown one
	} else {
		it.writer.Reset(it)
	}
	it.writer.Write(data)
	it.writer.Close()
	to, it.to = it.to, nil
	return to
}

// inflater reads deflated bytes.
type inflater struct {
	reader io.ReadCloser
	from   bytes.Reader
}

// inflate is what was deflated: no more than an entry may have.
func inflate(data []byte) ([]byte, error) {
	it := inflaters.Get().(*inflater)
	defer inflaters.Put(it)
	it.from.Reset(data)
	if it.reader == nil {
		it.reader = flate.NewReader(&it.from)
	} else if err := it.reader.(flate.Resetter).Reset(&it.from, nil); err != nil {
		return nil, fmt.Errorf("%w: %v", ErrNotDeflated, err)
	}
	var pairs bytes.Buffer
	_, err := pairs.ReadFrom(io.LimitReader(it.reader, PairsMax+1))
	switch {
	case err == io.ErrUnexpectedEOF, err == nil && (pairs.Len() > PairsMax || it.from.Len() > 0):
		return nil, ErrTooLong
	case err != nil:
		return nil, fmt.Errorf("%w: %v", ErrNotDeflated, err)
	}
	return pairs.Bytes(), nil
}
