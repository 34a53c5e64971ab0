package backend

import (
	"bytes"
	"fmt"
	"testing"
	"unsafe"

	"telovamish.org/server/internal/memory"
)

// bytesOf is what a group would still write.
func bytesOf(g *group) []byte {
	var data []byte
	for _, it := range g.rest {
		data = append(data, unsafe.Slice(it.Base, it.Len)...)
	}
	return data
}

// groupOf is a group of a short request, a long one and a short one, and its bytes.
func groupOf(t *testing.T) (*group, []byte) {
	t.Helper()
	g := &group{}
	for at, body := range []int{0, memory.ChunkSize + 100, 0} {
		r := requestOf(byte(at+1), body, nil, &Peer{})
		for i, chunk := range r.Rest {
			for j := range chunk {
				chunk[j] = byte(i + j)
			}
		}
		r.size = momentSize + r.Size()
		g.add(7, r)
	}
	g.begin()
	data := bytesOf(g)
	if len(data) != g.size {
		t.Fatalf("%d bytes of %d", len(data), g.size)
	}
	return g, data
}

// TestAGroupThatLeavesInPieces has its rest begin where the piece before ended, at each end of a part
// and next to it.
func TestAGroupThatLeavesInPieces(t *testing.T) {
	_, all := groupOf(t)
	head := momentSize + 48
	for _, cut := range []int{0, 1, head - 1, head, head + 1, 2*head + memory.ChunkSize, len(all) - head, len(all) - 1, len(all)} {
		t.Run(fmt.Sprint(cut), func(t *testing.T) {
			g, data := groupOf(t)
			g.wrote(cut)
			if got := bytesOf(g); !bytes.Equal(got, data[cut:]) {
				t.Errorf("%d bytes are left of %d", len(got), len(data)-cut)
			}
		})
	}
}

// TestAClearedGroup holds nothing of what was in it.
func TestAClearedGroup(t *testing.T) {
	g, _ := groupOf(t)
	g.clear()
	if g.size != 0 || len(g.small)+len(g.parts)+len(g.chunks)+len(g.iov)+len(g.rest) != 0 {
		t.Errorf("%+v", g)
	}
	for _, it := range g.iov[:cap(g.iov)] {
		if it.Base != nil {
			t.Error("it keeps a chunk")
		}
	}
}
