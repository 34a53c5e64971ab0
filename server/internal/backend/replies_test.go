package backend

import (
	"bytes"
	"encoding/binary"
	"fmt"
	"io"
	"testing"

	"telovamish.org/server/internal/frames"
)

// keeping keeps the replies that it gets.
type keeping struct{ got [][]byte }

func (k *keeping) Answered(reply []byte, why string) {
	k.got = append(k.got, append([]byte(why), reply...))
}

// answers is a queue with two requests under way, and the replies to them: one without a body, and one
// with a body.
func answers(t *testing.T) (*queue, *keeping, [][]byte) {
	t.Helper()
	q, from := queueOf(false), &keeping{}
	for client := byte(1); client <= 2; client++ {
		r := requestOf(client, 0, from, &Peer{})
		r.asker = frames.Header(r.Frame).Asker()
		q.asked.push(r)
	}
	long := append(replyTo(2), "a body of 24 bytes, none 0"[:8*3]...)
	binary.LittleEndian.PutUint32(long[32:], 8*3)
	return q, from, [][]byte{replyTo(1), long}
}

// TestRepliesThatComeInPieces reach their clients whole, wherever they are cut.
func TestRepliesThatComeInPieces(t *testing.T) {
	_, _, want := answers(t)
	all := bytes.Join(want, nil)
	for cut := 0; cut <= len(all); cut++ {
		t.Run(fmt.Sprint(cut), func(t *testing.T) {
			q, from, _ := answers(t)
			pieces := io.MultiReader(bytes.NewReader(all[:cut]), bytes.NewReader(all[cut:]))
			if !q.readReplies(pieces) {
				t.Error("it is no reply")
			}
			if !bytes.Equal(bytes.Join(from.got, nil), all) || len(from.got) != 2 {
				t.Errorf("%d replies", len(from.got))
			}
		})
	}
}

// TestAReplyThatIsCutShort reaches no client.
func TestAReplyThatIsCutShort(t *testing.T) {
	_, _, want := answers(t)
	for cut := 0; cut < len(want[0]); cut++ {
		t.Run(fmt.Sprint(cut), func(t *testing.T) {
			q, from, _ := answers(t)
			if !q.readReplies(bytes.NewReader(want[0][:cut])) || len(from.got) > 0 {
				t.Errorf("%d replies", len(from.got))
			}
		})
	}
}
