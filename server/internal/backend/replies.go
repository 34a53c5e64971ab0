package backend

import (
	"io"

	"telovamish.org/server/internal/frames"
)

// readMax is how many bytes of replies are read at a time, next to those of a long one.
const readMax = 1 << 18

// came is a reply, and who waits for it.
type came struct {
	from  Asker
	reply []byte
}

// readReplies brings each reply to who asked for it, until there are no more. It reports false if
// something came that is no reply to the oldest request.
func (q *queue) readReplies(from io.Reader) bool {
	data := make([]byte, frames.RequestMax+readMax)
	begin, end := 0, 0
	var ready []came
	for {
		n, err := from.Read(data[end:])
		if n == 0 && err != nil {
			return true
		}
		end += n
		var taken int
		var isReply bool
		ready, taken, isReply = q.takeReplies(data[begin:end], ready[:0])
		for at, it := range ready {
			it.from.Answered(it.reply, "")
			ready[at] = came{}
		}
		if !isReply {
			return false
		}
		if begin += taken; len(data)-begin < frames.RequestMax || begin == end {
			begin, end = 0, copy(data, data[begin:end])
		}
	}
}

// takeReplies is the replies that are whole, and where they end. It reports false if one is not the
// reply to the oldest request.
func (q *queue) takeReplies(data []byte, ready []came) ([]came, int, bool) {
	q.mu.Lock()
	defer q.mu.Unlock()
	at := 0
	for len(data)-at >= frames.HeaderSize {
		header := frames.Header(data[at : at+frames.HeaderSize])
		first := q.asked.first()
		if first == nil || first.asker != header.Asker() || header.ReplyFault() != "" {
			return ready, at, false
		}
		end := at + header.Length()
		if end > len(data) {
			break
		}
		q.asked.pop()
		q.inFlight -= first.cost
		ready = append(ready, came{first.From, data[at:end]})
		at = end
	}
	q.passOnWaiting()
	return ready, at, true
}
