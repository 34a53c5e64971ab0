//go:build slow

package simulator

import (
	"bytes"
	"flag"
	"os"
	"strconv"
	"testing"
	"time"

	"telovamish.org/server/internal/entries"
	"telovamish.org/server/internal/follower"
	"telovamish.org/server/internal/frames"
	"telovamish.org/server/internal/report"
)

var (
	proven    = flag.Int64("proven", 300, "how many seeds are run with the proved server")
	provenAt  = flag.Int64("proven-first", 2_000_000, "the first of them")
	replyTime = 5 * time.Minute
)

// proved is the proved server: `tbd follow` in a process. What it replies is compared with the model.
type proved struct {
	*testing.T
	*follower.Follower
	model    *Ledger
	position uint64
	replies  [][]byte
	digest   entries.Hash
	begun    chan struct{}
	hashes   chan entries.Hash // of the replies, after an entry
	over     chan error
}

func newProved(t *testing.T, program string, clientsMax int) *proved {
	words := []string{program, "follow", strconv.Itoa(clientsMax)}
	p := &proved{T: t, model: NewLedger(clientsMax), begun: make(chan struct{}), hashes: make(chan entries.Hash, 1),
		over: make(chan error, 1)}
	p.Follower = follower.New(words, replyTime, p, report.New("test", false))
	go func() { p.over <- p.Follower.Run() }()
	<-p.begun
	return p
}

func (p *proved) Began()                                   { close(p.begun) }
func (p *proved) Lost()                                    {}
func (p *proved) Read()                                    {}
func (p *proved) Stands(_ uint64, _, replies entries.Hash) { p.hashes <- replies }
func (p *proved) Replied(_ uint64, _ uint32, reply []byte) {
	p.replies = append(p.replies, append([]byte{}, reply...))
}

// Entry has the process execute an entry.
func (p *proved) Entry(pairs []byte) [][]byte {
	p.Helper()
	p.replies = nil
	p.position++
	p.Give(p.position, pairs)
	select {
	case hash := <-p.hashes:
		p.compare(hash, p.model.Entry(pairs))
	case err := <-p.over:
		p.Fatalf("it ended: %v", err)
	case <-time.After(replyTime):
		p.Fatal("no reply comes")
	}
	return p.replies
}

// compare compares the replies' hash, and their headers with those of the model: what a lookup shows has
// moments, which the model has not.
func (p *proved) compare(hash entries.Hash, model [][]byte) {
	for at, reply := range p.replies {
		p.digest = p.digest.Next(reply)
		if at < len(model) && !bytes.Equal(reply[:frames.HeaderSize], model[at][:frames.HeaderSize]) {
			p.Errorf("reply %d to entry %d has the header %x, and the model %x", at, p.position, reply[:frames.HeaderSize],
				model[at][:frames.HeaderSize])
		}
	}
	if len(p.replies) != len(model) || hash != p.digest {
		p.Errorf("entry %d: %d replies, and %d of the model; the hash %s, not %s", p.position, len(p.replies), len(model),
			hash, p.digest)
	}
}

// TestProvedSeeds runs a sample of seeds with the proved server in place of the model.
func TestProvedSeeds(t *testing.T) {
	program := os.Getenv("TBD")
	if program == "" {
		t.Fatal("TBD is not set")
	}
	for seed := *provenAt; seed < *provenAt+*proven && !t.Failed(); seed++ {
		var all []*proved
		wrong := Run(seed, Options{NewServer: func(clientsMax int) Server {
			all = append(all, newProved(t, program, clientsMax))
			return all[len(all)-1]
		}})
		if len(wrong) > 0 {
			t.Errorf("seed %d: %v", seed, wrong)
		}
		for _, it := range all {
			it.Close()
			if err := <-it.over; err != nil {
				t.Errorf("seed %d: %v", seed, err)
			}
		}
	}
}
