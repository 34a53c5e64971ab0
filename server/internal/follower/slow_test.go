//go:build slow

package follower

import (
	"os"
	"testing"

	"telovamish.org/server/internal/entries"
)

// TestServer has the server itself reply the same after a kill.
func TestServer(t *testing.T) {
	program := os.Getenv("TBD")
	if program == "" {
		t.Fatal("TBD is not set")
	}
	r := began(t, program, "follow", "64").running()
	const count = 100
	var before entries.Hash
	for life := 1; life <= 2; life++ {
		r.until("a process", func() bool { return r.begun == life })
		r.number = 0
		for number := 1; number <= count; number++ {
			r.give(register(byte(number)))
		}
		r.until("the hashes", func() bool { return r.stands == count })
		if life == 1 {
			before = r.replies
			r.Kill()
		}
	}
	same(t, "the hash", r.replies, before)
	same(t, "replies", len(r.replied), 2*count)
	r.Close()
	same(t, "the end", r.end(), nil)
}
