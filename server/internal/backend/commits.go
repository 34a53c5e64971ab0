package backend

import (
	"bytes"
	"fmt"
	"os"
	"strconv"
	"sync"

	"telovamish.org/server/internal/process"
)

// latch is the bytes of a latch.
const latch = 4

// commits counts how often a server has committed to its ledger's file, by what the system counts.
//
// A commit writes a batch after the latch that ends the file, and then that latch: four bytes more than
// the file grows by. So what a process has written, without what it wrote into its pipes and what its
// file grew by, is four times the number of its commits. Each of the three is one look, however long
// the file is. While a write is under way its bytes may be in a pipe or in the file and not counted
// yet. Then the difference is too small, never too large, and the greatest one that was seen stays.
type commits struct {
	file string // "" if the ledger is in memory

	mu      sync.Mutex
	process *process.Process
	gone    *process.Process // the one that ended last
	first   int64            // what this process had beyond its pipes and its file when it was ready
	ended   int64            // commits of processes before
	now     int64            // commits of this process
	isKnown bool
}

func newCommits(file string) *commits { return &commits{file: file, isKnown: file != ""} }

// beyond is what the process has written beyond its pipes and the length of its file.
func (c *commits) beyond() (int64, bool) {
	if c.file == "" || c.process == nil {
		return 0, false
	}
	written, ok := bytesWritten(c.process.Pid()) // first: so no later byte is counted only here
	said := c.process.Stderr.Written()
	if !ok || written < said { // another process writes, as under a shell
		return 0, false
	}
	found, err := os.Stat(c.file)
	if err != nil {
		return 0, false
	}
	return written - said - c.process.Stdout.Written() - found.Size(), true
}

// begin takes a process that is ready, and was asked nothing yet.
func (c *commits) begin(p *process.Process) {
	c.mu.Lock()
	defer c.mu.Unlock()
	if c.gone == p {
		return
	}
	c.process = p
	c.first, c.isKnown = c.beyond()
}

// end takes a process that has ended, and of which the system still reports what it wrote.
func (c *commits) end(p *process.Process) {
	c.mu.Lock()
	defer c.mu.Unlock()
	c.gone = p
	if c.process != p {
		return
	}
	c.look()
	c.ended, c.now, c.process = c.ended+c.now, 0, nil
}

func (c *commits) look() {
	if c.process == nil || !c.isKnown {
		return
	}
	if beyond, ok := c.beyond(); ok && (beyond-c.first)/latch > c.now {
		c.now = (beyond - c.first) / latch
	}
}

// count is the number of commits, if it is known.
func (c *commits) count() (int64, bool) {
	c.mu.Lock()
	defer c.mu.Unlock()
	c.look()
	return c.ended + c.now, c.isKnown
}

// bytesWritten is how many bytes a process has written, if the system reports it.
func bytesWritten(pid int) (int64, bool) {
	text, err := os.ReadFile(fmt.Sprintf("/proc/%d/io", pid))
	if err != nil {
		return 0, false
	}
	for _, line := range bytes.Split(text, []byte("\n")) {
		if number := bytes.TrimPrefix(line, []byte("wchar: ")); len(number) < len(line) {
			count, err := strconv.ParseInt(string(number), 10, 64)
			return count, err == nil
		}
	}
	return 0, false
}

// isAsleep reports whether a process waits: what it has written is counted by then.
func isAsleep(pid int) bool {
	text, err := os.ReadFile(fmt.Sprintf("/proc/%d/stat", pid))
	if err != nil {
		return true
	}
	fields := bytes.Fields(text[bytes.LastIndexByte(text, ')')+1:])
	return len(fields) > 0 && string(fields[0]) == "S"
}
