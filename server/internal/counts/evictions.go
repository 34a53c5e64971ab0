package counts

import (
	"sync"

	"strconv"
	"telovamish.org/server/internal/config"
	"telovamish.org/server/internal/frames"
)

// Evictions follow the table of sessions: each client with its last commit.
//
// If the ledger began before this host, clients that have sent nothing since then are not known. Their
// commits are the least, so they are the ones that go first, and an eviction is only reported if all
// places are taken by clients that are known.
type Evictions struct {
	clientsMax int // 0 if that is not known

	mu   sync.Mutex
	rows map[frames.Client]uint64
}

// NewEvictions follows a table of so many sessions.
func NewEvictions(clientsMax int) *Evictions {
	return &Evictions{clientsMax: clientsMax, rows: map[frames.Client]uint64{}}
}

// Max is how many sessions there are at most.
func (e *Evictions) Max() int { return e.clientsMax }

// Learn takes a reply in. It returns the client that was evicted by it, if one was.
func (e *Evictions) Learn(client frames.Client, isRegister bool, commit uint64) (frames.Client, bool) {
	if e.clientsMax == 0 {
		return frames.Client{}, false
	}
	e.mu.Lock()
	defer e.mu.Unlock()
	before, isKnown := e.rows[client]
	if commit <= before {
		return frames.Client{}, false
	}
	var evicted frames.Client
	isOne := isRegister && !isKnown && len(e.rows) >= e.clientsMax
	if isOne {
		evicted = e.least()
		delete(e.rows, evicted)
	}
	e.rows[client] = commit
	return evicted, isOne
}

// least is the client of the least commit.
func (e *Evictions) least() frames.Client {
	var found frames.Client
	least := uint64(0)
	for client, commit := range e.rows {
		if least == 0 || commit < least {
			found, least = client, commit
		}
	}
	return found
}

// ClientsMaxOf is CLIENTS_MAX of a command that ends in `run CLIENTS_MAX [PROFILE]` or `run FILE
// CLIENTS_MAX [PROFILE]`; 0 of any other.
func ClientsMaxOf(words []string) int {
	at := len(words) - 1
	for at >= 0 && words[at] != "run" {
		at--
	}
	last := words[at+1:]
	if at < 0 || len(last) == 0 {
		return 0
	}
	if !config.IsNumber(last[0]) {
		last = last[1:]
	}
	if len(last) == 0 || !config.IsNumber(last[0]) {
		return 0
	}
	number, err := strconv.Atoi(last[0])
	if err != nil {
		return 0
	}
	return number
}
