package tbclient

import (
	"crypto/rand"
	"encoding/binary"
	"io"
	"sync"
	"time"
)

// IDs makes ids from a clock and random bytes. Goroutines may share it. Most programs call [ID],
// which uses those of the system; a test may want others.
type IDs struct {
	now    func() time.Time
	random io.Reader

	mu   sync.Mutex
	last Uint128
}

// NewIDs is a maker of ids with a clock and a source of random bytes of its own.
func NewIDs(now func() time.Time, random io.Reader) *IDs {
	return &IDs{now: now, random: random}
}

var systemIDs = NewIDs(time.Now, rand.Reader)

// ID is a new id of 128 bits, as TigerBeetle's clients make them: 48 bits of milliseconds since
// 1970, then 80 random ones. It is above each earlier one of this process, also if the clock was
// set back, and it is neither 0 nor 2^128 - 1. Choose an id before the first sending and keep it: a
// retry uses the same one.
//
// ID panics if the system has no random bytes.
func ID() Uint128 {
	return systemIDs.Next()
}

const (
	randomBits = 80
	highBits   = randomBits - 64 // random bits in the high half
)

// Next is a new id, above all earlier ones of this maker. A later millisecond draws random bits; any
// other time adds 1 to the last id. Next panics if no random bytes can be read.
func (i *IDs) Next() Uint128 {
	i.mu.Lock()
	defer i.mu.Unlock()
	now := i.now().UnixMilli()
	if now <= int64(i.last.Hi>>highBits) {
		i.last, _ = i.last.Add(ToUint128(1))
		return i.last
	}
	var drawn [randomBits / 8]byte
	if _, err := io.ReadFull(i.random, drawn[:]); err != nil {
		panic("tbclient: no random bytes for an id: " + err.Error())
	}
	i.last.Lo = binary.LittleEndian.Uint64(drawn[:8])
	i.last.Hi = uint64(now)<<highBits | uint64(binary.LittleEndian.Uint16(drawn[8:]))
	return i.last
}
