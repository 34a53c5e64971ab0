// Package entries has the entries of the agreed log and their bytes: pairs of a moment and a request,
// and what their writer had read; and the log's head.
//
// An entry is a head and pairs, as a script has them. The head has the writer's id of this start and
// the number of its entry; the position up to which the writer had read the log, with the hash of the
// log there; and the position up to which its server had answered, with the hash of the replies there.
// So each reader finds within one entry that it and the writer do not have the same.
//
// An entry has the SHA-256 of all that is after it: so a reader finds that a disk, or whatever it was
// read from, has changed it. If its pairs are long they are deflated, without a head (RFC 1951), and
// its magic says so: what an engine writes and sends takes most of a long request's time.
package entries

import (
	"bytes"
	"crypto/sha256"
	"encoding/binary"
	"encoding/hex"
	"errors"
	"fmt"
)

// Sizes and limits.
const (
	MomentSize = 8       // bytes of a moment
	PairsMax   = 1 << 20 // bytes of pairs in an entry: the longest request fits
	MomentMax  = 1 << 62 // nanoseconds since 1970: the year 2116; so that time remains for all
	HeadSize   = atPairs // bytes of an entry before its pairs
)

// Where the fields of an entry are.
const (
	atSum     = 8 // after the magic
	atWriter  = atSum + HashSize
	atNumber  = atWriter + 16
	atLog     = atNumber + 8
	atReplies = atLog + 8 + HashSize
	atPairs   = atReplies + 8 + HashSize
)

const (
	plain    = "TBENTRY2"
	deflated = "TBENTRYZ"
)

// small is how many bytes of pairs are not deflated. Simulations have less, so that some are.
var small = 4096

var little = binary.LittleEndian

// Writer is the id of a replica's start: another one each time.
type Writer [16]byte

// String is the id as `status` has it.
func (w Writer) String() string { return hex.EncodeToString(w[:]) }

// Claim is what a writer had: the hash of a list up to a position.
type Claim struct {
	Position uint64
	Hash     Hash
}

// Entry is an entry of the log.
type Entry struct {
	Writer  Writer
	Number  uint64 // of this writer's entries, from 1
	Log     Claim
	Replies Claim
	Pairs   []byte
}

// Why bytes are not an entry.
var (
	ErrNoHead      = errors.New("it has no head of an entry")
	ErrSum         = errors.New("it does not have its SHA-256")
	ErrNotDeflated = errors.New("its pairs are not what was deflated")
	ErrTooLong     = errors.New("its pairs are too long, or not whole")
)

// Append appends the entry's bytes.
func (e *Entry) Append(to []byte) []byte {
	start := len(to)
	to = append(to, plain...)
	to = append(to, make([]byte, HashSize)...)
	to = append(to, e.Writer[:]...)
	to = appendNumber(to, e.Number)
	for _, claim := range []*Claim{&e.Log, &e.Replies} {
		to = append(appendNumber(to, claim.Position), claim.Hash[:]...)
	}
	if len(e.Pairs) < small {
		to = append(to, e.Pairs...)
	} else {
		copy(to[start:], deflated)
		to = deflate(to, e.Pairs)
	}
	sum := sumOf(to[start:])
	copy(to[start+atSum:], sum[:])
	return to
}

func appendNumber(to []byte, number uint64) []byte {
	return append(to, byte(number), byte(number>>8), byte(number>>16), byte(number>>24),
		byte(number>>32), byte(number>>40), byte(number>>48), byte(number>>56))
}

// Parse is the entry of these bytes, or why they are not an entry, or not what its writer made. Plain
// pairs lie where they lay.
func Parse(data []byte) (Entry, error) {
	if !hasHead(data) {
		return Entry{}, ErrNoHead
	}
	if sum := sumOf(data); !bytes.Equal(sum[:], data[atSum:atWriter]) {
		return Entry{}, ErrSum
	}
	return ParseTrusted(data)
}

// ParseTrusted is Parse of bytes whose checksum was compared elsewhere, as a record's of a copy.
func ParseTrusted(data []byte) (Entry, error) {
	if !hasHead(data) {
		return Entry{}, ErrNoHead
	}
	entry := Entry{Number: little.Uint64(data[atNumber:]), Pairs: data[atPairs:]}
	copy(entry.Writer[:], data[atWriter:])
	entry.Log, entry.Replies = claimAt(data[atLog:]), claimAt(data[atReplies:])
	if string(data[:atSum]) == plain {
		return entry, nil
	}
	pairs, err := inflate(data[atPairs:])
	entry.Pairs = pairs
	return entry, err
}

// IsChanged reports whether no writer made these bytes: they have a SHA-256 of others, or a place
// where an entry is has none. Bytes that never were an entry are not changed.
func IsChanged(data []byte) bool {
	_, err := Parse(data)
	if err == nil || errors.Is(err, ErrNotDeflated) || errors.Is(err, ErrTooLong) {
		return false
	}
	return len(data) == 0 || hasMagic(data)
}

func hasHead(data []byte) bool { return len(data) >= HeadSize && hasMagic(data) }

func hasMagic(data []byte) bool {
	return len(data) >= atSum && (string(data[:atSum]) == plain || string(data[:atSum]) == deflated)
}

func claimAt(data []byte) Claim {
	claim := Claim{Position: little.Uint64(data)}
	copy(claim.Hash[:], data[8:])
	return claim
}

// sumOf is the SHA-256 that an entry has of itself: of its magic, and of all after the sum.
func sumOf(data []byte) Hash {
	sum := hashers.Get().(*hasher)
	defer hashers.Put(sum)
	sum.Reset()
	sum.Write(data[:atSum])
	sum.Write(data[atWriter:])
	return sum.take()
}

// HashSize is how many bytes a hash has.
const HashSize = sha256.Size

// Hash is the hash of a list: of the log's pairs, or of replies. That of an empty list is zero.
type Hash [HashSize]byte

// String is the hash as lines have it.
func (h Hash) String() string { return hex.EncodeToString(h[:]) }

// Next is the hash of the list that has one more item.
func (h Hash) Next(item []byte) Hash {
	sum := hashers.Get().(*hasher)
	defer hashers.Put(sum)
	sum.Reset()
	sum.sum = h
	sum.Write(sum.sum[:])
	sum.Write(item)
	return sum.take()
}

// ParseHash is the hash of these digits.
func ParseHash(text string) (Hash, error) {
	var hash Hash
	data, err := hex.DecodeString(text)
	if err != nil || len(data) != HashSize {
		return hash, fmt.Errorf("%.70q is no hash", text)
	}
	copy(hash[:], data)
	return hash, nil
}
