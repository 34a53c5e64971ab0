package main

import (
	"crypto/rand"
	"encoding/binary"
	"fmt"
	"io"
	"time"
)

const (
	header         = 48
	event          = 128
	register       = 2
	createAccounts = 129
	createTransfer = 130
)

var little = binary.LittleEndian

// A protocol makes a worker's requests, and reads their replies.
type protocol interface {
	// request returns the bytes of the next request.
	request() []byte
	// reply returns the length of the reply with which these bytes begin, or 0 if it is not whole.
	reply(data []byte) (int, error)
}

// A session of the ledger makes transfers between two accounts.
type session struct {
	client [16]byte
	number uint32
	id     uint64
	frame  []byte
}

// head returns a request with an empty body of this length.
func (s *session) head(session uint64, operation byte, length int) []byte {
	it := make([]byte, header+length)
	copy(it, s.client[:])
	little.PutUint64(it[16:], session)
	little.PutUint32(it[24:], s.number)
	it[28] = operation
	little.PutUint32(it[32:], uint32(length))
	return it
}

// open registers a session over a connection, and makes its accounts.
func (s *session) open(over io.ReadWriter, items int) error {
	rand.Read(s.client[:])
	reply, err := exchange(over, s.head(0, register, 0))
	if err != nil {
		return err
	}
	own := little.Uint64(reply[16:])
	s.number = 1
	accounts := s.head(own, createAccounts, 2*event)
	for at := 0; at < 2; at++ {
		account := accounts[header+at*event:]
		account[0] = byte(at + 1)
		little.PutUint32(account[112:], 700)
		little.PutUint16(account[116:], 10)
	}
	if _, err := exchange(over, accounts); err != nil {
		return err
	}
	s.frame = s.head(own, createTransfer, items*event)
	s.id = uint64(time.Now().UnixMilli()) << 16 // ids rise, and each session has its own
	for at := header; at < len(s.frame); at += event {
		transfer := s.frame[at:]
		copy(transfer[:8], s.client[:8])
		transfer[16], transfer[32], transfer[48] = 1, 2, 1
		rand.Read(transfer[80:96]) // otherwise a log that is deflated has next to nothing of them
		little.PutUint32(transfer[112:], 700)
		little.PutUint16(transfer[116:], 10)
	}
	return nil
}

func (s *session) request() []byte {
	s.number++
	little.PutUint32(s.frame[24:], s.number)
	for at := header; at < len(s.frame); at += event {
		s.id++
		little.PutUint64(s.frame[at+8:], s.id)
	}
	return s.frame
}

func (s *session) reply(data []byte) (int, error) {
	if len(data) < header {
		return 0, nil
	}
	length := header + int(little.Uint32(data[32:]))
	if number := little.Uint32(data[24:]); data[29] != 0 || number != s.number || length != header {
		return 0, fmt.Errorf("a reply of %d bytes to request %d: % x", length, s.number, data[:header])
	}
	return header, nil
}

// exchange sends a request, and returns its reply.
func exchange(over io.ReadWriter, frame []byte) ([]byte, error) {
	if _, err := over.Write(frame); err != nil {
		return nil, err
	}
	reply := make([]byte, header)
	if n, err := io.ReadFull(over, reply); err != nil {
		return nil, fmt.Errorf("%w after %q", err, reply[:n])
	}
	body := make([]byte, little.Uint32(reply[32:]))
	if _, err := io.ReadFull(over, body); err != nil {
		return nil, err
	}
	if reply[29] != 0 {
		return nil, fmt.Errorf("operation %d is refused with status %d", frame[28], reply[29])
	}
	return append(reply, body...), nil
}
