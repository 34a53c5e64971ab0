// Package frames reads the headers of requests and replies as they go through a host: what their
// numbers are, whether one has a fault, and which reply is to which request. Bodies are not looked
// at. A header is read where it lies, and nothing is allocated.
package frames

import (
	"encoding/binary"
	"math/big"

	"telovamish.org/tbclient"
)

// RequestMax is the length of the longest request, and of the longest reply.
const RequestMax = HeaderSize + tbclient.ItemsMax*recordSize

var little = binary.LittleEndian

// Client is the id of a client.
type Client struct{ Low, High uint64 }

// String is the id as a number.
func (c Client) String() string {
	n := new(big.Int).SetUint64(c.High)
	n.Lsh(n, 64)
	return n.Or(n, new(big.Int).SetUint64(c.Low)).String()
}

// Header is the header of a request or a reply: HeaderSize bytes.
type Header []byte

// Client is the client's id.
func (h Header) Client() Client {
	return Client{little.Uint64(h[atClient:]), little.Uint64(h[atClient+8:])}
}

// Session is the session's number.
func (h Header) Session() uint64 { return little.Uint64(h[atSession:]) }

// Number is the request's number in its session.
func (h Header) Number() uint32 { return little.Uint32(h[atRequest:]) }

// Operation is what is asked for.
func (h Header) Operation() tbclient.Operation { return tbclient.Operation(h[atOperation]) }

// Status is what became of a request.
func (h Header) Status() tbclient.Status { return tbclient.Status(h[atStatus]) }

// Commit is the number of the entry that a reply is of.
func (h Header) Commit() uint64 { return little.Uint64(h[atCommit:]) }

// Length is the length of the frame: of the header and its body.
func (h Header) Length() int { return HeaderSize + int(little.Uint32(h[atLength:])) }

// ReplyMax is the length of the longest reply to a request.
func (h Header) ReplyMax() int {
	size, reply := itemSizes(h.Operation())
	if size == 0 {
		return HeaderSize
	}
	return HeaderSize + int(little.Uint32(h[atLength:])/size*reply)
}

// RequestFault is the name of the first fault of the header of a request, or nothing.
func (h Header) RequestFault() string {
	size, _ := itemSizes(h.Operation())
	isRegister, length := h.Operation() == tbclient.OperationRegister, little.Uint32(h[atLength:])
	switch {
	case h.Client() == Client{}:
		return "ClientZero"
	case size == 0 && !isRegister:
		return "UnknownOperation"
	case !isZero(h[atStatus:atLength]) || !isZero(h[atCommit:HeaderSize]):
		return "Reserved"
	case isRegister && (h.Session() != 0 || h.Number() != 0):
		return "RegisterNumbers"
	case !isRegister && h.Number() == 0:
		return "RequestZero"
	case isRegister && length != 0, !isRegister && length%size != 0:
		return "BadLength"
	case !isRegister && length/size > tbclient.ItemsMax:
		return "TooMany"
	}
	return ""
}

// ReplyFault is the name of the first fault of the header of a reply, or nothing.
func (h Header) ReplyFault() string {
	_, size := itemSizes(h.Operation())
	isRegister, length := h.Operation() == tbclient.OperationRegister, little.Uint32(h[atLength:])
	isRefusal := h.Status() != tbclient.StatusReply
	switch {
	case h.Client() == Client{}:
		return "ClientZero"
	case size == 0 && !isRegister:
		return "UnknownOperation"
	case h.Status() > tbclient.StatusNotYet, !isZero(h[atStatus+1 : atLength]), !isZero(h[atCommit+8 : HeaderSize]):
		return "Reserved"
	case isRegister && (h.Number() != 0 || isRefusal && h.Session() != 0):
		return "RegisterNumbers"
	case !isRegister && h.Number() == 0:
		return "RequestZero"
	case !h.hasReplyNumbers():
		return "ReplyNumbers"
	case (isRegister || isRefusal) && length != 0, !isRegister && length%size != 0:
		return "BadLength"
	case !isRegister && length/size > tbclient.ItemsMax:
		return "TooMany"
	}
	return ""
}

// hasReplyNumbers reports whether session and commit are those that a reply of its status has.
func (h Header) hasReplyNumbers() bool {
	switch {
	case h.Status() != tbclient.StatusReply:
		return h.Commit() == 0
	case h.Operation() == tbclient.OperationRegister:
		return h.Session() > 0 && h.Session() == h.Commit()
	}
	return h.Session() > 0 && h.Session() < h.Commit()
}

// Asker is what a reply repeats of its request.
type Asker struct {
	client    Client
	session   uint64 // not that of a register, which is new
	number    uint32
	operation tbclient.Operation
}

// Asker is what the reply to this request, or this reply, has of it.
func (h Header) Asker() Asker {
	asker := Asker{client: h.Client(), number: h.Number(), operation: h.Operation()}
	if asker.operation != tbclient.OperationRegister {
		asker.session = h.Session()
	}
	return asker
}

func isZero(data []byte) bool {
	for _, value := range data {
		if value != 0 {
			return false
		}
	}
	return true
}
