package tbclient

import (
	"encoding/binary"
	"fmt"
)

// Code is the result of an event of a create.
type Code interface {
	CreateAccountResult | CreateTransferResult
	fmt.Stringer
	Known() bool
}

// Result is what became of an event that was not accepted.
type Result[C Code] struct {
	Index  uint32 // the event's place in its batch, from 0
	Result C
}

// Results are those of the events of a batch that were not accepted, in the order of the events. The
// other events were accepted.
type Results[C Code] []Result[C]

// AccountResults are the accounts that were not created.
type AccountResults = Results[CreateAccountResult]

// TransferResults are the transfers that were not made.
type TransferResults = Results[CreateTransferResult]

// Except is the results without those of this code: after an eviction the same records are created
// again, and AccountExists or TransferExists says that it was done before. Of a linked chain that
// was done before one event has that code, and the others are linked_event_failed: those are left.
func (r Results[C]) Except(code C) Results[C] {
	var rest Results[C]
	for _, row := range r {
		if row.Result != code {
			rest = append(rest, row)
		}
	}
	return rest
}

// Err is an [EventsFailedError] if there are any results, and nil otherwise.
func (r Results[C]) Err() error {
	if len(r) == 0 {
		return nil
	}
	events := make([]FailedEvent, len(r))
	for at, row := range r {
		events[at] = FailedEvent{Index: row.Index, Result: row.Result}
	}
	return &EventsFailedError{Events: events}
}

// Answer is what the reply to a request says. The field of its operation is set.
type Answer struct {
	Operation       Operation
	Session         uint64          // of a register: the new session
	AccountResults  AccountResults  // of CreateAccounts
	TransferResults TransferResults // of CreateTransfers
	Accounts        []Account       // of LookupAccounts: those that exist, in the order of the ids
	Transfers       []Transfer      // of LookupTransfers: those that exist, in the order of the ids
}

// Err is an [EventsFailedError] if events were not accepted, and nil otherwise.
func (a Answer) Err() error {
	if err := a.AccountResults.Err(); err != nil {
		return err
	}
	return a.TransferResults.Err()
}

// replyHeader has the numbers of a reply's frame.
type replyHeader struct {
	client    Uint128
	session   uint64
	number    uint32
	operation Operation
	status    Status
	length    int64
	commit    uint64
}

// decodeReplyHeader reads the header of a reply, before its body is there. What is not one is an
// ErrBadReply with the fault's name.
func decodeReplyHeader(data []byte) (replyHeader, error) {
	if len(data) < headerSize {
		return replyHeader{}, badReply("%d bytes are no header (Short)", len(data))
	}
	r := replyHeader{
		client:    decodeUint128(data[atReplyHeaderClient:]),
		session:   binary.LittleEndian.Uint64(data[atReplyHeaderSession:]),
		number:    binary.LittleEndian.Uint32(data[atReplyHeaderRequest:]),
		operation: Operation(data[atReplyHeaderOperation]),
		status:    Status(data[atReplyHeaderStatus]),
		length:    int64(binary.LittleEndian.Uint32(data[atReplyHeaderLength:])),
		commit:    binary.LittleEndian.Uint64(data[atReplyHeaderCommit:]),
	}
	zeros := isZero(data[atReplyHeaderStatus+1:atReplyHeaderLength]) &&
		isZero(data[atReplyHeaderCommit+8:headerSize])
	if fault := r.fault(zeros); fault != "" {
		return r, badReply("what came is no frame of a reply (%s): %.24q", fault, data[:headerSize])
	}
	return r, nil
}

// fault is the name of the first fault of the header of a reply, or "".
func (r replyHeader) fault(zeros bool) string {
	isRegister, isRefusal := r.operation == OperationRegister, r.status != StatusReply
	size := int64(replyItemSize[r.operation])
	switch {
	case r.client.IsZero():
		return "ClientZero"
	case !r.operation.Known():
		return "UnknownOperation"
	case !zeros || !r.status.Known():
		return "Reserved"
	case isRegister && (r.number != 0 || isRefusal && r.session != 0):
		return "RegisterNumbers"
	case !isRegister && r.number == 0:
		return "RequestZero"
	case !r.hasNumbers():
		return "ReplyNumbers"
	case (isRegister || isRefusal) && r.length != 0, !isRegister && r.length%size != 0:
		return "BadLength"
	case !isRegister && r.length/size > ItemsMax:
		return "TooMany"
	}
	return ""
}

// hasNumbers reports whether session and commit are those that a reply of its status has.
func (r replyHeader) hasNumbers() bool {
	switch {
	case r.status != StatusReply:
		return r.commit == 0
	case r.operation == OperationRegister:
		return r.session > 0 && r.session == r.commit
	}
	return r.session > 0 && r.session < r.commit
}

// answers tests that the reply is one to this request.
func (r replyHeader) answers(asked requestHeader) error {
	session := asked.session
	if asked.operation == OperationRegister && r.status == StatusReply {
		session = r.session // a new one
	}
	if r.client == asked.client && r.number == asked.number && r.operation == asked.operation && r.session == session {
		return nil
	}
	return badReply("a reply to request %d (%v) of session %d, of client %v, came for request %d (%v) of session %d",
		r.number, r.operation, r.session, r.client, asked.number, asked.operation, asked.session)
}

// decodeReply reads the frame of a reply to the request of this frame: its header, and what it
// says. A refusal says nothing.
func decodeReply(reply, frame []byte) (replyHeader, Answer, error) {
	header, err := decodeReplyHeader(reply)
	if err != nil {
		return header, Answer{}, err
	}
	if header.length != int64(len(reply)-headerSize) {
		return header, Answer{}, badReply("a body of %d bytes came, and its header says %d", len(reply)-headerSize, header.length)
	}
	asked, err := decodeRequestHeader(frame)
	if err != nil {
		return header, Answer{}, err
	}
	if err := header.answers(asked); err != nil || header.status != StatusReply {
		return header, Answer{}, err
	}
	answer, err := decodeAnswer(header, reply[headerSize:], frame[headerSize:])
	return header, answer, err
}

// decodeAnswer reads the body of a reply, and tests that it fits the body of its request.
func decodeAnswer(header replyHeader, body, asked []byte) (Answer, error) {
	answer, err := Answer{Operation: header.operation}, error(nil)
	switch header.operation {
	case OperationRegister:
		answer.Session = header.session
	case OperationCreateAccounts:
		answer.AccountResults, err = decodeResults[CreateAccountResult](body, len(asked)/recordSize)
	case OperationCreateTransfers:
		answer.TransferResults, err = decodeResults[CreateTransferResult](body, len(asked)/recordSize)
	case OperationLookupAccounts:
		answer.Accounts = decodeAll(body, recordSize, decodeAccount)
		err = testFound(answer.Accounts, asked, func(a Account) Uint128 { return a.ID })
	case OperationLookupTransfers:
		answer.Transfers = decodeAll(body, recordSize, decodeTransfer)
		err = testFound(answer.Transfers, asked, func(t Transfer) Uint128 { return t.ID })
	}
	if err != nil {
		return Answer{}, err
	}
	return answer, nil
}

// decodeResults reads results. They are of events that failed, in the order of the events, by codes
// that have a name.
func decodeResults[C Code](body []byte, events int) (Results[C], error) {
	results := decodeAll(body, resultSize, func(data []byte) Result[C] {
		return Result[C]{
			Index:  binary.LittleEndian.Uint32(data[atResultIndex:]),
			Result: C(binary.LittleEndian.Uint32(data[atResultResult:])),
		}
	})
	before := -1
	for _, row := range results {
		index := int(row.Index)
		switch {
		case index >= events:
			return nil, badReply("a result of event %d came for %d events", index, events)
		case index <= before:
			return nil, badReply("a result of event %d came behind that of event %d", index, before)
		case row.Result == 0:
			return nil, badReply("event %d came as ok among those that failed", index)
		case !row.Result.Known():
			return nil, badReply("no result of an event is %d", uint32(row.Result))
		}
		before = index
	}
	return results, nil
}

// testFound tests that records are those that were looked up, in the order of the ids.
func testFound[T any](records []T, ids []byte, id func(T) Uint128) error {
	at := 0
	for _, record := range records {
		for at < len(ids) && decodeUint128(ids[at:]) != id(record) {
			at += idSize
		}
		if at == len(ids) {
			return badReply("a record with id %v came, which was not looked up there", id(record))
		}
		at += idSize
	}
	return nil
}
