package tbclient

import "encoding/binary"

// Request is what a request asks for: a [Registration], [CreateAccounts], [CreateTransfers],
// [LookupAccounts] or [LookupTransfers]. There are no others.
type Request interface {
	// Operation is the operation's number.
	Operation() Operation
	// count is how many items there are.
	count() int
	// encode writes all items, one after another.
	encode(body []byte)
	// named is what an error calls the items.
	named() string
}

// Registration asks for a session.
type Registration struct{}

// CreateAccounts asks for accounts to be created.
type CreateAccounts []Account

// CreateTransfers asks for transfers to be made.
type CreateTransfers []Transfer

// LookupAccounts asks for the accounts with these ids.
type LookupAccounts []Uint128

// LookupTransfers asks for the transfers with these ids.
type LookupTransfers []Uint128

// Operation is OperationRegister.
func (r Registration) Operation() Operation { return OperationRegister }

// Operation is OperationCreateAccounts.
func (c CreateAccounts) Operation() Operation { return OperationCreateAccounts }

// Operation is OperationCreateTransfers.
func (c CreateTransfers) Operation() Operation { return OperationCreateTransfers }

// Operation is OperationLookupAccounts.
func (l LookupAccounts) Operation() Operation { return OperationLookupAccounts }

// Operation is OperationLookupTransfers.
func (l LookupTransfers) Operation() Operation { return OperationLookupTransfers }

func (r Registration) count() int    { return 0 }
func (c CreateAccounts) count() int  { return len(c) }
func (c CreateTransfers) count() int { return len(c) }
func (l LookupAccounts) count() int  { return len(l) }
func (l LookupTransfers) count() int { return len(l) }

func (r Registration) named() string    { return "items" }
func (c CreateAccounts) named() string  { return "accounts" }
func (c CreateTransfers) named() string { return "transfers" }
func (l LookupAccounts) named() string  { return "ids" }
func (l LookupTransfers) named() string { return "ids" }

func (r Registration) encode([]byte) {}

func (c CreateAccounts) encode(body []byte) {
	for at := range c {
		c[at].encode(body[at*recordSize:])
	}
}

func (c CreateTransfers) encode(body []byte) {
	for at := range c {
		c[at].encode(body[at*recordSize:])
	}
}

func (l LookupAccounts) encode(body []byte)  { encodeIDs(l, body) }
func (l LookupTransfers) encode(body []byte) { encodeIDs(l, body) }

func encodeIDs(ids []Uint128, body []byte) {
	for at, id := range ids {
		id.encode(body[at*idSize:])
	}
}

// Asked is a request with its numbers, as its frame has it.
type Asked struct {
	Client  Uint128
	Session uint64
	Number  uint32
	Request Request
}

// encodeRequest is the frame of a request. Too many items are an InvalidError.
func encodeRequest(client Uint128, session uint64, number uint32, request Request) ([]byte, error) {
	count := request.count()
	if count > ItemsMax {
		return nil, invalid(request.named(), "must be at most %d, not %d", ItemsMax, count)
	}
	operation := request.Operation()
	length := count * requestItemSize[operation]
	frame := make([]byte, headerSize+length)
	client.encode(frame[atRequestHeaderClient:])
	binary.LittleEndian.PutUint64(frame[atRequestHeaderSession:], session)
	binary.LittleEndian.PutUint32(frame[atRequestHeaderRequest:], number)
	frame[atRequestHeaderOperation] = byte(operation)
	binary.LittleEndian.PutUint32(frame[atRequestHeaderLength:], uint32(length))
	request.encode(frame[headerSize:])
	return frame, nil
}

// requestHeader has the numbers of a request's frame.
type requestHeader struct {
	client    Uint128
	session   uint64
	number    uint32
	operation Operation
	length    int64
}

// decodeRequestHeader reads the header of a whole frame. A frame at which a server would find a
// fault is an InvalidError that names the fault.
func decodeRequestHeader(frame []byte) (requestHeader, error) {
	if len(frame) < headerSize {
		return requestHeader{}, invalid("frame", "has %d bytes, and no header (Short)", len(frame))
	}
	r := requestHeader{
		client:    decodeUint128(frame[atRequestHeaderClient:]),
		session:   binary.LittleEndian.Uint64(frame[atRequestHeaderSession:]),
		number:    binary.LittleEndian.Uint32(frame[atRequestHeaderRequest:]),
		operation: Operation(frame[atRequestHeaderOperation]),
		length:    int64(binary.LittleEndian.Uint32(frame[atRequestHeaderLength:])),
	}
	zeros := isZero(frame[atRequestHeaderOperation+1:atRequestHeaderLength]) &&
		isZero(frame[atRequestHeaderLength+4:headerSize])
	if fault := r.fault(zeros); fault != "" {
		return r, invalid("frame", "is no request that a server takes (%s)", fault)
	}
	if r.length != int64(len(frame)-headerSize) {
		return r, invalid("frame", "has a body of %d bytes, and its header says %d", len(frame)-headerSize, r.length)
	}
	return r, nil
}

// fault is the name of the first fault of the header of a request, or "".
func (r requestHeader) fault(zeros bool) string {
	isRegister, size := r.operation == OperationRegister, int64(requestItemSize[r.operation])
	switch {
	case r.client.IsZero():
		return "ClientZero"
	case !r.operation.Known():
		return "UnknownOperation"
	case !zeros:
		return "Reserved"
	case isRegister && (r.session != 0 || r.number != 0):
		return "RegisterNumbers"
	case !isRegister && r.number == 0:
		return "RequestZero"
	case isRegister && r.length != 0, !isRegister && r.length%size != 0:
		return "BadLength"
	case !isRegister && r.length/size > ItemsMax:
		return "TooMany"
	}
	return ""
}

func isZero(data []byte) bool {
	for _, value := range data {
		if value != 0 {
			return false
		}
	}
	return true
}

// decodeRequest reads a frame that has no fault.
func decodeRequest(frame []byte) (Asked, error) {
	header, err := decodeRequestHeader(frame)
	if err != nil {
		return Asked{}, err
	}
	asked := Asked{Client: header.client, Session: header.session, Number: header.number}
	body := frame[headerSize:]
	switch header.operation {
	case OperationCreateAccounts:
		asked.Request = CreateAccounts(decodeAll(body, recordSize, decodeAccount))
	case OperationCreateTransfers:
		asked.Request = CreateTransfers(decodeAll(body, recordSize, decodeTransfer))
	case OperationLookupAccounts:
		asked.Request = LookupAccounts(decodeAll(body, idSize, decodeUint128))
	case OperationLookupTransfers:
		asked.Request = LookupTransfers(decodeAll(body, idSize, decodeUint128))
	default:
		asked.Request = Registration{}
	}
	return asked, nil
}

// decodeAll reads a body of whole items.
func decodeAll[T any](body []byte, size int, decode func([]byte) T) []T {
	items := make([]T, 0, len(body)/size)
	for at := 0; at+size <= len(body); at += size {
		items = append(items, decode(body[at:at+size]))
	}
	return items
}
