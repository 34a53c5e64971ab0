package simulator

import (
	"encoding/binary"

	"telovamish.org/server/internal/entries"
	"telovamish.org/server/internal/frames"
	"telovamish.org/tbclient"
)

// Server executes the entries of a log in order, in place of the proved one. Another one may be given to
// a world: for example one that runs `tbd follow` as a child.
type Server interface {
	// Entry executes the next entry, and returns the reply to each of its pairs.
	Entry(pairs []byte) [][]byte
}

// Results that this server gives.
const (
	exists                = 46 // of a transfer; of an account below
	accountExists         = 21
	debitAccountNotFound  = 21
	creditAccountNotFound = 22
)

var little = binary.LittleEndian

// session is the last request of a client with its reply.
type session struct {
	id     uint64
	number uint32
	frame  string
	reply  []byte
	commit uint64
}

// account is what an account has.
type account struct{ debits, credits uint64 }

// Ledger is a server of sessions and balances, by the rules of docs/use/RULES.md.
type Ledger struct {
	clientsMax int
	commit     uint64
	sessions   map[frames.Client]*session
	accounts   map[uint64]*account
	transfers  map[uint64]bool
}

// NewLedger is a ledger with no account.
func NewLedger(clientsMax int) *Ledger {
	return &Ledger{
		clientsMax: clientsMax,
		sessions:   map[frames.Client]*session{},
		accounts:   map[uint64]*account{},
		transfers:  map[uint64]bool{},
	}
}

// Entry executes an entry.
func (l *Ledger) Entry(pairs []byte) [][]byte {
	var replies [][]byte
	for at := 0; at < len(pairs); {
		pair, end, err := entries.NextPair(pairs, at)
		if err != nil {
			panic(err) // no replica gives a server such an entry
		}
		replies, at = append(replies, l.reply(pair.Frame)), end
	}
	return replies
}

// reply is the reply to a request: the first one, if it was executed before.
func (l *Ledger) reply(frame frames.Header) []byte {
	row := l.sessions[frame.Client()]
	status := l.status(frame, row)
	if status == isNew {
		return l.enter(frame)
	}
	if status == tbclient.StatusReply {
		return row.reply
	}
	return replyTo(frame, frame.Session(), byte(status), 0, nil)
}

const isNew tbclient.Status = 255

func (l *Ledger) status(frame frames.Header, row *session) tbclient.Status {
	isRegister := frame.Operation() == tbclient.OperationRegister
	switch {
	case row == nil && isRegister:
		return isNew
	case row == nil:
		return tbclient.StatusNoSession
	case isRegister && row.number == 0:
		return tbclient.StatusReply
	case isRegister:
		return tbclient.StatusOlder
	case frame.Session() < row.id:
		return tbclient.StatusSessionTooLow
	case frame.Session() > row.id:
		return tbclient.StatusNewerSession
	case frame.Number() == row.number && row.frame == string(frame):
		return tbclient.StatusReply
	case frame.Number() == row.number:
		return tbclient.StatusCollision
	case frame.Number() < row.number:
		return tbclient.StatusOlder
	case frame.Number() == row.number+1:
		return isNew
	}
	return tbclient.StatusNewerRequest
}

// enter executes a new request.
func (l *Ledger) enter(frame frames.Header) []byte {
	l.commit++
	id, body := frame.Session(), []byte(nil)
	switch frame.Operation() {
	case tbclient.OperationRegister:
		id = l.commit
		l.evict()
	case tbclient.OperationCreateAccounts:
		body = l.create(frame, l.createAccount)
	case tbclient.OperationCreateTransfers:
		body = l.create(frame, l.createTransfer)
	default:
		body = l.lookUp(frame)
	}
	reply := replyTo(frame, id, 0, l.commit, body)
	l.sessions[frame.Client()] = &session{id, frame.Number(), string(frame), reply, l.commit}
	return reply
}

// evict ends the session with the least commit, if there is no room for one more.
func (l *Ledger) evict() {
	if len(l.sessions) < l.clientsMax {
		return
	}
	var least frames.Client
	for client, row := range l.sessions {
		if before := l.sessions[least]; before == nil || row.commit < before.commit {
			least = client
		}
	}
	delete(l.sessions, least)
}

// create executes events, and returns the results that are not 0.
func (l *Ledger) create(frame []byte, event func([]byte) uint32) []byte {
	var body []byte
	for index := 0; frames.HeaderSize+128*index < len(frame); index++ {
		at := frames.HeaderSize + 128*index
		if result := event(frame[at : at+128]); result != 0 {
			body = little.AppendUint32(little.AppendUint32(body, uint32(index)), result)
		}
	}
	return body
}

func (l *Ledger) createAccount(row []byte) uint32 {
	id := little.Uint64(row)
	if l.accounts[id] != nil {
		return accountExists
	}
	l.accounts[id] = &account{}
	return 0
}

func (l *Ledger) createTransfer(row []byte) uint32 {
	id, amount := little.Uint64(row), little.Uint64(row[48:])
	debit, credit := l.accounts[little.Uint64(row[16:])], l.accounts[little.Uint64(row[32:])]
	switch {
	case l.transfers[id]:
		return exists
	case debit == nil:
		return debitAccountNotFound
	case credit == nil:
		return creditAccountNotFound
	}
	l.transfers[id] = true
	debit.debits += amount
	credit.credits += amount
	return 0
}

func (l *Ledger) lookUp(frame []byte) []byte {
	var body []byte
	for at := frames.HeaderSize; at < len(frame); at += 16 {
		id := little.Uint64(frame[at:])
		if it := l.accounts[id]; it != nil {
			row := make([]byte, 128)
			little.PutUint64(row, id)
			little.PutUint64(row[32:], it.debits)
			little.PutUint64(row[64:], it.credits)
			body = append(body, row...)
		}
	}
	return body
}

// replyTo is the frame of a reply.
func replyTo(frame frames.Header, session uint64, status byte, commit uint64, body []byte) []byte {
	reply := make([]byte, frames.HeaderSize, frames.HeaderSize+len(body))
	copy(reply, frame[:29])
	little.PutUint64(reply[16:], session)
	reply[29] = status
	little.PutUint32(reply[32:], uint32(len(body)))
	little.PutUint64(reply[36:], commit)
	return append(reply, body...)
}

// requestOf is the frame of a request.
func requestOf(client, session uint64, number uint32, operation tbclient.Operation, body []byte) []byte {
	frame := make([]byte, frames.HeaderSize, frames.HeaderSize+len(body))
	little.PutUint64(frame, client)
	little.PutUint64(frame[16:], session)
	little.PutUint32(frame[24:], number)
	frame[28] = byte(operation)
	little.PutUint32(frame[32:], uint32(len(body)))
	return append(frame, body...)
}
