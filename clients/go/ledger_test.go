package tbclient_test

import (
	"encoding/binary"
	"io"
	"math/big"
	"net"
	"path/filepath"
	"sync"
	"testing"
)

// ledger is a server for the tests, with an encoder of its own. It knows sessions, accounts and
// transfers, and few rules: no money is to be kept in it.
type ledger struct {
	path string

	mu        sync.Mutex
	commit    uint64
	sessions  map[string]*seat
	accounts  map[string][]byte
	transfers map[string][]byte
	frames    [][]byte      // each request that came
	lose      int           // how many replies are lost from now on
	hold      chan struct{} // if it is there, replies wait until it is closed
	held      byte          // the operation whose replies wait
	listener  net.Listener
}

// seat is the session of a client, with its last request and reply.
type seat struct {
	session        uint64
	number         uint32
	request, reply []byte
}

// newLedger serves at a Unix socket until the test ends.
func newLedger(t testing.TB, folder string) *ledger {
	t.Helper()
	server := beginLedger(filepath.Join(folder, "ledger.sock"))
	t.Cleanup(server.end)
	return server
}

func beginLedger(path string) *ledger {
	listener, err := net.Listen("unix", path)
	if err != nil {
		panic(err)
	}
	l := &ledger{
		path:      path,
		sessions:  map[string]*seat{},
		accounts:  map[string][]byte{},
		transfers: map[string][]byte{},
		listener:  listener,
	}
	go func() {
		for {
			conn, err := listener.Accept()
			if err != nil {
				return
			}
			go l.serve(conn)
		}
	}()
	return l
}

func (l *ledger) end() { l.listener.Close() }

// loses makes the ledger lose a number of replies, after it executed their requests.
func (l *ledger) loses(count int) {
	l.mu.Lock()
	defer l.mu.Unlock()
	l.lose = count
}

// holds makes the replies to an operation wait. What it returns releases them.
func (l *ledger) holds(operation byte) (release func()) {
	l.mu.Lock()
	defer l.mu.Unlock()
	hold := make(chan struct{})
	l.hold, l.held = hold, operation
	return func() {
		l.mu.Lock()
		defer l.mu.Unlock()
		l.hold = nil
		close(hold)
	}
}

// evict ends all sessions.
func (l *ledger) evict() {
	l.mu.Lock()
	defer l.mu.Unlock()
	l.sessions = map[string]*seat{}
}

// came is how many requests came, and the last of them.
func (l *ledger) came() (int, []byte) {
	l.mu.Lock()
	defer l.mu.Unlock()
	if len(l.frames) == 0 {
		return 0, nil
	}
	return len(l.frames), l.frames[len(l.frames)-1]
}

func (l *ledger) serve(conn net.Conn) {
	defer conn.Close()
	for {
		frame := make([]byte, 48)
		if _, err := io.ReadFull(conn, frame); err != nil {
			return
		}
		body := make([]byte, binary.LittleEndian.Uint32(frame[32:]))
		if _, err := io.ReadFull(conn, body); err != nil {
			return
		}
		reply, hold, isLost := l.reply(append(frame, body...))
		if hold != nil {
			<-hold
		}
		if isLost {
			return
		}
		if _, err := conn.Write(reply); err != nil {
			return
		}
	}
}

func (l *ledger) reply(frame []byte) (reply []byte, hold chan struct{}, isLost bool) {
	l.mu.Lock()
	defer l.mu.Unlock()
	l.frames = append(l.frames, frame)
	if isLost = l.lose > 0; isLost {
		l.lose--
	}
	if frame[28] == l.held {
		hold = l.hold
	}
	return l.answer(frame), hold, isLost
}

// answer executes a request, or repeats the reply to it, or refuses it.
func (l *ledger) answer(frame []byte) []byte {
	client, operation := string(frame[:16]), frame[28]
	session, number := binary.LittleEndian.Uint64(frame[16:]), binary.LittleEndian.Uint32(frame[24:])
	own := l.sessions[client]
	switch {
	case operation == 2 && own == nil:
		l.commit++
		own = &seat{session: l.commit}
		l.sessions[client] = own
		session = own.session
	case own == nil:
		return framed(frame, session, 1, 0, nil) // NoSession
	case string(own.request) == string(frame):
		return own.reply
	case session != own.session || number != own.number+1:
		return framed(frame, session, 5, 0, nil) // Collision, in place of all others
	default:
		l.commit++
	}
	own.number, own.request = number, frame
	own.reply = framed(frame, session, 0, l.commit, l.executed(operation, frame[48:]))
	return own.reply
}

// framed is a reply to a request.
func framed(frame []byte, session uint64, status byte, commit uint64, body []byte) []byte {
	reply := append([]byte(nil), frame[:48]...)
	binary.LittleEndian.PutUint64(reply[16:], session)
	reply[29] = status
	binary.LittleEndian.PutUint32(reply[32:], uint32(len(body)))
	binary.LittleEndian.PutUint64(reply[36:], commit)
	return append(reply, body...)
}

func (l *ledger) executed(operation byte, body []byte) (reply []byte) {
	for index := 0; len(body) > 0; index++ {
		switch operation {
		case 129:
			reply = append(reply, l.create(l.accounts, index, body[:128], 21)...)
			body = body[128:]
		case 130:
			reply = append(reply, l.create(l.transfers, index, body[:128], 46)...)
			body = body[128:]
		case 131:
			reply = append(reply, l.accounts[string(body[:16])]...)
			body = body[16:]
		case 132:
			reply = append(reply, l.transfers[string(body[:16])]...)
			body = body[16:]
		}
	}
	return reply
}

// create records a record, or says that it exists. A transfer moves its amount.
func (l *ledger) create(records map[string][]byte, index int, record []byte, exists uint32) []byte {
	if _, isThere := records[string(record[:16])]; isThere {
		var result [8]byte
		binary.LittleEndian.PutUint32(result[:], uint32(index))
		binary.LittleEndian.PutUint32(result[4:], exists)
		return result[:]
	}
	records[string(record[:16])] = append([]byte(nil), record...)
	if exists == 46 {
		addTo(l.accounts[string(record[16:32])][32:48], record[48:64])
		addTo(l.accounts[string(record[32:48])][64:80], record[48:64])
	}
	return nil
}

func addTo(sum, amount []byte) {
	total := new(big.Int).Add(littleEndian(sum), littleEndian(amount))
	total.FillBytes(sum)
	reverse(sum)
}

func littleEndian(data []byte) *big.Int {
	turned := append([]byte(nil), data...)
	reverse(turned)
	return new(big.Int).SetBytes(turned)
}

func reverse(data []byte) {
	for at, end := 0, len(data)-1; at < end; at, end = at+1, end-1 {
		data[at], data[end] = data[end], data[at]
	}
}
