package tbclient

import (
	"bytes"
	"errors"
	"strings"
	"testing"
)

// asked is a request of client 7 in session 1: number 1, a lookup of account 5.
var asked = append([]byte{
	7, 0, 0, 0, 0, 0, 0, 0, 0, 0, 0, 0, 0, 0, 0, 0,
	1, 0, 0, 0, 0, 0, 0, 0, 1, 0, 0, 0, 131, 0, 0, 0,
	16, 0, 0, 0, 0, 0, 0, 0, 0, 0, 0, 0, 0, 0, 0, 0,
}, 5, 0, 0, 0, 0, 0, 0, 0, 0, 0, 0, 0, 0, 0, 0, 0)

func TestRequestBytes(t *testing.T) {
	frame, err := encodeRequest(ToUint128(7), 1, 1, LookupAccounts{ToUint128(5)})
	if err != nil || !bytes.Equal(frame, asked) {
		t.Errorf("%x, not %x, %v", frame, asked, err)
	}
}

func TestFaultsOfRequests(t *testing.T) {
	for fault, edit := range map[string]func([]byte) []byte{
		"Short":            func(frame []byte) []byte { return frame[:47] },
		"ClientZero":       func(frame []byte) []byte { frame[0], frame[28] = 0, 133; return frame },
		"UnknownOperation": func(frame []byte) []byte { frame[28], frame[29] = 133, 1; return frame },
		"Reserved":         func(frame []byte) []byte { frame[47], frame[24] = 1, 0; return frame },
		"RegisterNumbers":  func(frame []byte) []byte { frame[28] = 2; return frame },
		"RequestZero":      func(frame []byte) []byte { frame[24], frame[32] = 0, 15; return frame },
		"BadLength":        func(frame []byte) []byte { frame[32], frame[34] = 15, 255; return frame },
		"TooMany":          func(frame []byte) []byte { frame[32], frame[33], frame[34] = 0xf0, 0xff, 1; return frame }, // 8191 ids
		"its header says":  func(frame []byte) []byte { return frame[:63] },
	} {
		_, err := decodeRequestHeader(edit(append([]byte(nil), asked...)))
		if !errors.Is(err, ErrInvalid) || !strings.Contains(err.Error(), fault) {
			t.Errorf("%s: %v", fault, err)
		}
	}
}

func TestFaultsOfReplies(t *testing.T) {
	for fault, edit := range map[string]func([]byte) []byte{
		"Short":            func(reply []byte) []byte { return reply[:47] },
		"ClientZero":       func(reply []byte) []byte { reply[0], reply[28] = 0, 133; return reply },
		"UnknownOperation": func(reply []byte) []byte { reply[28], reply[29] = 133, 9; return reply },
		"Reserved":         func(reply []byte) []byte { reply[47], reply[24] = 1, 0; return reply },
		"RegisterNumbers":  func(reply []byte) []byte { reply[28], reply[32] = 2, 1; return reply },
		"RequestZero":      func(reply []byte) []byte { reply[24], reply[36] = 0, 0; return reply },
		"ReplyNumbers":     func(reply []byte) []byte { reply[36], reply[32] = 1, 1; return reply },
		"BadLength":        func(reply []byte) []byte { reply[32] = 127; return reply },
		"TooMany":          func(reply []byte) []byte { reply[32], reply[33], reply[34] = 0x80, 0xff, 15; return reply }, // 8191 accounts
		"its header says":  func(reply []byte) []byte { reply[32] = 128; return reply },
	} {
		_, _, err := decodeReply(edit(answerTo(asked, nil)), asked)
		if !errors.Is(err, ErrBadReply) || !strings.Contains(err.Error(), fault) {
			t.Errorf("%s: %v", fault, err)
		}
	}
}

func TestResultsThatAreNone(t *testing.T) {
	frame := questions(t)[1] // creates two accounts
	for what, body := range map[string][]byte{
		"ok":             {0, 0, 0, 0, 0, 0, 0, 0},
		"unknown":        {0, 0, 0, 0, 255, 0, 0, 0},
		"no event":       {2, 0, 0, 0, 21, 0, 0, 0},
		"event 1, and 0": {1, 0, 0, 0, 21, 0, 0, 0, 0, 0, 0, 0, 21, 0, 0, 0},
	} {
		if _, answer, err := decodeReply(answerTo(frame, body), frame); !errors.Is(err, ErrBadReply) {
			t.Errorf("%s: %v, %v", what, answer, err)
		}
	}
}

// questions are requests of client 7 in session 1, of each operation.
func questions(t testing.TB) [][]byte {
	var frames [][]byte
	for number, it := range []Request{
		Registration{},
		CreateAccounts{{ID: ToUint128(5)}, {ID: ToUint128(6)}},
		CreateTransfers{{ID: ToUint128(5)}, {ID: ToUint128(6)}},
		LookupAccounts{ToUint128(5), ToUint128(6)},
		LookupTransfers{ToUint128(5), ToUint128(6)},
	} {
		session := uint64(1)
		if number == 0 {
			session = 0
		}
		frame, err := encodeRequest(ToUint128(7), session, uint32(number), it)
		if err != nil {
			t.Fatal(err)
		}
		frames = append(frames, frame)
	}
	return frames
}

// answerTo is a reply with a body to the request of a frame.
func answerTo(frame, body []byte) []byte {
	reply := append(append([]byte(nil), frame[:headerSize]...), body...)
	reply[16], reply[32], reply[33], reply[36] = 1, byte(len(body)), 0, 9
	if frame[28] == byte(OperationRegister) {
		reply[36] = 1
	}
	return reply
}

// A reply is refused, or what it says has each byte of its body.
func FuzzReply(f *testing.F) {
	frames := questions(f)
	record := make([]byte, recordSize)
	record[0] = 5
	bodies := [][]byte{nil, {1, 0, 0, 0, 21, 0, 0, 0}, {0, 0, 0, 0, 1, 0, 0, 0}, record, record}
	for at, frame := range frames {
		f.Add(answerTo(frame, bodies[at]), byte(at))
		f.Add(answerTo(frame, nil), byte(at))
	}
	f.Add([]byte("tb_listen: Busy\n"), byte(3))
	f.Fuzz(func(t *testing.T, reply []byte, which byte) {
		header, answer, err := decodeReply(reply, frames[int(which)%len(frames)])
		if err != nil {
			if !errors.Is(err, ErrBadReply) {
				t.Fatal(err)
			}
			return
		}
		results := len(answer.AccountResults) + len(answer.TransferResults)
		records := len(answer.Accounts) + len(answer.Transfers)
		if results*resultSize+records*recordSize != len(reply)-headerSize {
			t.Fatalf("%d results and %d records of %d bytes", results, records, len(reply))
		}
		if header.operation == OperationRegister && header.status == StatusReply && answer.Session == 0 {
			t.Fatal("a register without a session")
		}
	})
}

func FuzzRequest(f *testing.F) {
	f.Add(asked)
	f.Fuzz(func(t *testing.T, frame []byte) {
		found, err := decodeRequest(frame)
		if err != nil {
			return
		}
		again, err := encodeRequest(found.Client, found.Session, found.Number, found.Request)
		if err != nil || !bytes.Equal(again, frame) {
			t.Fatalf("%x comes back as %x, %v", frame, again, err)
		}
	})
}

// An address is refused, or comes back from its own text.
func FuzzAddress(f *testing.F) {
	for _, text := range []string{"3000", "10.0.0.1:3000", "[::1]:3000", "host", "/run/it.sock", ":1", "a:b:1", ""} {
		f.Add(text)
	}
	f.Fuzz(func(t *testing.T, text string) {
		place, err := parseAddress(text)
		if err != nil {
			if !errors.Is(err, ErrInvalid) {
				t.Fatal(err)
			}
			return
		}
		if place.test("address") != nil {
			return // which a transport refuses
		}
		again, err := parseAddress(place.String())
		if err != nil || again != place {
			t.Fatalf("%q is %v, which is %v, %v", text, place, again, err)
		}
	})
}

// What a server says before it closes a connection has no character that a terminal obeys.
func FuzzTold(f *testing.F) {
	f.Add([]byte("tb_listen: Busy\n"))
	f.Add([]byte("tb_listen: \x1b[2J"))
	f.Add([]byte("Busy"))
	f.Fuzz(func(t *testing.T, said []byte) {
		err := told(said, ErrBadReply)
		var lost *LostError
		if !errors.As(err, &lost) {
			if err != ErrBadReply || bytes.HasPrefix(said, toldMark) {
				t.Fatalf("%q: %v", said, err)
			}
			return
		}
		if strings.IndexFunc(lost.Told, func(r rune) bool { return r < ' ' || r > '~' }) >= 0 {
			t.Fatalf("%q is told as %q", said, lost.Told)
		}
	})
}
