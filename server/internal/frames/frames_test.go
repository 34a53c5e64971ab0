package frames

import (
	"encoding/binary"
	"testing"
)

// fields are those of a header. Their zero values are those of a lookup of accounts.
type fields struct {
	client    uint64
	session   uint64
	number    uint32
	operation byte
	status    byte
	length    uint32
	commit    uint64
}

func (f fields) header() Header {
	h := make(Header, HeaderSize)
	binary.LittleEndian.PutUint64(h[0:], f.client)
	binary.LittleEndian.PutUint64(h[16:], f.session)
	binary.LittleEndian.PutUint32(h[24:], f.number)
	h[28], h[29] = f.operation, f.status
	binary.LittleEndian.PutUint32(h[32:], f.length)
	binary.LittleEndian.PutUint64(h[36:], f.commit)
	return h
}

// request is a request without a fault, of this operation.
func request(operation byte) fields {
	if operation == 2 {
		return fields{client: 1, operation: 2}
	}
	return fields{client: 1, session: 1, number: 1, operation: operation}
}

func TestEachOperationOfARequest(t *testing.T) {
	for operation := 0; operation < 256; operation++ {
		want := "UnknownOperation"
		switch operation {
		case 2, 129, 130, 131, 132:
			want = ""
		}
		if got := request(byte(operation)).header().RequestFault(); got != want {
			t.Errorf("operation %d: %q, not %q", operation, got, want)
		}
	}
}

func TestEachReservedByteOfARequest(t *testing.T) {
	for _, at := range []int{29, 30, 31, 36, 37, 38, 39, 40, 41, 42, 43, 44, 45, 46, 47} {
		for _, operation := range []byte{2, 130} {
			h := request(operation).header()
			h[at] = 1
			if got := h.RequestFault(); got != "Reserved" {
				t.Errorf("byte %d of operation %d: %q", at, operation, got)
			}
		}
	}
}

func TestEachLengthOfARequest(t *testing.T) {
	for operation, size := range map[byte]uint32{129: 128, 130: 128, 131: 16, 132: 16} {
		for _, row := range []struct {
			length uint32
			want   string
		}{
			{0, ""}, {1, "BadLength"}, {size - 1, "BadLength"}, {size, ""}, {size + 1, "BadLength"},
			{8190*size - 1, "BadLength"}, {8190 * size, ""}, {8190*size + 1, "BadLength"},
			{8191 * size, "TooMany"}, {^uint32(0) - size + 1, "TooMany"}, {^uint32(0), "BadLength"},
		} {
			it := request(operation)
			it.length = row.length
			if got := it.header().RequestFault(); got != row.want {
				t.Errorf("operation %d, length %d: %q, not %q", operation, row.length, got, row.want)
			}
		}
	}
	for _, length := range []uint32{1, 16, 128, ^uint32(0)} {
		it := request(2)
		it.length = length
		if got := it.header().RequestFault(); got != "BadLength" {
			t.Errorf("a register of length %d: %q", length, got)
		}
	}
}

func TestNumbersOfARequest(t *testing.T) {
	for _, row := range []struct {
		it   fields
		want string
	}{
		{fields{session: 1, number: 1, operation: 130}, "ClientZero"},
		{fields{client: 1, session: 1, operation: 130}, "RequestZero"},
		{fields{client: 1, number: 1, operation: 130}, ""}, // a session that is none is refused, and is no fault
		{fields{client: 1, session: 1 << 63, operation: 2}, "RegisterNumbers"},
		{fields{client: 1, number: 1, operation: 2}, "RegisterNumbers"},
		{fields{operation: 133}, "ClientZero"},
		{fields{client: 1, operation: 0, status: 1}, "UnknownOperation"},
		{fields{client: 1, session: 1, operation: 2, status: 1}, "Reserved"},
		{fields{client: 1, session: 1, operation: 2, length: 1}, "RegisterNumbers"},
		{fields{client: 1, operation: 130, length: 1}, "RequestZero"},
	} {
		if got := row.it.header().RequestFault(); got != row.want {
			t.Errorf("%+v: %q, not %q", row.it, got, row.want)
		}
	}
	for at := 0; at < 16; at++ {
		h := fields{session: 1, number: 1, operation: 130}.header()
		h[at] = 1
		if got := h.RequestFault(); got != "" {
			t.Errorf("byte %d of the client: %q", at, got)
		}
	}
}

func TestFaultsOfAReply(t *testing.T) {
	good := fields{client: 1, session: 1, number: 1, operation: 131, commit: 2}
	with := func(change func(*fields)) fields {
		it := good
		change(&it)
		return it
	}
	for _, row := range []struct {
		it   fields
		want string
	}{
		{good, ""},
		{fields{client: 1, session: 5, operation: 2, commit: 5}, ""},
		{fields{client: 1, operation: 2, status: 4}, ""},
		{with(func(f *fields) { f.status, f.commit = 7, 0 }), ""},
		{with(func(f *fields) { f.client = 0 }), "ClientZero"},
		{with(func(f *fields) { f.operation = 1 }), "UnknownOperation"},
		{with(func(f *fields) { f.status = 8 }), "Reserved"},
		{fields{client: 1, session: 5, number: 1, operation: 2, commit: 5}, "RegisterNumbers"},
		{fields{client: 1, session: 5, operation: 2, status: 4}, "RegisterNumbers"},
		{with(func(f *fields) { f.number = 0 }), "RequestZero"},
		{fields{client: 1, session: 5, operation: 2, commit: 6}, "ReplyNumbers"},
		{with(func(f *fields) { f.commit = 1 }), "ReplyNumbers"},
		{with(func(f *fields) { f.session = 0 }), "ReplyNumbers"},
		{with(func(f *fields) { f.status = 1 }), "ReplyNumbers"},
		{with(func(f *fields) { f.length = 127 }), "BadLength"},
		{with(func(f *fields) { f.status, f.commit, f.length = 1, 0, 128 }), "BadLength"},
		{with(func(f *fields) { f.length = 8190 * 128 }), ""},
		{with(func(f *fields) { f.length = 8191 * 128 }), "TooMany"},
		{with(func(f *fields) { f.operation, f.length = 130, 8190*8 }), ""},
		{with(func(f *fields) { f.operation, f.length = 130, 8191*8 }), "TooMany"},
	} {
		if got := row.it.header().ReplyFault(); got != row.want {
			t.Errorf("%+v: %q, not %q", row.it, got, row.want)
		}
	}
	for _, at := range []int{30, 31, 44, 45, 46, 47} {
		h := good.header()
		h[at] = 1
		if got := h.ReplyFault(); got != "Reserved" {
			t.Errorf("byte %d: %q", at, got)
		}
	}
}

func TestWhichReplyIsToARequest(t *testing.T) {
	asked := fields{client: 1, session: 3, number: 4, operation: 131}
	for _, row := range []struct {
		reply fields
		is    bool
	}{
		{fields{client: 1, session: 3, number: 4, operation: 131, commit: 9}, true},
		{fields{client: 2, session: 3, number: 4, operation: 131, commit: 9}, false},
		{fields{client: 1, session: 2, number: 4, operation: 131, commit: 9}, false},
		{fields{client: 1, session: 3, number: 5, operation: 131, commit: 9}, false},
		{fields{client: 1, session: 3, number: 4, operation: 132, commit: 9}, false},
	} {
		if is := row.reply.header().Asker() == asked.header().Asker(); is != row.is {
			t.Errorf("%+v: %v", row.reply, is)
		}
	}
	register, reply := fields{client: 1, operation: 2}, fields{client: 1, session: 7, operation: 2, commit: 7}
	if register.header().Asker() != reply.header().Asker() {
		t.Error("the session of a register is new")
	}
}

func TestLongestReply(t *testing.T) {
	for _, row := range []struct {
		it   fields
		want int
	}{
		{request(2), 48},
		{fields{operation: 130, length: 128 * 8190}, 48 + 8*8190},
		{fields{operation: 131, length: 16 * 8190}, 48 + 128*8190},
	} {
		if got := row.it.header().ReplyMax(); got != row.want {
			t.Errorf("%+v: %d, not %d", row.it, got, row.want)
		}
	}
}

func TestClientAsANumber(t *testing.T) {
	if got := (Client{Low: 7, High: 1}).String(); got != "18446744073709551623" {
		t.Error(got)
	}
}

// FuzzHeaders reads any 48 bytes as a header: what has no fault has a length that fits.
func FuzzHeaders(f *testing.F) {
	f.Add([]byte(request(130).header()))
	f.Add([]byte(request(2).header()))
	f.Add([]byte("GET / HTTP/1.1\r\nHost: localhost:3001\r\nAccept: */*"))
	f.Fuzz(func(t *testing.T, data []byte) {
		if len(data) < HeaderSize {
			return
		}
		h := Header(data[:HeaderSize])
		if h.RequestFault() == "" && (h.Length() > RequestMax || h.ReplyMax() > RequestMax) {
			t.Errorf("a request of %d bytes, and a reply of %d", h.Length(), h.ReplyMax())
		}
		if h.ReplyFault() == "" && h.Length() > RequestMax {
			t.Errorf("a reply of %d bytes", h.Length())
		}
	})
}
