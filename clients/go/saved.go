package tbclient

import (
	"bytes"
	"encoding/hex"
	"encoding/json"
	"fmt"
	"io"
	"io/fs"
	"math/big"
	"os"
	"path/filepath"
	"strings"
)

// Saved is what outlives a client: its id, its session, the number of its last request that was
// answered, and the bytes of the request in doubt, or no bytes. In JSON it is what the clients in
// other languages write and read too.
type Saved struct {
	Client  Uint128
	Session uint64
	Number  uint32
	Pending []byte
}

var (
	_ json.Marshaler   = Saved{}
	_ json.Unmarshaler = (*Saved)(nil)
)

// MarshalJSON is one object in ASCII: three numbers, and the bytes in hex.
func (s Saved) MarshalJSON() ([]byte, error) {
	text := fmt.Sprintf(`{"client": %v, "session": %d, "number": %d, "pending": "%x"}`,
		s.Client, s.Session, s.Number, s.Pending)
	return []byte(text), nil
}

// UnmarshalJSON reads what MarshalJSON wrote. What is not a session is an [InvalidError] that names
// what is wrong. It does not test that the bytes in doubt are a request of this session: [Resume]
// does.
func (s *Saved) UnmarshalJSON(data []byte) error {
	if !json.Valid(data) {
		return invalid("saved", "is no JSON")
	}
	fields, err := fieldsOf(data)
	if err != nil {
		return err
	}
	client, err := numberOf(fields, "client", 128)
	if err != nil {
		return err
	}
	session, err := numberOf(fields, "session", 64)
	if err != nil {
		return err
	}
	number, err := numberOf(fields, "number", 32)
	if err != nil {
		return err
	}
	pending, err := bytesOf(fields, "pending")
	if err != nil {
		return err
	}
	*s = Saved{Client: client, Session: session.Lo, Number: uint32(number.Lo), Pending: pending}
	return nil
}

// fieldsOf are the fields of an object in valid JSON. A map would take the last of two fields with
// one name.
func fieldsOf(data []byte) (map[string]json.RawMessage, error) {
	decoder := json.NewDecoder(bytes.NewReader(data))
	if first, err := decoder.Token(); err != nil || first != json.Delim('{') {
		return nil, invalid("saved", "is no object")
	}
	fields := make(map[string]json.RawMessage)
	for decoder.More() {
		token, err := decoder.Token()
		if err != nil {
			return nil, invalid("saved", "is no JSON: %v", err)
		}
		name, _ := token.(string)
		if _, isThere := fields[name]; isThere {
			return nil, invalid("saved", "has two fields %.40q", name)
		}
		var value json.RawMessage
		if err := decoder.Decode(&value); err != nil {
			return nil, invalid("saved", "is no JSON: %v", err)
		}
		fields[name] = value
	}
	return fields, nil
}

const digitsMax = 60 // no number has this many

// numberOf is the integer in a field, of this many bits at most.
func numberOf(fields map[string]json.RawMessage, name string, bits int) (Uint128, error) {
	field := "saved." + name
	text, isThere := fields[name]
	if !isThere {
		return Uint128{}, invalid(field, "is missing")
	}
	if len(text) > digitsMax {
		text = text[:digitsMax] // too large is too large; a whole file of digits would take minutes
	}
	value, isInteger := new(big.Int).SetString(string(text), 10)
	if !isInteger {
		return Uint128{}, invalid(field, "must be an integer, not %.40s", text)
	}
	if value.Sign() < 0 || value.BitLen() > bits {
		return Uint128{}, invalid(field, "must be 0 to 2^%d - 1", bits)
	}
	return BigIntToUint128(value)
}

// bytesOf are the bytes whose hex a field has, or nil.
func bytesOf(fields map[string]json.RawMessage, name string) ([]byte, error) {
	field := "saved." + name
	value, isThere := fields[name]
	if !isThere {
		return nil, invalid(field, "is missing")
	}
	var text *string
	if err := json.Unmarshal(value, &text); err != nil || text == nil {
		return nil, invalid(field, "must be a string")
	}
	data, err := hex.DecodeString(*text)
	if err != nil {
		return nil, invalid(field, "is no hex")
	}
	if len(data) == 0 {
		return nil, nil
	}
	return data, nil
}

// test refuses what is no session of a client, and bytes in doubt that are not its next request.
func (s Saved) test() error {
	if s.Client.IsZero() {
		return invalid("saved.client", "must not be 0")
	}
	if len(s.Pending) == 0 {
		return nil
	}
	asked, err := decodeRequestHeader(s.Pending)
	if err != nil {
		return invalid("saved.pending", "is no request: %v", err)
	}
	isRegister, number := asked.operation == OperationRegister, uint64(s.Number)
	if !isRegister {
		number++
	}
	if asked.client != s.Client || asked.session != s.Session || uint64(asked.number) != number ||
		isRegister != (s.Session == 0) {
		return invalid("saved.pending", "is not the next request of this session")
	}
	return nil
}

// testPath refuses what is no path.
func testPath(path string) error {
	if path == "" || strings.Contains(path, "\x00") {
		return invalid("path", "is no path")
	}
	return nil
}

func testRegular(info fs.FileInfo, err error) error {
	if err == nil && !info.Mode().IsRegular() {
		return invalid("path", "is no file, but a folder, a pipe or a device")
	}
	return err
}

const linksMax = 40 // that the system follows

// linked is the path that the symbolic links at a path lead to, whether a file is there or not.
func linked(path string) string {
	for left := linksMax; left > 0; left-- {
		to, err := os.Readlink(path)
		if err != nil {
			break // it is no link
		}
		if !filepath.IsAbs(to) {
			folder, _ := filepath.Split(path)
			to = folder + to // as it is: ".." after a link is not the name before it
		}
		path = to
	}
	return path
}

const savedMax = 1 << 22 // bytes of a file: the largest request takes half of that, in hex

// readSaved reads a session from a file.
func readSaved(path string) (Saved, error) {
	if err := testPath(path); err != nil {
		return Saved{}, err
	}
	file, err := openRegular(path)
	if err != nil {
		return Saved{}, err
	}
	defer file.Close()
	data, err := io.ReadAll(io.LimitReader(file, savedMax+1))
	if err != nil {
		return Saved{}, err
	}
	if len(data) > savedMax {
		return Saved{}, invalid("saved", "is no session: the file has more than %d bytes", savedMax)
	}
	var saved Saved
	return saved, saved.UnmarshalJSON(data)
}
