// Package access says who may connect, and which client ids are whose.
package access

import (
	"fmt"
	"net/netip"
	"os"
	"os/user"
	"strconv"
	"strings"
	"unicode/utf8"

	"telovamish.org/server/internal/frames"
	"telovamish.org/server/internal/report"
)

// Key is whom the file of client ids names: a certificate by its common name, or a user by the number.
type Key struct {
	Kind Kind
	Name string
}

// Kind is what a peer is known by.
type Kind uint8

// All kinds. A peer without a certificate shares with its address.
const (
	User Kind = iota
	Certificate
	Address
)

// Peer is who is at the other end of a connection.
type Peer struct {
	Shown string // in words
	Key   Key    // in the file of client ids
	Share Key    // whose share counts
}

// OfUser is a user of the Unix socket.
func OfUser(uid uint32) Peer {
	number := strconv.FormatUint(uint64(uid), 10)
	key := Key{User, number}
	return Peer{Shown: "user " + number, Key: key, Share: key}
}

// OfAddress is a peer over TCP, with the common name of its certificate if it has one.
func OfAddress(address netip.AddrPort, name string) Peer {
	host := address.Addr().Unmap()
	shown := Shown(address)
	if name != "" {
		shown += " (" + name + ")"
		key := Key{Certificate, name}
		return Peer{Shown: shown, Key: key, Share: key}
	}
	return Peer{Shown: shown, Key: Key{Certificate, ""}, Share: Key{Address, Network(host)}}
}

// Shown is an address and its port, as a line has it.
func Shown(address netip.AddrPort) string {
	return netip.AddrPortFrom(address.Addr().Unmap(), address.Port()).String()
}

// Network is whose address it is: one host has all that begin with the same 64 bits of IPv6.
func Network(host netip.Addr) string {
	host = host.Unmap().WithZone("")
	if host.Is4() {
		return host.String()
	}
	prefix, _ := host.Prefix(64)
	return prefix.Addr().String()
}

// Access is who may connect, and as which clients.
type Access struct {
	users  map[uint32]bool
	ranges map[Key]uint64 // nil: who may connect may use any client id
}

// New lets the host's own user in, and others. The file of client ids may be "", for none.
func New(allowed []uint32, file string) (*Access, error) {
	users := map[uint32]bool{uint32(os.Geteuid()): true}
	for _, uid := range allowed {
		users[uid] = true
	}
	if file == "" {
		return &Access{users: users}, nil
	}
	ranges, err := readRanges(file)
	if err != nil {
		return nil, err
	}
	return &Access{users: users, ranges: ranges}, nil
}

// Test is the name of why a peer may not connect, or nothing.
func (a *Access) Test(peer Peer, uid uint32) string {
	if peer.Key.Kind == User && !a.users[uid] {
		return "NotAllowed"
	}
	if a.ranges != nil {
		if _, ok := a.ranges[peer.Key]; !ok {
			return "NotAllowed"
		}
	}
	return ""
}

// TestClient is the name of why a peer may not use a client id, or nothing. A peer may be in the file
// no more.
func (a *Access) TestClient(peer Peer, client frames.Client) string {
	if a.ranges == nil {
		return ""
	}
	upper, ok := a.ranges[peer.Key]
	switch {
	case !ok:
		return "NotAllowed"
	case upper != client.High:
		return "ClientNotAllowed"
	}
	return ""
}

// UserOf is a user by name or number.
func UserOf(text string) (uint32, error) {
	if number, err := strconv.ParseUint(text, 10, 32); err == nil {
		return uint32(number), nil
	}
	found, err := user.Lookup(text)
	if err != nil {
		return 0, fmt.Errorf("%s is no user of this computer", report.Quoted(text))
	}
	number, err := strconv.ParseUint(found.Uid, 10, 32)
	return uint32(number), err
}

// ReadFile reads a file whole. It refuses a pipe or a device in its place, because files are read again at
// a SIGHUP: no signal ends a host while it waits for the other end. A report.Ended names the file.
func ReadFile(name string) ([]byte, error) {
	found, err := os.Stat(name)
	if err == nil && !found.Mode().IsRegular() && !found.IsDir() {
		return nil, report.End(1, "%s is a pipe or a device, not a file", name)
	}
	var text []byte
	if err == nil {
		text, err = os.ReadFile(name)
	}
	if err != nil {
		return nil, report.End(1, "%s: %s", name, report.Why(err))
	}
	return text, nil
}

func readRanges(file string) (map[Key]uint64, error) {
	text, err := ReadFile(file)
	if err != nil {
		return nil, err
	}
	if !utf8.Valid(text) {
		return nil, report.End(1, "%s: is no text", file)
	}
	ranges, taken := map[Key]uint64{}, map[uint64]bool{}
	for number, line := range strings.Split(string(text), "\n") {
		line, _, _ = strings.Cut(line, "#")
		words := strings.Fields(line)
		if len(words) == 0 {
			continue
		}
		key, upper, err := rangeIn(words)
		if err != nil {
			return nil, report.End(1, "%s, line %d: %v", file, number+1, err)
		}
		if _, ok := ranges[key]; ok {
			return nil, report.End(1, "%s, line %d: %s %s has a range already", file, number+1, words[0], words[1])
		}
		if taken[upper] {
			return nil, report.End(1, "%s, line %d: %s is another one's range already", file, number+1, words[2])
		}
		ranges[key], taken[upper] = upper, true
	}
	return ranges, nil
}

// rangeIn is what a line says.
func rangeIn(words []string) (Key, uint64, error) {
	if len(words) != 3 || words[0] != "certificate" && words[0] != "user" {
		return Key{}, 0, fmt.Errorf("a line must be `certificate NAME NUMBER` or `user NAME NUMBER`")
	}
	digits, base := words[2], 10
	if strings.HasPrefix(digits, "0x") {
		digits, base = digits[2:], 16
	}
	upper, err := strconv.ParseUint(digits, base, 64)
	if err != nil {
		return Key{}, 0, fmt.Errorf("%s is no number of 64 bits", report.Quoted(words[2]))
	}
	if words[0] == "certificate" {
		return Key{Certificate, words[1]}, upper, nil
	}
	uid, err := UserOf(words[1])
	if err != nil {
		return Key{}, 0, err
	}
	return Key{User, strconv.FormatUint(uint64(uid), 10)}, upper, nil
}
